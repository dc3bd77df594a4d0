//! Lookups of one code. The usual ones are made in place, where the compiler sees that they call no function, so that
//! they save no registers for one. All others are made by the functions below, which are the same.

use crate::fallible::alloc::Global;
use crate::reader::cmap_c::cids;
use crate::reader::cmap_handles::handle::MapHandle;

/// Whether a lookup is usual: of a code of two bytes, in a map of one layer.
#[inline(always)]
pub fn is_usual(map: &mut MapHandle, byte_len: u8) -> bool {
    byte_len == 2 && map.layers().is_some_and(|layers| layers.as_slice().len() == 1)
}

/// A lookup that isn't made in place.
#[inline(never)]
pub fn hayro_cmap_cid(map: &mut MapHandle, code: u32, byte_len: u8, cid: &mut u32) -> bool {
    cids::hayro_cmap_cid(map, Global, code, byte_len, cid)
}

/// The same.
#[inline(never)]
pub fn hayro_cmap_cid_strict(map: &mut MapHandle, code: u32, byte_len: u8, cid: &mut u32) -> bool {
    cids::hayro_cmap_cid_strict(map, Global, code, byte_len, cid)
}
