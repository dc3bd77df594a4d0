//! Reading an input to its end, and splitting a bundle from the file after it.

use super::failure::Failure;
use hayro_cmap::fallible::Vec;
use hayro_cmap::fallible::alloc::Global;
use std::io::Read;

/// All bytes of `input`.
pub fn read_all<R: Read>(alloc: Global, input: &mut R) -> Result<Vec<u8>, Failure> {
    let mut bytes = std::vec::Vec::new();
    input.read_to_end(&mut bytes)?;
    Ok(Vec::from_slice(alloc, &bytes)?)
}

/// The first `len` bytes, and the bytes after them; `None` if there are fewer.
pub fn split_bundle(bytes: &[u8], len: u64) -> Option<(&[u8], &[u8])> {
    bytes.split_at_checked(usize::try_from(len).ok()?)
}
