//! Tests of modules that the crate's own calls don't show, or show only in part.
//!
//! `scripts/plain-rust` adds the crates that only programs of the project use.

#[allow(clippy::all, dead_code, unused_imports)]
mod cmap_binary_writer;
#[allow(clippy::all, dead_code, unused_imports)]
mod cmap_bundle_maker;

mod bits;
mod differences;
mod flattened;
mod loader;
mod maker;
mod tables;
mod tidied;

use crate::fallible::alloc::Global;
use crate::reader::{CMap, CidRange, NamedFiles};
use alloc::vec::Vec;

/// The map of a file over others, each with its name.
fn map_over<'f>(file: &'f [u8], files: &'f [(&'f [u8], &'f [u8])]) -> CMap {
    let source = NamedFiles::alone(files);
    CMap::parse_from(Global, None, file, None, &source).expect("it is in the grammar")
}

/// The declarations of CIDs in a list: the first code, the last code and the first CID of each.
fn cids_of(list: &[CidRange]) -> Vec<(u32, u32, u32)> {
    list.iter().map(|declared| (declared.range.start, declared.range.end, declared.cid)).collect()
}
