//! A bundle that is made of files, and what it answers.

use super::cmap_bundle_maker::{Source, make_named_bundle};
use crate::fallible::Vec;
use crate::fallible::alloc::Global;
use crate::reader::bcmap::Bundle;
use crate::reader::cmap_text::read_text;
use crate::reader::{CMap, CMapName, load_embedded};
use alloc::vec::Vec as StdVec;

/// The bundle of these files; `None` where the binary form can't say what they say.
fn bundle_of(files: &[(CMapName<'static>, &[u8])]) -> Option<Vec<u8>> {
    let read = |text| read_text(Global, text).expect("it is in the grammar");
    let read: StdVec<_> = files.iter().map(|(name, text)| (*name, read(*text))).collect();
    let sources = read.iter().map(|(name, file)| Source { name: *name, file, text: None });
    make_named_bundle(Global, &sources.collect::<StdVec<_>>()).ok()
}

/// The CID of a code of two bytes in a CMap that may use the files of a bundle; `None` also where there is no map.
fn cid_over_bundle(bundle: &[u8], file: &[u8], code: u32) -> Option<u32> {
    let bundle = Bundle::parse(Global, bundle).expect("there is memory").expect("it is a bundle");
    let get_cmap = |name: CMapName<'_>| load_embedded(Some(&bundle), name);
    let map = CMap::parse(Global, file, Some(&bundle), &get_cmap).expect("there is memory");
    map?.lookup_cid_code(code, 2)
}

#[test]
fn a_bundle_that_is_made_answers_as_its_files() {
    let first = b"1 begincidchar <8140> 9 endcidchar";
    let second = b"3 begincidrange <8140> <85FF> 633 <8150> <8150> 7 <8050> <8150> 0 endcidrange";
    let files: [(_, &[u8]); 2] = [(CMapName::N83pvRksjH, first), (CMapName::N90msRksjH, second)];
    let bundle = bundle_of(&files).expect("the binary form says it");
    assert_eq!(cid_over_bundle(&bundle, b"/83pv-RKSJ-H usecmap", 0x8140), Some(9));
    let cids = [0x8140, 0x8150, 0x85FF, 0x8600]
        .map(|code| cid_over_bundle(&bundle, b"/90ms-RKSJ-H usecmap", code));
    assert_eq!(cids, [Some(240), Some(256), Some(1848), None]);
}

#[test]
fn a_cid_above_65535_is_an_obstacle() {
    let text = b"1 begincidchar <8140> 65536 endcidchar";
    let files: [(_, &[u8]); 2] = [(CMapName::N83pvRksjH, text), (CMapName::N90msRksjH, b"")];
    assert!(bundle_of(&files).is_none());
}

#[test]
fn a_name_without_a_file_is_refused() {
    let text = b"1 begincidchar <8140> 9 endcidchar";
    let bundle = bundle_of(&[(CMapName::N90msRksjH, text)]).expect("the binary form says it");
    assert_eq!(cid_over_bundle(&bundle, b"/90ms-RKSJ-H usecmap", 0x8140), Some(9));
    assert_eq!(cid_over_bundle(&bundle, b"/90ms-RKSJ-V usecmap", 0x8140), None);
}
