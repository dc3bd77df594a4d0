//! Maps of several layers as one file, whole and in part.

use super::{cids_of, map_over};
use crate::fallible::alloc::Global;
use crate::reader::cmap_edit::flatten::{Codes, Contradiction, flatten, subset};
use crate::reader::cmap_values::file::File;
use crate::reader::runs::Range;
use crate::reader::{CMap, CodeLength, Fault};

/// CIDs for codes of two bytes, and a notdef.
const BASE: &[u8] = b"1 begincodespacerange <0000> <FFFF> endcodespacerange
1 begincidrange <8140> <8150> 633 endcidrange 1 beginnotdefrange <0020> <002F> 231 endnotdefrange";

/// Other CIDs for two of the codes.
const TOP: &[u8] = b"/Base usecmap 1 begincidrange <8145> <8146> 900 endcidrange";

/// A text for one of the codes.
const TEXT: &[u8] = b"/Base usecmap 1 beginbfchar <8141> <0041> endbfchar";

/// The file for a font that has only codes of two bytes from a first to a last one.
fn file_for_font<'d>(map: &CMap, first: u32, last: u32) -> Result<File<'d>, Fault<Contradiction>> {
    let range = Range { start: first, end: last };
    subset(Global, map.layers(), &[Codes { len: CodeLength::Two, range }])
}

fn file_of<'d>(found: Result<File<'d>, Fault<Contradiction>>) -> File<'d> {
    found.expect("one file says it")
}

#[test]
fn a_flat_file_has_the_declarations_of_all_layers() {
    let map = map_over(TOP, &[(b"Base", BASE)]);
    let lists = file_of(flatten(Global, map.layers())).lists;
    let expected = [(0x8140, 0x8144, 633), (0x8145, 0x8146, 900), (0x8147, 0x8150, 640)];
    assert_eq!(cids_of(&lists.cids.two), expected);
    assert_eq!(cids_of(&lists.notdefs.two), [(0x20, 0x2F, 231)]);
    assert_eq!(lists.spaces.len(), 1);
}

#[test]
fn a_subset_has_the_chosen_codes_alone() {
    let map = map_over(TOP, &[(b"Base", BASE)]);
    let lists = file_of(file_for_font(&map, 0x8144, 0x8147)).lists;
    let expected = [(0x8144, 0x8144, 637), (0x8145, 0x8146, 900), (0x8147, 0x8147, 640)];
    assert_eq!(cids_of(&lists.cids.two), expected);
    assert!(lists.notdefs.two.is_empty());
}

#[test]
fn a_character_above_a_cid_is_refused() {
    let map = map_over(TEXT, &[(b"Base", BASE)]);
    let refused = |found: Result<File<'_>, Fault<Contradiction>>| match found {
        Err(Fault::Refused(Contradiction { len, code, .. })) => Some((len, code)),
        _ => None,
    };
    let at_the_text = Some((CodeLength::Two, 0x8141));
    assert_eq!(refused(flatten(Global, map.layers())), at_the_text);
    assert_eq!(refused(file_for_font(&map, 0x8140, 0x8150)), at_the_text);
    let after_it = file_of(file_for_font(&map, 0x8142, 0x8150));
    assert_eq!(cids_of(&after_it.lists.cids.two), [(0x8142, 0x8150, 635)]);
}

#[test]
fn texts_of_all_layers_are_kept() {
    let base = b"1 beginbfrange <8140> <8150> <00200041> endbfrange";
    let map = map_over(TEXT, &[(b"Base", base)]);
    let file = file_of(file_for_font(&map, 0x8141, 0x8143));
    match file.lists.bfs.as_slice() {
        [first, last] => {
            assert_eq!(first.units.as_slice(), [0x41]);
            assert_eq!(last.units.as_slice(), [0x20, 0x43]);
        }
        others => panic!("two texts were expected: {others:?}"),
    }
}
