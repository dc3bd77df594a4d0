//! The codes at which two maps differ.

use super::map_over;
use crate::fallible::alloc::Global;
use crate::reader::cmap_edit::diff::{cid_differences, first_cid_difference, text_differences};
use crate::reader::{CMap, Cids, CodeLength};
use alloc::vec::Vec;

/// A range that counts on, a notdef, single codes, the last code of 32 bits, and texts.
const LEFT: &[u8] = b"begincidrange <0010> <001F> 100 <FFFFFFFF> <FFFFFFFF> 9 endcidrange
beginnotdefrange <0020> <0027> 3 endnotdefrange
begincidchar <0030> 5 <0031> 6 <0032> 7 <0040> 5 <0041> 5 endcidchar
beginbfrange <0150> <015F> <0041> <0170> <0173> <D7FE> endbfrange
beginbfchar <0180> <00410042> endbfchar";

/// The range with other CIDs from a code on, CIDs that cross those of the notdef; texts that are the same
/// in two ranges, one that is none, and one that the other map lacks.
const RIGHT: &[u8] =
    b"begincidrange <0010> <0013> 100 <0014> <001F> 200 <0020> <0027> 1 endcidrange
beginbfrange <0150> <0157> <0041> <0158> <015F> <0049> endbfrange
beginbfchar <0160> <D800> <0161> <00410042> <0180> <00410043> endbfchar";

/// Both maps.
fn maps() -> [CMap; 2] {
    [LEFT, RIGHT].map(|file| map_over(file, &[]))
}

#[test]
fn cids_differ_in_stretches() {
    let [left, right] = maps();
    let found = cid_differences(Global, left.layers(), right.layers(), CodeLength::Two);
    let found = found.expect("there is memory");
    let rows =
        found.iter().map(|found| (found.range.start, found.range.end, found.left, found.right));
    let expected = [
        (0x14, 0x1F, Cids::CountOn(104), Cids::CountOn(200)),
        (0x20, 0x21, Cids::Same(3), Cids::CountOn(1)),
        (0x23, 0x27, Cids::Same(3), Cids::CountOn(4)),
        (0x30, 0x32, Cids::CountOn(5), Cids::Absent),
        (0x40, 0x41, Cids::Same(5), Cids::Absent),
        (0x170, 0x171, Cids::CountOn(0xD7FE), Cids::Absent),
    ];
    assert_eq!(rows.collect::<Vec<_>>(), expected);
}

#[test]
fn the_last_code_of_32_bits_is_a_difference() {
    let [left, right] = maps();
    let found = cid_differences(Global, left.layers(), right.layers(), CodeLength::Four);
    let found = found.expect("there is memory");
    let last = found.last().expect("there is a difference");
    assert_eq!((last.range.start, last.range.end), (u32::MAX, u32::MAX));
}

#[test]
fn the_first_code_that_differs_is_found() {
    let maps = maps();
    let [old, new] = maps.each_ref().map(CMap::layers);
    assert_eq!(first_cid_difference(old, new, CodeLength::Two), Some(0x14));
    assert_eq!(first_cid_difference(old, new, CodeLength::Four), Some(0x170));
    assert_eq!(first_cid_difference(new, new, CodeLength::Two), None);
}

#[test]
fn texts_differ_in_stretches() {
    let [left, right] = maps();
    let found = text_differences(Global, left.layers(), right.layers()).expect("there is memory");
    let rows = found.iter().map(|found| {
        let (left, right) = (found.left.is_some(), found.right.is_some());
        (found.range.start, found.range.end, left, right)
    });
    let expected =
        [(0x161, 0x161, false, true), (0x170, 0x171, true, false), (0x180, 0x180, true, true)];
    assert_eq!(rows.collect::<Vec<_>>(), expected);
}
