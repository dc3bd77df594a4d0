//! Files that are written anew in the fewest declarations.

use super::cids_of;
use crate::fallible::alloc::Global;
use crate::reader::cmap_text::read_text;
use crate::reader::cmap_edit::tidy::tidy;
use crate::reader::cmap_values::file::File;
use alloc::vec::Vec;

/// What a text says, in the fewest declarations.
fn tidied(text: &[u8]) -> File<'_> {
    let file = read_text(Global, text).expect("it is in the grammar");
    tidy(Global, &file).expect("there is memory")
}

#[test]
fn runs_come_in_the_place_of_overlaps_and_neighbours_are_joined() {
    let text = b"3 begincidrange <8140> <8150> 5 <8151> <8160> 22 <8145> <8145> 99 endcidrange";
    let expected = [(0x8140, 0x8144, 5), (0x8145, 0x8145, 99), (0x8146, 0x8160, 11)];
    assert_eq!(cids_of(&tidied(text).lists.cids.two), expected);
}

#[test]
fn texts_are_parted_at_the_last_byte_of_their_last_unit() {
    let file = tidied(b"1 beginbfrange <00> <ff> <D83DDEF0> endbfrange");
    let texts = file.lists.bfs.iter().map(|declared| match declared.units.as_slice() {
        [_, last] => (declared.range.start, declared.range.end, *last),
        units => panic!("two units were expected: {units:?}"),
    });
    assert_eq!(texts.collect::<Vec<_>>(), [(0, 15, 0xDEF0), (16, 255, 0xDF00)]);
}
