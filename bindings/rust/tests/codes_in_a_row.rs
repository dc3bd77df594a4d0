//! The CIDs of consecutive codes, compared with lookups of one code after another.

use hayro_cmap::{CMap, CMapName};

/// The number for a code without a CID.
const ABSENT: u32 = 77_777;

/// Ranges that overlap, CIDs up to and past 32 bits, a notdef, texts of one character and of two, and a
/// lone surrogate.
const FILE: &[u8] = b"/Base usecmap begincidrange <0020> <002F> 500 <0028> <0029> 9
<FFFFFFF0> <FFFFFFFF> 4294967290 endcidrange begincidchar <0030> 10 endcidchar
beginnotdefrange <0040> <0057> 3 endnotdefrange beginbfrange <0050> <005F> <0041> endbfrange
beginbfchar <0060> <00410042> <0061> <D800> <0062> <D83DDE00> endbfchar";

/// Ranges that lie apart, a notdef beside them, and texts that the file above lacks.
const BASE: &[u8] = b"begincidrange <0000> <0010> 100 <0012> <0024> 200 <0061> <0061> 300
<FFFF> <FFFF> 400 endcidrange beginnotdefrange <0000> <00FF> 1 endnotdefrange
beginbfrange <0100> <0110> <0061> endbfrange";

fn map_of_two_layers() -> CMap {
    CMap::parse(FILE, |name| (name == CMapName::Custom(b"Base")).then_some(BASE)).unwrap()
}

/// The CIDs that lookups give for the codes from a first code on.
fn cids_by_lookups(map: &CMap, first: u32, byte_len: u8, count: u32) -> Vec<u32> {
    let cid = |index| map.lookup_cid_code(first.checked_add(index)?, byte_len);
    (0..count).map(|index| cid(index).unwrap_or(ABSENT)).collect()
}

#[test]
fn codes_in_a_row_have_the_cids_of_lookups() {
    let map = map_of_two_layers();
    let mut cids = [0; 300];
    for byte_len in 0..6 {
        for first in [0, 0x22, 0x29, 0xFFF0, 0xFFFF_FF00, u32::MAX] {
            map.fill_cids(first, byte_len, ABSENT, &mut cids);
            assert_eq!(cids[..], cids_by_lookups(&map, first, byte_len, 300), "{first:X}");
        }
    }
}

/// The CIDs of codes of two bytes from a first code on, across the ends of runs, layers, gaps, notdefs and
/// texts.
const CROSSED: &[(usize, &[u32])] = &[
    (0x10, &[116, 1, 200, 201]),
    (0x1F, &[213, 500]),
    (0x27, &[507, 9, 10, 510, 511, 512, 513, 514, 515, 10, 1]),
    (0x3F, &[1, 3]),
    (0x57, &[3, 0x49]),
    (0x5F, &[0x50, 1, 300, 0x1F600, 1]),
    (0xFF, &[1, 0x61]),
    (0x110, &[0x71, ABSENT]),
];

#[test]
fn a_row_crosses_runs_layers_gaps_notdefs_and_texts() {
    let mut cids = [0; 0x112];
    map_of_two_layers().fill_cids(0, 2, ABSENT, &mut cids);
    for (start, expected) in CROSSED {
        assert_eq!(cids[*start..][..expected.len()], **expected, "{start:X}");
    }
}

#[test]
fn a_row_ends_with_the_codes_and_the_cids_of_32_bits() {
    let mut cids = [0; 18];
    map_of_two_layers().fill_cids(0xFFFF_FFEF, 4, ABSENT, &mut cids);
    let (in_ranges, past_them) = cids.split_at(7);
    let last = 4_294_967_290..=u32::MAX;
    assert_eq!(in_ranges, [ABSENT].into_iter().chain(last).collect::<Vec<_>>());
    assert_eq!(past_them, [ABSENT; 11]);
}
