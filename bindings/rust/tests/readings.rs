//! Files over other files and over bundles, and files that are read past their faults.

use hayro_cmap::{Bundle, CMap, CMapName, ParseOptions};
use std::cell::RefCell;

/// A table of two deltas, 0x20 and 0, an empty table of counts, and one file: the codes 0x20 and
/// 0x21 of two bytes, with the CIDs 5 and 6.
const BUNDLE: &[u8] = b"\0\0\0\x10\0\x02\x01\0\x02\0\0\0\x20\0\0\0\0\0\0\0\
    bcmap\x01\0\0\0\x1A\x04\0\0\0\x10\0\x02\0\0\0\x01\x40\0\x05\0\0";

#[test]
fn a_code_of_two_bytes_has_its_cid() {
    let map = CMap::parse(b"1 begincidrange <0000> <00FF> 100 endcidrange", |_| None).unwrap();
    assert_eq!(map.lookup_cid_code(0x41, 2), Some(165));
    assert!(CMap::parse(b"usecmap", |_| None).is_none());
}

#[test]
fn a_code_of_two_bytes_has_its_cid_over_a_bundle() {
    let bundle = Bundle::open(BUNDLE).unwrap();
    let file = b"/83pv-RKSJ-H usecmap begincidchar <0020> 9 endcidchar";
    let map = ParseOptions::new().bundle(&bundle).parse(file, |_| None).unwrap();
    assert_eq!(map.lookup_cid_code(0x20, 2), Some(9));
    assert_eq!(map.lookup_cid_code(0x21, 2), Some(6));
}

/// A code that is cut short has no CID.
#[test]
fn a_string_has_the_cids_of_its_codes() {
    let map = CMap::identity_h();
    let codes = map.decode(b"\x00\x41\x81\x40\x42").into_iter();
    let cids = codes.map(|code| map.lookup_cid_code_strict(code.code, code.byte_len));
    assert_eq!(cids.collect::<Vec<_>>(), [Some(0x41), Some(0x8140), None]);
}

/// `get_cmap` is called once for each name.
#[test]
fn files_are_asked_for_in_the_order_of_the_uses() {
    let asked = RefCell::new(Vec::new());
    let map = CMap::parse_explained(b"/A usecmap /B usecmap /A usecmap", |name| {
        asked.borrow_mut().push(name.to_bytes().to_vec());
        Some(if name == CMapName::Custom(b"A") { b"/C usecmap" } else { b"" })
    });
    assert!(map.is_ok());
    assert_eq!(asked.into_inner(), [b"A", b"C", b"B"]);
}

/// The result of reading a file past its faults: each fault, with the number of the names that lead to it; the number
/// of layers of the map; and the CIDs of the codes 41 and 42.
type Found = (Vec<(usize, String)>, usize, [Option<u32>; 2]);

fn salvaged(options: ParseOptions<'_>, file: &[u8], name: &str, base: &[u8]) -> Found {
    let get_cmap = |asked: CMapName<'_>| (asked.to_bytes() == name.as_bytes()).then_some(base);
    let found = options.salvage(file, get_cmap);
    let faults = found.faults.iter().map(|fault| (fault.names().len(), fault.to_string()));
    let cids = [0x41, 0x42].map(|code| found.map.lookup_cid_code(code, 1));
    (faults.collect(), found.map.layers().len(), cids)
}

#[test]
fn reading_goes_on_after_each_fault() {
    let top = b"/Base usecmap begincidchar <41> /x <42> 7 endcidchar";
    let base = b"/Gone usecmap begincidchar <41> 5 endcidchar";
    let (faults, layers, cids) = salvaged(ParseOptions::new(), top, "Base", base);
    let expected = [(0, "byte 34: a CID was expected"), (2, "Gone: no file has this name")];
    assert_eq!(faults, expected.map(|(names, shown)| (names, shown.to_owned())));
    assert_eq!((layers, cids), (2, [Some(5), Some(7)]));
}

/// No file is opened after the first chain that is too long, so there is one fault.
#[test]
fn a_file_that_uses_itself_has_sixteen_layers() {
    let looped = b"/Loop usecmap /Loop usecmap";
    let (faults, layers, cids) = salvaged(ParseOptions::new(), looped, "Loop", looped);
    assert_eq!(faults, [(16, String::from("Loop: more than 16 files in a chain"))]);
    assert_eq!((layers, cids), (16, [None, None]));
}

/// The budget is enough only for the top file. The base isn't read, and is a layer without declarations.
#[test]
fn a_base_past_the_budget_says_nothing() {
    let options = ParseOptions::new().budget(20);
    let base = b"begincidchar <41> 5 endcidchar";
    let (faults, layers, cids) = salvaged(options, b"/Base usecmap", "Base", base);
    assert_eq!(faults, [(1, String::from("Base: the files have more bytes than the budget"))]);
    assert_eq!((layers, cids), (2, [None, None]));
}
