//! Refused files, budgets, and reading over files and bundles.

use hayro_cmap::{Bundle, CMap, CMapName, Cause, ParseOptions, ReadAs, Reason, Refusal, Segment};
use std::cell::RefCell;

fn refusal(data: &[u8], get_cmap: impl Fn(CMapName<'_>) -> Option<&'static [u8]>) -> Refusal {
    CMap::parse_explained(data, get_cmap).expect_err("it is accepted")
}

#[test]
fn a_malformed_file_has_an_offset_and_a_reason() {
    let rows: [(&[u8], usize, Reason, &str); 10] = [
        (
            b"begincidchar <0G> 1",
            15,
            Reason::WrongDigit,
            "byte 15: a hexadecimal string has a byte that is no digit",
        ),
        (b"begincidchar (0 1", 17, Reason::UnclosedString, "byte 17: a string isn't closed"),
        (b"begincidchar ) 1", 13, Reason::StrayDelimiter, "byte 13: a ) or > stands alone"),
        (
            b"begincidchar <01> 1",
            19,
            Reason::EndWithinSection,
            "byte 19: the file ends within a section",
        ),
        (b"begincidchar 1 1", 14, Reason::CodeExpected, "byte 14: a code was expected"),
        (
            b"begincidchar <> 1",
            15,
            Reason::CodeLength,
            "byte 15: a code must have one to four bytes",
        ),
        (b"begincidchar <01> x", 19, Reason::CidExpected, "byte 19: a CID was expected"),
        (
            b"beginbfchar <01> 1 ",
            18,
            Reason::TextExpected,
            "byte 18: the text of a code was expected",
        ),
        (
            b"beginbfrange <01> <01> [<0041> 1",
            32,
            Reason::BracketExpected,
            "byte 32: a ] was expected",
        ),
        (b"usecmap", 7, Reason::UseWithoutName, "byte 7: usecmap without a name before it"),
    ];
    for (data, offset, reason, message) in rows {
        let refusal = refusal(data, |_| None);
        assert_eq!(refusal.cause(), Cause::Malformed);
        assert_eq!(refusal.offset(), Some(offset), "{message}");
        assert_eq!(refusal.reason(), Some(reason), "{message}");
        assert_eq!(refusal.segment(), None);
        assert_eq!(refusal.to_string(), message);
        assert!(refusal.names().is_empty());
    }
    let unequal = refusal(b"begincodespacerange <00> <0000>", |_| None);
    assert_eq!((unequal.offset(), unequal.reason()), (Some(31), Some(Reason::UnequalLengths)));
}

#[test]
fn names_lead_to_the_file_at_fault() {
    let refused = refusal(b"/Top usecmap", |name| match name.to_bytes() {
        b"Top" => Some(b"/H usecmap"),
        b"H" => Some(b"begincidchar <01>"),
        _ => None,
    });
    assert_eq!(refused.names(), [b"Top".to_vec(), b"H".to_vec()]);
    assert_eq!(refused.offset(), Some(17));
    assert_eq!(refused.to_string(), "H: byte 17: the file ends within a section");

    let missing = refusal(b"/A usecmap /B usecmap", |name| match name.to_bytes() {
        b"A" => Some(b""),
        _ => None,
    });
    assert_eq!((missing.cause(), missing.offset(), missing.reason()), (Cause::NoFile, None, None));
    assert_eq!(missing.names(), [b"B"]);
    assert_eq!(missing.to_string(), "B: no file has this name");

    let debug =
        "Refusal { cause: Malformed, reason: EndWithinSection, offset: 17, names: [Top, H] }";
    assert_eq!(format!("{refused:?}"), debug);
    assert_eq!(format!("{missing:?}"), "Refusal { cause: NoFile, names: [B] }");

    let endless = refusal(b"/A usecmap", |_| Some(b"/A usecmap"));
    assert_eq!(endless.cause(), Cause::ChainLength);
    assert_eq!(endless.names(), vec![b"A".to_vec(); 16]);
    assert_eq!(endless.to_string(), "A: more than 16 files in a chain");
}

#[test]
fn a_name_of_any_bytes_is_printed() {
    let name = "N".repeat(300);
    let file = format!("/{name} usecmap");
    let long = refusal(file.as_bytes(), |_| None);
    assert_eq!(long.names(), [name.into_bytes()]);
    let odd = refusal(b"/\x1B\xFF usecmap", |_| None);
    assert_eq!(odd.to_string(), r"\x1b\xff: no file has this name");
}

#[test]
fn the_first_fault_is_the_one() {
    let refused = refusal(b"/Broken usecmap /Missing usecmap", |name| match name.to_bytes() {
        b"Broken" => Some(b"begincidchar"),
        _ => None,
    });
    assert_eq!((refused.cause(), refused.offset()), (Cause::Malformed, Some(12)));
    assert_eq!(refused.names(), [b"Broken"]);
}

#[test]
fn a_budget_counts_each_use() {
    // 21 bytes, and 6 for each use
    let read = |budget| {
        let options = ParseOptions::new().budget(budget);
        options.parse(b"/B usecmap /B usecmap", |_| Some(b"% only"))
    };
    assert!(read(33).is_ok());
    for budget in [32, 27, 26, 20, 0] {
        let refusal = read(budget).unwrap_err();
        assert_eq!(refusal.cause(), Cause::OverBudget, "{budget}");
        assert!(refusal.to_string().ends_with("the files have more bytes than the budget"));
    }
}

#[test]
fn files_are_opened_by_name() {
    let file = b"/CMapName /Own def /WMode 1 def begincidchar <01> 1 endcidchar";
    let map = CMap::open(CMapName::Custom(b"Own"), |_| Some(file)).unwrap().unwrap();
    assert_eq!(map.metadata().name.as_deref(), Some(&b"Own"[..]));
    assert_eq!(map.lookup_cid_code(1, 1), Some(1));
    // A file of the name comes before the identity.
    let map = CMap::open(CMapName::IdentityH, |_| Some(file)).unwrap().unwrap();
    assert_eq!(map.metadata().name.as_deref(), Some(&b"Own"[..]));
    let map = CMap::open(CMapName::IdentityH, |_| None).unwrap().unwrap();
    assert_eq!(map.metadata().name.as_deref(), Some(&b"Identity-H"[..]));
    assert!(CMap::open(CMapName::H, |_| None).unwrap().is_none());
    let refusal = CMap::open(CMapName::H, |_| Some(b"begincidchar")).unwrap_err();
    assert_eq!((refusal.cause(), refusal.offset()), (Cause::Malformed, Some(12)));
}

#[test]
fn an_identity_passes_a_budget() {
    for name in [CMapName::IdentityH, CMapName::IdentityV] {
        let open = |budget| ParseOptions::new().budget(budget).open(name, |_| None);
        assert_eq!(open(177).unwrap().unwrap().metadata().name.as_deref(), Some(name.to_bytes()));
        let refusal = open(176).unwrap_err();
        assert_eq!((refusal.cause(), refusal.offset()), (Cause::OverBudget, None));
        assert!(refusal.names().is_empty());
        assert_eq!(refusal.to_string(), "the files have more bytes than the budget");
    }
    assert!(ParseOptions::new().budget(0).open(CMapName::H, |_| None).unwrap().is_none());
}

#[test]
fn a_named_file_uses_an_identity_without_a_file() {
    let file = b"/Identity-V usecmap";
    let is_own = |name: CMapName| matches!(name, CMapName::Custom(b"Own"));
    let map = CMap::open(CMapName::Custom(b"Own"), |name| is_own(name).then_some(&file[..]));
    assert_eq!(map.unwrap().unwrap().lookup_cid_code(0x1234, 2), Some(0x1234));
    assert_eq!(CMap::salvage(file, |_| None).map.lookup_cid_code(0x1234, 2), Some(0x1234));
    // A text needs the files that it uses, even Identity-V.
    let refusal = CMap::parse_explained(b"/Own usecmap", |name| is_own(name).then_some(&file[..]))
        .unwrap_err();
    assert_eq!(refusal.cause(), Cause::NoFile);
    assert_eq!(refusal.names(), [b"Own".to_vec(), b"Identity-V".to_vec()]);
    let map = CMap::parse(file, |_| Some(b"begincidchar <01> 1 endcidchar")).unwrap();
    assert_eq!((map.lookup_cid_code(1, 1), map.lookup_cid_code(0x1234, 2)), (Some(1), None));
}

#[test]
fn uses_are_named_in_order() {
    let names = CMap::uses(b"/B usecmap /A usecmap /B usecmap").unwrap();
    assert_eq!(names, [b"B", b"A", b"B"]);
    assert_eq!(CMap::uses(b"% usecmap"), Some(vec![]));
    assert_eq!(CMap::uses(b"begincidchar"), None);
    let many: String = (0..100).map(|number| format!("/Name-{number} usecmap\n")).collect();
    let names = CMap::uses(many.as_bytes()).unwrap();
    assert_eq!((names.len(), &names[99][..]), (100, &b"Name-99"[..]));
}

/// A bundle of one table of deltas, whose one symbol is 32, and one of counts, and of these files.
fn bundle_of(files: &[&[u8]]) -> Vec<u8> {
    let tables = [0, 2, 1, 0, 2, 0, 0, 0, 32, 0, 0, 0, 0, 0, 0, 0];
    let mut bytes = vec![0, 0, 0, 16];
    bytes.extend(tables);
    bytes.extend(files.concat());
    bytes
}

/// A binary file with the CID 5 for the code 0020 of two bytes and 6 for 0021.
const BINARY: &[u8] = &[
    0x62, 0x63, 0x6D, 0x61, 0x70, 1, 0, 0, 0, 0x1A, 4, 0, 0, 0, 0x10, 0, 2, 0, 0, 0, 1, 0x40, 0, 5,
    0, 0,
];

#[test]
fn a_bundle_reads_binary_files_and_has_files() {
    let bundle = Bundle::open(&bundle_of(&[BINARY])).unwrap();
    assert_eq!(bundle.file(CMapName::N83pvRksjH).as_deref(), Some(BINARY));
    assert_eq!(bundle.file(CMapName::N90msRksjH), None);
    assert_eq!(bundle.file(CMapName::Custom(b"Else")), None);

    let over = ParseOptions::new().bundle(&bundle);
    for map in [
        over.parse(BINARY, |_| None).unwrap(),
        over.parse(b"/83pv-RKSJ-H usecmap", |_| None).unwrap(),
        over.open(CMapName::N83pvRksjH, |_| None).unwrap().unwrap(),
    ] {
        assert_eq!(map.lookup_cid_code(0x20, 2), Some(5));
        assert_eq!(map.lookup_cid_code(0x21, 2), Some(6));
        assert_eq!(map.lookup_cid_code(0x21, 1), None);
    }
    // A file of the bundle counts when it is opened.
    let open = |budget| over.budget(budget).open(CMapName::N83pvRksjH, |_| None);
    assert!(open(BINARY.len() as u64).unwrap().is_some());
    assert_eq!(open(BINARY.len() as u64 - 1).unwrap_err().cause(), Cause::OverBudget);
    // A file of `get_cmap` comes before the file of the bundle.
    let map = over.parse(b"/83pv-RKSJ-H usecmap", |_| Some(b"")).unwrap();
    assert_eq!(map.lookup_cid_code(0x20, 2), None);
    // Without a bundle the file is read as a text.
    let map = CMap::parse(BINARY, |_| None);
    assert_eq!(map.and_then(|map| map.lookup_cid_code(0x20, 2)), None);
}

#[test]
fn a_file_of_a_bundle_may_use_another_file() {
    // A segment of type 9 is a use; the name is `A`.
    let user = [0x62, 0x63, 0x6D, 0x61, 0x70, 1, 0, 0, 0, 0x10, 9, 0, 0, 0, 6, b'A'];
    let bundle = Bundle::open(&bundle_of(&[&user])).unwrap();
    let over = ParseOptions::new().bundle(&bundle);
    assert_eq!(over.uses(&user), Some(vec![b"A".to_vec()]));
    let base = b"begincidchar <01> 1 endcidchar";
    let map = over.open(CMapName::N83pvRksjH, |name| (name.to_bytes() == b"A").then_some(base));
    assert_eq!(map.unwrap().unwrap().lookup_cid_code(1, 1), Some(1));
    let refusal = over.open(CMapName::N83pvRksjH, |_| None).unwrap_err();
    assert_eq!((refusal.cause(), refusal.names()), (Cause::NoFile, &[b"A".to_vec()][..]));
}

#[test]
fn a_segment_of_a_binary_file_is_named() {
    let bundle = Bundle::open(&bundle_of(&[])).unwrap();
    let over = ParseOptions::new().bundle(&bundle);
    let mut cut = BINARY[..25].to_vec();
    let refusal = over.parse(&cut, |_| None).unwrap_err();
    assert_eq!((refusal.reason(), refusal.offset()), (Some(Reason::Header), Some(0)));
    // The segment's last CID is cut short, and the lengths are set to match.
    cut.truncate(24);
    (cut[9], cut[14]) = (24, 14);
    let refusal = over.parse(&cut, |_| None).unwrap_err();
    assert_eq!((refusal.offset(), refusal.segment()), (Some(10), Some(Segment::Cids)));
}

#[test]
fn other_bytes_are_no_bundle() {
    assert!(Bundle::open(b"").is_none());
    assert!(Bundle::open(b"\0\0\0\x10").is_none());
    let mut cut = bundle_of(&[BINARY]);
    cut.pop();
    assert!(Bundle::open(&cut).is_none());
}

#[test]
fn files_are_read_past_their_faults() {
    let data = b"/AB usecmap begincidchar <41> 5 <42> /X <43> 7 endcidchar";
    let asked = RefCell::new(Vec::new());
    let found = CMap::salvage(data, |name| {
        asked.borrow_mut().push(name.to_bytes().to_vec());
        match name.to_bytes() {
            b"AB" => Some(b"begincidchar\n<> 8\n<44> 9\nendcidchar /C usecmap"),
            _ => None,
        }
    });
    assert_eq!(asked.into_inner(), [b"AB".to_vec(), b"C".to_vec()]);
    let cids = [0x41, 0x42, 0x43, 0x44].map(|code| found.map.lookup_cid_code(code, 1));
    assert_eq!(cids, [Some(5), None, Some(7), Some(9)]);
    let shown: Vec<String> = found.faults.iter().map(Refusal::to_string).collect();
    assert_eq!(shown[0], "byte 39: a CID was expected");
    assert_eq!(shown[1], "AB: byte 15: a code must have one to four bytes");
    assert_eq!((shown.len(), found.faults[2].cause()), (3, Cause::NoFile));
    assert_eq!(found.faults[1].line(b"begincidchar\n<> 8\r<44> 9\nendcidchar /C usecmap"), Some(2));
    assert_eq!((found.faults[0].line(data), found.faults[2].line(data)), (Some(1), None));
    assert_eq!(found.faults[2].names(), [b"AB".to_vec(), b"C".to_vec()]);
}

#[test]
fn parts_at_fault_are_read() {
    let file = b"begincodespacerange <00> <FFFF> <0000> <FF> endcodespacerange \
                 beginbfchar <41> <> <42> /x endbfchar";
    let faults = CMap::salvage(file, |_| None).faults;
    let read: Vec<Option<ReadAs>> = faults.iter().map(|fault| fault.read_as(file)).collect();
    assert_eq!(read, [Some(ReadAs::ExtendedCode), None, Some(ReadAs::EmptyText), None]);
    let shown = ReadAs::ExtendedCode.to_string();
    assert_eq!(shown, "a range whose first code has leading bytes 0");
    assert_eq!(faults[0].read_as(b"<00> <FFFF>"), None);
    let missing = refusal(b"/A usecmap", |_| None);
    assert_eq!(missing.read_as(b"/A usecmap"), None);
}

#[test]
fn many_faults_are_whole() {
    let part = |name| format!(" begincidchar <> endcidchar /{name} usecmap");
    let data: String = (100_000_000..100_000_100).map(part).collect();
    let faults = CMap::salvage(data.as_bytes(), |_| None).faults;
    assert_eq!(faults.len(), 200);
    assert_eq!(faults[99].offset(), Some(99 * 46 + 16));
    assert_eq!(faults[199].names(), [b"100000099".to_vec()]);
    let over = ParseOptions::new().budget(10).salvage(b"/A usecmap", |_| Some(b"% bytes"));
    assert_eq!(over.faults[0].cause(), Cause::OverBudget);
}
