//! Files over a base that is a map.

use hayro_cmap::{
    BaseError, Bundle, CMap, CMapName, Cause, ParseOptions, Reason, WriteError, WritingMode,
};

const SPACES: &str = "begincodespacerange <0000> <FFFF> endcodespacerange ";

fn file(text: &str) -> String {
    format!("{SPACES}{text}")
}

fn map(text: &str) -> CMap {
    CMap::parse_explained(file(text).as_bytes(), |_| None).expect("it is accepted")
}

fn over(text: &str, base: &CMap) -> CMap {
    CMap::parse_with_base(text.as_bytes(), base).expect("it is accepted")
}

#[test]
fn each_name_and_no_name_stand_for_the_base() {
    let base = map("begincidrange <0040> <004F> 100 endcidrange");
    for text in ["/Identity-H usecmap", "/A usecmap /B usecmap /A usecmap", ""] {
        let found = over(&format!("{text} begincidchar <0041> 7 endcidchar"), &base);
        assert_eq!(found.lookup_cid_code_strict(0x41, 2), Some(7), "{text}");
        assert_eq!(found.lookup_cid_code_strict(0x42, 2), Some(102), "{text}");
        assert_eq!(found.lookup_cid_code_strict(0x50, 2), None, "{text}");
    }
}

#[test]
fn a_base_may_stand_on_a_base_of_the_same_name() {
    let first = map("begincidrange <0040> <004F> 100 endcidrange");
    let second = over("/Base usecmap begincidchar <0041> 7 endcidchar", &first);
    let third = over("/Base usecmap begincidchar <0042> 8 endcidchar", &second);
    let cids = [0x40, 0x41, 0x42, 0x43].map(|code| third.lookup_cid_code(code, 2));
    assert_eq!(cids, [Some(100), Some(7), Some(8), Some(103)]);
}

#[test]
fn a_refusal_is_that_of_the_file() {
    let base = CMap::identity_h();
    for (text, offset) in [("begincidchar <01> x", 19), ("/A usecmap begincidchar <01> x", 30)] {
        match CMap::parse_with_base(text.as_bytes(), &base) {
            Err(BaseError::Refused(refusal)) => {
                assert_eq!(refusal.reason(), Some(Reason::CidExpected), "{text}");
                assert_eq!(refusal.offset(), Some(offset), "{text}");
                assert!(refusal.names().is_empty(), "{text}");
            }
            other => panic!("{text}: {other:?}"),
        }
    }
}

#[test]
fn a_base_that_no_file_says_is_an_error() {
    let own = b"begincidchar <41> 5 endcidchar";
    let torn =
        CMap::parse(b"/Base usecmap beginbfchar <41> <0062> endbfchar", |_| Some(own)).unwrap();
    let found = CMap::parse_with_base(b"", &torn);
    assert!(matches!(found, Err(BaseError::NotWritable(WriteError::NotWritable))), "{found:?}");
}

#[test]
fn a_budget_counts_the_file_and_the_base() {
    let base = CMap::identity_h();
    let needed = |text: &[u8]| text.len() as u64 + base.write().unwrap().len() as u64;
    for text in [b"/A usecmap".as_slice(), b"% nothing"] {
        let within = |bytes| ParseOptions::new().budget(bytes).parse_with_base(text, &base);
        assert!(within(needed(text)).is_ok());
        match within(needed(text) - 1) {
            Err(BaseError::Refused(refusal)) => assert_eq!(refusal.cause(), Cause::OverBudget),
            other => panic!("{other:?}"),
        }
    }
}

/// A bundle of one table of deltas, whose one symbol is 32, and one of counts.
const TABLES: [u8; 20] = [0, 0, 0, 16, 0, 2, 1, 0, 2, 0, 0, 0, 32, 0, 0, 0, 0, 0, 0, 0];
/// A binary file with the CID 5 for the code 0020 of two bytes and 6 for 0021.
const BINARY: [u8; 26] = *b"bcmap\x01\0\0\0\x1A\x04\0\0\0\x10\0\x02\0\0\0\x01\x40\0\x05\0\0";

#[test]
fn a_binary_file_has_a_base_too() {
    let bundle = Bundle::open(&TABLES).expect("it is a bundle");
    let options = ParseOptions::new().bundle(&bundle);
    let base = map("begincidrange <0020> <004F> 100 endcidrange");
    let found = options.parse_with_base(&BINARY, &base).expect("it is accepted");
    let cids = [0x20, 0x21, 0x22].map(|code| found.lookup_cid_code(code, 2));
    assert_eq!(cids, [Some(5), Some(6), Some(102)]);
}

#[test]
fn the_first_writing_mode_counts() {
    let files = |name: CMapName<'_>| match name.to_bytes() {
        b"Vertical" => Some(b"/WMode 1 def".as_slice()),
        b"Middle" => Some(b"/Vertical usecmap".as_slice()),
        _ => None,
    };
    let mode = |text: &str| CMap::parse(text.as_bytes(), files).unwrap().effective_writing_mode();
    assert_eq!(mode(""), WritingMode::Horizontal);
    assert_eq!(mode("/WMode 1 def"), WritingMode::Vertical);
    assert_eq!(mode("/Middle usecmap"), WritingMode::Vertical);
    assert_eq!(mode("/Middle usecmap /WMode 0 def"), WritingMode::Horizontal);
    assert_eq!(over("", &CMap::identity_v()).effective_writing_mode(), WritingMode::Vertical);
}
