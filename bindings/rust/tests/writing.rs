//! Maps and declarations that are written, read again.

use hayro_cmap::{
    BfString, CMap, CMapBuilder, CidFamily, CidRange, Codes, Codespace, WriteError, WritingMode,
};
use std::process::Command;
use std::{env, fs, process};

#[allow(dead_code)]
#[path = "../examples/to_unicode.rs"]
mod example;

const BASE: &[u8] = b"
    /CIDSystemInfo 3 dict dup begin
        /Registry (Adobe) def /Ordering (Japan1) def /Supplement 1 def
    end def
    /CMapName /Small-H def /WMode 0 def
    begincodespacerange <00> <80> <8140> <9FFC> endcodespacerange
    begincidrange <20> <7E> 1 <8140> <817E> 633 endcidrange
    beginbfchar <41> <0041> endbfchar";
const VERTICAL: &[u8] =
    b"/Small-H usecmap /CMapName /Small-V def /WMode 1 def begincidchar <8141> 7887 endcidchar";

fn read(file: &[u8]) -> CMap {
    CMap::parse(file, |_| None).unwrap()
}

fn ranges(found: &[CidRange]) -> Vec<(u32, u32, u32)> {
    found.iter().map(|range| (range.first, range.last, range.cid)).collect()
}

#[test]
fn a_file_says_what_is_declared() {
    let file = CMapBuilder::new()
        .name("Sample-V")
        .collection("Adobe", b"Japan1", 6)
        .writing_mode(WritingMode::Vertical)
        .codespace([0x00]..=[0x80])
        .codespace([0x81, 0x40]..=[0x9F, 0xFC])
        .cid([0x20]..=[0x7E], 1)
        .cid([0x81, 0x40], 633)
        .notdef([0x00]..=[0x1F], 231)
        .text([0x41]..=[0x43], "a")
        .text([0x44], String::from("ffi"))
        .build();
    let map = read(&file.unwrap());
    let said = map.metadata();
    assert_eq!(said.name.as_deref(), Some(&b"Sample-V"[..]));
    assert_eq!(said.writing_mode, Some(WritingMode::Vertical));
    let collection = said.character_collection.clone().unwrap();
    assert_eq!((collection.family, collection.supplement), (CidFamily::AdobeJapan1, 6));
    let [one, two] = map.layers()[0].codespaces[..] else { panic!("two codespace ranges") };
    assert_eq!(one, Codespace { low: 0, high: 0x80, byte_len: 1 });
    assert_eq!(two, Codespace { low: 0x8140, high: 0x9FFC, byte_len: 2 });
    assert_eq!(ranges(&map.cid_ranges(0, 1)), [(0x20, 0x7E, 1)]);
    assert_eq!(ranges(&map.cid_ranges(0, 2)), [(0x8140, 0x8140, 633)]);
    assert_eq!(ranges(&map.notdef_ranges(0, 1)), [(0, 0x1F, 231)]);
    let texts = [0x41, 0x43, 0x44].map(|code| map.lookup_bf_string(code).unwrap());
    let ffi = BfString::String("ffi".into());
    assert_eq!(texts, [BfString::Char('a'), BfString::Char('c'), ffi]);
}

#[test]
fn nothing_is_declared() {
    let map = read(&CMapBuilder::new().build().unwrap());
    assert!(map.metadata().name.is_none() && map.metadata().character_collection.is_none());
    assert_eq!(map.metadata().writing_mode, None);
    assert_eq!(map.layers()[0].codespaces, []);
}

#[test]
fn the_last_declaration_decides() {
    let file = CMapBuilder::new().cid([0x20]..=[0x7E], 1).cid([0x41], 7).build().unwrap();
    let mut cids = [0; 3];
    read(&file).fill_cids(0x40, 1, 0, &mut cids);
    assert_eq!(cids, [33, 7, 35]);
}

#[test]
fn declarations_are_the_fewest() {
    let codes = 0_u16..0x100;
    let builder = codes.fold(CMapBuilder::new(), |builder, code| {
        builder.cid(code.to_be_bytes(), u32::from(code) + 1)
    });
    assert_eq!(ranges(&read(&builder.build().unwrap()).cid_ranges(0, 2)), [(0, 0xFF, 1)]);
}

#[test]
fn codes_have_one_to_four_bytes() {
    let codes: [Codes; 4] = [[0xFF].into(), [0xFF; 2].into(), [0xFF; 3].into(), [0xFF; 4].into()];
    for (codes, byte_len) in codes.into_iter().zip(1..) {
        assert_eq!((codes.first, codes.byte_len), (u32::MAX >> (32 - 8 * byte_len), byte_len));
        let file = CMapBuilder::new().cid(codes, 7).text(codes, "x").build().unwrap();
        let map = read(&file);
        assert_eq!(map.lookup_cid_code(codes.last, byte_len), Some(7));
        assert_eq!(map.lookup_bf_string(codes.last), Some(BfString::Char('x')));
    }
}

#[test]
fn what_is_no_declaration_is_refused() {
    let wrong = [
        Codes { first: 0, last: 0, byte_len: 0 },
        Codes { first: 0, last: 0, byte_len: 5 },
        Codes { first: 0, last: 0x100, byte_len: 1 },
        Codes { first: 2, last: 1, byte_len: 2 },
    ];
    for codes in wrong {
        let builder = CMapBuilder::new();
        for builder in [
            builder.clone().codespace(codes),
            builder.clone().cid(codes, 1),
            builder.clone().notdef(codes, 1),
            builder.text(codes, "x"),
        ] {
            assert_eq!(builder.build(), Err(WriteError::InvalidCodes), "{builder:?}");
        }
        assert_eq!(CMap::identity_h().write_codes([codes]), Err(WriteError::InvalidCodes));
    }
    let empty = CMapBuilder::new().text([0x41], "");
    assert_eq!(empty.build(), Err(WriteError::EmptyText));
    let words = CMapBuilder::new().name("two words");
    assert_eq!(words.build(), Err(WriteError::NotWritable));
}

#[test]
fn layers_become_one() {
    let map = CMap::parse(VERTICAL, |_| Some(BASE)).unwrap();
    let alone = read(&map.write().unwrap());
    assert_eq!(alone.layers().len(), 1);
    assert_eq!(alone.metadata().name.as_deref(), Some(&b"Small-V"[..]));
    let string = b"A\x81\x40\xFF\x81\x41";
    assert_eq!(alone.decode(string), map.decode(string));
    for (byte_len, count) in [(1, 0x100), (2, 0x10000)] {
        let mut cids = [vec![u32::MAX; count], vec![u32::MAX; count]];
        map.fill_cids(0, byte_len, u32::MAX, &mut cids[0]);
        alone.fill_cids(0, byte_len, u32::MAX, &mut cids[1]);
        assert_eq!(cids[0], cids[1]);
    }
    assert!((0..0x100).all(|code| alone.lookup_bf_string(code) == map.lookup_bf_string(code)));
}

#[test]
fn some_codes_alone_are_written() {
    let map = read(BASE);
    let of_string = map.write_codes(map.decode(b"A\x81\x40")).unwrap();
    let of_codes = map.write_codes([Codes::from([0x81, 0x40]), Codes::from([0x41])]).unwrap();
    assert_eq!(of_string, of_codes);
    let chosen = read(&of_codes);
    let cids = [(0x41, 1), (0x42, 1), (0x8140, 2), (0x8141, 2)]
        .map(|(code, byte_len)| chosen.lookup_cid_code(code, byte_len));
    assert_eq!(cids, [Some(34), None, Some(633), None]);
    assert_eq!(chosen.lookup_bf_string(0x41), Some(BfString::Char('A')));
    assert_eq!(chosen.layers()[0].codespaces, map.layers()[0].codespaces);

    let none = read(&map.write_codes([[0_u8; 1]; 0]).unwrap());
    assert_eq!((none.cid_ranges(0, 1), none.text_ranges(0)), (vec![], vec![]));
    assert_eq!(none.layers()[0].codespaces, map.layers()[0].codespaces);
}

#[test]
fn layers_that_no_one_file_has_are_refused() {
    let base = b"begincidchar <0041> 7 endcidchar";
    let file = b"/Base usecmap beginbfchar <0041> <0061> endbfchar";
    let map = CMap::parse(file, |_| Some(base)).unwrap();
    assert_eq!(map.lookup_cid_code(0x41, 2), Some(0x61));
    assert_eq!(map.write(), Err(WriteError::NotWritable));
    assert_eq!(map.write_codes([[0x00, 0x41]]), Err(WriteError::NotWritable));
    assert!(map.write_codes([[0x00, 0x42]]).is_ok());
}

#[test]
fn identities_are_written() {
    let map = read(&CMap::identity_v().write().unwrap());
    assert_eq!(map.metadata().writing_mode, Some(WritingMode::Vertical));
    let mut cids = vec![0; 0x10000];
    map.fill_cids(0, 2, u32::MAX, &mut cids);
    assert!(cids.into_iter().eq(0..0x10000));
}

#[test]
fn pdftotext_reads_the_example() {
    let pdf = example::pdf_of_texts(&["o", "ffi", "c", "e", "日", "\u{1F600}", "é", "o"]).unwrap();
    let path = env::temp_dir().join(format!("to-unicode-{}.pdf", process::id()));
    fs::write(&path, pdf).unwrap();
    let ran = Command::new("pdftotext").args(["-enc", "UTF-8"]).arg(&path).arg("-").output();
    fs::remove_file(path).unwrap();
    let Ok(ran) = ran else { return eprintln!("skipped: pdftotext isn't there") };
    let text = String::from_utf8(ran.stdout).unwrap();
    assert_eq!(text.trim_end(), "office日\u{1F600}éo");
}
