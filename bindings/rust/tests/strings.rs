//! Strings, layers, threads, and the files of Debian's package `poppler-data`.

use hayro_cmap::{
    BfString, CMap, CMapName, CidFamily, CidRange, Codespace, Extractor, Reason, WritingMode,
};
use std::collections::HashMap;
use std::fs;
use std::path::Path;
use std::sync::Arc;

const JAPANESE: &str = "/usr/share/poppler/cMap/Adobe-Japan1";

/// The files of these names, or none if the package isn't installed.
fn files(names: &[&str]) -> Option<HashMap<Vec<u8>, Vec<u8>>> {
    if !Path::new(JAPANESE).is_dir() {
        eprintln!("skipped: {JAPANESE} isn't there");
        return None;
    }
    let read = |name: &&str| {
        let bytes = fs::read(Path::new(JAPANESE).join(name)).expect("it can be read");
        (name.as_bytes().to_vec(), bytes)
    };
    Some(names.iter().map(read).collect())
}

fn map_of(files: &HashMap<Vec<u8>, Vec<u8>>, name: &[u8]) -> CMap {
    let get_cmap = |name: CMapName<'_>| files.get(name.to_bytes()).map(Vec::as_slice);
    CMap::open(CMapName::from_bytes(name), get_cmap).unwrap().unwrap()
}

#[test]
fn a_string_of_shift_jis_has_these_cids() {
    let Some(files) = files(&["90ms-RKSJ-H"]) else { return };
    let map = map_of(&files, b"90ms-RKSJ-H");
    let codes = map.decode(b"\x93\xFA\x96\x7B\x8C\xEAA");
    let found: Vec<_> = codes.iter().map(|code| (code.code, code.byte_len, code.cid)).collect();
    let expected = [
        (0x93FA, 2, Some(3284)),
        (0x967B, 2, Some(3722)),
        (0x8CEA, 2, Some(1952)),
        (0x41, 1, Some(264)),
    ];
    assert_eq!(found, expected);
    assert!(codes.iter().all(|code| code.in_codespace && !code.cut_short));
}

#[test]
fn a_text_is_that_of_the_code_or_else_of_the_cid() {
    let map = |file: &[u8]| CMap::parse(file, |_| None);
    let encoding = b"begincodespacerange <00> <7F> endcodespacerange
                     begincidrange <41> <43> 7 endcidrange";
    let to_unicode = b"beginbfchar <41> <00660066> <42> <D800> endbfchar";
    let collection = b"beginbfchar <0008> <65E5> <0043> <0078> endbfchar";
    let font = Extractor::new(map(encoding).unwrap(), map(to_unicode), map(collection));
    let found = font.characters(b"ABC\x81");
    let texts: Vec<_> = found.iter().map(|character| character.text.clone()).collect();
    let ff = BfString::String("ff".into());
    assert_eq!(texts, [Some(ff), Some(BfString::Char('日')), None, None]);
    let cids: Vec<_> = found.iter().map(|character| character.code.cid).collect();
    assert_eq!(cids, [Some(7), Some(8), Some(9), None]);
    assert_eq!(font.text(b"ABC\x81"), "ff日\u{FFFD}\u{FFFD}");
    assert_eq!(font.text(b""), "");
}

#[test]
fn the_map_of_the_collection_is_found() {
    let collection = b"/CIDSystemInfo << /Registry (Some) /Ordering (One) /Supplement 0 >> def";
    let encoding = b"/Base usecmap begincodespacerange <00> <FF> endcodespacerange
                     begincidrange <41> <43> 7 endcidrange";
    let files = |name: CMapName<'_>| -> Option<&'static [u8]> {
        match name.to_bytes() {
            b"Base" => Some(collection),
            b"Some-One-UCS2" => Some(b"beginbfchar <0007> <0061> endbfchar"),
            b"Broken-One-UCS2" => Some(b"beginbfchar <0007> x endbfchar"),
            _ => None,
        }
    };
    let font = |file| Extractor::over(CMap::parse(file, files).unwrap(), None, files);
    assert_eq!(font(encoding).unwrap().text(b"AB"), "a\u{FFFD}");
    let broken = b"/CIDSystemInfo << /Registry (Broken) /Ordering (One) /Supplement 0 >> def";
    assert_eq!(font(broken).unwrap_err().reason(), Some(Reason::TextExpected));
    let other = b"/CIDSystemInfo << /Registry (Other) /Ordering (One) /Supplement 0 >> def";
    assert_eq!([font(other).unwrap().text(b"A"), font(b"").unwrap().text(b"A")], ["\u{FFFD}"; 2]);
    assert_eq!(CidFamily::AdobeKorea1.ucs2_name(), b"Adobe-Korea1-UCS2");
    assert_eq!(CidFamily::from_registry_ordering(b"A", b"B").ucs2_name(), b"A-B-UCS2");
}

#[test]
fn the_codes_of_a_simple_font_are_bytes() {
    let to_unicode = b"begincodespacerange <0000> <FFFF> endcodespacerange
                       beginbfchar <41> <0061> <00FF> <00660066> endbfchar";
    let font = Extractor::simple(CMap::parse(to_unicode, |_| None));
    assert_eq!(font.text(b"A\xFF\x00"), "aff\u{FFFD}");
    let codes = font.characters(b"A\xFF").into_iter().map(|it| it.code);
    assert!(
        codes.clone().all(|code| code.byte_len == 1 && code.in_codespace && code.cid.is_none())
    );
    assert_eq!(codes.count(), 2);
    assert_eq!(Extractor::simple(None).text(b"A"), "\u{FFFD}");
}

#[test]
fn long_texts_are_extracted() {
    let file = format!("beginbfchar <41> <{}> <42> <0062> endbfchar", "0061".repeat(1000));
    let map = CMap::parse(file.as_bytes(), |_| None).unwrap();
    let font = Extractor::new(map.clone(), Some(map.clone()), Some(map));
    let found = font.characters(&[&[b'B'; 100][..], b"AB"].concat());
    assert_eq!(found.len(), 102);
    assert_eq!(found[99].text, Some(BfString::Char('b')));
    assert_eq!(found[100].text, Some(BfString::String("a".repeat(1000))));
    assert_eq!(found[101].text, Some(BfString::Char('b')));
}

#[test]
fn a_vertical_file_stands_on_the_horizontal_one() {
    let Some(files) = files(&["UniJIS-UTF16-V", "UniJIS-UTF16-H", "Adobe-Japan1-UCS2"]) else {
        return;
    };
    let map = map_of(&files, b"UniJIS-UTF16-V");
    assert_eq!(map.lookup_cid_code(0x3042, 2), Some(843));
    assert_eq!(map.lookup_cid_code(0xFF08, 2), Some(7899));
    assert_eq!(map.metadata().writing_mode, Some(WritingMode::Vertical));
    let layers = map.layers();
    let names: Vec<_> = layers.iter().filter_map(|layer| layer.metadata.name.clone()).collect();
    assert_eq!(names, [b"UniJIS-UTF16-V", b"UniJIS-UTF16-H"]);
    let japan = layers[1].metadata.character_collection.as_ref().unwrap();
    assert_eq!(japan.family, CidFamily::AdobeJapan1);
    assert_eq!(japan.family.unicode_cmap(), Some(CMapName::UniJisUtf16H));
    let texts = map_of(&files, b"Adobe-Japan1-UCS2");
    assert_eq!(texts.lookup_bf_string(843), Some(BfString::Char('あ')));
}

#[test]
fn codes_outside_the_codespace_are_told() {
    let file = b"begincodespacerange <00> <7F> <8140> <9FFC> endcodespacerange
        begincidrange <00> <7F> 1 <8140> <9FFC> 200 endcidrange";
    let map = CMap::parse(file, |_| None).unwrap();
    let codes = map.decode(b"A\x81\x40\x82\xFF\x81");
    let seen =
        codes.iter().map(|code| (code.code, code.byte_len, code.in_codespace, code.cut_short));
    let expected = [
        (0x41, 1, true, false),
        (0x8140, 2, true, false),
        (0x82FF, 2, false, false),
        (0x81, 1, false, true),
    ];
    assert_eq!(seen.collect::<Vec<_>>(), expected);
    assert_eq!(map.lookup_cid_code_strict(0x82FF, 2), None);
    assert_eq!(map.lookup_cid_code_strict(0x8140, 2), Some(200));
}

#[test]
fn a_long_string_is_whole() {
    let string: Vec<u8> = (0..=u16::MAX).flat_map(u16::to_be_bytes).collect();
    let codes = CMap::identity_h().decode(&string);
    assert_eq!(codes.len(), 0x10000);
    assert!(codes.iter().zip(0..).all(|(code, cid)| code.cid == Some(cid) && code.code == cid));
    assert!(CMap::identity_h().decode(b"").is_empty());
}

#[test]
fn cids_in_a_row_are_those_of_single_codes() {
    let Some(files) = files(&["UniJIS-UTF16-H"]) else { return };
    let map = map_of(&files, b"UniJIS-UTF16-H");
    let mut cids = vec![0; 0x10000];
    map.fill_cids(0, 2, u32::MAX, &mut cids);
    assert_eq!(cids.iter().filter(|cid| **cid != u32::MAX).count(), 15391);
    for (code, cid) in (0..).zip(cids) {
        assert_eq!(map.lookup_cid_code(code, 2).unwrap_or(u32::MAX), cid);
    }
    map.fill_cids(0, 2, 0, &mut []);
}

/// This holds even if `usize` has 32 bits, which the number of all codes exceeds.
#[test]
fn a_row_begins_at_the_first_of_all_codes() {
    let map = CMap::parse(b"begincidrange <00000000> <FFFFFFFF> 5 endcidrange", |_| None).unwrap();
    let mut cids = [0; 3];
    map.fill_cids(0, 4, u32::MAX, &mut cids);
    assert_eq!(cids, [5, 6, 7]);
}

#[test]
fn layers_have_their_codespaces() {
    let file = b"begincodespacerange <00> <80> <8140> <9FFC> endcodespacerange /H usecmap";
    let map = CMap::parse(file, |_| Some(b"/CMapName /Base")).unwrap();
    let [top, base] = &map.layers()[..] else { panic!("two files are two layers") };
    let range = |low, high, byte_len| Codespace { low, high, byte_len };
    assert_eq!(top.codespaces, [range(0, 0x80, 1), range(0x8140, 0x9FFC, 2)]);
    assert!(base.codespaces.is_empty());
    assert_eq!(base.metadata.name.as_deref(), Some(&b"Base"[..]));
    let many = format!("begincodespacerange {} endcodespacerange", "<00> <01> ".repeat(50));
    let map = CMap::parse(many.as_bytes(), |_| None).unwrap();
    assert_eq!(map.layers()[0].codespaces, [range(0, 1, 1); 50]);
}

#[test]
fn layers_declare_cids_and_texts() {
    let base = b"begincidrange <20> <7E> 1 <8140> <817E> 633 endcidrange
        beginnotdefrange <00> <1F> 99 endnotdefrange
        beginbfrange <41> <42> <0061> <43> <43> <D83D> endbfrange
        beginbfchar <44> <00660069> endbfchar";
    let map = CMap::parse(b"/Base usecmap begincidchar <41> 7 endcidchar", |_| Some(base)).unwrap();
    let cids = |layer, byte_len| cids_of(map.cid_ranges(layer, byte_len));
    assert_eq!(cids(0, 1), [(0x41, 0x41, 7)]);
    assert_eq!(cids(1, 1), [(0x20, 0x7E, 1)]);
    assert_eq!(cids(1, 2), [(0x8140, 0x817E, 633)]);
    assert_eq!([cids(0, 2), cids(1, 5), cids(2, 1)], [[], [], []]);
    assert_eq!(cids_of(map.notdef_ranges(1, 1)), [(0, 0x1F, 99)]);
    assert!(map.notdef_ranges(0, 1).is_empty() && map.text_ranges(0).is_empty());
    let texts = map.text_ranges(1).into_iter().map(|range| (range.first, range.last, range.units));
    let expected =
        [(0x41, 0x42, vec![0x61]), (0x43, 0x43, vec![0xD83D]), (0x44, 0x44, vec![0x66, 0x69])];
    assert_eq!(texts.collect::<Vec<_>>(), expected);
    assert_eq!(map.codes_of_cid(7, 1), [0x26..=0x26, 0x41..=0x41]);
    assert!(map.codes_of_cid(34, 1).is_empty());
}

fn cids_of(ranges: Vec<CidRange>) -> Vec<(u32, u32, u32)> {
    ranges.into_iter().map(|range| (range.first, range.last, range.cid)).collect()
}

#[test]
fn many_declarations_are_whole() {
    let text = "<20> 1 ".repeat(99) + "<20> 2";
    let file = format!(
        "begincidchar {text} endcidchar beginbfchar <20> <{}> endbfchar",
        "0061".repeat(99)
    );
    let map = CMap::parse(file.as_bytes(), |_| None).unwrap();
    let mut expected = vec![(0x20, 0x20, 1); 99];
    expected.push((0x20, 0x20, 2));
    assert_eq!(cids_of(map.cid_ranges(0, 1)), expected);
    assert_eq!(map.text_ranges(0)[0].units, [0x61; 99]);
}

#[test]
fn threads_share_a_map() {
    let map =
        Arc::new(CMap::parse(b"begincidrange <0000> <FFFF> 5 endcidrange", |_| None).unwrap());
    std::thread::scope(|scope| {
        for _ in 0..8 {
            scope.spawn(|| {
                for code in 0..20_000 {
                    assert_eq!(map.lookup_cid_code(code, 2), Some(code + 5));
                    assert_eq!(map.lookup_bf_string(code), None);
                }
            });
        }
    });
    let clones: Vec<CMap> = (0..4).map(|_| CMap::clone(&map)).collect();
    drop(map);
    let threads =
        clones.into_iter().map(|map| std::thread::spawn(move || map.lookup_cid_code(1, 2)));
    for thread in threads.collect::<Vec<_>>() {
        assert_eq!(thread.join().unwrap(), Some(6));
    }
}

#[test]
fn the_library_has_a_version() {
    assert!(hayro_cmap::library_version().starts_with(|first: char| first.is_ascii_digit()));
}
