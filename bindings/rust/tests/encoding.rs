//! Strings that show texts.

use hayro_cmap::{
    CMap, CMapBuilder, CMapName, CidFamily, EncodeError, Encoder, Extractor, Grade, WritingMode,
};
use std::path::{Path, PathBuf};
use std::{fs, thread};

/// A font of Identity-H, whose codes 1, 2 and so on have these texts.
fn font(texts: &[&str]) -> Extractor {
    let mut file = CMapBuilder::new().codespace([0, 0]..=[0xFF, 0xFF]);
    for (code, text) in (1_u16..).zip(texts) {
        file = file.text(code.to_be_bytes(), *text);
    }
    let to_unicode = CMap::parse(&file.build().unwrap(), |_| None);
    Extractor::new(CMap::identity_h(), to_unicode, None)
}

fn encoder() -> Encoder {
    font(&["f", "i", "ffi", "日", "😀", "f"]).encoder()
}

#[test]
fn letters_come_first() {
    assert_eq!(encoder().encode("ffif日😀").unwrap(), b"\0\x01\0\x01\0\x02\0\x01\0\x04\0\x05");
    assert_eq!(encoder().encode("").unwrap(), b"");
    assert_eq!(encoder().encode(&"fi".repeat(1000)).unwrap(), b"\0\x01\0\x02".repeat(1000));
}

#[test]
fn a_text_is_refused_where_its_longest_prefix_ends() {
    let refused = |text| encoder().encode(text).map_err(|EncodeError { offset, .. }| offset);
    assert_eq!(refused("日x"), Err(3));
    assert_eq!(refused("ffx"), Err(2));
    assert_eq!(refused("x"), Err(0));
    let error = encoder().encode("日x").unwrap_err();
    assert_eq!(error.to_string(), "the character at byte 3 can't be encoded");
    assert_eq!(font(&[]).encoder().encode("f").unwrap_err().offset, 0);
}

#[test]
fn bytes_stand_for_what_no_string_shows() {
    assert_eq!(encoder().encode_lossy("fxi", b"\0?"), b"\0\x01\0?\0\x02");
    assert_eq!(encoder().encode_lossy("x日é", b""), b"\0\x04");
    assert_eq!(encoder().encode_lossy("", b"\0?"), b"");
}

#[test]
#[should_panic = "[3F]: these bytes aren't whole codes of the font"]
fn bytes_that_are_no_codes_stand_for_nothing() {
    encoder().encode_lossy("fxi", b"?");
}

#[test]
fn strings_are_whole_codes_or_not() {
    let codes = |string: &[u8]| encoder().are_codes(string);
    assert!(codes(b"") && codes(b"\0\x01") && codes(b"\xFF\xFE\0\0"));
    assert!(!codes(b"?") && !codes(b"\0\x01\0"));
    let mixed = b"begincodespacerange <00> <80> <8140> <9FFC> endcodespacerange";
    let mixed = Extractor::new(CMap::parse(mixed, |_| None).unwrap(), None, None).encoder();
    assert!(mixed.are_codes(b"A\x81\x40\x80"));
    assert!(
        !mixed.are_codes(b"A\x81") && !mixed.are_codes(b"\x81\x3F") && !mixed.are_codes(b"\xA0")
    );
    assert!(Extractor::simple(None).encoder().are_codes(b"any bytes \xFF"));
}

/// A font with codes of one and two bytes, with a code for a piece of each grade, and its map from Unicode.
fn graded() -> Extractor {
    let map = |file: &[u8]| CMap::parse(file, |_| None).unwrap();
    let encoding = b"begincodespacerange <00> <80> <8140> <9FFC> endcodespacerange
        begincidrange <20> <7E> 1 <8140> <817E> 633 endcidrange";
    let texts = b"beginbfchar <003D> <00A5> <0279> <3042> <027A> <3042>
        <027B> <2F00> <027C> <845B> endbfchar";
    let unicode = b"begincodespacerange <0000> <FFFF> endcodespacerange
        begincidchar <3042> 634 <4E00> 635 endcidchar";
    let to_unicode = map(b"beginbfchar <41> <0061> <2D> <2010> endbfchar");
    Extractor::new(map(encoding), Some(to_unicode), Some(map(texts))).with_unicode(map(unicode))
}

#[test]
fn pieces_have_their_grades() {
    let pieces = |text| graded().encoder().pieces(text).unwrap().into_iter();
    let found: Vec<_> = pieces("aあ葛\u{E0100}-\\一")
        .map(|piece| (piece.text_len, piece.code_len, piece.grade))
        .collect();
    let expected = [
        (1, 1, Grade::Stated),
        (3, 2, Grade::Canonical),
        (3, 2, Grade::Collection),
        (4, 0, Grade::Alike),
        (1, 1, Grade::Alike),
        (1, 1, Grade::National),
        (3, 2, Grade::Canonical),
    ];
    assert_eq!(found, expected);
    let string = b"A\x81\x41\x81\x43-\\\x81\x42";
    assert_eq!(graded().encoder().encode("aあ葛\u{E0100}-\\一").unwrap(), string);
    assert_eq!(pieces("").len(), 0);
    assert_eq!(graded().encoder().pieces("aあx").unwrap_err().offset, 4);
    assert!(Grade::Stated < Grade::Canonical && Grade::Alike < Grade::National);
}

#[test]
fn exact_strings_are_read_as_their_texts() {
    let (font, encoder) = (graded(), graded().exact_encoder());
    assert_eq!(encoder.encode("aあ葛⼀").unwrap(), b"A\x81\x41\x81\x43\x81\x42");
    assert_eq!(font.text(b"A\x81\x41\x81\x43\x81\x42"), "aあ葛⼀");
    for (text, offset) in [("a一", 1), ("葛\u{E0100}", 3), ("-", 0), ("\\", 0)] {
        assert_eq!(encoder.encode(text).unwrap_err().offset, offset, "{text}");
    }
}

/// The text of a file from Unicode to CIDs.
macro_rules! from_unicode {
    ($cids:literal) => {
        concat!(
            "begincodespacerange <0000> <FFFF> endcodespacerange begincidchar ",
            $cids,
            " endcidchar"
        )
        .as_bytes()
    };
}

/// The bytes of the files of two collections, by their names.
fn small_files(name: CMapName<'_>) -> Option<&'static [u8]> {
    match name.to_bytes() {
        b"Adobe-KR-UCS2" => Some(b"beginbfchar <0005> <AC00> <0006> <AC00> endbfchar"),
        b"UniAKR-UTF16-H" => Some(from_unicode!("<AC00> 6")),
        b"Adobe-Japan1-UCS2" => {
            Some(b"beginbfchar <0005> <3042> <0006> <3042> <0007> <3042> endbfchar")
        }
        b"UniJIS-UTF16-H" => Some(from_unicode!("<3042> 6")),
        b"UniJIS-UTF16-V" => Some(from_unicode!("<3042> 7")),
        _ => None,
    }
}

#[test]
fn the_map_from_unicode_is_found() {
    let kr = CidFamily::from_registry_ordering(b"Adobe", b"KR");
    let font = |encoding, family| Extractor::over_collection(encoding, None, family, small_files);
    let encoded = |encoding, family, text| font(encoding, family).unwrap().encoder().encode(text);
    let japan1 = &CidFamily::AdobeJapan1;
    assert_eq!(encoded(CMap::identity_h(), japan1, "あ").unwrap(), b"\0\x06");
    assert_eq!(encoded(CMap::identity_v(), japan1, "あ").unwrap(), b"\0\x07");
    assert_eq!(encoded(CMap::identity_v(), &kr, "가").unwrap(), b"\0\x06");
    assert!(encoded(CMap::identity_h(), &CidFamily::AdobeGB1, "あ").is_err());
    let own = b"/CIDSystemInfo << /Registry (Adobe) /Ordering (Japan1) /Supplement 0 >> def
        begincodespacerange <00> <FF> endcodespacerange begincidrange <41> <43> 5 endcidrange";
    let own = || CMap::parse(own, |_| None).unwrap();
    let named = Extractor::over(own(), None, small_files).unwrap();
    assert_eq!(named.encoder().encode("あ").unwrap(), b"B");
    assert_eq!(encoded(own(), &kr, "가").unwrap(), b"B");
    assert!(encoded(own(), &kr, "あ").is_err());
}

#[test]
fn a_map_from_unicode_is_its_own() {
    let encoding = b"/CMapName /UniOwn-H def begincodespacerange <0000> <FFFF> endcodespacerange
        begincidchar <2F00> 5 <3042> 8 <4E00> 5 endcidchar";
    let encoding = || CMap::parse(encoding, |_| None).unwrap();
    let files = |name: CMapName<'_>| match name.to_bytes() {
        b"Adobe-Japan1-UCS2" => Some(&b"beginbfchar <0005> <2F00> endbfchar"[..]),
        other => panic!("{other:?} is asked for"),
    };
    let font = Extractor::over_collection(encoding(), None, &CidFamily::AdobeJapan1, files);
    let encoder = font.unwrap().encoder();
    assert_eq!(encoder.encode("一⼀あ").unwrap(), b"\x4E\0\x2F\0\x30\x42");
    let font = Extractor::over(encoding(), None, |_| None).unwrap();
    assert_eq!(font.encoder().encode("あ").unwrap(), b"\x30\x42");
    assert!(Extractor::new(encoding(), None, None).encoder().encode("あ").is_err());
}

#[test]
fn maps_from_unicode_have_names() {
    let name = |ordering: &[u8], mode| {
        let family = CidFamily::from_registry_ordering(b"Adobe", ordering);
        family.unicode_name(mode).map(|name| String::from_utf8(name).unwrap())
    };
    let both = |ordering| {
        [WritingMode::Horizontal, WritingMode::Vertical].map(|mode| name(ordering, mode))
    };
    let names = |names: [&str; 2]| names.map(|name| Some(name.to_owned()));
    assert_eq!(both(b"Japan1"), names(["UniJIS-UTF16-H", "UniJIS-UTF16-V"]));
    assert_eq!(both(b"CNS1"), names(["UniCNS-UTF16-H", "UniCNS-UTF16-V"]));
    assert_eq!(both(b"KR"), names(["UniAKR-UTF16-H", "UniAKR-UTF16-H"]));
    assert_eq!(both(b"Identity"), [None, None]);
    assert_eq!(both(b""), [None, None]);
}

#[test]
fn threads_share_an_encoder() {
    let encoder = encoder();
    let clones: Vec<Encoder> = (0..4).map(|_| encoder.clone()).collect();
    thread::scope(|scope| {
        for encoder in clones.iter().chain([&encoder, &encoder]) {
            scope.spawn(move || {
                for _ in 0..1000 {
                    assert_eq!(encoder.encode("ffi").unwrap(), b"\0\x01\0\x01\0\x02");
                }
            });
        }
    });
}

/// The folder of poppler-data, if it is installed.
fn predefined_folder() -> Option<PathBuf> {
    let folder = Path::new("/usr/share/poppler/cMap");
    if !folder.is_dir() {
        eprintln!("skipped: poppler-data isn't installed");
        return None;
    }
    Some(folder.to_owned())
}

/// The encoder of a font with these files, Identity-H or one of the folder.
fn predefined_encoder(folder: &Path, ordering: &str, name: &str) -> Encoder {
    let collection = format!("Adobe-{ordering}");
    let read = |name: &str| fs::read(folder.join(&collection).join(name)).unwrap();
    let family = CidFamily::from_registry_ordering(b"Adobe", ordering.as_bytes());
    let unicode = family.unicode_name(WritingMode::Horizontal).unwrap();
    let files = [family.ucs2_name(), unicode].map(|name| {
        let bytes = read(&String::from_utf8(name.clone()).unwrap());
        (name, bytes)
    });
    let get_cmap = |name: CMapName<'_>| {
        files.iter().find(|(known, _)| known == name.to_bytes()).map(|(_, bytes)| &bytes[..])
    };
    let font = match name {
        "Identity-H" => Extractor::over_collection(CMap::identity_h(), None, &family, get_cmap),
        _ => Extractor::over(CMap::parse(&read(name), |_| None).unwrap(), None, get_cmap),
    };
    font.unwrap().encoder()
}

#[test]
fn texts_of_predefined_maps_are_encoded() {
    let Some(folder) = predefined_folder() else { return };
    let texts = [
        ("Japan1", "90ms-RKSJ-H", "日本語 餌", &b"\x93\xFA\x96\x7B\x8C\xEA \x89\x61"[..]),
        ("GB1", "GBK-EUC-H", "中文", b"\xD6\xD0\xCE\xC4"),
        ("Korea1", "KSCms-UHC-H", "한국어", b"\xC7\xD1\xB1\xB9\xBE\xEE"),
        ("CNS1", "ETen-B5-H", "繁體", b"\xC1\x63\xC5\xE9"),
        ("Japan1", "UniJIS-UTF16-H", "一 ", b"\x4E\0\0\x20"),
        ("Japan1", "Identity-H", "あ一", b"\x03\x4B\x04\xB0"),
    ];
    for (ordering, name, text, string) in texts {
        let encoder = predefined_encoder(&folder, ordering, name);
        assert_eq!(encoder.encode(text).unwrap(), string, "{name}");
    }
}
