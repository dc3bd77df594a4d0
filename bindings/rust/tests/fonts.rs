//! Strings that show texts and are read again, by the maps of a font.

use hayro_cmap::{BfString, CMap, CidFamily, EncodeError, Extractor};

fn map(file: &[u8]) -> CMap {
    CMap::parse(file, |_| None).unwrap()
}

/// Some codes of the CMap 90ms-RKSJ-H, and the texts of their CIDs in Adobe-Japan1-UCS2.
fn japanese() -> Extractor {
    let encoding = b"begincodespacerange <00> <80> <8140> <9FFC> <A0> <DF> <E040> <FCFC> endcodespacerange
        begincidrange <41> <5A> 264 <8CEA> <8CEA> 1952 <93FA> <93FA> 3284 <967B> <967B> 3722 endcidrange";
    let collection = b"beginbfrange <0108> <0121> <0041> endbfrange
        beginbfchar <07A0> <8A9E> <0CD4> <65E5> <0E8A> <672C> endbfchar";
    Extractor::new(map(encoding), None, Some(map(collection)))
}

/// Texts of two characters that overlap, and a text of one character with two codes.
fn simple() -> Extractor {
    let texts = b"beginbfchar <01> <00610062> <02> <0061> <03> <00620063> <05> <0061> endbfchar";
    Extractor::simple(Some(map(texts)))
}

/// Codes of two bytes that are CIDs, and the texts of the CIDs.
fn of_cids(collection: &[u8]) -> Extractor {
    let identity = b"begincodespacerange <0000> <FFFF> endcodespacerange
        begincidrange <0000> <FFFF> 0 endcidrange";
    Extractor::new(map(identity), None, Some(map(collection)))
}

/// Checks that the string of a text is these bytes, and that it is read as the text.
fn check_shown(font: &Extractor, text: &str, string: &[u8]) {
    assert_eq!(font.encoder().encode(text).unwrap(), string, "{text}");
    assert_eq!(font.text(string), text);
}

/// The offset where a text is refused.
fn refused_at(font: &Extractor, text: &str) -> Option<usize> {
    font.encoder().encode(text).err().map(|EncodeError { offset, .. }| offset)
}

#[test]
fn a_text_is_shown_by_codes_of_one_and_two_bytes() {
    let font = japanese();
    check_shown(&font, "日本語", b"\x93\xFA\x96\x7B\x8C\xEA");
    check_shown(&font, "ABC", b"\x41\x42\x43");
    check_shown(&font, "A日", b"\x41\x93\xFA");
}

#[test]
fn a_text_is_refused_where_no_string_goes_on() {
    assert_eq!(refused_at(&japanese(), "日😀A"), Some(3));
    assert_eq!(refused_at(&japanese(), "😀"), Some(0));
}

#[test]
fn texts_of_several_characters_are_tried_in_every_way() {
    let font = simple();
    // The longest first piece would leave a `c`, which has no code.
    check_shown(&font, "abc", b"\x02\x03");
    check_shown(&font, "ab", b"\x01");
    // The least code of a text is taken.
    check_shown(&font, "aab", b"\x02\x01");
    assert_eq!(refused_at(&font, "abb"), Some(2));
}

#[test]
fn a_question_mark_stands_for_each_missing_character() {
    let encoder = japanese().encoder();
    assert_eq!(encoder.encode_lossy("日😀A😀😀", b"?"), b"\x93\xFA?\x41??");
    assert_eq!(encoder.encode_lossy("日本", b"?"), b"\x93\xFA\x96\x7B");
    assert_eq!(encoder.encode_lossy("", b"?"), b"");
}

#[test]
fn a_missing_character_ends_the_longest_prefix() {
    let encoder = simple().encoder();
    assert_eq!(encoder.encode_lossy("abbab", b"?"), b"\x01?\x01");
    assert_eq!(encoder.encode_lossy("bcb", b"?"), b"\x03?");
}

/// A narrow and a wide glyph of one letter in Adobe-Japan1, and a glyph that is read as a radical.
#[test]
fn a_map_from_unicode_chooses_glyphs() {
    let glyphs = b"beginbfchar <020E> <3042> <034B> <3042> <04B0> <2F00> endbfchar";
    assert_eq!(of_cids(glyphs).encoder().encode("あ").unwrap(), b"\x02\x0E");
    // The glyphs of these characters by the map from Unicode.
    let unicode = b"begincodespacerange <0000> <FFFF> endcodespacerange
        begincidchar <3042> 843 <4E00> 1200 endcidchar";
    let font = of_cids(glyphs).with_unicode(map(unicode));
    assert_eq!(font.encoder().encode("あ一").unwrap(), b"\x03\x4B\x04\xB0");
    assert_eq!(font.exact_encoder().encode("あ").unwrap(), b"\x03\x4B");
    assert!(font.exact_encoder().encode("一").is_err());
}

#[test]
fn a_character_alike_stands_in() {
    let font = of_cids(b"beginbfchar <0001> <2002> <0002> <FF5E> endbfchar");
    assert_eq!(font.encoder().encode(" 〜\u{FE00}").unwrap(), b"\0\x01\0\x02");
    assert!(font.exact_encoder().encode(" ").is_err());
}

/// Codes of one byte with CIDs from 0x41 on, a notdef, and a text that is no CID.
const ENCODING: &[u8] = b"1 begincodespacerange <00> <7F> endcodespacerange
begincidrange <20> <2F> 65 endcidrange beginnotdefrange <30> <3F> 1 endnotdefrange
beginbfchar <40> <0041> endbfchar";

/// A text of two characters, a lone surrogate, and a text whose unit counts past 16 bits.
const TO_UNICODE: &[u8] = b"beginbfrange <20> <22> <FFFE> endbfrange
beginbfchar <20> <00660066> <21> <D800> endbfchar";

#[test]
fn a_text_is_that_of_the_code_or_else_of_the_cid() {
    // Texts of the CIDs 1 and 0x41 to 0x43, and of 0x21, which is the number of a code.
    let collection = b"beginbfchar <0001> <25A1> endbfchar
        beginbfrange <0041> <0043> <65E5> endbfrange beginbfchar <0021> <0078> endbfchar";
    let font = Extractor::new(map(ENCODING), Some(map(TO_UNICODE)), Some(map(collection)));
    assert_eq!(font.text(b"\x20\x21\x22\x30"), "ff\u{65E6}\u{65E7}\u{25A1}");
}

#[test]
fn the_bytes_of_a_simple_font_are_codes() {
    let font = Extractor::simple(Some(map(TO_UNICODE)));
    assert_eq!(font.text(b"\x20\x21\xFF\x20"), "ff\u{FFFD}\u{FFFD}ff");
}

#[test]
fn a_cid_is_no_character_and_a_character_is_no_cid() {
    let font = Extractor::new(map(ENCODING), None, None);
    let first = |string: &[u8]| -> (Option<u32>, Option<BfString>) {
        let first = font.characters(string).swap_remove(0);
        (first.code.cid, first.text)
    };
    assert_eq!(first(b"\x20\x21"), (Some(0x41), None));
    assert_eq!(first(b"\x40"), (None, None));
}

#[test]
fn any_family_has_a_name_of_its_map_to_unicode() {
    let family = CidFamily::from_registry_ordering(b"Adobe", b"KR");
    assert_eq!(family.ucs2_name(), b"Adobe-KR-UCS2");
}
