//! A program for the crate `hayro-cmap` 0.1.1: it uses nothing that only this crate has.

use hayro_cmap::{
    BfString, CMap, CMapName, CharacterCollection, Cid, CidFamily, CidRange, Metadata, WritingMode,
    load_embedded,
};
use std::cell::RefCell;
use std::collections::{HashMap, HashSet};
use std::fmt::Debug;

const JAPANESE: &[u8] = b"
    /CIDSystemInfo 3 dict dup begin
        /Registry (Adobe) def /Ordering (Japan1) def /Supplement 6 def
    end def
    /CMapName /Sample-V def /WMode 1 def
    2 begincidrange <0000> <00FF> 0 <8140> <817E> 633 endcidrange
    1 begincidchar <85> 7 endcidchar
    1 beginnotdefrange <00> <1F> 1 endnotdefrange
    2 beginbfchar <005F> <00660066> <3A51> <D840DC3E> endbfchar";

fn no_file<'a>(_name: CMapName<'_>) -> Option<&'a [u8]> {
    None
}

#[test]
fn codes_have_cids_and_texts() {
    let map = CMap::parse(JAPANESE, |_| None).unwrap();
    let cids: [Option<Cid>; 6] =
        [(0xFF, 2), (0x817E, 2), (0x85, 1), (0x1F, 1), (0x85, 2), (0x0100, 2)]
            .map(|(code, byte_len)| map.lookup_cid_code(code, byte_len));
    assert_eq!(cids, [Some(255), Some(695), Some(7), Some(1), Some(133), None]);
    assert_eq!(map.lookup_cid_code(0xFF, 0), None);
    assert_eq!(map.lookup_cid_code(0xFF, 5), None);
    assert_eq!(map.lookup_bf_string(0x5F), Some(BfString::String("ff".to_string())));
    assert_eq!(map.lookup_bf_string(0x3A51), Some(BfString::Char('\u{2003E}')));
    assert_eq!(map.lookup_bf_string(0x60), None);
}

#[test]
fn long_texts_are_whole() {
    let units = "0061".repeat(200);
    let file = format!("beginbfchar <01> <{units}> endbfchar");
    let map = CMap::parse(file.as_bytes(), no_file).unwrap();
    assert_eq!(map.lookup_bf_string(1), Some(BfString::String("a".repeat(200))));
}

#[test]
fn metadata_are_those_of_the_file() {
    let map = CMap::parse(JAPANESE, no_file).unwrap();
    let Metadata { character_collection, name, writing_mode } = map.metadata();
    let japan = CharacterCollection { family: CidFamily::AdobeJapan1, supplement: 6 };
    assert_eq!(character_collection.as_ref(), Some(&japan));
    assert_eq!(name.as_deref(), Some(&b"Sample-V"[..]));
    assert_eq!(*writing_mode, Some(WritingMode::Vertical));

    let based = CMap::parse(b"/Base usecmap", |_| Some(JAPANESE)).unwrap();
    let Metadata { character_collection, name, writing_mode } = based.metadata().clone();
    assert!(character_collection.is_none() && name.is_none() && writing_mode.is_none());
    assert_eq!(WritingMode::default(), WritingMode::Horizontal);
}

#[test]
fn identities() {
    for (map, mode, name) in [
        (CMap::identity_h(), WritingMode::Horizontal, b"Identity-H"),
        (CMap::identity_v(), WritingMode::Vertical, b"Identity-V"),
    ] {
        assert_eq!(map.lookup_cid_code(0xFFFF, 2), Some(0xFFFF));
        assert_eq!(map.lookup_cid_code(0x41, 1), None);
        assert_eq!(map.lookup_bf_string(0x41), None);
        assert_eq!(map.metadata().writing_mode, Some(mode));
        assert_eq!(map.metadata().name.as_deref(), Some(&name[..]));
        let identity = CharacterCollection { family: CidFamily::AdobeIdentity, supplement: 0 };
        assert_eq!(map.metadata().character_collection, Some(identity));
    }
}

#[test]
fn refused_files_have_no_map() {
    for file in [
        &b"("[..],
        b")",
        b"usecmap",
        b"(A) usecmap",
        b"/A usecmap usecmap",
        b"begincidchar <01> 1.0 endcidchar",
        b"begincidchar <01> 4294967296 endcidchar",
        b"begincidrange <00> endcidrange",
        b"beginbfrange <05> <06> [<0041>] endbfrange",
    ] {
        assert!(CMap::parse(file, |_| Some(b"")).is_none(), "{}", file.escape_ascii());
    }
    for file in [&b""[..], b"% only", b"beginbfrange <06> <05> [] endbfrange"] {
        assert!(CMap::parse(file, no_file).is_some(), "{}", file.escape_ascii());
    }
}

#[test]
fn names_are_asked_in_the_order_of_the_uses() {
    let files = HashMap::from([
        (&b"A"[..], &b"/C usecmap /H usecmap"[..]),
        (b"B", b"/C usecmap begincidchar <02> 2 endcidchar"),
        (b"C", b"begincidchar <01> 1 endcidchar"),
        (b"H", b""),
    ]);
    let asked = RefCell::new(Vec::new());
    let get_cmap = |name: CMapName| {
        asked.borrow_mut().push(name.to_bytes().to_vec());
        files.get(name.to_bytes()).copied()
    };
    let map = CMap::parse(b"/A usecmap /B usecmap", get_cmap).unwrap();
    assert_eq!(*asked.borrow(), [b"A", b"C", b"H", b"B"]);
    // The map is based on the file of the last use.
    assert_eq!(map.lookup_cid_code(1, 1), Some(1));
    assert_eq!(map.lookup_cid_code(2, 1), Some(2));
    assert!(CMap::parse(b"/A usecmap /Missing usecmap", get_cmap).is_none());
}

#[test]
fn known_names_are_asked_as_such() {
    let map = CMap::parse(b"/UniJIS-UTF16-H usecmap", |name| match name {
        CMapName::UniJisUtf16H => Some(JAPANESE),
        _ => None,
    });
    let map = map.unwrap();
    assert_eq!(map.lookup_cid_code(0x8140, 2), Some(633));
}

#[test]
fn sixteen_files_are_a_chain() {
    let next = |name: CMapName<'_>| -> Option<&'static [u8]> {
        const FILES: [&[u8]; 17] = [
            b"/B usecmap",
            b"/C usecmap",
            b"/D usecmap",
            b"/E usecmap",
            b"/F usecmap",
            b"/G usecmap",
            b"/H usecmap",
            b"/I usecmap",
            b"/J usecmap",
            b"/K usecmap",
            b"/L usecmap",
            b"/M usecmap",
            b"/N usecmap",
            b"/O usecmap",
            b"/P usecmap",
            b"/Q usecmap",
            b"begincidchar <01> 1 endcidchar",
        ];
        FILES.get(usize::from(*name.to_bytes().first()? - b'A')).copied()
    };
    // The text and the files B to Q are seventeen.
    assert!(CMap::parse(b"/B usecmap", next).is_none());
    let map = CMap::parse(b"/C usecmap", next).unwrap();
    assert_eq!(map.lookup_cid_code(1, 1), Some(1));
    // Chains without an end.
    assert!(CMap::parse(b"/A usecmap", |_| Some(b"/A usecmap")).is_none());
    assert!(CMap::parse(b"/A usecmap", |_| Some(b"/A usecmap /A usecmap /A usecmap")).is_none());
}

#[test]
fn a_map_keeps_nothing_that_it_was_made_of() {
    let map = {
        let base = b"begincidchar <01> 1 endcidchar".to_vec();
        let file = b"/Base usecmap".to_vec();
        CMap::parse(&file, |_| Some(&base)).unwrap()
    };
    assert_eq!(map.lookup_cid_code(1, 1), Some(1));
}

#[test]
fn names_and_texts() {
    assert_eq!(CMapName::from_bytes(b"90ms-RKSJ-H"), CMapName::N90msRksjH);
    assert_eq!(CMapName::N90msRksjH.to_bytes(), b"90ms-RKSJ-H");
    assert_eq!(CMapName::from_bytes(b"Else"), CMapName::Custom(b"Else"));
    assert_eq!(CMapName::Custom(b"Else").to_bytes(), b"Else");
    assert_ne!(CMapName::H, CMapName::Custom(b"H"));
}

#[test]
fn families_have_their_maps() {
    let of = CidFamily::from_registry_ordering;
    for (ordering, family, unicode, ucs2) in [
        ("Japan1", CidFamily::AdobeJapan1, "UniJIS-UTF16-H", "Adobe-Japan1-UCS2"),
        ("GB1", CidFamily::AdobeGB1, "UniGB-UTF16-H", "Adobe-GB1-UCS2"),
        ("CNS1", CidFamily::AdobeCNS1, "UniCNS-UTF16-H", "Adobe-CNS1-UCS2"),
        ("Korea1", CidFamily::AdobeKorea1, "UniKS-UTF16-H", "Adobe-Korea1-UCS2"),
    ] {
        assert_eq!(of(b"Adobe", ordering.as_bytes()), family);
        assert_eq!(family.unicode_cmap(), Some(CMapName::from_bytes(unicode.as_bytes())));
        assert_eq!(family.ucs2_cmap(), Some(CMapName::from_bytes(ucs2.as_bytes())));
    }
    assert_eq!(of(b"Adobe", b"Identity"), CidFamily::AdobeIdentity);
    assert_eq!(CidFamily::AdobeIdentity.unicode_cmap(), None);
    let custom = of(b"adobe", b"Japan1");
    let like = CidFamily::Custom { registry: b"adobe".to_vec(), ordering: b"Japan1".to_vec() };
    assert_eq!(custom, like);
    assert_eq!(custom.ucs2_cmap(), None);
    assert!(HashSet::from([custom.clone()]).contains(&custom));
}

#[test]
fn the_types_have_their_traits() {
    fn is_shared<T: Clone + Debug + Send + Sync + Unpin + 'static>() {}
    fn is_copied<T: Copy + Eq + Debug>() {}
    fn is_hashed<T: std::hash::Hash + Eq>() {}
    is_shared::<CMap>();
    is_shared::<Metadata>();
    is_shared::<CidRange>();
    is_shared::<BfString>();
    is_shared::<CharacterCollection>();
    is_copied::<CMapName<'_>>();
    is_copied::<WritingMode>();
    is_hashed::<CidFamily>();
    is_hashed::<CharacterCollection>();
    let clone = CMap::identity_h().clone();
    assert_eq!(clone.lookup_cid_code(7, 2), Some(7));
    assert!(format!("{clone:?}").contains("CMap"));
}

#[test]
fn functions_have_their_types() {
    let _: fn(CMapName<'_>) -> Option<&'static [u8]> = load_embedded;
    let _: fn(&CMap, u32, u8) -> Option<Cid> = CMap::lookup_cid_code;
    let _: fn(&CMap, u32) -> Option<BfString> = CMap::lookup_bf_string;
    let _: fn(&CMap) -> &Metadata = CMap::metadata;
    let _: fn() -> CMap = CMap::identity_h;
    let _: fn(&[u8], &[u8]) -> CidFamily = CidFamily::from_registry_ordering;
    let _: fn(&CidFamily) -> Option<CMapName<'static>> = CidFamily::ucs2_cmap;
    let _: fn(&'static [u8]) -> CMapName<'static> = CMapName::from_bytes;
    // Without a bundle in the crate the answer is `None`; with a bundle the map is read over its file.
    let map = CMap::parse(b"/UniJIS-UTF16-V usecmap", load_embedded);
    assert_eq!(map.is_some(), load_embedded(CMapName::UniJisUtf16V).is_some());
    assert_eq!(load_embedded(CMapName::Custom(b"Else")), None);
}
