//! The bundle that is embedded in the crate, if there is one. HAYRO_CMAP_BUNDLE names a bundle of the 65
//! predefined files when the crate is built.

use hayro_cmap::{Bundle, CMap, CMapName, Cause, CidFamily, load_embedded};

#[test]
fn without_a_bundle_there_are_no_files() {
    if option_env!("HAYRO_CMAP_BUNDLE").is_some_and(|name| !name.is_empty()) {
        return;
    }
    assert!(Bundle::embedded().is_none());
    assert_eq!(load_embedded(CMapName::H), None);
    assert!(CMap::parse(b"/H usecmap", load_embedded).is_none());
    assert!(CMap::parse(b"bcmap", |_| None).is_some(), "it is a text");
}

#[test]
fn a_bundle_has_the_predefined_files() {
    if option_env!("HAYRO_CMAP_BUNDLE").is_none_or(str::is_empty) {
        return;
    }
    assert!(Bundle::embedded().is_some(), "HAYRO_CMAP_BUNDLE is no bundle");
    let file = load_embedded(CMapName::N90msRksjH).unwrap();
    assert!(std::ptr::eq(file, load_embedded(CMapName::N90msRksjH).unwrap()));
    assert_eq!(load_embedded(CMapName::Custom(b"90ms-RKSJ-H")), None);

    let map = CMap::parse(file, load_embedded).unwrap();
    assert_eq!(map.lookup_cid_code(0x93FA, 2), Some(3284));
    let family = map.metadata().character_collection.clone().unwrap().family;
    assert_eq!(family, CidFamily::AdobeJapan1);
    let vertical = CMap::parse(b"/UniJIS-UTF16-V usecmap", load_embedded).unwrap();
    assert_eq!(vertical.lookup_cid_code(0xFF08, 2), Some(7899));
    assert_eq!(vertical.lookup_cid_code(0x3042, 2), Some(843));
    let texts = load_embedded(family.ucs2_cmap().unwrap()).unwrap();
    let texts = CMap::parse(texts, load_embedded).unwrap();
    assert_eq!(texts.lookup_bf_string(843), Some(hayro_cmap::BfString::Char('あ')));
}

/// Only `get_cmap` gives files, even if the crate has a bundle.
#[test]
fn a_name_without_an_answer_has_no_file() {
    assert!(CMap::parse(b"/H usecmap", |_| None).is_none());
    let refusal = CMap::parse_explained(b"/H usecmap", |_| None).unwrap_err();
    assert_eq!(refusal.cause(), Cause::NoFile);
    assert!(CMap::open(CMapName::H, |_| None).unwrap().is_none());
}

#[test]
fn a_file_may_be_asked_for_by_many_threads() {
    std::thread::scope(|scope| {
        for _ in 0..8 {
            scope.spawn(|| {
                let map = CMap::open(CMapName::UniJisUtf16V, load_embedded).unwrap();
                assert_eq!(map.is_some(), Bundle::embedded().is_some());
            });
        }
    });
}
