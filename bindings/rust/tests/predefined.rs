//! Predefined files, in folders that `CMAP_PATH` names. There is one test, since all threads share the variable.

use hayro_cmap::{CMap, CMapName, CidFamily, Extractor, predefined_file};
use std::{env, fs, process};

fn has_file(name: &[u8]) -> bool {
    predefined_file(CMapName::from_bytes(name)).unwrap().is_some()
}

#[test]
fn predefined_files_are_found() {
    let folder = env::temp_dir().join(format!("cmap-{}", process::id()));
    let (below, hidden) = (folder.join("below"), folder.join(".hidden"));
    fs::create_dir_all(&below).unwrap();
    fs::create_dir_all(&hidden).unwrap();
    fs::write(below.join("Top"), "/Base usecmap begincidchar <02> 2 endcidchar").unwrap();
    fs::write(below.join("Base"), "begincidchar <01> 1 endcidchar").unwrap();
    fs::write(below.join("A-B-UCS2"), "beginbfchar <05> <0061> endbfchar").unwrap();
    fs::write(below.join("Adobe-GB1-UCS2"), "beginbfchar <05> <0061> <06> <0061> endbfchar")
        .unwrap();
    let unicode =
        "begincodespacerange <0000> <FFFF> endcodespacerange begincidchar <0061> 6 endcidchar";
    fs::write(below.join("UniGB-UTF16-H"), unicode).unwrap();
    fs::write(folder.join("Outside"), "begincidchar <01> 1 endcidchar").unwrap();
    fs::write(hidden.join("Hidden"), "begincidchar <01> 1 endcidchar").unwrap();

    let path = env::join_paths(["/nowhere".as_ref(), folder.as_path()]).unwrap();
    // SAFETY: no other thread reads the environment.
    unsafe { env::set_var("CMAP_PATH", path) };
    let map = CMap::open_predefined(CMapName::Custom(b"Top")).unwrap().unwrap();
    assert_eq!([1, 2, 3].map(|code| map.lookup_cid_code(code, 1)), [Some(1), Some(2), None]);
    assert!(CMap::open_predefined(CMapName::Custom(b"Else")).unwrap().is_none());
    assert!(CMap::open_predefined(CMapName::IdentityV).unwrap().is_some());
    assert!(CMap::open_predefined("Top").unwrap().is_some());
    let encoded = |family| {
        let font = Extractor::over_predefined_collection(CMap::identity_h(), None, &family);
        font.unwrap().encoder().encode("a").ok()
    };
    assert_eq!(encoded(CidFamily::AdobeGB1), Some(b"\0\x06".to_vec()));
    assert_eq!(encoded(CidFamily::from_registry_ordering(b"A", b"B")), Some(b"\0\x05".to_vec()));
    assert_eq!(encoded(CidFamily::AdobeCNS1), None);
    assert!(!has_file(b"below") && !has_file(b"") && !has_file(b"..") && !has_file(b"Top\0"));
    assert!(!has_file(b"Hidden"));

    // SAFETY: as above.
    unsafe { env::set_var("CMAP_PATH", &below) };
    assert!(has_file(b"Top") && !has_file(b"../Outside"));
    // SAFETY: as above.
    unsafe { env::set_var("CMAP_PATH", &hidden) };
    assert!(has_file(b"Hidden"));
    // SAFETY: as above.
    unsafe { env::set_var("CMAP_PATH", "") };
    assert!(!has_file(b"Top"));
    fs::remove_dir_all(folder).unwrap();
}
