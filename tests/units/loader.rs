//! A loader that copies names, over files of which a buffer holds one at a time.

use crate::fallible::alloc::Global;
use crate::reader::{CMap, Cause, Fault, Layers, Loader, NameCopies, RefusedFile};
use alloc::string::String;
use alloc::vec::Vec;

/// The file of a number in a chain of `count` files: it uses the next file seven times, the last file has a CID.
fn file(number: usize, count: usize) -> String {
    if number + 1 == count {
        String::from("1 begincidchar <41> 7 endcidchar")
    } else {
        alloc::format!("/F{} usecmap ", number + 1).repeat(7)
    }
}

/// The result of loading a chain, and the numbers of the files that are wanted. A file beyond the chain is missing.
fn load(count: usize, most: usize) -> (Result<Layers, Fault<RefusedFile<NameCopies>>>, Vec<usize>) {
    let mut buffer = file(0, count);
    let mut loader =
        Loader::<NameCopies>::new(Global, None, buffer.as_bytes(), None).expect("there is memory");
    let mut wanted = Vec::new();
    while let Some(name) = loader.wanted() {
        let number = core::str::from_utf8(&name[1..]).expect("digits").parse().expect("digits");
        wanted.push(number);
        buffer = file(number, count);
        let supplied = if number < most { Some(buffer.as_bytes()) } else { None };
        loader.supply(supplied, None).expect("there is memory");
    }
    (loader.finish(), wanted)
}

/// The names and the cause of a refusal.
fn refusal(count: usize, most: usize) -> (Vec<String>, Cause) {
    let Err(Fault::Refused(refused)) = load(count, most).0 else { panic!("it is refused") };
    let refusal = refused.refusal(Global).expect("there is memory");
    let name = |name: &&[u8]| String::from_utf8(name.to_vec()).expect("letters");
    (refusal.names.iter().map(name).collect(), refusal.cause)
}

#[test]
fn each_file_is_wanted_once() {
    let (layers, wanted) = load(10, 10);
    assert_eq!(wanted, [1, 2, 3, 4, 5, 6, 7, 8, 9]);
    let map = CMap::of(layers.ok().expect("the files are whole"));
    assert_eq!(map.layers().as_slice().len(), 10);
    assert_eq!(map.lookup_cid_code(0x41, 1), Some(7));
}

#[test]
fn a_missing_file_has_the_names_that_lead_to_it() {
    let (names, cause) = refusal(10, 3);
    assert_eq!(names, ["F1", "F2", "F3"]);
    assert!(matches!(cause, Cause::NoFile));
    assert_eq!(load(10, 3).1, [1, 2, 3]);
}

#[test]
fn seventeen_files_are_a_chain_too_long() {
    assert!(load(16, 16).0.is_ok());
    let (names, cause) = refusal(17, 17);
    assert_eq!(names.len(), 16);
    assert!(matches!(cause, Cause::ChainLength));
}
