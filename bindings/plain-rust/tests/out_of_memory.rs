//! Each request for memory of a call is refused in turn: the call reports it, and the program continues.

use hayro_cmap::CMapName;
use hayro_cmap::fallible::alloc::{AllocError, Global};
use hayro_cmap::fallible::collections::{BTreeMap, BinaryHeap};
use hayro_cmap::fallible::{Box, String, Vec};
use hayro_cmap::reader::lint::{Subject, findings_of};
use hayro_cmap::reader::{
    Bundle, CMap, CodeLength, Encoder, Extractor, Fault, NamedFiles, Source, Unencodable,
};
use std::alloc::{GlobalAlloc, Layout, System};
use std::cell::Cell;

/// The allocator of the system, except that it refuses a request of a thread.
struct Refusing;

thread_local! {
    /// How many requests are granted before one is refused; `None` if all are granted.
    static GRANTED: Cell<Option<usize>> = const { Cell::new(None) };
    /// How many requests were refused.
    static REFUSED: Cell<usize> = const { Cell::new(0) };
}

/// Whether a request is granted. After a refused request all requests are granted.
fn is_granted() -> bool {
    match GRANTED.get() {
        Some(0) => {
            GRANTED.set(None);
            REFUSED.set(REFUSED.get() + 1);
            false
        }
        left => {
            GRANTED.set(left.map(|left| left - 1));
            true
        }
    }
}

// SAFETY: each block is one of the system's allocator.
unsafe impl GlobalAlloc for Refusing {
    unsafe fn alloc(&self, layout: Layout) -> *mut u8 {
        // SAFETY: the caller keeps what `alloc` requires.
        if is_granted() { unsafe { System.alloc(layout) } } else { std::ptr::null_mut() }
    }

    unsafe fn dealloc(&self, place: *mut u8, layout: Layout) {
        // SAFETY: the caller keeps what `dealloc` requires.
        unsafe { System.dealloc(place, layout) }
    }

    unsafe fn realloc(&self, place: *mut u8, layout: Layout, len: usize) -> *mut u8 {
        // SAFETY: the caller keeps what `realloc` requires.
        if is_granted() {
            unsafe { System.realloc(place, layout, len) }
        } else {
            std::ptr::null_mut()
        }
    }
}

#[global_allocator]
static ALLOCATOR: Refusing = Refusing;

/// The answer of a call whose request after `granted` others is refused, and whether a request was refused.
fn refusing<T>(granted: usize, call: impl FnOnce() -> T) -> (T, bool) {
    GRANTED.set(Some(granted));
    REFUSED.set(0);
    let answer = call();
    GRANTED.set(None);
    (answer, REFUSED.get() > 0)
}

const BASE: &[u8] = b"/CMapName /Base def 1 begincodespacerange <00> <ff> endcodespacerange
    3 begincidrange <40> <80> 1 <20> <60> 5 <00> <ff> 9 endcidrange";

const TOP: &[u8] = b"/Base usecmap /CIDSystemInfo 3 dict dup begin /Registry (A) def /Ordering (B) def
    /Supplement 0 def end def /CMapName /Top def 1 beginbfchar <41> <004100420043004400450046> endbfchar
    2 beginbfrange <50> <52> [<0041> <0042> <00410042>] <60> <70> <0061> endbfrange
    1 beginnotdefrange <00> <1f> 1 endnotdefrange";

const BROKEN: &[u8] = b"/Base usecmap begincidchar <41> x <42> 7 endcidchar /Missing usecmap";

fn files() -> NamedFiles<'static, (&'static [u8], &'static [u8]), Bundle<'static>> {
    NamedFiles::alone(&[(b"Base", BASE)])
}

/// Makes a call with each of its requests refused in turn. It returns the number of requests.
fn refuse_each<T, E>(call: impl Fn() -> Result<T, E>, is_memory: impl Fn(&E) -> bool) -> usize {
    for granted in 0.. {
        match refusing(granted, &call) {
            (Err(fault), true) => assert!(is_memory(&fault), "request {granted}"),
            (Err(_), false) => panic!("nothing was refused"),
            // A list that can't give memory back stays as it is, and the call succeeds.
            (Ok(_), true) => {}
            (Ok(_), false) => return granted,
        }
    }
    unreachable!("a call makes finitely many requests")
}

#[test]
fn readings_report_it() {
    let files = files();
    let parse = || CMap::parse_from(Global, None, TOP, None, &files);
    assert!(refuse_each(parse, |fault| matches!(fault, Fault::Memory)) > 20);
    let salvage = || CMap::salvage(Global, None, BROKEN, None, &files);
    assert!(refuse_each(salvage, |AllocError| true) > 10);
    let open = || CMap::open(Global, None, b"Base", None, &files);
    assert!(refuse_each(open, |fault| matches!(fault, Fault::Memory)) > 5);
}

#[test]
fn lookups_report_it() {
    let files = files();
    assert!(files.file(b"Base").is_some());
    let map = CMap::parse_from(Global, None, TOP, None, &files).expect("it is in the grammar");
    let text = || map.lookup_bf_string(Global, 0x41);
    assert_eq!(refuse_each(text, |AllocError| true), 1);
    let codes = || map.codes_of_cid(Global, 57, CodeLength::One);
    assert_eq!(refuse_each(codes, |AllocError| true), 1);
    assert_eq!(refuse_each(|| map.lookup_bf_string(Global, 0x60), |AllocError| true), 0);
    let (cid, is_refused) = refusing(0, || map.lookup_cid_code(0x30, 1));
    assert_eq!((cid, is_refused), (Some(57), false));
}

#[test]
fn encodings_report_it() {
    let map = CMap::parse_from(Global, None, TOP, None, &files()).expect("it is in the grammar");
    let layers = map.layers();
    let font = Extractor { encoding: layers, to_unicode: Some(layers), collection: None };
    let build = || Encoder::build_with(Global, &font, Some(layers), false);
    assert!(refuse_each(build, |AllocError| true) > 10);
    let encoder = Encoder::build(Global, &font).expect("there is memory");
    let encode = || encoder.encode(Global, "ABCDEF");
    assert!(refuse_each(encode, |fault| matches!(fault, Fault::Memory)) > 2);
    let pieces = || encoder.pieces(Global, "ABCDEF");
    assert!(refuse_each(pieces, |fault| matches!(fault, Fault::Memory)) > 2);
    let lossy = || encoder.encode_lossy(Global, "AxB", b"?");
    assert!(refuse_each(lossy, |AllocError| true) > 2);
    let refused = encoder.encode(Global, "ABx").err();
    assert!(matches!(refused, Some(Fault::Refused(Unencodable { offset: 2 }))));
}

#[test]
fn warnings_report_it() {
    let map = CMap::parse_from(Global, None, TOP, None, &files()).expect("it is in the grammar");
    let subject = Subject {
        map: map.layers(),
        text: Some(TOP),
        file_name: None,
        to_unicode: true,
        shown: &[0x41, 0x42, 0x50],
    };
    let count = findings_of(Global, &subject).expect("there is memory").len();
    assert!(count > 0);
    let lint = || findings_of(Global, &subject).map(|found| assert_eq!(found.len(), count));
    assert!(refuse_each(lint, |AllocError| true) > 10);
}

#[test]
fn collections_report_it() {
    assert_eq!(refuse_each(|| Box::new(Global, 1), |failed| failed.value == 1), 1);
    assert_eq!(refuse_each(|| Vec::from_slice(Global, &[1, 2]), |AllocError| true), 1);
    assert_eq!(refuse_each(|| Vec::from_elem(Global, 1, 2), |AllocError| true), 1);
    assert_eq!(refuse_each(|| String::from_str(Global, "a"), |AllocError| true), 1);
    assert_eq!(refuse_each(|| Vec::new(Global).push(1), |failed| failed.value == 1), 1);
    assert_eq!(refuse_each(|| BinaryHeap::new(Global).push(1), |failed| failed.value == 1), 1);
    let insert = || BTreeMap::new(Global).insert("a", 1).map(|_| ());
    assert_eq!(refuse_each(insert, |failed| failed.value == ("a", 1)), 2);
}

/// A list that can't be copied stays as it is.
#[test]
fn a_list_is_as_before() {
    let mut items = Vec::with_capacity(Global, 100).expect("there is memory");
    items.extend_from_slice(&[3, 1, 2]).expect("there is memory");
    let ((), is_refused) = refusing(0, || items.shrink_to_fit());
    assert!(is_refused && items.capacity() >= 100);
    let (sorted, is_refused) = refusing(0, || items.sort_by_key(|item| *item));
    assert!(is_refused && sorted.is_err());
    assert_eq!(items.as_slice(), [3, 1, 2]);
}

/// Many entries are split into parts: a refused request loses none of them.
#[test]
fn a_map_is_as_before() {
    let mut map = BTreeMap::new(Global);
    let mut refused = 0;
    for key in 0..2000_u32 {
        let (failed, is_refused) = refusing(0, || map.insert(key, key).is_err());
        assert_eq!(failed, is_refused);
        refused += usize::from(failed);
        if failed {
            map.insert(key, key).expect("there is memory");
        }
    }
    assert!(refused > 10);
    assert!((0..2000).all(|key| map.get(&key) == Some(&key)));
}

#[test]
fn names_are_asked_for() {
    let get_cmap = |name: CMapName<'_>| (name == CMapName::Custom(b"Base")).then_some(BASE);
    let parse = || CMap::parse(Global, TOP, None, &get_cmap);
    assert!(refuse_each(parse, |AllocError| true) > 20);
}
