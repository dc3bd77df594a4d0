//! Loaders, and which names are asked for when a file is read.

use hayro_cmap::{
    Bundle, CMap, CMapName, Cause, Loader, ParseOptions, Reason, Refusal, SalvageLoader, Salvaged,
};
use std::cell::RefCell;
use std::future::{Future, poll_fn};
use std::pin::pin;
use std::task::{Context, Poll, Waker};

/// Seven uses of a file.
fn seven_uses(name: char) -> Vec<u8> {
    format!("/{name} usecmap ").repeat(7).into_bytes()
}

/// The file of a name: each of A to I uses the next one seven times, J has a CID, and `Over` uses `Faulty`, which is
/// malformed. There are no others.
fn file_of(name: CMapName<'_>) -> Option<Vec<u8>> {
    match name.to_bytes() {
        b"Over" => Some(b"/Faulty usecmap".to_vec()),
        b"Faulty" => Some(b"begincidchar <41> x endcidchar".to_vec()),
        b"J" => Some(b"begincidchar <41> 7 endcidchar".to_vec()),
        [letter @ b'A'..=b'I'] => Some(seven_uses(char::from(letter + 1))),
        _ => None,
    }
}

/// The names that are asked for, separated by spaces.
#[derive(Default)]
struct Asked(RefCell<String>);

impl Asked {
    fn file(&self, name: CMapName<'_>) -> Option<Vec<u8>> {
        let text = String::from_utf8(name.to_bytes().to_vec()).unwrap();
        let mut asked = self.0.borrow_mut();
        if !asked.is_empty() {
            asked.push(' ');
        }
        asked.push_str(&text);
        file_of(name)
    }
}

/// What reading a file gives, by a loader and by `parse` in the same way, and the names that each asked for.
fn loaded(options: ParseOptions<'_>, data: &[u8]) -> (Result<CMap, Refusal>, String) {
    let (by_loader, by_parse) = (Asked::default(), Asked::default());
    let mut loader = options.loader(data);
    while let Some(name) = loader.wanted() {
        let file = by_loader.file(name);
        loader.supply(file.as_deref());
    }
    let (found, parsed) =
        (loader.finish(), options.parse(data, |name| Some(by_parse.file(name)?.leak())));
    assert_eq!(by_loader.0, by_parse.0);
    assert_eq!(found.as_ref().err(), parsed.as_ref().err());
    (found, by_loader.0.into_inner())
}

/// The same past faults, by a `SalvageLoader` and by `salvage`.
fn salvaged(options: ParseOptions<'_>, data: &[u8]) -> (Salvaged, String) {
    let (by_loader, by_salvage) = (Asked::default(), Asked::default());
    let mut loader = options.salvage_loader(data);
    while let Some(name) = loader.wanted() {
        let file = by_loader.file(name);
        loader.supply(file.as_deref());
    }
    let (found, other) =
        (loader.finish(), options.salvage(data, |name| Some(by_salvage.file(name)?.leak())));
    assert_eq!(by_loader.0, by_salvage.0);
    assert_eq!(found.faults, other.faults);
    (found, by_loader.0.into_inner())
}

/// The texts of faults.
fn texts_of(faults: &[Refusal]) -> Vec<String> {
    faults.iter().map(Refusal::to_string).collect()
}

#[test]
fn each_file_of_a_chain_is_asked_for_once() {
    // J is used 7^10 times.
    let (map, asked) = loaded(ParseOptions::new(), &seven_uses('A'));
    let map = map.unwrap();
    assert_eq!(asked, "A B C D E F G H I J");
    assert_eq!((map.lookup_cid_code(0x41, 1), map.layers().len()), (Some(7), 11));
    let asked = Asked::default();
    let open = |name: CMapName<'_>| match name.to_bytes() {
        b"Top" => Some(&*seven_uses('A').leak()),
        _ => Some(&*asked.file(name)?.leak()),
    };
    assert!(CMap::open(CMapName::Custom(b"Top"), open).unwrap().is_some());
    assert_eq!(asked.0.into_inner(), "A B C D E F G H I J");
}

#[test]
fn no_name_is_asked_for_after_a_fault() {
    let (refused, asked) = loaded(ParseOptions::new(), b"/J usecmap /Over usecmap /A usecmap");
    let refusal = refused.unwrap_err();
    assert_eq!(asked, "J Over Faulty");
    assert_eq!((refusal.reason(), refusal.offset()), (Some(Reason::CidExpected), Some(19)));
    assert_eq!(refusal.names(), [b"Over".to_vec(), b"Faulty".to_vec()]);

    let (refused, asked) = loaded(ParseOptions::new(), b"/J usecmap /Nowhere usecmap /A usecmap");
    let refusal = refused.unwrap_err();
    assert_eq!(asked, "J Nowhere");
    assert_eq!((refusal.cause(), refusal.names()), (Cause::NoFile, &[b"Nowhere".to_vec()][..]));

    let (refused, asked) = loaded(ParseOptions::new(), b"/A usecmap )");
    assert_eq!((refused.unwrap_err().reason(), &asked[..]), (Some(Reason::StrayDelimiter), ""));
}

#[test]
fn past_faults_each_file_is_asked_for_once() {
    let (found, asked) = salvaged(ParseOptions::new(), &[&seven_uses('A')[..], b")"].concat());
    assert_eq!(asked, "A B C D E F G H I J");
    assert_eq!(texts_of(&found.faults), ["byte 77: a ) or > stands alone"]);
    assert_eq!((found.map.lookup_cid_code(0x41, 1), found.map.layers().len()), (Some(7), 11));
}

#[test]
fn past_faults_a_name_is_asked_for_after_a_fault() {
    let data =
        b"/Over usecmap ) /Nowhere usecmap /Faulty usecmap /Over usecmap /Z usecmap /J usecmap";
    let (found, asked) = salvaged(ParseOptions::new(), data);
    assert_eq!(asked, "Over Faulty Nowhere Z J");
    assert_eq!(
        texts_of(&found.faults),
        [
            "byte 14: a ) or > stands alone",
            "Faulty: byte 19: a CID was expected",
            "Nowhere: no file has this name",
            "Z: no file has this name",
        ]
    );
    assert_eq!(found.faults[1].names(), [b"Over".to_vec(), b"Faulty".to_vec()]);
    assert_eq!(found.map.lookup_cid_code(0x41, 1), Some(7));
    // No name is asked for after a chain that is too long.
    let looped = |name: CMapName<'_>| match name.to_bytes() {
        b"Loop" => Some(&b"/Loop usecmap"[..]),
        _ => panic!("{name:?} is asked for"),
    };
    let found = CMap::salvage(b"/Loop usecmap /J usecmap", looped);
    assert_eq!(found.faults[0].cause(), Cause::ChainLength);
    assert_eq!((found.faults.len(), found.map.layers().len()), (1, 16));
}

#[test]
fn a_file_counts_at_each_use() {
    // 32 bytes, twice the 30 bytes of J, and then A.
    let data = b"/J usecmap /J usecmap /A usecmap";
    for (budget, names) in [(91, "J"), (92, "A")] {
        let (refused, asked) = loaded(ParseOptions::new().budget(budget), data);
        let refusal = refused.unwrap_err();
        assert_eq!((refusal.cause(), refusal.names()), (Cause::OverBudget, &[names.into()][..]));
        assert_eq!(asked, if budget == 91 { "J" } else { "J A" });
    }
}

#[test]
fn past_faults_a_file_past_the_budget_is_asked_for_and_not_read() {
    // 21 bytes, 77 of A, which isn't read, and 30 of J.
    let data = b"/A usecmap /J usecmap";
    let (found, asked) = salvaged(ParseOptions::new().budget(60), data);
    assert_eq!(asked, "A J");
    assert_eq!(texts_of(&found.faults), ["A: the files have more bytes than the budget"]);
    assert_eq!(found.map.lookup_cid_code(0x41, 1), Some(7));
    let (found, asked) = salvaged(ParseOptions::new().budget(20), data);
    assert_eq!((found.faults.len(), found.faults[0].names().len(), &asked[..]), (1, 0, ""));
}

#[test]
fn parse_needs_files_of_identities_and_a_loader_needs_none() {
    let data = b"/Identity-V usecmap /A usecmap";
    let asked = Asked::default();
    let parsed = ParseOptions::new().parse(data, |name| Some(asked.file(name)?.leak()));
    let refusal = parsed.unwrap_err();
    assert_eq!((refusal.cause(), refusal.names()), (Cause::NoFile, &[b"Identity-V".to_vec()][..]));
    assert_eq!(*asked.0.borrow(), "Identity-V");
    let mut loader = Loader::new(b"/Identity-V usecmap");
    loader.supply(None);
    assert_eq!(loader.finish().unwrap().lookup_cid_code(0x1234, 2), Some(0x1234));
    let (found, asked) = salvaged(ParseOptions::new(), b") /Identity-V usecmap");
    assert_eq!((found.faults.len(), &asked[..]), (1, "Identity-V"));
    assert_eq!(found.map.lookup_cid_code(0x1234, 2), Some(0x1234));
}

#[test]
fn a_use_of_an_identity_counts_177_bytes_without_a_file() {
    for name in [CMapName::IdentityH, CMapName::IdentityV] {
        let file = [b"/", name.to_bytes(), b" usecmap"].concat();
        let top = |name: CMapName<'_>| (name.to_bytes() == b"Top").then_some(&file[..]);
        let open = |budget| {
            let options = ParseOptions::new().budget(file.len() as u64 + budget);
            options.open(CMapName::Custom(b"Top"), top)
        };
        let map = open(177).unwrap().unwrap();
        assert_eq!(map.lookup_cid_code(0x1234, 2), Some(0x1234));
        let identity =
            if name == CMapName::IdentityH { CMap::identity_h() } else { CMap::identity_v() };
        assert_eq!(format!("{:?}", map.layers()[1]), format!("{:?}", identity.layers()[0]));
        assert_eq!(map.cid_ranges(1, 2), identity.cid_ranges(0, 2));
        assert_eq!(open(176).unwrap_err().cause(), Cause::OverBudget);
    }
}

/// A bundle of one table of deltas, whose one symbol is 32, and one of counts; its first file has the CIDs 5 and 6 for
/// the codes 0020 and 0021.
fn bundle() -> Bundle {
    let mut bytes = vec![0, 0, 0, 16, 0, 2, 1, 0, 2, 0, 0, 0, 32, 0, 0, 0, 0, 0, 0, 0];
    bytes.extend(b"bcmap\x01\0\0\0\x1A\x04\0\0\0\x10\0\x02\0\0\0\x01\x40\0\x05\0\0");
    Bundle::open(&bytes).unwrap()
}

#[test]
fn a_loader_keeps_its_bundle() {
    let loader = |data: &[u8]| ParseOptions::new().bundle(&bundle()).loader(data);
    let data = b"/83pv-RKSJ-H usecmap".to_vec();
    let mut over = loader(&data);
    drop(data);
    assert_eq!(over.wanted(), Some(CMapName::N83pvRksjH));
    assert_eq!(
        format!("{over:?}"),
        format!("Loader {{ wanted: Some({:?}), .. }}", CMapName::N83pvRksjH)
    );
    over.supply(None);
    assert_eq!(over.wanted(), None);
    // No file is wanted.
    over.supply(Some(b"("));
    assert_eq!(over.finish().unwrap().lookup_cid_code(0x20, 2), Some(5));
    // The file of the caller comes before the file of the bundle.
    let mut own = loader(b"/83pv-RKSJ-H usecmap");
    own.supply(Some(b"begincidchar <0020> 8 endcidchar"));
    assert_eq!(own.finish().unwrap().lookup_cid_code(0x20, 2), Some(8));
    // The caller has no file that is still wanted.
    assert_eq!(loader(b"/83pv-RKSJ-H usecmap").finish().unwrap().lookup_cid_code(0x21, 2), Some(6));
    let refusal = loader(b"/83pv-RKSJ-H usecmap /Else usecmap").finish().unwrap_err();
    assert_eq!((refusal.cause(), refusal.names()), (Cause::NoFile, &[b"Else".to_vec()][..]));
    drop(loader(b"/Else usecmap"));
}

#[test]
fn a_loader_past_faults_keeps_its_bundle() {
    let mut loader =
        ParseOptions::new().bundle(&bundle()).salvage_loader(b"/83pv-RKSJ-H usecmap )");
    assert_eq!(
        format!("{loader:?}"),
        format!("SalvageLoader {{ wanted: Some({:?}), .. }}", CMapName::N83pvRksjH)
    );
    loader.supply(None);
    // No file is wanted.
    assert_eq!(loader.wanted(), None);
    loader.supply(Some(b"("));
    let found = loader.finish();
    assert_eq!((found.map.lookup_cid_code(0x20, 2), found.faults.len()), (Some(5), 1));
    // The caller has no file that is still wanted.
    let found = SalvageLoader::new(b"/A usecmap /B usecmap").finish();
    assert_eq!(texts_of(&found.faults), ["A: no file has this name", "B: no file has this name"]);
    drop(SalvageLoader::new(b"/A usecmap"));
}

#[test]
fn the_caller_comes_before_the_bundle_past_a_fault() {
    let bundle = bundle();
    let data = b"/Faulty usecmap /Sound usecmap";
    let found = ParseOptions::new().bundle(&bundle).salvage(data, |name| match name.to_bytes() {
        b"Faulty" => Some(b"begincidchar <41> x endcidchar"),
        b"Sound" => Some(b"/83pv-RKSJ-H usecmap"),
        b"83pv-RKSJ-H" => Some(b"begincidchar <0020> 8 endcidchar"),
        _ => None,
    });
    assert_eq!(found.map.lookup_cid_code(0x20, 2), Some(8));
    assert_eq!(found.faults.len(), 1);
}

#[test]
fn names_of_any_length_are_whole() {
    let name = [b'N'; 1000];
    let loader = Loader::new(&[b"/", &name[..], b" usecmap"].concat());
    assert_eq!(loader.wanted(), Some(CMapName::Custom(&name)));
    assert_eq!(loader.finish().unwrap_err().names(), [name.to_vec()]);
}

/// The map of a file over files that a caller awaits.
async fn load(
    data: Vec<u8>,
    fetch: impl AsyncFn(CMapName<'_>) -> Option<Vec<u8>>,
) -> Result<CMap, Refusal> {
    let mut loader = Loader::new(&data);
    while let Some(name) = loader.wanted() {
        let file = fetch(name).await;
        loader.supply(file.as_deref());
    }
    loader.finish()
}

/// The file of a name, which is ready when a future asks for the second time.
async fn later(name: CMapName<'_>) -> Option<Vec<u8>> {
    let mut is_ready = false;
    poll_fn(|_| match std::mem::replace(&mut is_ready, true) {
        true => Poll::Ready(()),
        false => Poll::Pending,
    })
    .await;
    file_of(name)
}

#[test]
fn files_are_awaited() {
    fn sent<T: Send + 'static>(future: T) -> T {
        future
    }
    let reading = sent(async {
        let mut loader = Loader::new(&seven_uses('A'));
        while let Some(name) = loader.wanted() {
            let file = later(name).await;
            loader.supply(file.as_deref());
        }
        loader.finish()
    });
    for future in [
        Box::pin(reading) as std::pin::Pin<Box<dyn Future<Output = _>>>,
        Box::pin(load(seven_uses('A'), later)),
    ] {
        let mut future = pin!(future);
        let mut context = Context::from_waker(Waker::noop());
        let mut waits = 0;
        let map: Result<CMap, Refusal> = loop {
            match future.as_mut().poll(&mut context) {
                Poll::Ready(map) => break map,
                Poll::Pending => waits += 1,
            }
        };
        assert_eq!(waits, 10);
        assert_eq!(map.unwrap().lookup_cid_code(0x41, 1), Some(7));
    }
}

#[test]
fn a_loader_may_move_to_another_thread() {
    fn is_shared<T: Send + Sync + Unpin + std::fmt::Debug + 'static>() {}
    is_shared::<Loader>();
    is_shared::<SalvageLoader>();
    let mut loader = Loader::new(b"/J usecmap");
    let map = std::thread::spawn(move || {
        loader.supply(file_of(CMapName::Custom(b"J")).as_deref());
        loader.finish()
    });
    assert_eq!(map.join().unwrap().unwrap().lookup_cid_code(0x41, 1), Some(7));
}
