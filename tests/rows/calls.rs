//! The calls of the crate `hayro_cmap`, which its plain build and its bindings over the C library share.

mod declared;

use crate::library::{
    CidRange, Code, Codespace, Collection, File, Layer, Library, Map, Metadata, Outcome, Reading,
    Refusal, Run, Salvaged, Text, TextRange,
};
use crate::row::{Row, RowKind};
use crate::row_error::{Answer, RowError};
use hayro_cmap::{
    BfString, Bundle, CMap, CMapName, Cause, CharacterCollection, CidFamily, ParseOptions,
    WritingMode,
};
use std::cell::Cell;

/// The calls of the crate, and how `cmap_query` is run.
pub struct Crate {
    pub run: fn(&[String], &[u8]) -> Answer<Run>,
}

impl Library for Crate {
    type Map = CMap;

    fn identity(&self, is_vertical: bool) -> Answer<CMap> {
        Ok(if is_vertical { CMap::identity_v() } else { CMap::identity_h() })
    }

    fn read(&self, file: &File<'_>) -> Answer<Reading<CMap>> {
        let bundle = match file.bundle.map(|bytes| bundle_of(bytes, file.are_named)) {
            Some(None) => return Ok(Reading { outcome: Outcome::NoBundle, asked: Ok(0) }),
            bundle => bundle.flatten(),
        };
        let asked = Cell::new(0);
        let get_cmap = |name: CMapName<'_>| {
            asked.set(asked.get() + 1);
            let is_in_bundle = || bundle.as_ref().is_some_and(|bundle| bundle.file(name).is_some());
            base(file, name).or_else(|| if is_in_bundle() { None } else { identity(name) })
        };
        let outcome = match options(bundle.as_ref(), file).parse(file.bytes, get_cmap) {
            Ok(map) => Outcome::Map(map),
            Err(refusal) => Outcome::Refused(refused(&refusal)),
        };
        Ok(Reading { outcome, asked: Ok(asked.get()) })
    }

    fn salvage(&self, file: &File<'_>) -> Answer<Salvaged<CMap>> {
        let bundle = file.bundle.and_then(|bytes| bundle_of(bytes, file.are_named));
        let asked = Cell::new(0);
        let get_cmap = |name: CMapName<'_>| {
            asked.set(asked.get() + 1);
            base(file, name)
        };
        let found = options(bundle.as_ref(), file).salvage(file.bytes, get_cmap);
        let faults = found.faults.iter().map(refused).collect();
        Ok(Salvaged { map: found.map, faults, asked: Ok(asked.get()) })
    }

    fn uses(&self, file: &File<'_>) -> Answer<Option<Vec<Vec<u8>>>> {
        let bundle = file.bundle.and_then(Bundle::open);
        Ok(options(bundle.as_ref(), file).uses(file.bytes))
    }

    fn is_bundle(&self, bytes: &[u8]) -> Answer<bool> {
        Ok(Bundle::open(bytes).is_some())
    }

    fn file_of_bundle(&self, bytes: &[u8], name: &[u8]) -> Answer<Option<Vec<u8>>> {
        Ok(Bundle::open(bytes).and_then(|bundle| bundle.file(CMapName::from_bytes(name))))
    }

    fn answer_of_part(&self, row: &Row<'_>, word: &str, rest: &str) -> Answer<String> {
        match row.kind {
            RowKind::Destination => declared::of_destination(row.input(), word, rest),
            RowKind::Ranges => declared::of_ranges(row.words, word, rest),
            _ => Err(RowError::NoCall),
        }
    }

    fn run(&self, arguments: &[String], input: &[u8]) -> Answer<Run> {
        (self.run)(arguments, input)
    }
}

fn options<'b>(bundle: Option<&'b Bundle>, file: &File<'_>) -> ParseOptions<'b> {
    let options = bundle.map_or(ParseOptions::new(), |bundle| ParseOptions::new().bundle(bundle));
    file.budget.map_or(options, |bytes| options.budget(bytes))
}

/// The bundle of these bytes, or its tables alone. A bundle begins with the length of its tables, in four bytes,
/// and the tables. Files follow.
fn bundle_of(bytes: &[u8], are_named: bool) -> Option<Bundle> {
    let bundle = Bundle::open(bytes)?;
    if are_named {
        return Some(bundle);
    }
    let len = usize::try_from(u32::from_be_bytes(*bytes.first_chunk()?)).ok()?;
    Bundle::open(bytes.get(..len.checked_add(4)?)?)
}

/// The file of a name that stands beside a file.
fn base<'r>(file: &File<'r>, name: CMapName<'_>) -> Option<&'r [u8]> {
    let found = file.bases.iter().find(|(known, _)| *known == name.to_bytes());
    found.map(|(_, bytes)| *bytes)
}

/// What a file says that has the name Identity-H or Identity-V. The crate asks for these too.
fn identity(name: CMapName<'_>) -> Option<&'static [u8]> {
    match name {
        CMapName::IdentityH => Some(
            b"/Registry (Adobe) /Ordering (Identity) /Supplement 0 /CMapName /Identity-H /WMode 0 \
            begincodespacerange <0000> <FFFF> endcodespacerange \
            begincidrange <0000> <FFFF> 0 endcidrange",
        ),
        CMapName::IdentityV => Some(
            b"/Registry (Adobe) /Ordering (Identity) /Supplement 0 /CMapName /Identity-V /WMode 1 \
            begincodespacerange <0000> <FFFF> endcodespacerange \
            begincidrange <0000> <FFFF> 0 endcidrange",
        ),
        _ => None,
    }
}

/// A refusal prints as its cause, after the name of the file at fault.
fn refused(refusal: &hayro_cmap::Refusal) -> Refusal {
    let shown = refusal.to_string();
    let before = refusal.names().last().map(|name| format!("{}: ", name.escape_ascii()));
    let cause = shown.strip_prefix(&before.unwrap_or_default()).unwrap_or(&shown);
    Refusal {
        names: refusal.names().to_vec(),
        cause: cause.to_owned(),
        is_over_budget: refusal.cause() == Cause::OverBudget,
    }
}

impl Map for CMap {
    fn cid(&self, code: u32, byte_len: u8) -> Option<u32> {
        self.lookup_cid_code(code, byte_len)
    }

    fn strict_cid(&self, code: u32, byte_len: u8) -> Option<u32> {
        self.lookup_cid_code_strict(code, byte_len)
    }

    /// Codes in a row have the CIDs of lookups. A CID may be any number: so codes without one are told by two.
    fn is_cid_agreed(&self, code: u32, byte_len: u8) -> bool {
        let filled = [0, 1].map(|absent| {
            let mut cids = [0];
            self.fill_cids(code, byte_len, absent, &mut cids);
            cids[0]
        });
        match self.lookup_cid_code(code, byte_len) {
            Some(cid) => filled == [cid, cid],
            None => filled == [0, 1],
        }
    }

    fn codes(&self, string: &[u8]) -> Vec<Code> {
        let code = |code: hayro_cmap::StringCode| Code {
            code: code.code,
            byte_len: code.byte_len,
            in_codespace: code.in_codespace,
            cut_short: code.cut_short,
        };
        self.decode(string).into_iter().map(code).collect()
    }

    fn text(&self, code: u32) -> Answer<Option<Text>> {
        Ok(self.lookup_bf_string(code).map(text_of))
    }

    fn metadata(&self) -> Answer<Metadata> {
        Ok(metadata_of(CMap::metadata(self)))
    }

    fn layer_count(&self) -> usize {
        self.layers().len()
    }

    fn layer(&self, index: usize) -> Answer<Option<Layer>> {
        Ok(self.layers().get(index).map(|layer| layer_of(self, index, layer)))
    }

    fn copy(&self) -> Answer<CMap> {
        Ok(self.clone())
    }
}

fn text_of(text: BfString) -> Text {
    match text {
        BfString::Char(character) => Text { characters: character.into(), is_one: true },
        BfString::String(characters) => Text { characters, is_one: false },
    }
}

fn metadata_of(metadata: &hayro_cmap::Metadata) -> Metadata {
    Metadata {
        name: metadata.name.clone(),
        mode: metadata.writing_mode.map(|mode| match mode {
            WritingMode::Horizontal => "horizontal",
            WritingMode::Vertical => "vertical",
        }),
        collection: metadata.character_collection.as_ref().map(collection_of),
    }
}

fn collection_of(collection: &CharacterCollection) -> Collection {
    let (registry, ordering): (&[u8], &[u8]) = match &collection.family {
        CidFamily::AdobeJapan1 => (b"Adobe", b"Japan1"),
        CidFamily::AdobeGB1 => (b"Adobe", b"GB1"),
        CidFamily::AdobeCNS1 => (b"Adobe", b"CNS1"),
        CidFamily::AdobeKorea1 => (b"Adobe", b"Korea1"),
        CidFamily::AdobeIdentity => (b"Adobe", b"Identity"),
        CidFamily::Custom { registry, ordering } => (registry, ordering),
    };
    let bytes_of = |name: Option<CMapName<'_>>| name.map(|name| name.to_bytes().to_vec());
    Collection {
        registry: registry.to_vec(),
        ordering: ordering.to_vec(),
        is_custom: matches!(collection.family, CidFamily::Custom { .. }),
        supplement: collection.supplement,
        unicode: bytes_of(collection.family.unicode_cmap()),
        ucs2: bytes_of(collection.family.ucs2_cmap()),
        is_copied: collection.clone() == *collection,
    }
}

fn layer_of(map: &CMap, index: usize, layer: &hayro_cmap::Layer) -> Layer {
    let ranges = |ranges: Vec<hayro_cmap::CidRange>| ranges.into_iter().map(cid_range).collect();
    let cids: [Vec<CidRange>; 4] = [1, 2, 3, 4].map(|len| ranges(map.cid_ranges(index, len)));
    let notdefs: [Vec<CidRange>; 4] = [1, 2, 3, 4].map(|len| ranges(map.notdef_ranges(index, len)));
    let texts: Vec<TextRange> = map.text_ranges(index).into_iter().map(text_range).collect();
    Layer {
        metadata: metadata_of(&layer.metadata),
        cid_counts: cids.each_ref().map(Vec::len),
        notdef_counts: notdefs.each_ref().map(Vec::len),
        text_count: texts.len(),
        codespaces: layer.codespaces.iter().map(codespace).collect(),
        cids,
        notdefs,
        texts,
    }
}

fn codespace(space: &hayro_cmap::Codespace) -> Codespace {
    Codespace { byte_len: space.byte_len as usize, low: space.low, high: space.high }
}

fn cid_range(range: hayro_cmap::CidRange) -> CidRange {
    CidRange { first: range.first, last: range.last, cid: range.cid }
}

/// The text of units is one character or more; a surrogate that stands alone has none.
fn text_range(range: hayro_cmap::TextRange) -> TextRange {
    let characters = String::from_utf16(&range.units).ok().filter(|text| !text.is_empty());
    let text = characters.map(|characters| {
        let is_one = characters.chars().count() == 1;
        Text { characters, is_one }
    });
    TextRange { first: range.first, last: range.last, text }
}
