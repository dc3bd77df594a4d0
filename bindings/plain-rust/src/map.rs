//! Maps.

use crate::fallible::alloc::Global;
use crate::made;
use crate::metadata::Metadata;
use crate::reader::runs::{HasRange, Looks, Table};
use crate::reader::{self, BfRange, Cid, CodeLength, Layers};
use crate::text::BfString;
use alloc::sync::Arc;
use alloc::vec::Vec;
use core::fmt::{self, Debug, Formatter};
use core::ops::RangeInclusive;

/// The map of a CMap file: CIDs and texts for the codes of a font.
///
/// Any number of threads may use one map. A clone copies nothing.
///
/// # Out of memory
///
/// If memory runs out, the program ends, as with Rust's own collections. Calls of [`reader`](crate::reader)
/// report it instead.
#[derive(Clone)]
pub struct CMap {
    held: Arc<Held>,
}

struct Held {
    map: reader::CMap,
    metadata: Metadata,
}

impl CMap {
    /// The predefined CMap Identity-H: codes of two bytes are CIDs, for horizontal writing.
    pub fn identity_h() -> CMap {
        CMap::of(made(reader::CMap::identity_h(Global)))
    }

    /// The predefined CMap Identity-V: codes of two bytes are CIDs, for vertical writing.
    pub fn identity_v() -> CMap {
        CMap::of(made(reader::CMap::identity_v(Global)))
    }

    /// The metadata of the file itself, without the files that it uses.
    pub fn metadata(&self) -> &Metadata {
        &self.held.metadata
    }

    /// The CID of a code of `byte_len` bytes, which are the number `code`, big-endian. Codespace ranges are
    /// ignored.
    #[inline]
    pub fn lookup_cid_code(&self, code: u32, byte_len: u8) -> Option<Cid> {
        self.held.map.lookup_cid_code(code, byte_len)
    }

    /// The same for a code in a codespace range of its length, byte by byte; other codes have no CID.
    ///
    /// ```
    /// let file = b"begincodespacerange <8140> <9FFC> endcodespacerange
    ///              begincidrange <8140> <9FFC> 100 endcidrange";
    /// let map = hayro_cmap::CMap::parse(file, |_| None).unwrap();
    /// assert_eq!(map.lookup_cid_code_strict(0x8240, 2), Some(356));
    /// assert_eq!(map.lookup_cid_code_strict(0x82FF, 2), None);
    /// assert_eq!(map.lookup_cid_code(0x82FF, 2), Some(547));
    /// ```
    pub fn lookup_cid_code_strict(&self, code: u32, byte_len: u8) -> Option<Cid> {
        self.held.map.lookup_cid_code_strict(code, byte_len)
    }

    /// The text of a code. In a map from CIDs to Unicode, such as
    /// [`CidFamily::ucs2_cmap`](crate::CidFamily::ucs2_cmap) names, the codes are CIDs.
    #[inline]
    pub fn lookup_bf_string(&self, code: u32) -> Option<BfString> {
        made(self.held.map.lookup_bf_string(Global, code)).map(BfString::of)
    }

    /// Fills `cids` with the CIDs of the codes of `byte_len` bytes from `first` on, each as
    /// [`CMap::lookup_cid_code`] gives it, with `absent` for a code that has none and for items after the
    /// code [`u32::MAX`].
    ///
    /// ```
    /// let map = hayro_cmap::CMap::parse(b"begincidrange <20> <7E> 1 endcidrange", |_| None).unwrap();
    /// let mut cids = [0; 4];
    /// map.fill_cids(0x1E, 1, u32::MAX, &mut cids);
    /// assert_eq!(cids, [u32::MAX, u32::MAX, 1, 2]);
    /// ```
    pub fn fill_cids(&self, first: u32, byte_len: u8, absent: Cid, cids: &mut [Cid]) {
        self.reader_layers().fill_cids(first, byte_len, absent, cids);
    }

    /// Cuts a string into codes by the codespace ranges, each with its CID.
    ///
    /// ```
    /// let codes = hayro_cmap::CMap::identity_h().decode(b"\x12\x34\x56");
    /// assert_eq!((codes[0].code, codes[0].byte_len, codes[0].cid), (0x1234, 2, Some(0x1234)));
    /// assert_eq!((codes[1].code, codes[1].cut_short), (0x56, true));
    /// ```
    pub fn decode(&self, string: &[u8]) -> Vec<StringCode> {
        let mut codes = Vec::new();
        let mut rest = string;
        while let Some(code) = self.held.map.next_code(rest) {
            rest = &rest[usize::from(code.byte_len)..];
            codes.push(StringCode::of(code, self.lookup_cid_code(code.code, code.byte_len)));
        }
        codes
    }

    /// The layers of the map, 1 to 16: layer 0 is the file itself, layer 1 the file that it is based on, and
    /// so on.
    pub fn layers(&self) -> Vec<Layer> {
        self.reader_layers().as_slice().iter().map(Layer::of).collect()
    }

    /// The declarations of CIDs of a layer for codes of `byte_len` bytes, in the order of its file; none if
    /// there is no such layer. From code to code the CID of a declaration counts on. If several
    /// declarations of the layer contain a code, the last one decides.
    ///
    /// ```
    /// let file = b"begincidrange <20> <7E> 1 endcidrange begincidchar <41> 7 endcidchar";
    /// let map = hayro_cmap::CMap::parse(file, |_| None).unwrap();
    /// let ranges = map.cid_ranges(0, 1);
    /// assert_eq!((ranges[0].first, ranges[0].last, ranges[0].cid), (0x20, 0x7E, 1));
    /// assert_eq!((ranges[1].first, ranges[1].last, ranges[1].cid), (0x41, 0x41, 7));
    /// ```
    pub fn cid_ranges(&self, layer: usize, byte_len: u8) -> Vec<CidRange> {
        let declared = |len| Some(declarations(self.layer(layer)?.cids(len), CidRange::of));
        CodeLength::of(byte_len).and_then(declared).unwrap_or_default()
    }

    /// The declarations of notdefs of a layer for codes of `byte_len` bytes, in the order of its file; none
    /// if there is no such layer. All codes of one have the same CID, unless a declaration of CIDs of the
    /// layer contains them.
    pub fn notdef_ranges(&self, layer: usize, byte_len: u8) -> Vec<CidRange> {
        let declared = |len| Some(declarations(self.layer(layer)?.notdefs(len), CidRange::of));
        CodeLength::of(byte_len).and_then(declared).unwrap_or_default()
    }

    /// The declarations of texts of a layer, in the order of its file; none if there is no such layer.
    ///
    /// ```
    /// let map = hayro_cmap::CMap::parse(b"beginbfrange <41> <5A> <0061> endbfrange", |_| None).unwrap();
    /// let ranges = map.text_ranges(0);
    /// assert_eq!((ranges[0].first, ranges[0].last), (0x41, 0x5A));
    /// assert_eq!(String::from_utf16(&ranges[0].units).unwrap(), "a");
    /// ```
    pub fn text_ranges(&self, layer: usize) -> Vec<TextRange> {
        let declared = |layer: &reader::Layer| declarations(layer.texts(), TextRange::of);
        self.layer(layer).map(declared).unwrap_or_default()
    }

    /// All codes that have this CID, as [`CMap::lookup_cid_code`] gives it for codes of `byte_len` bytes:
    /// ranges in order, each as long as possible. They include declared codes that don't fit in `byte_len`
    /// bytes.
    ///
    /// ```
    /// let file = b"begincidrange <20> <7E> 1 endcidrange begincidchar <41> 7 endcidchar";
    /// let map = hayro_cmap::CMap::parse(file, |_| None).unwrap();
    /// assert_eq!(map.codes_of_cid(7, 1), [0x26..=0x26, 0x41..=0x41]);
    /// assert_eq!(map.codes_of_cid(34, 1), []);
    /// ```
    pub fn codes_of_cid(&self, cid: Cid, byte_len: u8) -> Vec<RangeInclusive<u32>> {
        let Some(len) = CodeLength::of(byte_len) else { return Vec::new() };
        let ranges = made(self.held.map.codes_of_cid(Global, cid, len));
        ranges.iter().map(|range| range.start..=range.end).collect()
    }

    pub(crate) fn of(map: reader::CMap) -> CMap {
        let metadata = Metadata::of(map.metadata());
        CMap { held: Arc::new(Held { map, metadata }) }
    }

    pub(crate) fn reader_layers(&self) -> &Layers {
        self.held.map.layers()
    }

    fn layer(&self, index: usize) -> Option<&reader::Layer> {
        self.reader_layers().as_slice().get(index)
    }
}

/// The declarations of a table, in the order of its file.
fn declarations<T: HasRange, D>(table: &Table<T>, of: impl Fn(&T) -> D) -> Vec<D> {
    let mut looks = Looks::new();
    (0..table.decl_count()).map(|index| of(table.decl(index, &mut looks))).collect()
}

impl Debug for CMap {
    fn fmt(&self, f: &mut Formatter<'_>) -> fmt::Result {
        f.debug_struct("CMap").field("metadata", self.metadata()).finish_non_exhaustive()
    }
}

/// A code of a string.
#[derive(Clone, Copy, Debug, PartialEq, Eq, Hash)]
#[non_exhaustive]
pub struct StringCode {
    /// The number of its bytes, big-endian.
    pub code: u32,
    /// How many bytes it has, 1 to 4.
    pub byte_len: u8,
    /// Its CID. [`CMap::decode`] gives the CID of [`CMap::lookup_cid_code`].
    pub cid: Option<Cid>,
    /// Whether it lies in a codespace range. Only then does [`CMap::lookup_cid_code_strict`] give a CID.
    pub in_codespace: bool,
    /// Whether the string ends before the code does.
    pub cut_short: bool,
}

impl StringCode {
    #[inline]
    pub(crate) fn of(code: reader::StringCode, cid: Option<Cid>) -> StringCode {
        StringCode {
            code: code.code,
            byte_len: code.byte_len,
            cid,
            in_codespace: code.in_codespace,
            cut_short: code.cut_short,
        }
    }
}

/// What one file of a map declares.
#[derive(Clone, Debug)]
#[non_exhaustive]
pub struct Layer {
    /// The metadata of the file.
    pub metadata: Metadata,
    /// Its codespace ranges, in order.
    pub codespaces: Vec<Codespace>,
}

impl Layer {
    fn of(layer: &reader::Layer) -> Layer {
        Layer {
            metadata: Metadata::of(layer.metadata()),
            codespaces: layer.codespaces().iter().map(Codespace::of).collect(),
        }
    }
}

/// A codespace range: codes of `byte_len` bytes, each byte between the bytes of `low` and `high` at its place.
#[derive(Clone, Copy, Debug, Default, PartialEq, Eq, Hash)]
pub struct Codespace {
    /// The lowest bytes, as a number.
    pub low: u32,
    /// The highest bytes, as a number.
    pub high: u32,
    /// How many bytes a code has, 1 to 4.
    pub byte_len: u32,
}

impl Codespace {
    fn of(space: &reader::Codespace) -> Codespace {
        Codespace { low: space.low, high: space.high, byte_len: u32::from(space.len.count()) }
    }
}

/// A declaration of CIDs for the codes from `first` to `last`; for none if `first` is greater.
#[derive(Clone, Copy, Debug, Default, PartialEq, Eq, Hash)]
#[non_exhaustive]
pub struct CidRange {
    /// The first code.
    pub first: u32,
    /// The last code.
    pub last: u32,
    /// The CID of the first code.
    pub cid: Cid,
}

impl CidRange {
    fn of(declared: &reader::CidRange) -> CidRange {
        let range = declared.range();
        CidRange { first: range.start, last: range.end, cid: declared.cid }
    }
}

/// A declaration of texts for the codes from `first` to `last`; for none if `first` is greater.
#[derive(Clone, Debug, PartialEq, Eq, Hash)]
#[non_exhaustive]
pub struct TextRange {
    /// The first code.
    pub first: u32,
    /// The last code.
    pub last: u32,
    /// The text of the first code, in UTF-16 as the file has it, so that a surrogate may stand alone.
    /// From code to code the last unit counts on.
    pub units: Vec<u16>,
}

impl TextRange {
    fn of(declared: &BfRange) -> TextRange {
        let range = declared.range();
        let units = declared.units.as_slice().to_vec();
        TextRange { first: range.start, last: range.end, units }
    }
}
