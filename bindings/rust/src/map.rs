//! Maps.

use crate::collection::{CharacterCollection, CidFamily};
use crate::ffi::{MapHandle, RawCode};
use crate::metadata::{Metadata, WritingMode};
use crate::pool::Pool;
use crate::text::BfString;
use std::fmt::{self, Debug, Formatter};
use std::ops::RangeInclusive;
use std::sync::Arc;

/// The number of a character in a character collection. Adobe Technical Note 5014.
pub type Cid = u32;

/// The map of a CMap file: CIDs and texts for the codes of a font.
///
/// # Threads and clones
///
/// Any number of threads may use one map, and up to eight at once don't wait for each other. A lookup takes
/// the lock of its thread. Up to eight threads have locks of their own; such a lock costs two atomic
/// operations, some ten nanoseconds. [`CMap::decode`] and [`CMap::fill_cids`] take the lock once for all
/// their codes. A clone copies nothing, and has locks of its own.
///
/// # Out of memory
///
/// If memory runs out, the program ends, as with Rust's own collections.
#[derive(Clone)]
pub struct CMap {
    pool: Pool<MapHandle>,
    metadata: Arc<Metadata>,
}

impl CMap {
    /// The predefined CMap Identity-H: codes of two bytes are CIDs, for horizontal writing.
    pub fn identity_h() -> CMap {
        CMap::of(MapHandle::identity(false))
    }

    /// The predefined CMap Identity-V: codes of two bytes are CIDs, for vertical writing.
    pub fn identity_v() -> CMap {
        CMap::of(MapHandle::identity(true))
    }

    /// The metadata of the file itself, without the files that it uses.
    pub fn metadata(&self) -> &Metadata {
        &self.metadata
    }

    /// The CID of a code of `byte_len` bytes, which are the number `code`, big-endian. Codespace ranges are
    /// ignored.
    pub fn lookup_cid_code(&self, code: u32, byte_len: u8) -> Option<Cid> {
        self.pool.ask(|map| map.cid(code, byte_len))
    }

    /// The same for a code in a codespace range of its length, byte by byte; other codes have no CID.
    ///
    /// ```
    /// let file = b"begincodespacerange <8140> <9FFC> endcodespacerange
    ///              begincidrange <8140> <9FFC> 100 endcidrange";
    /// let map = hayro_cmap::CMap::parse(file, |_| None).unwrap();
    /// assert_eq!(map.lookup_cid_code_strict(0x8240, 2), Some(356));
    /// assert_eq!(map.lookup_cid_code_strict(0x82FF, 2), None);
    /// assert_eq!(map.lookup_cid_code(0x82FF, 2), Some(547));
    /// ```
    pub fn lookup_cid_code_strict(&self, code: u32, byte_len: u8) -> Option<Cid> {
        self.pool.ask(|map| map.cid_strict(code, byte_len))
    }

    /// The text of a code. In a map from CIDs to Unicode, such as
    /// [`CidFamily::ucs2_cmap`](crate::CidFamily::ucs2_cmap) names, the codes are CIDs.
    pub fn lookup_bf_string(&self, code: u32) -> Option<BfString> {
        self.pool.ask(|map| map.text(code, BfString::of))
    }

    /// Fills `cids` with the CIDs of the codes of `byte_len` bytes from `first` on, each as
    /// [`CMap::lookup_cid_code`] gives it, with `absent` for a code that has none and for items after the
    /// code [`u32::MAX`].
    ///
    /// ```
    /// let map = hayro_cmap::CMap::parse(b"begincidrange <20> <7E> 1 endcidrange", |_| None).unwrap();
    /// let mut cids = [0; 4];
    /// map.fill_cids(0x1E, 1, u32::MAX, &mut cids);
    /// assert_eq!(cids, [u32::MAX, u32::MAX, 1, 2]);
    /// ```
    pub fn fill_cids(&self, first: u32, byte_len: u8, absent: Cid, cids: &mut [Cid]) {
        self.pool.ask(|map| map.cids(first, byte_len, absent, cids));
    }

    /// Cuts a string into codes by the codespace ranges, each with its CID.
    ///
    /// ```
    /// let codes = hayro_cmap::CMap::identity_h().decode(b"\x12\x34\x56");
    /// assert_eq!((codes[0].code, codes[0].byte_len, codes[0].cid), (0x1234, 2, Some(0x1234)));
    /// assert_eq!((codes[1].code, codes[1].cut_short), (0x56, true));
    /// ```
    pub fn decode(&self, string: &[u8]) -> Vec<StringCode> {
        let mut codes = Vec::new();
        self.pool.ask(|map| {
            let (mut room, mut rest) = ([RawCode::default(); 64], string);
            while !rest.is_empty() {
                let (made, taken) = map.decode(rest, &mut room);
                codes.extend(room[..made].iter().map(StringCode::of));
                rest = &rest[taken..];
            }
        });
        codes
    }

    /// The layers of the map, 1 to 16: layer 0 is the file itself, layer 1 the file that it is based on, and
    /// so on.
    pub fn layers(&self) -> Vec<Layer> {
        self.pool.ask(|map| {
            (0..map.layers())
                .map(|index| Layer {
                    metadata: metadata_of(map, index),
                    codespaces: map.codespaces(index),
                })
                .collect()
        })
    }

    /// The declarations of CIDs of a layer for codes of `byte_len` bytes, in the order of its file; none if
    /// there is no such layer. From code to code the CID of a declaration counts on. If several
    /// declarations of the layer contain a code, the last one decides.
    ///
    /// ```
    /// let file = b"begincidrange <20> <7E> 1 endcidrange begincidchar <41> 7 endcidchar";
    /// let map = hayro_cmap::CMap::parse(file, |_| None).unwrap();
    /// let ranges = map.cid_ranges(0, 1);
    /// assert_eq!((ranges[0].first, ranges[0].last, ranges[0].cid), (0x20, 0x7E, 1));
    /// assert_eq!((ranges[1].first, ranges[1].last, ranges[1].cid), (0x41, 0x41, 7));
    /// ```
    pub fn cid_ranges(&self, layer: usize, byte_len: u8) -> Vec<CidRange> {
        self.pool.ask(|map| map.cid_ranges(layer, byte_len))
    }

    /// The declarations of notdefs of a layer for codes of `byte_len` bytes, in the order of its file; none
    /// if there is no such layer. All codes of one have the same CID, unless a declaration of CIDs of the
    /// layer contains them.
    pub fn notdef_ranges(&self, layer: usize, byte_len: u8) -> Vec<CidRange> {
        self.pool.ask(|map| map.notdef_ranges(layer, byte_len))
    }

    /// The declarations of texts of a layer, in the order of its file; none if there is no such layer.
    ///
    /// ```
    /// let map = hayro_cmap::CMap::parse(b"beginbfrange <41> <5A> <0061> endbfrange", |_| None).unwrap();
    /// let ranges = map.text_ranges(0);
    /// assert_eq!((ranges[0].first, ranges[0].last), (0x41, 0x5A));
    /// assert_eq!(String::from_utf16(&ranges[0].units).unwrap(), "a");
    /// ```
    pub fn text_ranges(&self, layer: usize) -> Vec<TextRange> {
        self.pool.ask(|map| map.text_ranges(layer))
    }

    /// All codes that have this CID, as [`CMap::lookup_cid_code`] gives it for codes of `byte_len` bytes:
    /// ranges in order, each as long as possible. They include declared codes that don't fit in `byte_len`
    /// bytes.
    ///
    /// ```
    /// let file = b"begincidrange <20> <7E> 1 endcidrange begincidchar <41> 7 endcidchar";
    /// let map = hayro_cmap::CMap::parse(file, |_| None).unwrap();
    /// assert_eq!(map.codes_of_cid(7, 1), [0x26..=0x26, 0x41..=0x41]);
    /// assert_eq!(map.codes_of_cid(34, 1), []);
    /// ```
    pub fn codes_of_cid(&self, cid: Cid, byte_len: u8) -> Vec<RangeInclusive<u32>> {
        self.pool.ask(|map| map.codes_of_cid(cid, byte_len))
    }

    /// Calls with a handle that no other call has. The call mustn't use this map.
    pub(crate) fn ask<R>(&self, call: impl FnOnce(&mut MapHandle) -> R) -> R {
        self.pool.ask(call)
    }

    pub(crate) fn of(mut map: MapHandle) -> CMap {
        let metadata = Arc::new(metadata_of(&mut map, 0));
        CMap { pool: Pool::new(map), metadata }
    }
}

fn metadata_of(map: &mut MapHandle, layer: usize) -> Metadata {
    Metadata {
        character_collection: collection_of(map, layer),
        name: map.name(layer),
        writing_mode: match map.writing_mode(layer) {
            0 => Some(WritingMode::Horizontal),
            1 => Some(WritingMode::Vertical),
            _ => None,
        },
    }
}

fn collection_of(map: &mut MapHandle, layer: usize) -> Option<CharacterCollection> {
    let (registry, ordering) = (map.registry(layer)?, map.ordering(layer)?);
    Some(CharacterCollection {
        family: CidFamily::from_registry_ordering(&registry, &ordering),
        supplement: map.supplement(layer)?,
    })
}

impl Debug for CMap {
    fn fmt(&self, f: &mut Formatter<'_>) -> fmt::Result {
        f.debug_struct("CMap").field("metadata", &self.metadata).finish_non_exhaustive()
    }
}

/// A code of a string.
#[derive(Clone, Copy, Debug, PartialEq, Eq, Hash)]
#[non_exhaustive]
pub struct StringCode {
    /// The number of its bytes, big-endian.
    pub code: u32,
    /// How many bytes it has, 1 to 4.
    pub byte_len: u8,
    /// Its CID. [`CMap::decode`] gives the CID of [`CMap::lookup_cid_code`].
    pub cid: Option<Cid>,
    /// Whether it lies in a codespace range. Only then does [`CMap::lookup_cid_code_strict`] give a CID.
    pub in_codespace: bool,
    /// Whether the string ends before the code does.
    pub cut_short: bool,
}

impl StringCode {
    pub(crate) fn of(raw: &RawCode) -> StringCode {
        StringCode {
            code: raw.code,
            byte_len: raw.byte_len,
            cid: (raw.has_cid != 0).then_some(raw.cid),
            in_codespace: raw.in_codespace != 0,
            cut_short: raw.cut_short != 0,
        }
    }
}

/// What one file of a map declares.
#[derive(Clone, Debug)]
#[non_exhaustive]
pub struct Layer {
    /// The metadata of the file.
    pub metadata: Metadata,
    /// Its codespace ranges, in order.
    pub codespaces: Vec<Codespace>,
}

/// A codespace range: codes of `byte_len` bytes, each byte between the bytes of `low` and `high` at its place.
#[repr(C)]
#[derive(Clone, Copy, Debug, Default, PartialEq, Eq, Hash)]
pub struct Codespace {
    /// The lowest bytes, as a number.
    pub low: u32,
    /// The highest bytes, as a number.
    pub high: u32,
    /// How many bytes a code has, 1 to 4.
    pub byte_len: u32,
}

/// A declaration of CIDs for the codes from `first` to `last`; for none if `first` is greater.
#[repr(C)]
#[derive(Clone, Copy, Debug, Default, PartialEq, Eq, Hash)]
#[non_exhaustive]
pub struct CidRange {
    /// The first code.
    pub first: u32,
    /// The last code.
    pub last: u32,
    /// The CID of the first code.
    pub cid: Cid,
}

/// A declaration of texts for the codes from `first` to `last`; for none if `first` is greater.
#[derive(Clone, Debug, PartialEq, Eq, Hash)]
#[non_exhaustive]
pub struct TextRange {
    /// The first code.
    pub first: u32,
    /// The last code.
    pub last: u32,
    /// The text of the first code, in UTF-16 as the file has it, so that a surrogate may stand alone.
    /// From code to code the last unit counts on.
    pub units: Vec<u16>,
}
