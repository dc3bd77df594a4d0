//! CMap files made from declarations.

use crate::Cid;
use crate::map::StringCode;
use crate::metadata::WritingMode;
use alloc::string::String;
use alloc::vec::Vec;
use core::fmt::{self, Display, Formatter};
use core::ops::RangeInclusive;

/// The codes from `first` to `last`, of `byte_len` bytes.
///
/// They are made from the bytes of a code, from the bytes of a first and a last code, or from a code of a string:
///
/// ```
/// use hayro_cmap::{CMap, Codes};
///
/// assert_eq!(Codes::from([0x81, 0x40]), Codes { first: 0x8140, last: 0x8140, byte_len: 2 });
/// assert_eq!(Codes::from([0x20]..=[0x7E]), Codes { first: 0x20, last: 0x7E, byte_len: 1 });
/// assert_eq!(Codes::from(CMap::identity_h().decode(b"\x81\x40")[0]), Codes::from([0x81, 0x40]));
/// ```
#[derive(Clone, Copy, Debug, PartialEq, Eq, Hash)]
pub struct Codes {
    /// The number of the first code, big-endian.
    pub first: u32,
    /// The number of the last code.
    pub last: u32,
    /// How many bytes the codes have, 1 to 4.
    pub byte_len: u8,
}

impl Codes {
    /// The codes, or the error if there are no such codes.
    pub(crate) fn checked(self) -> Result<Codes, WriteError> {
        let fits =
            matches!(self.byte_len, 1..=4) && u64::from(self.last) >> (8 * self.byte_len) == 0;
        if fits && self.first <= self.last { Ok(self) } else { Err(WriteError::InvalidCodes) }
    }
}

macro_rules! codes_of_bytes {
    ($($byte_len:literal)*) => {$(
        impl From<RangeInclusive<[u8; $byte_len]>> for Codes {
            fn from(codes: RangeInclusive<[u8; $byte_len]>) -> Codes {
                let number = |code: &[u8; $byte_len]| {
                    code.iter().fold(0, |number, byte| number << 8 | u32::from(*byte))
                };
                let (first, last) = (number(codes.start()), number(codes.end()));
                Codes { first, last, byte_len: $byte_len }
            }
        }

        impl From<[u8; $byte_len]> for Codes {
            fn from(code: [u8; $byte_len]) -> Codes {
                Codes::from(code..=code)
            }
        }
    )*};
}

codes_of_bytes!(1 2 3 4);

impl From<StringCode> for Codes {
    fn from(code: StringCode) -> Codes {
        Codes { first: code.code, last: code.code, byte_len: code.byte_len }
    }
}

/// Makes a CMap file from declarations, in their order, and from its metadata.
///
/// If several declarations of a kind contain a code, the last one decides. This makes a ToUnicode CMap for a
/// font of a PDF file (ISO 32000-1, 9.10.3):
///
/// ```
/// use hayro_cmap::{BfString, CMap, CMapBuilder};
///
/// let file = CMapBuilder::new()
///     .name("Adobe-Identity-UCS")
///     .collection("Adobe", "UCS", 0)
///     .codespace([0x00, 0x00]..=[0xFF, 0xFF])
///     .text([0x00, 0x01], "A")
///     .text(2_u16.to_be_bytes(), "ffi")
///     .build()?;
/// let map = CMap::parse(&file, |_| None).unwrap();
/// assert_eq!(map.lookup_bf_string(2), Some(BfString::String("ffi".into())));
/// # Ok::<(), hayro_cmap::WriteError>(())
/// ```
#[derive(Clone, Debug, Default)]
pub struct CMapBuilder {
    pub(crate) name: Option<Vec<u8>>,
    pub(crate) collection: Option<Collection>,
    pub(crate) writing_mode: Option<WritingMode>,
    pub(crate) declarations: Vec<Declaration>,
}

/// A character collection, by the texts of a file.
#[derive(Clone, Debug)]
pub(crate) struct Collection {
    pub(crate) registry: Vec<u8>,
    pub(crate) ordering: Vec<u8>,
    pub(crate) supplement: i32,
}

/// A declaration.
#[derive(Clone, Debug)]
pub(crate) struct Declaration {
    pub(crate) codes: Codes,
    pub(crate) given: Given,
}

/// What a declaration gives its codes.
#[derive(Clone, Debug)]
pub(crate) enum Given {
    /// A codespace range.
    Codespace,
    /// CIDs, which count on from code to code.
    Cid(Cid),
    /// A CID for each code that has no other.
    Notdef(Cid),
    /// Texts, whose last unit of UTF-16 counts on from code to code.
    Text(String),
}

impl CMapBuilder {
    /// A file without declarations and without metadata.
    pub fn new() -> CMapBuilder {
        CMapBuilder::default()
    }

    /// The name of the file, such as `UniJIS-UTF16-H`.
    pub fn name(self, name: impl AsRef<[u8]>) -> CMapBuilder {
        CMapBuilder { name: Some(name.as_ref().to_vec()), ..self }
    }

    /// The character collection of its CIDs: registry, ordering and supplement, such as Adobe, Japan1 and 6.
    pub fn collection(
        self,
        registry: impl AsRef<[u8]>,
        ordering: impl AsRef<[u8]>,
        supplement: i32,
    ) -> CMapBuilder {
        let (registry, ordering) = (registry.as_ref().to_vec(), ordering.as_ref().to_vec());
        CMapBuilder { collection: Some(Collection { registry, ordering, supplement }), ..self }
    }

    /// The writing mode of fonts with this CMap.
    pub fn writing_mode(self, mode: WritingMode) -> CMapBuilder {
        CMapBuilder { writing_mode: Some(mode), ..self }
    }

    /// A codespace range: codes have this length, and each of their bytes lies between the bytes of the first
    /// and of the last code at its place.
    pub fn codespace(self, codes: impl Into<Codes>) -> CMapBuilder {
        self.declare(codes, Given::Codespace)
    }

    /// CIDs: the first code has this CID, and from code to code the CIDs count on.
    pub fn cid(self, codes: impl Into<Codes>, cid: Cid) -> CMapBuilder {
        self.declare(codes, Given::Cid(cid))
    }

    /// The CID of each of these codes that has no other.
    pub fn notdef(self, codes: impl Into<Codes>, cid: Cid) -> CMapBuilder {
        self.declare(codes, Given::Notdef(cid))
    }

    /// Texts: the first code has this text, and from code to code its last unit of UTF-16 counts on.
    pub fn text(self, codes: impl Into<Codes>, text: impl Into<String>) -> CMapBuilder {
        self.declare(codes, Given::Text(text.into()))
    }

    fn declare(mut self, codes: impl Into<Codes>, given: Given) -> CMapBuilder {
        self.declarations.push(Declaration { codes: codes.into(), given });
        self
    }

    /// The first error of a declaration, if there is one.
    pub(crate) fn checked(&self) -> Result<(), WriteError> {
        self.declarations.iter().try_for_each(Declaration::checked)
    }
}

impl Declaration {
    fn checked(&self) -> Result<(), WriteError> {
        self.codes.checked()?;
        match &self.given {
            Given::Text(text) if text.is_empty() => Err(WriteError::EmptyText),
            _ => Ok(()),
        }
    }
}

/// Why no file is written.
#[derive(Clone, Copy, Debug, PartialEq, Eq, Hash)]
#[non_exhaustive]
pub enum WriteError {
    /// The length of codes isn't 1 to 4 bytes, a code doesn't fit in it, or the last code comes before the first.
    InvalidCodes,
    /// A declaration gives codes an empty text.
    EmptyText,
    /// No single file has the answers of the map, for example because a layer gives a code a text of one
    /// character above a layer that gives it a CID; or the name has a byte that no name has, such as a blank.
    NotWritable,
}

impl Display for WriteError {
    fn fmt(&self, f: &mut Formatter<'_>) -> fmt::Result {
        f.write_str(match self {
            WriteError::InvalidCodes => "there are no such codes",
            WriteError::EmptyText => "a text is empty",
            WriteError::NotWritable => "no single CMap file can express it",
        })
    }
}

impl core::error::Error for WriteError {}
