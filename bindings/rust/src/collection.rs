//! Character collections, and the CMaps that lead from and to Unicode.

use crate::extracting::unicode_name;
use crate::{CMapName, WritingMode};
use alloc::vec::Vec;

/// A family of character collections: the registry and the ordering of a CIDSystemInfo dictionary.
/// Adobe Technical Note 5014.
///
/// Families are equal by their variant, and `Custom` ones by both texts.
#[derive(Clone, Debug, PartialEq, Eq, Hash)]
pub enum CidFamily {
    /// Adobe-Japan1
    AdobeJapan1,
    /// Adobe-GB1
    AdobeGB1,
    /// Adobe-CNS1
    AdobeCNS1,
    /// Adobe-Korea1
    AdobeKorea1,
    /// Adobe-Identity
    AdobeIdentity,
    /// Any other registry and ordering.
    Custom {
        /// The registry, as it stands in the file.
        registry: Vec<u8>,
        /// The ordering, as it stands in the file.
        ordering: Vec<u8>,
    },
}

impl CidFamily {
    /// The family of a registry and an ordering.
    pub fn from_registry_ordering(registry: &[u8], ordering: &[u8]) -> CidFamily {
        match (registry, ordering) {
            (b"Adobe", b"Japan1") => CidFamily::AdobeJapan1,
            (b"Adobe", b"GB1") => CidFamily::AdobeGB1,
            (b"Adobe", b"CNS1") => CidFamily::AdobeCNS1,
            (b"Adobe", b"Korea1") => CidFamily::AdobeKorea1,
            (b"Adobe", b"Identity") => CidFamily::AdobeIdentity,
            _ => CidFamily::Custom { registry: registry.to_vec(), ordering: ordering.to_vec() },
        }
    }

    /// The CMap from Unicode, in UTF-16, to the CIDs of the family, for horizontal writing.
    /// ISO 32000-1, 9.7.5.2.
    pub fn unicode_cmap(&self) -> Option<CMapName<'static>> {
        match self {
            CidFamily::AdobeJapan1 => Some(CMapName::UniJisUtf16H),
            CidFamily::AdobeGB1 => Some(CMapName::UniGbUtf16H),
            CidFamily::AdobeCNS1 => Some(CMapName::UniCnsUtf16H),
            CidFamily::AdobeKorea1 => Some(CMapName::UniKsUtf16H),
            CidFamily::AdobeIdentity | CidFamily::Custom { .. } => None,
        }
    }

    /// The CMap from the CIDs of the family to Unicode, in UCS-2. ISO 32000-1, 9.10.2, and Adobe
    /// Technical Note 5411.
    pub fn ucs2_cmap(&self) -> Option<CMapName<'static>> {
        match self {
            CidFamily::AdobeJapan1 => Some(CMapName::AdobeJapan1Ucs2),
            CidFamily::AdobeGB1 => Some(CMapName::AdobeGb1Ucs2),
            CidFamily::AdobeCNS1 => Some(CMapName::AdobeCns1Ucs2),
            CidFamily::AdobeKorea1 => Some(CMapName::AdobeKorea1Ucs2),
            CidFamily::AdobeIdentity | CidFamily::Custom { .. } => None,
        }
    }

    /// The name of the CMap from the CIDs of the family to Unicode: its registry, its ordering and `UCS2`, such
    /// as Adobe-Japan1-UCS2. Each family has a name, even if there is no such CMap. ISO 32000-1, 9.10.2.
    pub fn ucs2_name(&self) -> Vec<u8> {
        [&self.name()[..], b"UCS2"].join(&b'-')
    }

    /// The name of the CMap from Unicode, in UTF-16, to the CIDs of the family, such as UniJIS-UTF16-H, or
    /// UniJIS-UTF16-V for vertical writing. Only Japan1, GB1, CNS1, Korea1, KR and Japan2 of Adobe have one.
    ///
    /// ```
    /// use hayro_cmap::{CidFamily, WritingMode};
    ///
    /// let name = CidFamily::AdobeGB1.unicode_name(WritingMode::Vertical);
    /// assert_eq!(name.as_deref(), Some(&b"UniGB-UTF16-V"[..]));
    /// assert_eq!(CidFamily::AdobeIdentity.unicode_name(WritingMode::Horizontal), None);
    /// ```
    pub fn unicode_name(&self, mode: WritingMode) -> Option<Vec<u8>> {
        unicode_name(&self.name(), mode)
    }

    /// Its registry and its ordering, such as Adobe-Japan1.
    fn name(&self) -> Vec<u8> {
        let (registry, ordering): (&[u8], &[u8]) = match self {
            CidFamily::AdobeJapan1 => (b"Adobe", b"Japan1"),
            CidFamily::AdobeGB1 => (b"Adobe", b"GB1"),
            CidFamily::AdobeCNS1 => (b"Adobe", b"CNS1"),
            CidFamily::AdobeKorea1 => (b"Adobe", b"Korea1"),
            CidFamily::AdobeIdentity => (b"Adobe", b"Identity"),
            CidFamily::Custom { registry, ordering } => (registry, ordering),
        };
        [registry, ordering].join(&b'-')
    }
}

/// A character collection. Adobe Technical Note 5014.
#[derive(Clone, Debug, PartialEq, Eq, Hash)]
pub struct CharacterCollection {
    /// Its registry and ordering.
    pub family: CidFamily,
    /// The number of its supplement.
    pub supplement: i32,
}
