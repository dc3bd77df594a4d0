//! The texts of strings.

use crate::extractor::{Character, Extractor};
use crate::fallible::alloc::Global;
use crate::made;
use crate::map::{CMap, StringCode};
use crate::metadata::WritingMode;
use crate::reader;
use crate::text::BfString;
use alloc::vec::Vec;

impl Extractor {
    /// The codes of a string, one after another, each with its CID and its text. The text of a code comes
    /// from the ToUnicode CMap; if this has none for the code, the map of the collection gives the text of
    /// the CID. Codes outside the codespace ranges are looked up, too.
    pub fn characters(&self, string: &[u8]) -> Vec<Character> {
        made(self.reader().characters(Global, string)).into_iter().map(Character::of).collect()
    }

    pub(crate) fn reader(&self) -> reader::Extractor<'_> {
        reader::Extractor {
            encoding: self.encoding.reader_layers(),
            to_unicode: self.to_unicode.as_ref().map(CMap::reader_layers),
            collection: self.collection.as_ref().map(CMap::reader_layers),
        }
    }
}

/// The name of the CMap from Unicode to the CIDs of a character collection, such as Adobe-Japan1.
pub(crate) fn unicode_name(collection: &[u8], mode: WritingMode) -> Option<Vec<u8>> {
    Some(reader::unicode_name(collection, mode.reader())?.to_vec())
}

impl Character {
    fn of(found: reader::Character) -> Character {
        Character {
            code: StringCode::of(found.code, found.cid),
            text: found.text.map(BfString::of),
        }
    }
}
