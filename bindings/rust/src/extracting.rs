//! The texts of strings.

use crate::extractor::{Character, Extractor};
use crate::ffi::{self, MapHandle, RawCharacter};
use crate::map::{CMap, StringCode};
use crate::metadata::WritingMode;
use crate::text::BfString;

impl Extractor {
    /// The codes of a string, one after another, each with its CID and its text. The text of a code comes
    /// from the ToUnicode CMap; if this has none for the code, the map of the collection gives the text of
    /// the CID. Codes outside the codespace ranges are looked up, too.
    pub fn characters(&self, string: &[u8]) -> Vec<Character> {
        self.ask(|encoding, to_unicode, collection| {
            extracted(encoding, to_unicode, collection, string)
        })
    }

    /// Calls with the handles of the three maps for reading strings.
    pub(crate) fn ask<R>(
        &self,
        call: impl FnOnce(&mut MapHandle, &mut MapHandle, &mut MapHandle) -> R,
    ) -> R {
        ask(self.to_unicode.as_ref(), |to_unicode| {
            ask(self.collection.as_ref(), |collection| {
                self.encoding.ask(|encoding| call(encoding, to_unicode, collection))
            })
        })
    }
}

/// Calls with the handle of a map, or with an empty handle if there is no map.
pub(crate) fn ask<R>(map: Option<&CMap>, call: impl FnOnce(&mut MapHandle) -> R) -> R {
    match map {
        Some(map) => map.ask(call),
        None => call(&mut MapHandle::empty()),
    }
}

fn extracted(
    encoding: &mut MapHandle,
    to_unicode: &mut MapHandle,
    collection: &mut MapHandle,
    string: &[u8],
) -> Vec<Character> {
    let mut characters = Vec::new();
    let (mut room, mut text) = ([RawCharacter::default(); 64], vec![0; 256]);
    let mut rest = string;
    while !rest.is_empty() {
        let done = encoding.extract(to_unicode, collection, rest, &mut room, &mut text);
        let made = room[..done.made].iter();
        characters.extend(made.map(|raw| Character::of(raw, &text)));
        rest = &rest[done.taken..];
        if done.made == 0 {
            text.resize(2 * text.len(), 0);
        }
    }
    characters
}

/// The name of the CMap from Unicode to the CIDs of a character collection, such as Adobe-Japan1.
pub(crate) fn unicode_name(collection: &[u8], mode: WritingMode) -> Option<Vec<u8>> {
    ffi::unicode_name(collection, mode)
}

impl Character {
    fn of(raw: &RawCharacter, room: &[u8]) -> Character {
        Character { code: StringCode::of(&raw.code), text: raw.text(room).map(BfString::of) }
    }
}
