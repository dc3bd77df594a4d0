//! Texts of codes.

use std::fmt::{self, Display, Formatter};

/// The text that a code stands for. ISO 32000-1, 9.10.3.
#[derive(Clone, Debug, PartialEq, Eq)]
pub enum BfString {
    /// A text of one character.
    Char(char),
    /// A text of several characters.
    String(String),
}

impl BfString {
    pub(crate) fn of(text: &str) -> BfString {
        let mut characters = text.chars();
        match (characters.next(), characters.next()) {
            (Some(character), None) => BfString::Char(character),
            _ => BfString::String(text.to_owned()),
        }
    }

    /// The text. The character of a [`BfString::Char`] is written to `room`, as by [`char::encode_utf8`].
    ///
    /// ```
    /// use hayro_cmap::BfString;
    ///
    /// assert_eq!(BfString::Char('日').as_str(&mut [0; 4]), "日");
    /// assert_eq!(BfString::String("ffi".into()).to_string(), "ffi");
    /// ```
    pub fn as_str<'a>(&'a self, room: &'a mut [u8; 4]) -> &'a str {
        match self {
            BfString::Char(character) => character.encode_utf8(room),
            BfString::String(text) => text,
        }
    }
}

impl Display for BfString {
    fn fmt(&self, f: &mut Formatter<'_>) -> fmt::Result {
        f.pad(self.as_str(&mut [0; 4]))
    }
}

#[cfg(test)]
mod tests {
    use super::*;

    #[test]
    fn a_text_of_one_character_is_a_char() {
        assert_eq!(BfString::of("\u{2003E}"), BfString::Char('\u{2003E}'));
        assert_eq!(BfString::of("ff"), BfString::String("ff".into()));
    }
}
