//! The pieces of texts that are encoded.

/// A piece of a text, and its code in the string.
#[derive(Clone, Copy, Debug, PartialEq, Eq, Hash)]
#[non_exhaustive]
pub struct Piece {
    /// How many bytes the piece has in UTF-8.
    pub text_len: usize,
    /// How many bytes its code has, 1 to 4; 0 for a variation selector without a code.
    pub code_len: u8,
    /// How well the code stands for the piece.
    pub grade: Grade,
}

/// How well a code stands for a piece of a text, the best grade first.
#[derive(Clone, Copy, Debug, PartialEq, Eq, PartialOrd, Ord, Hash)]
pub enum Grade {
    /// The ToUnicode CMap has the piece as the text of the code.
    Stated,
    /// The code has the CID that the map from Unicode gives to the character.
    Canonical,
    /// The collection's map to Unicode has the piece as the text of the code's CID.
    Collection,
    /// The code shows a text that looks or means the same; or a variation selector gets no code.
    Alike,
    /// The code is the byte of an ASCII character that a national version of ISO 646 shows as another
    /// character, such as `\` as ¥.
    National,
}
