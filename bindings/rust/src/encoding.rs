//! The strings of texts.

use crate::encode_error::EncodeError;
use crate::extracting::ask;
use crate::extractor::Extractor;
use crate::ffi::{EncoderHandle, RawPiece};
use crate::piece::{Grade, Piece};
use crate::pool::Pool;
use std::fmt::{self, Debug, Formatter};

/// Finds the strings of a font that show texts. [`Extractor::encoder`] makes it.
///
/// Any number of threads may use one. A clone copies nothing.
#[derive(Clone)]
pub struct Encoder {
    pool: Pool<EncoderHandle>,
}

impl Extractor {
    /// The encoder of the font. It is made from all codes of the font, and keeps none of its maps.
    ///
    /// ```
    /// use hayro_cmap::{CMap, Extractor};
    ///
    /// let to_unicode = CMap::parse(b"beginbfchar <41> <0066> <42> <006600660069> endbfchar", |_| None);
    /// let encoder = Extractor::simple(to_unicode).encoder();
    /// assert_eq!(encoder.encode("ffif")?, b"BA");
    /// assert_eq!(encoder.encode("ffx").unwrap_err().offset, 2);
    /// # Ok::<(), hayro_cmap::EncodeError>(())
    /// ```
    pub fn encoder(&self) -> Encoder {
        self.built(false)
    }

    /// The encoder of the font for strings that are read back as their texts. It chooses only codes whose
    /// text is the piece for which they stand, and a variation selector needs a code.
    ///
    /// ```
    /// use hayro_cmap::{CMap, Extractor};
    ///
    /// let font = Extractor::simple(CMap::parse(b"beginbfchar <20> <00A0> endbfchar", |_| None));
    /// assert_eq!(font.encoder().encode(" ")?, b" ");
    /// assert_eq!(font.exact_encoder().encode(" ").unwrap_err().offset, 0);
    /// # Ok::<(), hayro_cmap::EncodeError>(())
    /// ```
    pub fn exact_encoder(&self) -> Encoder {
        self.built(true)
    }

    fn built(&self, exact: bool) -> Encoder {
        let handle = ask(self.unicode.as_ref(), |unicode| {
            self.ask(|encoding, to_unicode, collection| {
                EncoderHandle::build(encoding, to_unicode, collection, unicode, exact)
            })
        });
        Encoder { pool: Pool::new(handle) }
    }
}

impl Encoder {
    /// The string of a text: the codes of its pieces. A piece is a letter (a character and the marks after
    /// it), if the letter has a code and the rest can be encoded; otherwise a part of the letter, and as a
    /// last resort more than the letter.
    ///
    /// The code of a piece lies in a codespace range, is no notdef, and has the best [`Grade`]. Of several
    /// codes with one grade up to [`Grade::Collection`] the shortest is taken, and of these the least. There
    /// are two exceptions for [`Grade::Canonical`]: the character itself, in the form of the map from Unicode,
    /// comes first; and if the collection's map reads the glyph as another character, the last code of the
    /// glyph is taken.
    pub fn encode(&self, text: &str) -> Result<Vec<u8>, EncodeError> {
        self.pool.ask(|encoder| encoder.encode(text)).map_err(|offset| EncodeError { offset })
    }

    /// The pieces of a text, whose codes [`Encoder::encode`] gives one after another.
    ///
    /// ```
    /// use hayro_cmap::{CMap, Extractor, Grade};
    ///
    /// let to_unicode = CMap::parse(b"beginbfchar <41> <0061> <2D> <2010> endbfchar", |_| None);
    /// let pieces = Extractor::simple(to_unicode).encoder().pieces("a-")?;
    /// assert_eq!(pieces.iter().map(|it| it.grade).collect::<Vec<_>>(), [Grade::Stated, Grade::Alike]);
    /// # Ok::<(), hayro_cmap::EncodeError>(())
    /// ```
    pub fn pieces(&self, text: &str) -> Result<Vec<Piece>, EncodeError> {
        let pieces = self.pool.ask(|encoder| encoder.pieces(text));
        let pieces = pieces.map_err(|offset| EncodeError { offset })?;
        Ok(pieces.iter().map(Piece::of).collect())
    }

    /// The string of a text as far as it can be encoded: the string of the longest prefix that can be
    /// encoded, then `missing` for the character after it, and so on for the rest of the text.
    ///
    /// ```
    /// use hayro_cmap::{CMap, Extractor};
    ///
    /// let to_unicode = CMap::parse(b"beginbfrange <20> <7E> <0020> endbfrange", |_| None);
    /// assert_eq!(Extractor::simple(to_unicode).encoder().encode_lossy("cafés", b"?"), b"caf?s");
    /// ```
    ///
    /// # Panics
    ///
    /// If `missing` isn't whole codes of the font ([`Encoder::are_codes`]): other bytes may change how later
    /// bytes are read.
    pub fn encode_lossy(&self, text: &str, missing: &[u8]) -> Vec<u8> {
        let string = self.pool.ask(|encoder| encoder.encode_lossy(text, missing));
        string
            .unwrap_or_else(|| panic!("{missing:02X?}: these bytes aren't whole codes of the font"))
    }

    /// Whether a string is whole codes of the font, one after another, or empty.
    pub fn are_codes(&self, string: &[u8]) -> bool {
        self.pool.ask(|encoder| encoder.encode_lossy("", string)).is_some()
    }
}

impl Piece {
    fn of(raw: &RawPiece) -> Piece {
        let RawPiece { text_len, code_len, grade } = *raw;
        // a code has at most four bytes
        Piece { text_len, code_len: code_len as u8, grade: Grade::of(grade) }
    }
}

impl Grade {
    fn of(number: u32) -> Grade {
        match number {
            0 => Grade::Stated,
            1 => Grade::Canonical,
            2 => Grade::Collection,
            3 => Grade::Alike,
            _ => Grade::National,
        }
    }
}

impl Debug for Encoder {
    fn fmt(&self, f: &mut Formatter<'_>) -> fmt::Result {
        f.debug_struct("Encoder").finish_non_exhaustive()
    }
}
