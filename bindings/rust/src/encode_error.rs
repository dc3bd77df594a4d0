//! Texts that can't be encoded.

use core::error::Error;
use core::fmt::{self, Display, Formatter};

/// The error for a text that isn't encoded, since no string of the font shows it.
#[derive(Clone, Copy, Debug, PartialEq, Eq, Hash)]
#[non_exhaustive]
pub struct EncodeError {
    /// The end, in bytes, of the longest prefix of the text that can be encoded.
    pub offset: usize,
}

impl Display for EncodeError {
    fn fmt(&self, f: &mut Formatter<'_>) -> fmt::Result {
        write!(f, "the character at byte {} can't be encoded", self.offset)
    }
}

impl Error for EncodeError {}
