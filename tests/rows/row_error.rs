//! Why an expectation has no answer.

use std::fmt::{self, Display, Formatter};

/// Why an expectation has no answer.
#[derive(Clone, Copy, Debug, PartialEq, Eq)]
pub enum RowError {
    /// An allocation of the library failed.
    NoMemory,
    /// Calls of the library that must agree differ.
    Mismatch,
    /// The library has no call for it.
    NoCall,
    /// What is wrong with a line.
    Wrong(&'static str),
}

/// An answer, or why there is none.
pub type Answer<T> = Result<T, RowError>;

impl RowError {
    /// A line begins with a word that isn't known there.
    pub const UNKNOWN_WORD: RowError = RowError::Wrong("an unknown word");
}

impl Display for RowError {
    fn fmt(&self, f: &mut Formatter<'_>) -> fmt::Result {
        f.write_str(match self {
            RowError::NoMemory => "no memory",
            RowError::Mismatch => "mismatch",
            RowError::NoCall => "no call",
            RowError::Wrong(what) => what,
        })
    }
}
