//! Options for reading files, and the result of reading past faults.

use crate::bundle::Bundle;
use crate::map::CMap;
use crate::refusal::Refusal;
use alloc::vec::Vec;

/// How a file is read: over a bundle, and within a budget.
///
/// ```
/// use hayro_cmap::{Cause, ParseOptions};
///
/// let file = b"/Base usecmap";
/// let within = ParseOptions::new().budget(20);
/// assert!(within.parse(file, |_| Some(b"% bytes")).is_ok());
/// let refusal = within.parse(file, |_| Some(b"% more bytes")).unwrap_err();
/// assert_eq!(refusal.cause(), Cause::OverBudget);
/// ```
#[derive(Clone, Copy, Debug, Default)]
pub struct ParseOptions<'b> {
    pub(crate) bundle: Option<&'b Bundle>,
    pub(crate) budget: Option<u64>,
}

impl<'b> ParseOptions<'b> {
    /// Neither a bundle nor a budget.
    pub fn new() -> ParseOptions<'b> {
        ParseOptions::default()
    }

    /// Reads over a bundle: its tables serve for binary files, and its files for the names for which
    /// `get_cmap` gives none.
    pub fn bundle(self, bundle: &'b Bundle) -> ParseOptions<'b> {
        ParseOptions { bundle: Some(bundle), ..self }
    }

    /// Reads within a budget: the opened files together may have at most this many bytes. Each file counts
    /// as often as it is used. Files of the bundle count only if they are used. If Identity-H and
    /// Identity-V are read without a file, they count 177 bytes each.
    pub fn budget(self, bytes: u64) -> ParseOptions<'b> {
        ParseOptions { budget: Some(bytes), ..self }
    }
}

/// A map, and the faults past which its files were read.
#[derive(Clone, Debug)]
pub struct Salvaged {
    /// The map of everything but the faults.
    pub map: CMap,
    /// The faults. The faults of a file are listed once, in the order of their offsets, before the faults of
    /// the files that it uses.
    pub faults: Vec<Refusal>,
}
