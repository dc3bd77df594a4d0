//! What a library is asked about rows. A call that it lacks is `RowError::NoCall`.

use crate::row::Row;
use crate::row_error::{Answer, RowError};

/// The calls of a library.
pub trait Library {
    type Map: Map;

    /// The map of Identity-H or, for vertical texts, of Identity-V.
    fn identity(&self, is_vertical: bool) -> Answer<Self::Map>;

    /// The map of a file.
    fn read(&self, file: &File<'_>) -> Answer<Reading<Self::Map>>;

    /// The map of what a file says past its faults. Without a valid bundle it is read as without one.
    fn salvage(&self, file: &File<'_>) -> Answer<Salvaged<Self::Map>>;

    /// The names of the files that a file uses; `None` where it is refused.
    fn uses(&self, file: &File<'_>) -> Answer<Option<Vec<Vec<u8>>>>;

    /// Whether bytes are a bundle.
    fn is_bundle(&self, bytes: &[u8]) -> Answer<bool>;

    /// The file at the index of a name of a bundle; `None` where there is none, or no bundle.
    fn file_of_bundle(&self, bytes: &[u8], name: &[u8]) -> Answer<Option<Vec<u8>>>;

    /// What comes of an input in place of that of a row of another kind.
    fn outcome_of_part(&self, _row: &Row<'_>, _input: &[u8]) -> Answer<&'static str> {
        Err(RowError::NoCall)
    }

    /// What comes after a word in a row of another kind.
    fn answer_of_part(&self, _row: &Row<'_>, _word: &str, _rest: &str) -> Answer<String> {
        Err(RowError::NoCall)
    }

    /// A run of `cmap_query` on arguments and an input.
    fn run(&self, _arguments: &[String], _input: &[u8]) -> Answer<Run> {
        Err(RowError::NoCall)
    }
}

/// A CMap file, and what stands beside it.
#[derive(Clone, Copy)]
pub struct File<'r> {
    pub bytes: &'r [u8],
    /// Files by their names.
    pub bases: &'r [(&'r [u8], &'r [u8])],
    pub bundle: Option<&'r [u8]>,
    /// Whether the files of the bundle answer to their names.
    pub are_named: bool,
    /// How many bytes the files may have together.
    pub budget: Option<u64>,
}

/// What comes of a file, and how many files were asked for.
pub struct Reading<M> {
    pub outcome: Outcome<M>,
    pub asked: Answer<u32>,
}

/// What comes of a file.
pub enum Outcome<M> {
    Map(M),
    Refused(Refusal),
    /// The bundle is invalid.
    NoBundle,
}

/// Why a file is refused.
pub struct Refusal {
    /// The names that lead to the file at fault.
    pub names: Vec<Vec<u8>>,
    /// What is wrong with it.
    pub cause: String,
    pub is_over_budget: bool,
}

/// The map of a file past its faults.
pub struct Salvaged<M> {
    pub map: M,
    pub faults: Vec<Refusal>,
    /// How many files were asked for.
    pub asked: Answer<u32>,
}

/// How a run ends.
pub struct Run {
    pub status: i32,
    pub out: String,
    pub err: String,
    /// Whether some of the input was read.
    pub is_read: bool,
}

/// The calls of a map.
pub trait Map: Sized {
    fn cid(&self, code: u32, byte_len: u8) -> Option<u32>;

    fn strict_cid(&self, code: u32, byte_len: u8) -> Option<u32>;

    /// Whether other lookups find this CID.
    fn is_cid_agreed(&self, _code: u32, _byte_len: u8) -> bool {
        true
    }

    /// The codes of a string.
    fn codes(&self, string: &[u8]) -> Vec<Code>;

    /// The text of a code.
    fn text(&self, code: u32) -> Answer<Option<Text>>;

    /// Whether other lookups find the text of a code.
    fn is_text_agreed(&self, _code: u32) -> Answer<bool> {
        Ok(true)
    }

    fn metadata(&self) -> Answer<Metadata>;

    fn layer_count(&self) -> usize;

    /// A layer, the top one being 0.
    fn layer(&self, index: usize) -> Answer<Option<Layer>>;

    fn copy(&self) -> Answer<Self>;
}

/// A code of a string.
pub struct Code {
    pub code: u32,
    pub byte_len: u8,
    pub in_codespace: bool,
    pub cut_short: bool,
}

/// A text, and whether the library says that it is one character.
pub struct Text {
    pub characters: String,
    pub is_one: bool,
}

/// What a file says of itself.
pub struct Metadata {
    pub name: Option<Vec<u8>>,
    pub mode: Option<&'static str>,
    pub collection: Option<Collection>,
}

/// A character collection.
pub struct Collection {
    pub registry: Vec<u8>,
    pub ordering: Vec<u8>,
    /// Whether the family is none of those with a name of their own.
    pub is_custom: bool,
    pub supplement: i32,
    /// The names of the family's maps from and to Unicode.
    pub unicode: Option<Vec<u8>>,
    pub ucs2: Option<Vec<u8>>,
    /// Whether a copy of it is the same.
    pub is_copied: bool,
}

/// What a file says.
pub struct Layer {
    pub metadata: Metadata,
    /// How many declarations of CIDs and of notdefs it has for each code length, and how many of texts.
    pub cid_counts: [usize; 4],
    pub notdef_counts: [usize; 4],
    pub text_count: usize,
    pub codespaces: Vec<Codespace>,
    /// The declarations of CIDs and of notdefs for each code length, and those of texts.
    pub cids: [Vec<CidRange>; 4],
    pub notdefs: [Vec<CidRange>; 4],
    pub texts: Vec<TextRange>,
}

/// A codespace range.
pub struct Codespace {
    pub byte_len: usize,
    pub low: u32,
    pub high: u32,
}

/// A declaration of CIDs.
pub struct CidRange {
    pub first: u32,
    pub last: u32,
    pub cid: u32,
}

/// A declaration of texts, with that of the first code.
pub struct TextRange {
    pub first: u32,
    pub last: u32,
    pub text: Option<Text>,
}
