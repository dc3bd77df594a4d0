//! A row: an input, what stands beside it, and what is expected.

use crate::bytes::{hexadecimal, number, split_word, unescaped};
use crate::row_error::{Answer, RowError};

/// What is done with the input of a row.
#[derive(Clone, Copy, Debug, PartialEq, Eq)]
pub enum RowKind {
    /// It is read as a CMap file.
    File,
    /// It names a map that needs no file.
    Predefined,
    /// It is cut into tokens.
    Tokens,
    /// It is the ranges of a table.
    Ranges,
    /// It begins with a prefix table whose symbols have four bytes.
    Deltas,
    /// It begins with a prefix table whose symbols have one byte.
    Counts,
    /// It is read as a bundle.
    Bundle,
    /// It is the bytes of a destination.
    Destination,
    /// It is the standard input of a run.
    Run,
}

/// Each kind with the word that its rows begin with.
const KINDS: [(&str, RowKind); 9] = [
    ("file", RowKind::File),
    ("predefined", RowKind::Predefined),
    ("tokens", RowKind::Tokens),
    ("ranges", RowKind::Ranges),
    ("deltas", RowKind::Deltas),
    ("counts", RowKind::Counts),
    ("bundle", RowKind::Bundle),
    ("destination", RowKind::Destination),
    ("run", RowKind::Run),
];

impl RowKind {
    /// The kind of the rows that begin with a word.
    pub fn named(word: &str) -> Answer<RowKind> {
        let found = KINDS.iter().find(|(name, _)| *name == word);
        Ok(found.ok_or(RowError::UNKNOWN_WORD)?.1)
    }

    /// The word that its rows begin with.
    pub fn name(self) -> &'static str {
        KINDS.iter().find(|(_, kind)| *kind == self).map_or("", |(name, _)| name)
    }
}

/// What the bytes of lines are.
#[derive(Clone, Copy, Debug, PartialEq, Eq)]
pub enum Place {
    /// A definition.
    Definition,
    /// The input of a row.
    Input,
    /// A file that others use.
    Base,
    /// A bundle beside a file.
    Bundle,
}

/// Bytes that lines spell.
#[derive(Debug)]
pub struct Part<'r> {
    pub place: Place,
    /// The name of a definition or of a base.
    pub name: &'r str,
    pub bytes: Vec<u8>,
    /// Whether they are a binary file, whose header has its length.
    is_binary: bool,
}

impl<'r> Part<'r> {
    /// The bytes of a text with escapes.
    pub fn of(place: Place, name: &'r str, text: &str) -> Answer<Part<'r>> {
        Ok(Part { place, name, bytes: unescaped(text)?, is_binary: false })
    }

    /// Adds what a line adds, if it is one that adds bytes.
    pub fn add(&mut self, word: &str, rest: &str, definitions: &[Part<'_>]) -> Answer<bool> {
        match word {
            "+" => self.bytes.extend(unescaped(rest)?),
            "|" => self.bytes.extend(unescaped(rest)?.into_iter().chain([b'\n'])),
            "hex" => self.bytes.extend(hexadecimal(rest)?),
            "use" => self.bytes.extend(definition(definitions, rest)?),
            "times" => self.bytes.extend(times(rest)?),
            "binary" => self.add_header()?,
            "segment" => self.add_segment(rest)?,
            _ => return Ok(false),
        }
        Ok(true)
    }

    /// Adds the header of a binary file.
    fn add_header(&mut self) -> Answer<()> {
        if !self.bytes.is_empty() {
            return Err(RowError::Wrong("a binary file begins with its header"));
        }
        self.is_binary = true;
        self.bytes.extend(b"bcmap\x01\0\0\0\x0A");
        Ok(())
    }

    /// Adds a segment, and writes the length of a binary file into its header.
    fn add_segment(&mut self, rest: &str) -> Answer<()> {
        let (kind, payload) = split_word(rest);
        let (kind, payload) = (hexadecimal(kind)?, hexadecimal(payload)?);
        if kind.len() != 1 {
            return Err(RowError::Wrong("segment TYPE DIGITS"));
        }
        self.bytes.extend(kind);
        self.bytes.extend(length(payload.len() + 5)?);
        self.bytes.extend(payload);
        if self.is_binary {
            let whole = length(self.bytes.len())?;
            self.bytes[6..10].copy_from_slice(&whole);
        }
        Ok(())
    }
}

/// The bytes of a definition.
fn definition(definitions: &[Part<'_>], name: &str) -> Answer<Vec<u8>> {
    let found = definitions.iter().find(|part| part.name == name);
    Ok(found.ok_or(RowError::Wrong("no such definition"))?.bytes.clone())
}

/// The bytes of the text after a number, as many times as it says.
fn times(rest: &str) -> Answer<Vec<u8>> {
    let (digits, text) = split_word(rest);
    Ok(unescaped(text)?.repeat(number(digits)? as usize))
}

/// A length in four bytes, as binary files have it.
fn length(len: usize) -> Answer<[u8; 4]> {
    let len = u32::try_from(len).map_err(|_| RowError::Wrong("too many bytes"))?;
    Ok(len.to_be_bytes())
}

/// A line that expects something, or doesn't.
#[derive(Clone, Copy, Debug)]
pub struct Expectation<'r> {
    /// The number of the line.
    pub number: usize,
    /// Whether the answer is another line.
    pub is_not: bool,
    pub line: &'r str,
}

/// An input, what stands beside it, and what is expected.
#[derive(Debug)]
pub struct Row<'r> {
    pub title: &'r str,
    pub kind: RowKind,
    /// What the first line has instead of bytes.
    pub words: &'r str,
    /// The input, and then what stands beside it, as it comes.
    parts: Vec<Part<'r>>,
    /// How many bytes the files that are opened may have together.
    pub budget: Option<u64>,
    pub expectations: Vec<Expectation<'r>>,
}

impl<'r> Row<'r> {
    /// A row by its first line.
    pub fn begun(title: &'r str, word: &str, rest: &'r str) -> Answer<Row<'r>> {
        let kind = RowKind::named(word)?;
        let text = match kind {
            RowKind::Predefined | RowKind::Ranges | RowKind::Run => "",
            _ => rest,
        };
        let parts = vec![Part::of(Place::Input, "", text)?];
        Ok(Row { title, kind, words: rest, parts, budget: None, expectations: Vec::new() })
    }

    /// The input.
    pub fn input(&self) -> &[u8] {
        self.first(Place::Input).unwrap_or_default()
    }

    /// The bundle beside the input.
    pub fn bundle(&self) -> Option<&[u8]> {
        self.first(Place::Bundle)
    }

    /// The files that others use, with their names.
    pub fn bases(&self) -> Vec<(&[u8], &[u8])> {
        let bases = self.parts.iter().filter(|part| part.place == Place::Base);
        bases.map(|part| (part.name.as_bytes(), &part.bytes[..])).collect()
    }

    fn first(&self, place: Place) -> Option<&[u8]> {
        let found = self.parts.iter().find(|part| part.place == place);
        found.map(|part| &part.bytes[..])
    }

    /// Does what a line does that adds to the bytes that were begun last, or sets what stands beside the
    /// input, if it is such a line.
    pub fn take(&mut self, word: &str, rest: &'r str, definitions: &[Part<'_>]) -> Answer<bool> {
        Ok(self.add(word, rest, definitions)? || self.set_beside(word, rest)?)
    }

    fn add(&mut self, word: &str, rest: &str, definitions: &[Part<'_>]) -> Answer<bool> {
        self.parts.last_mut().map_or(Ok(false), |last| last.add(word, rest, definitions))
    }

    fn set_beside(&mut self, word: &str, rest: &'r str) -> Answer<bool> {
        match (self.kind, word) {
            (RowKind::File, "base") => self.begin_base(rest)?,
            (RowKind::File, "bundle") if self.bundle().is_none() => {
                self.parts.push(Part::of(Place::Bundle, "", rest)?);
            }
            (RowKind::File, "budget") if self.budget.is_none() => self.budget = Some(number(rest)?),
            (RowKind::Run, "input") if self.input().is_empty() => {
                self.parts = vec![Part::of(Place::Input, "", rest)?];
            }
            _ => return Ok(false),
        }
        Ok(true)
    }

    /// Begins the file of a name that isn't there yet.
    fn begin_base(&mut self, rest: &'r str) -> Answer<()> {
        let (name, text) = split_word(rest);
        if self.bases().iter().any(|(before, _)| *before == name.as_bytes()) {
            return Err(RowError::Wrong("a name that exists"));
        }
        self.parts.push(Part::of(Place::Base, name, text)?);
        Ok(())
    }
}
