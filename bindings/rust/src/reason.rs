//! The reasons why a file gives no map, and the ways in which parts at fault are read.

use crate::refusal::Refusal;
use core::fmt::{self, Display, Formatter};

/// What is wrong with the file at fault.
#[derive(Clone, Copy, Debug, PartialEq, Eq, Hash)]
#[non_exhaustive]
pub enum Cause {
    /// It is outside the grammar.
    Malformed,
    /// No file has its name.
    NoFile,
    /// It would be the seventeenth of a chain.
    ChainLength,
    /// It has more bytes than are left of the budget.
    OverBudget,
}

/// What is wrong at the place where reading a malformed file stopped.
#[derive(Clone, Copy, Debug, PartialEq, Eq, Hash)]
#[non_exhaustive]
pub enum Reason {
    /// The file ends within a section.
    EndWithinSection,
    /// Another token than a code.
    CodeExpected,
    /// A code of no or of more than four bytes.
    CodeLength,
    /// The ends of a codespace range have unequal lengths.
    UnequalLengths,
    /// Another token than a CID.
    CidExpected,
    /// Another token than the text of a code.
    TextExpected,
    /// Another token than the `]` after the texts of a range.
    BracketExpected,
    /// `usecmap` without a name before it.
    UseWithoutName,
    /// No whole binary file of version 1.
    Header,
    /// The last segment of a binary file is cut short.
    SegmentLength,
    /// A segment of an unknown type.
    SegmentType,
    /// A field of a segment is cut short.
    Field,
    /// An entry of a segment is cut short.
    Entry,
    /// A code of an entry of a segment passes 32 bits.
    CodeTooLarge,
    /// A CID of a binary file passes 32 bits.
    CidTooLarge,
    /// A string isn't closed.
    UnclosedString,
    /// A hexadecimal string has a byte that is no digit.
    WrongDigit,
    /// A `)` or a `>` stands alone.
    StrayDelimiter,
}

/// What a part at fault is read as, if the bytes before the fault show it. It is displayed in English, such as
/// `the empty text`.
#[derive(Clone, Copy, Debug, PartialEq, Eq, Hash)]
#[non_exhaustive]
pub enum ReadAs {
    /// An empty string as the empty text: its code has no text.
    EmptyText,
    /// A longer second code as the end of a codespace range whose first code has leading bytes 0.
    ExtendedCode,
}

/// A segment of a binary file, by what it holds.
#[derive(Clone, Copy, Debug, PartialEq, Eq, Hash)]
#[non_exhaustive]
pub enum Segment {
    /// CIDs of codes.
    Cids,
    /// Texts of codes.
    Texts,
    /// CIDs for codes that have no other (notdefs).
    Notdefs,
    /// The writing mode.
    WritingMode,
    /// Codespace ranges.
    Codespaces,
    /// The character collection.
    Collection,
}

impl Refusal {
    /// The line of the offset in `file`, the text at fault: one more than the number of line ends before it. A
    /// line ends with LF, CR or CRLF. `None` for a binary file, and if there is no offset.
    ///
    /// ```
    /// let file = b"begincidchar\r\n<01> x";
    /// let refusal = hayro_cmap::CMap::parse_explained(file, |_| None).unwrap_err();
    /// assert_eq!((refusal.offset(), refusal.line(file)), (Some(20), Some(2)));
    /// ```
    pub fn line(&self, file: &[u8]) -> Option<usize> {
        let before = file.get(..self.offset()?).filter(|_| !file.starts_with(b"bcmap"))?;
        let feeds = before.iter().filter(|byte| **byte == b'\n').count();
        let returns = before.split(|byte| *byte == b'\r').skip(1);
        Some(1 + feeds + returns.filter(|after| !after.starts_with(b"\n")).count())
    }
    /// What the part at fault is read as, if `file`, the text at fault, is read past this fault
    /// ([`CMap::salvage`](crate::CMap::salvage)). `None` if the part is lost, or if the bytes before the fault don't
    /// show what it is read as, such as for a string that begins a line.
    ///
    /// ```
    /// let file = b"beginbfchar <41> <> endbfchar";
    /// let faults = hayro_cmap::CMap::salvage(file, |_| None).faults;
    /// let read_as = faults[0].read_as(file).unwrap();
    /// assert_eq!(
    ///     format!("{}; read as {read_as}", faults[0]),
    ///     "byte 19: the text of a code was expected; read as the empty text"
    /// );
    /// ```
    pub fn read_as(&self, file: &[u8]) -> Option<ReadAs> {
        match self.read_as_number(file) {
            1 => Some(ReadAs::EmptyText),
            2 => Some(ReadAs::ExtendedCode),
            _ => None,
        }
    }
}

impl Display for ReadAs {
    fn fmt(&self, f: &mut Formatter<'_>) -> fmt::Result {
        f.write_str(match self {
            ReadAs::EmptyText => "the empty text",
            ReadAs::ExtendedCode => "a range whose first code has leading bytes 0",
        })
    }
}
