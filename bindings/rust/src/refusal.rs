//! Why a file gives no map.

use crate::ffi::Fault;
use crate::reason::{Cause, Reason, Segment};
use std::fmt::{self, Debug, Display, Formatter};

/// Why a file gives no map: which file is at fault, and what is wrong with it.
///
/// It is displayed in English, such as `Small-H: byte 27: a CID was expected`. The name of the file at fault
/// comes first, unless the fault is in the file itself.
#[derive(Clone, PartialEq, Eq)]
pub struct Refusal(Fault);

/// The reasons in the order of their numbers, from 2 on.
const REASONS: [Reason; 18] = [
    Reason::EndWithinSection,
    Reason::CodeExpected,
    Reason::CodeLength,
    Reason::UnequalLengths,
    Reason::CidExpected,
    Reason::TextExpected,
    Reason::BracketExpected,
    Reason::UseWithoutName,
    Reason::Header,
    Reason::SegmentLength,
    Reason::SegmentType,
    Reason::Field,
    Reason::Entry,
    Reason::CodeTooLarge,
    Reason::CidTooLarge,
    Reason::UnclosedString,
    Reason::WrongDigit,
    Reason::StrayDelimiter,
];

/// The segments in the order of their numbers, from 1 on.
const SEGMENTS: [Segment; 6] = [
    Segment::Cids,
    Segment::Texts,
    Segment::Notdefs,
    Segment::WritingMode,
    Segment::Codespaces,
    Segment::Collection,
];

/// The number of `Cause::OverBudget`.
const OVER_BUDGET: u32 = 4;

impl Refusal {
    pub(crate) fn of(fault: Fault) -> Refusal {
        Refusal(fault)
    }

    /// The file itself has more bytes than the budget.
    pub(crate) fn over_budget() -> Refusal {
        Refusal(Fault { cause: OVER_BUDGET, reason: 0, segment: 0, offset: 0, names: Vec::new() })
    }

    /// What is wrong.
    pub fn cause(&self) -> Cause {
        match self.0.cause {
            2 => Cause::NoFile,
            3 => Cause::ChainLength,
            OVER_BUDGET => Cause::OverBudget,
            _ => Cause::Malformed,
        }
    }

    /// What is wrong with a malformed file; `None` with another cause.
    pub fn reason(&self) -> Option<Reason> {
        numbered(&REASONS, 2, self.0.reason)
    }

    /// The segment of a malformed binary file, if the reason concerns one.
    pub fn segment(&self) -> Option<Segment> {
        numbered(&SEGMENTS, 1, self.0.segment)
    }

    /// Where reading a malformed file stopped, in bytes; `None` with another cause.
    ///
    /// In a text, it is the end of the token at fault, the first byte that shows that there is no token, or
    /// the end of the file; [`CMap::salvage`](crate::CMap::salvage) reports an unclosed string at its bracket.
    /// In a binary file, it is the start of the segment at fault.
    pub fn offset(&self) -> Option<usize> {
        (self.cause() == Cause::Malformed).then_some(self.0.offset)
    }

    /// The names that lead to the file at fault, each used by the file before it. There are none if the
    /// fault is in the file itself.
    pub fn names(&self) -> &[Vec<u8>] {
        &self.0.names
    }

    pub(crate) fn read_as_number(&self, text: &[u8]) -> u32 {
        self.0.read_as(text)
    }
}

fn numbered<T: Copy>(values: &[T], first: u16, number: u16) -> Option<T> {
    values.get(usize::from(number.checked_sub(first)?)).copied()
}

impl Debug for Refusal {
    fn fmt(&self, f: &mut Formatter<'_>) -> fmt::Result {
        let names: Vec<_> = self.names().iter().map(|name| Name(name)).collect();
        let mut shown = f.debug_struct("Refusal");
        shown.field("cause", &self.cause());
        if let (Some(reason), Some(offset)) = (self.reason(), self.offset()) {
            shown.field("reason", &reason).field("offset", &offset);
        }
        if let Some(segment) = self.segment() {
            shown.field("segment", &segment);
        }
        shown.field("names", &names).finish()
    }
}

/// A name, for printing.
struct Name<'a>(&'a [u8]);

impl Debug for Name<'_> {
    fn fmt(&self, f: &mut Formatter<'_>) -> fmt::Result {
        write!(f, "{}", self.0.escape_ascii())
    }
}

impl Display for Refusal {
    fn fmt(&self, f: &mut Formatter<'_>) -> fmt::Result {
        if let Some(name) = self.names().last() {
            write!(f, "{}: ", name.escape_ascii())?;
        }
        let message = self.0.message().unwrap_or_default();
        f.write_str(&String::from_utf8_lossy(&message))
    }
}

impl std::error::Error for Refusal {}
