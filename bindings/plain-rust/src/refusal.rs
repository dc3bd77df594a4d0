//! Why a file gives no map.

use crate::reader;
use crate::reason::{Cause, Reason, Segment};
use alloc::vec::Vec;
use core::fmt::{self, Debug, Display, Formatter};

/// Why a file gives no map: which file is at fault, and what is wrong with it.
///
/// It is displayed in English, such as `Small-H: byte 27: a CID was expected`. The name of the file at fault
/// comes first, unless the fault is in the file itself.
#[derive(Clone, PartialEq, Eq)]
pub struct Refusal {
    names: Vec<Vec<u8>>,
    cause: reader::Cause,
}

impl Reason {
    fn of(reason: reader::Reason) -> Reason {
        match reason {
            reader::Reason::EndWithinSection => Reason::EndWithinSection,
            reader::Reason::CodeExpected => Reason::CodeExpected,
            reader::Reason::CodeLength => Reason::CodeLength,
            reader::Reason::UnequalLengths => Reason::UnequalLengths,
            reader::Reason::CidExpected => Reason::CidExpected,
            reader::Reason::TextExpected => Reason::TextExpected,
            reader::Reason::BracketExpected => Reason::BracketExpected,
            reader::Reason::UseWithoutName => Reason::UseWithoutName,
            reader::Reason::Header => Reason::Header,
            reader::Reason::SegmentLength => Reason::SegmentLength,
            reader::Reason::SegmentType => Reason::SegmentType,
            reader::Reason::Field(_) => Reason::Field,
            reader::Reason::Entry(_) => Reason::Entry,
            reader::Reason::CodeTooLarge(_) => Reason::CodeTooLarge,
            reader::Reason::CidTooLarge => Reason::CidTooLarge,
            reader::Reason::UnclosedString => Reason::UnclosedString,
            reader::Reason::WrongDigit => Reason::WrongDigit,
            reader::Reason::StrayDelimiter => Reason::StrayDelimiter,
        }
    }
}

impl Segment {
    fn of(segment: reader::Segment) -> Segment {
        match segment {
            reader::Segment::Cids => Segment::Cids,
            reader::Segment::Texts => Segment::Texts,
            reader::Segment::Notdefs => Segment::Notdefs,
            reader::Segment::WritingMode => Segment::WritingMode,
            reader::Segment::Codespaces => Segment::Codespaces,
            reader::Segment::Collection => Segment::Collection,
        }
    }
}

impl Refusal {
    pub(crate) fn of(refusal: &reader::Refusal<'_>) -> Refusal {
        let names = refusal.names.iter().map(|name| name.to_vec()).collect();
        Refusal { names, cause: refusal.cause }
    }

    /// What is wrong.
    pub fn cause(&self) -> Cause {
        match self.cause {
            reader::Cause::Malformed(_) => Cause::Malformed,
            reader::Cause::NoFile => Cause::NoFile,
            reader::Cause::ChainLength => Cause::ChainLength,
            reader::Cause::OverBudget => Cause::OverBudget,
        }
    }

    /// What is wrong with a malformed file; `None` with another cause.
    pub fn reason(&self) -> Option<Reason> {
        Some(Reason::of(self.stop()?.reason))
    }

    /// The segment of a malformed binary file, if the reason concerns one.
    pub fn segment(&self) -> Option<Segment> {
        match self.stop()?.reason {
            reader::Reason::Field(segment)
            | reader::Reason::Entry(segment)
            | reader::Reason::CodeTooLarge(segment) => Some(Segment::of(segment)),
            _ => None,
        }
    }

    /// Where reading a malformed file stopped, in bytes; `None` with another cause.
    ///
    /// In a text, it is the end of the token at fault, the first byte that shows that there is no token, or
    /// the end of the file; [`CMap::salvage`](crate::CMap::salvage) reports an unclosed string at its bracket.
    /// In a binary file, it is the start of the segment at fault.
    pub fn offset(&self) -> Option<usize> {
        Some(self.stop()?.offset)
    }

    /// The names that lead to the file at fault, each used by the file before it. There are none if the
    /// fault is in the file itself.
    pub fn names(&self) -> &[Vec<u8>] {
        &self.names
    }

    pub(crate) fn read_as_number(&self, text: &[u8]) -> u32 {
        let read_as =
            self.stop().and_then(|stop| reader::cmap_lint::read_as::ReadAs::of(text, stop));
        read_as.map_or(0, |read_as| read_as.number())
    }

    fn stop(&self) -> Option<reader::Stop> {
        match self.cause {
            reader::Cause::Malformed(stop) => Some(stop),
            _ => None,
        }
    }
}

impl Debug for Refusal {
    fn fmt(&self, f: &mut Formatter<'_>) -> fmt::Result {
        let names: Vec<_> = self.names().iter().map(|name| Name(name)).collect();
        let mut shown = f.debug_struct("Refusal");
        shown.field("cause", &self.cause());
        if let (Some(reason), Some(offset)) = (self.reason(), self.offset()) {
            shown.field("reason", &reason).field("offset", &offset);
        }
        if let Some(segment) = self.segment() {
            shown.field("segment", &segment);
        }
        shown.field("names", &names).finish()
    }
}

/// A name, for printing.
struct Name<'a>(&'a [u8]);

impl Debug for Name<'_> {
    fn fmt(&self, f: &mut Formatter<'_>) -> fmt::Result {
        write!(f, "{}", self.0.escape_ascii())
    }
}

impl Display for Refusal {
    fn fmt(&self, f: &mut Formatter<'_>) -> fmt::Result {
        if let Some(name) = self.names.last() {
            write!(f, "{}: ", name.escape_ascii())?;
        }
        Display::fmt(&self.cause, f)
    }
}

impl core::error::Error for Refusal {}
