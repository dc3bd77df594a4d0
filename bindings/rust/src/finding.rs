//! What looks wrong in a file that has a map.

use alloc::vec::Vec;

/// A warning about a file, with the codes or places that it concerns.
#[derive(Clone, Copy, Debug, PartialEq, Eq, Hash)]
#[non_exhaustive]
pub struct Finding {
    /// The warning.
    pub warning: Warning,
    /// How many codes, declarations, sections or strings it concerns; 1 if it concerns the file.
    pub count: u64,
    /// The first place that it concerns.
    pub first: Place,
    /// How many of the shown codes it concerns.
    pub shown: usize,
    /// The lowest of the shown codes that it concerns.
    pub first_shown: Option<u32>,
}

/// The first place that a warning concerns.
#[derive(Clone, Copy, Debug, PartialEq, Eq, Hash)]
#[non_exhaustive]
pub enum Place {
    /// In the file as a whole.
    File,
    /// At a code.
    Code {
        /// How many bytes the code has.
        byte_len: u8,
        /// Its number.
        code: u32,
    },
    /// At a declaration.
    Range {
        /// How many bytes its codes have.
        byte_len: u8,
        /// The first code, which may lie above the last.
        first: u32,
        /// The last code.
        last: u32,
    },
    /// At the name that the file gives itself.
    Name,
    /// At the byte at this offset.
    Offset(usize),
}

/// What can look wrong in a file that has a map, in the order of reports.
#[derive(Clone, Copy, Debug, PartialEq, Eq, Hash)]
#[non_exhaustive]
pub enum Warning {
    /// The file has no codespace range, no declaration and no use of another file.
    NothingDeclared,
    /// No layer has a codespace range.
    NoCodespace,
    /// Codes with a CID or a notdef lie in no codespace range.
    OutsideCodespace,
    /// Codes have two declarations of one kind that disagree.
    Overlap,
    /// Declarations have their first code above their last.
    InvertedRange,
    /// The ends of ranges differ in another byte than the last. Adobe Technical Note 5014.
    CrossesRow,
    /// Texts of a range have a last byte that counts on past 255. ISO 32000-1, 9.10.3.
    LastByte,
    /// Declarations of texts give no text for one of their codes.
    NoText,
    /// Texts have characters for private use.
    PrivateUse,
    /// Texts have code points that are noncharacters. The Unicode Standard, 23.7.
    Noncharacter,
    /// Texts have U+FFFD.
    ReplacementCharacter,
    /// Texts have U+0000.
    NullCharacter,
    /// Codes of the codespace, of up to two bytes, have no text.
    NoMapping,
    /// The file gives itself a name that isn't its file name. [`CMap::lint`](crate::CMap::lint) never finds this.
    NameDiffers,
    /// A name ends in `-V`, and the writing mode isn't vertical.
    ModeDiffers,
    /// Sections have a wrong number of entries before them.
    CountDiffers,
    /// Sections have more than 100 entries. Adobe Technical Note 5014.
    LongSection,
    /// No `endcmap` follows the last `begincmap`. Adobe Technical Note 5014.
    NoEndcmap,
    /// Codes have a length that no codespace range has.
    CodeLength,
    /// Hexadecimal strings of entries have an odd number of digits.
    OddDigits,
    /// Destinations have an odd number of bytes.
    OddText,
}

/// The warnings in the order of their numbers.
const WARNINGS: [Warning; 21] = [
    Warning::NothingDeclared,
    Warning::NoCodespace,
    Warning::OutsideCodespace,
    Warning::Overlap,
    Warning::InvertedRange,
    Warning::CrossesRow,
    Warning::LastByte,
    Warning::NoText,
    Warning::PrivateUse,
    Warning::Noncharacter,
    Warning::ReplacementCharacter,
    Warning::NullCharacter,
    Warning::NoMapping,
    Warning::NameDiffers,
    Warning::ModeDiffers,
    Warning::CountDiffers,
    Warning::LongSection,
    Warning::NoEndcmap,
    Warning::CodeLength,
    Warning::OddDigits,
    Warning::OddText,
];

impl Warning {
    /// The warning of a number.
    pub(crate) fn numbered(number: u32) -> Option<Warning> {
        WARNINGS.get(usize::try_from(number).ok()?).copied()
    }
}

/// Codes in ascending order, each once.
pub(crate) fn in_order(codes: &[u32]) -> Vec<u32> {
    let mut ordered = codes.to_vec();
    ordered.sort_unstable();
    ordered.dedup();
    ordered
}
