//! The metadata of a CMap file.

use crate::CharacterCollection;
use alloc::vec::Vec;

/// The writing mode of a font: the direction of its strings. Horizontal is the default.
#[derive(Clone, Copy, Debug, Default, PartialEq, Eq)]
pub enum WritingMode {
    /// From left to right.
    #[default]
    Horizontal,
    /// From top to bottom.
    Vertical,
}

/// The metadata of a CMap file. Entries that the file doesn't have are `None`.
#[derive(Clone, Debug)]
pub struct Metadata {
    /// The character collection of its CIDs.
    pub character_collection: Option<CharacterCollection>,
    /// The name that it gives itself.
    pub name: Option<Vec<u8>>,
    /// The writing mode of fonts with this CMap.
    pub writing_mode: Option<WritingMode>,
}
