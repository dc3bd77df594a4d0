//! The metadata of files, from values of the reader's types.

use crate::collection::{CharacterCollection, CidFamily};
use crate::metadata::{Metadata, WritingMode};
use crate::reader;

impl Metadata {
    pub(crate) fn of(said: &reader::Metadata) -> Metadata {
        Metadata {
            character_collection: said.character_collection.as_ref().map(CharacterCollection::of),
            name: said.name.as_ref().map(|name| name.to_vec()),
            writing_mode: said.writing_mode.map(WritingMode::of),
        }
    }
}

impl CharacterCollection {
    fn of(said: &reader::CharacterCollection) -> CharacterCollection {
        let (registry, ordering) = (said.family.registry(), said.family.ordering());
        CharacterCollection {
            family: CidFamily::from_registry_ordering(registry, ordering),
            supplement: said.supplement,
        }
    }
}

impl WritingMode {
    fn of(mode: reader::WritingMode) -> WritingMode {
        match mode {
            reader::WritingMode::Horizontal => WritingMode::Horizontal,
            reader::WritingMode::Vertical => WritingMode::Vertical,
        }
    }
}
