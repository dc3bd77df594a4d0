//! The declarations and the metadata of a file, as values of the reader's types.

use crate::builder::{CMapBuilder, Codes, Collection, Declaration, Given};
use crate::fallible::Vec;
use crate::fallible::alloc::{AllocError, Global};
use crate::metadata::WritingMode;
use crate::reader::cmap_edit::flatten;
use crate::reader::cmap_text_writer::TextLengths;
use crate::reader::cmap_values::declarations::Lists;
use crate::reader::cmap_values::file::File;
use crate::reader::runs::Range;
use crate::reader::{self, BfRange, CidFamily, CidRange, CodeLength, Codespace, Units};

impl CMapBuilder {
    /// The file; `None` if codes have a length outside 1 to 4.
    pub(crate) fn file(&self) -> Result<Option<File<'static>>, AllocError> {
        let mut lists = Lists::new(Global);
        for declaration in &self.declarations {
            let Some(codes) = declaration.codes.reader() else { return Ok(None) };
            declaration.given.add_to(&mut lists, codes)?;
        }
        Ok(Some(File { metadata: self.metadata()?, lists, uses: Vec::new(Global) }))
    }

    /// The metadata of the file.
    fn metadata(&self) -> Result<reader::Metadata, AllocError> {
        let name = self.name.as_ref().map(|name| Vec::from_slice(Global, name));
        Ok(reader::Metadata {
            character_collection: self.collection.as_ref().map(Collection::reader).transpose()?,
            name: name.transpose()?,
            writing_mode: self.writing_mode.map(WritingMode::reader),
        })
    }

    /// The lengths of codes of texts: the length of the declarations of texts, if all have one length;
    /// otherwise lengths by the codespace ranges.
    pub(crate) fn text_lengths(&self, file: &File<'_>) -> TextLengths {
        let mut lengths = self.declarations.iter().filter_map(Declaration::text_length);
        let first = lengths.next().filter(|first| lengths.all(|other| other == *first));
        let same = first.and_then(CodeLength::of).map(TextLengths::same);
        same.unwrap_or_else(|| TextLengths::by(&file.lists.spaces))
    }
}

impl Declaration {
    /// How many bytes the codes have, if the declaration gives them texts.
    fn text_length(&self) -> Option<u8> {
        matches!(self.given, Given::Text(_)).then_some(self.codes.byte_len)
    }
}

impl Given {
    /// Adds the declaration for these codes.
    fn add_to(&self, lists: &mut Lists, codes: flatten::Codes) -> Result<(), AllocError> {
        let flatten::Codes { len, range } = codes;
        match self {
            Given::Codespace => {
                lists.add_codespace(Codespace { len, low: range.start, high: range.end })
            }
            Given::Cid(cid) => lists.add_cid(len, CidRange { range, cid: *cid }),
            Given::Notdef(cid) => lists.add_notdef(len, CidRange { range, cid: *cid }),
            Given::Text(text) => {
                let units: alloc::vec::Vec<u16> = text.encode_utf16().collect();
                lists.add_bf(BfRange { range, units: Units::from_slice(Global, &units)? })
            }
        }
    }
}

impl Codes {
    /// The codes; `None` if their length is outside 1 to 4.
    pub(crate) fn reader(&self) -> Option<flatten::Codes> {
        let len = CodeLength::of(self.byte_len)?;
        Some(flatten::Codes { len, range: Range { start: self.first, end: self.last } })
    }
}

impl Collection {
    fn reader(&self) -> Result<reader::CharacterCollection, AllocError> {
        let family = CidFamily::from_registry_ordering(Global, &self.registry, &self.ordering)?;
        Ok(reader::CharacterCollection { family, supplement: self.supplement })
    }
}

impl WritingMode {
    pub(crate) fn reader(self) -> reader::WritingMode {
        match self {
            WritingMode::Horizontal => reader::WritingMode::Horizontal,
            WritingMode::Vertical => reader::WritingMode::Vertical,
        }
    }
}
