//! What the reader's maps answer.

use super::memory::counted;
use crate::library::{
    CidRange, Code, Codespace, Collection, Layer, Map, Metadata, Text, TextRange,
};
use crate::row_error::Answer;
use hayro_cmap::fallible::alloc::Global;
use hayro_cmap::reader::runs::{Looks, Range, Table};
use hayro_cmap::reader::{
    self, BfString, ByLength, CMap, CharacterCollection, CidFamily, CodeLength, WritingMode, utf16,
};

impl Map for CMap {
    fn cid(&self, code: u32, byte_len: u8) -> Option<u32> {
        self.lookup_cid_code(code, byte_len)
    }

    fn strict_cid(&self, code: u32, byte_len: u8) -> Option<u32> {
        self.lookup_cid_code_strict(code, byte_len)
    }

    fn is_cid_agreed(&self, code: u32, byte_len: u8) -> bool {
        let found = self.lookup_cid_counted(code, byte_len, &mut Looks::new());
        found == self.lookup_cid_code(code, byte_len)
    }

    fn codes(&self, string: &[u8]) -> Vec<Code> {
        let mut left = string;
        let codes = std::iter::from_fn(|| {
            let next = self.layers().next_code(left)?;
            left = &left[usize::from(next.byte_len)..];
            Some(code_of_string(next))
        });
        codes.collect()
    }

    fn text(&self, code: u32) -> Answer<Option<Text>> {
        Ok(counted(|| self.lookup_bf_string(Global, code))?.map(text_of))
    }

    /// The lookup that counts finds the text, and so does a copy of it.
    fn is_text_agreed(&self, code: u32) -> Answer<bool> {
        let found = counted(|| self.lookup_bf_string(Global, code))?;
        let by_count = counted(|| self.lookup_bf_counted(Global, code, &mut Looks::new()))?;
        let copy = found.as_ref().map(|text| counted(|| text.clone(Global))).transpose()?;
        Ok(by_count == found && copy == found)
    }

    fn metadata(&self) -> Answer<Metadata> {
        metadata_of(CMap::metadata(self))
    }

    fn layer_count(&self) -> usize {
        self.layers().as_slice().len()
    }

    fn layer(&self, index: usize) -> Answer<Option<Layer>> {
        self.layers().as_slice().get(index).map(layer_of).transpose()
    }

    fn copy(&self) -> Answer<CMap> {
        Ok(counted(|| self.clone(Global))?)
    }
}

fn code_of_string(code: reader::StringCode) -> Code {
    let reader::StringCode { code, byte_len, in_codespace, cut_short } = code;
    Code { code, byte_len, in_codespace, cut_short }
}

pub(super) fn text_of(text: BfString) -> Text {
    match text {
        BfString::Char(character) => Text { characters: character.into(), is_one: true },
        BfString::String(text) => Text { characters: text.into_std(), is_one: false },
    }
}

fn metadata_of(metadata: &reader::Metadata) -> Answer<Metadata> {
    Ok(Metadata {
        name: metadata.name.as_ref().map(|name| name.to_vec()),
        mode: metadata.writing_mode.map(|mode| match mode {
            WritingMode::Horizontal => "horizontal",
            WritingMode::Vertical => "vertical",
        }),
        collection: metadata.character_collection.as_ref().map(collection_of).transpose()?,
    })
}

fn collection_of(collection: &CharacterCollection) -> Answer<Collection> {
    let family = &collection.family;
    let name_of = |name: Option<reader::CMapName<'_>>| name.map(|name| name.to_bytes().to_vec());
    Ok(Collection {
        registry: family.registry().to_vec(),
        ordering: family.ordering().to_vec(),
        is_custom: matches!(family, CidFamily::Custom { .. }),
        supplement: collection.supplement,
        unicode: name_of(family.unicode_cmap()),
        ucs2: name_of(family.ucs2_cmap()),
        is_copied: counted(|| collection.clone(Global))? == *collection,
    })
}

fn layer_of(layer: &reader::Layer) -> Answer<Layer> {
    let counts = layer.counts();
    Ok(Layer {
        metadata: metadata_of(layer.metadata())?,
        cid_counts: counts_of(&counts.cids),
        notdef_counts: counts_of(&counts.notdefs),
        text_count: counts.bfs,
        codespaces: layer.codespaces().iter().map(codespace).collect(),
        cids: by_length(|len| cid_ranges(layer.cids(len))),
        notdefs: by_length(|len| cid_ranges(layer.notdefs(len))),
        texts: text_ranges(layer.texts())?,
    })
}

fn counts_of(counts: &ByLength<usize>) -> [usize; 4] {
    by_length(|len| *counts.get(len))
}

fn by_length<T>(of: impl Fn(CodeLength) -> T) -> [T; 4] {
    std::array::from_fn(|index| of(CodeLength::ALL[index]))
}

fn codespace(space: &reader::Codespace) -> Codespace {
    Codespace { byte_len: space.len.count().into(), low: space.low, high: space.high }
}

fn cid_ranges(table: &Table<reader::CidRange>) -> Vec<CidRange> {
    let range = |index| {
        let declared = table.decl(index, &mut Looks::new());
        let Range { start: first, end: last } = declared.range;
        CidRange { first, last, cid: declared.cid }
    };
    (0..table.decl_count()).map(range).collect()
}

fn text_ranges(table: &Table<reader::BfRange>) -> Answer<Vec<TextRange>> {
    let range = |index| {
        let declared = table.decl(index, &mut Looks::new());
        let Range { start: first, end: last } = declared.range;
        let text = counted(|| utf16::text(Global, declared.units.as_slice(), 0))?;
        Ok(TextRange { first, last, text: text.map(text_of) })
    };
    (0..table.decl_count()).map(range).collect()
}
