//! Writing files.

use crate::builder::{CMapBuilder, Codes, WriteError};
use crate::fallible::alloc::{AllocError, Global};
use crate::made;
use crate::map::CMap;
use crate::reader::Fault;
use crate::reader::cmap_edit::flatten::{flatten, subset};
use crate::reader::cmap_edit::tidy::tidy;
use crate::reader::cmap_text_writer::{TextLengths, write_text_by};
use crate::reader::cmap_values::file::File;
use alloc::vec::Vec;

impl CMapBuilder {
    /// The text of the file, in the fewest declarations that give each code the same.
    pub fn build(&self) -> Result<Vec<u8>, WriteError> {
        self.checked()?;
        let file = made(self.file()).ok_or(WriteError::InvalidCodes)?;
        text_of(&made(tidy(Global, &file)), self.text_lengths(&file))
    }
}

impl CMap {
    /// The text of one CMap file, which uses no other and has the answers of the map for each code, in the
    /// fewest declarations.
    ///
    /// ```
    /// use hayro_cmap::CMap;
    ///
    /// let base = b"begincidrange <20> <7E> 1 endcidrange";
    /// let map = CMap::parse(b"/Base usecmap begincidchar <41> 7 endcidchar", |_| Some(base)).unwrap();
    /// let alone = CMap::parse(&map.write()?, |_| None).unwrap();
    /// assert_eq!((alone.lookup_cid_code(0x41, 1), alone.lookup_cid_code(0x42, 1)), (Some(7), Some(35)));
    /// # Ok::<(), hayro_cmap::WriteError>(())
    /// ```
    pub fn write(&self) -> Result<Vec<u8>, WriteError> {
        flat_text(flatten(Global, self.reader_layers()))
    }

    /// The same with answers only for these codes. The codespace ranges stay.
    ///
    /// ```
    /// use hayro_cmap::CMap;
    ///
    /// let map = CMap::identity_h();
    /// let file = map.write_codes(map.decode(b"\x12\x34\x56\x78"))?;
    /// let of_string = CMap::parse(&file, |_| None).unwrap();
    /// assert_eq!(of_string.lookup_cid_code(0x1234, 2), Some(0x1234));
    /// assert_eq!(of_string.lookup_cid_code(0x1235, 2), None);
    /// # Ok::<(), hayro_cmap::WriteError>(())
    /// ```
    pub fn write_codes(
        &self,
        codes: impl IntoIterator<Item: Into<Codes>>,
    ) -> Result<Vec<u8>, WriteError> {
        let codes = codes.into_iter().map(|codes| {
            codes.into().checked()?.reader().ok_or(WriteError::InvalidCodes)
        });
        let codes = codes.collect::<Result<Vec<_>, WriteError>>()?;
        flat_text(subset(Global, self.reader_layers(), &codes))
    }
}

/// The text of a file made from all layers, or the error if there is no such file.
fn flat_text<E>(file: Result<File<'_>, Fault<E>>) -> Result<Vec<u8>, WriteError> {
    match file {
        Ok(file) => text_of(&file, TextLengths::by(&file.lists.spaces)),
        Err(fault) => Err(refused(fault)),
    }
}

/// The text of a file, or the error if no text can express it.
fn text_of(file: &File<'_>, lengths: TextLengths) -> Result<Vec<u8>, WriteError> {
    match write_text_by(Global, file, lengths) {
        Ok(text) => Ok(text.to_vec()),
        Err(fault) => Err(refused(fault)),
    }
}

fn refused<E>(fault: Fault<E>) -> WriteError {
    match fault {
        Fault::Refused(_) => WriteError::NotWritable,
        Fault::Memory => made(Err(AllocError)),
    }
}
