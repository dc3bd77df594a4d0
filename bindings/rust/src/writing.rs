//! Writing files.

use crate::builder::{CMapBuilder, Codes, WriteError};
use crate::ffi;
use crate::map::CMap;

impl CMapBuilder {
    /// The text of the file, in the fewest declarations that give each code the same.
    pub fn build(&self) -> Result<Vec<u8>, WriteError> {
        self.checked()?;
        ffi::make(self).ok_or(WriteError::NotWritable)
    }
}

impl CMap {
    /// The text of one CMap file, which uses no other and has the answers of the map for each code, in the
    /// fewest declarations.
    ///
    /// ```
    /// use hayro_cmap::CMap;
    ///
    /// let base = b"begincidrange <20> <7E> 1 endcidrange";
    /// let map = CMap::parse(b"/Base usecmap begincidchar <41> 7 endcidchar", |_| Some(base)).unwrap();
    /// let alone = CMap::parse(&map.write()?, |_| None).unwrap();
    /// assert_eq!((alone.lookup_cid_code(0x41, 1), alone.lookup_cid_code(0x42, 1)), (Some(7), Some(35)));
    /// # Ok::<(), hayro_cmap::WriteError>(())
    /// ```
    pub fn write(&self) -> Result<Vec<u8>, WriteError> {
        self.ask(|map| map.write(None)).ok_or(WriteError::NotWritable)
    }

    /// The same with answers only for these codes. The codespace ranges stay.
    ///
    /// ```
    /// use hayro_cmap::CMap;
    ///
    /// let map = CMap::identity_h();
    /// let file = map.write_codes(map.decode(b"\x12\x34\x56\x78"))?;
    /// let of_string = CMap::parse(&file, |_| None).unwrap();
    /// assert_eq!(of_string.lookup_cid_code(0x1234, 2), Some(0x1234));
    /// assert_eq!(of_string.lookup_cid_code(0x1235, 2), None);
    /// # Ok::<(), hayro_cmap::WriteError>(())
    /// ```
    pub fn write_codes(
        &self,
        codes: impl IntoIterator<Item: Into<Codes>>,
    ) -> Result<Vec<u8>, WriteError> {
        let codes = codes.into_iter().map(|codes| codes.into().checked());
        let codes = codes.collect::<Result<Vec<Codes>, WriteError>>()?;
        self.ask(|map| map.write(Some(&codes))).ok_or(WriteError::NotWritable)
    }
}
