//! Reading a file over a base that is a map.

use crate::bundle::Bundle;
use crate::map::CMap;
use crate::metadata::WritingMode;
use crate::options::ParseOptions;
use crate::refusal::Refusal;
use crate::{CMapName, WriteError};
use alloc::borrow::Cow;
use alloc::vec::Vec;
use core::cell::Cell;
use core::fmt::{self, Display, Formatter};

/// The use of a base, which is put before a text that uses no file.
const USE: &[u8] = b"/UseCMap usecmap\n";

/// Why there is no map over a base.
#[derive(Debug)]
#[non_exhaustive]
pub enum BaseError {
    /// The file is refused.
    Refused(Refusal),
    /// No single file has the answers of the base.
    NotWritable(WriteError),
}

impl Display for BaseError {
    fn fmt(&self, f: &mut Formatter<'_>) -> fmt::Result {
        match self {
            BaseError::Refused(refusal) => refusal.fmt(f),
            BaseError::NotWritable(fault) => fault.fmt(f),
        }
    }
}

impl core::error::Error for BaseError {
    fn source(&self) -> Option<&(dyn core::error::Error + 'static)> {
        match self {
            BaseError::Refused(refusal) => Some(refusal),
            BaseError::NotWritable(fault) => Some(fault),
        }
    }
}

impl From<Refusal> for BaseError {
    fn from(refusal: Refusal) -> BaseError {
        BaseError::Refused(refusal)
    }
}

impl From<WriteError> for BaseError {
    fn from(fault: WriteError) -> BaseError {
        BaseError::NotWritable(fault)
    }
}

impl CMap {
    /// Reads a CMap file over a base, such as the one that `UseCMap` of a stream in a PDF file names (ISO 32000-1,
    /// 9.7.5.3). Each name that the file uses stands for the base, and a file that uses none is over it, too.
    ///
    /// ```
    /// use hayro_cmap::CMap;
    ///
    /// let map = CMap::parse_with_base(b"begincidchar <0041> 7 endcidchar", &CMap::identity_v())?;
    /// assert_eq!(map.lookup_cid_code(0x41, 2), Some(7));
    /// assert_eq!(map.lookup_cid_code(0x42, 2), Some(0x42));
    /// # Ok::<(), hayro_cmap::BaseError>(())
    /// ```
    pub fn parse_with_base(data: &[u8], base: &CMap) -> Result<CMap, BaseError> {
        ParseOptions::new().parse_with_base(data, base)
    }

    /// The writing mode of a font's strings: the mode of the first layer that gives one, otherwise horizontal.
    ///
    /// ```
    /// use hayro_cmap::{CMap, WritingMode};
    ///
    /// let map = CMap::parse_with_base(b"", &CMap::identity_v())?;
    /// assert_eq!(map.metadata().writing_mode, None);
    /// assert_eq!(map.effective_writing_mode(), WritingMode::Vertical);
    /// # Ok::<(), hayro_cmap::BaseError>(())
    /// ```
    pub fn effective_writing_mode(&self) -> WritingMode {
        let modes = self.layers().into_iter().map(|layer| layer.metadata.writing_mode);
        modes.flatten().next().unwrap_or_default()
    }
}

impl ParseOptions<'_> {
    /// Reads a file over a base, as [`CMap::parse_with_base`] does. For the budget, the base counts as the
    /// file that [`CMap::write`] makes of it.
    pub fn parse_with_base(&self, data: &[u8], base: &CMap) -> Result<CMap, BaseError> {
        let base = base.write()?;
        let is_used = Cell::new(false);
        let get_base = |_: CMapName<'_>| {
            is_used.set(true);
            Some(base.as_slice())
        };
        let map = self.parse(data, get_base)?;
        if is_used.get() {
            return Ok(map);
        }
        let is_text = !(self.has_tables() && data.starts_with(b"bcmap"));
        let text = if is_text { Cow::Borrowed(data) } else { Cow::Owned(map.write()?) };
        let whole: Vec<u8> = [USE, &text].concat();
        let (now, before) = (whole.len() as u64, data.len() as u64);
        let budget = self.budget.map(|bytes| bytes.saturating_add(now).saturating_sub(before));
        Ok(ParseOptions { budget, ..*self }.parse(&whole, get_base)?)
    }

    /// Whether files in binary form can be read.
    fn has_tables(&self) -> bool {
        self.bundle.is_some() || Bundle::embedded().is_some()
    }
}
