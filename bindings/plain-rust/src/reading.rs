//! What a file uses, and the maps that need no file.

use crate::bundle::Bundle;
use crate::fallible::alloc::Global;
use crate::made;
use crate::map::CMap;
use crate::options::ParseOptions;
use crate::reader::{self, CMapName, identity_text};
use crate::refusal::Refusal;
use alloc::vec::Vec;

impl ParseOptions<'_> {
    /// The map of a name that no file has.
    pub(crate) fn open_without_file(&self, name: CMapName<'_>) -> Result<Option<CMap>, Refusal> {
        identity_text(name.to_bytes()).map(|text| self.loader(text).finish()).transpose()
    }

    /// The names of the files that a file uses, in the order of the uses; `None` if it is outside the
    /// grammar.
    pub fn uses(&self, data: &[u8]) -> Option<Vec<Vec<u8>>> {
        let names = made(reader::CMap::uses(Global, data, tables_of(self.bundle)))?;
        Some(names.iter().map(|name| name.to_vec()).collect())
    }
}

/// The tables for binary files: the tables of the bundle, otherwise of the bundle in the crate.
pub(crate) fn tables_of(bundle: Option<&Bundle>) -> Option<&reader::Bundle<'static>> {
    match bundle {
        Some(bundle) => Some(bundle.tables()),
        None => Bundle::embedded().map(Bundle::tables),
    }
}
