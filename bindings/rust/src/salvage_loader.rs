//! Reading a file past its faults, over files that the caller looks up.

use crate::CMapName;
use crate::loading::Salvaging;
use crate::options::{ParseOptions, Salvaged};
use core::fmt::{self, Debug, Formatter};

/// Reads a CMap file past its faults as [`CMap::salvage`](crate::CMap::salvage) does, over files that the caller looks
/// up as for a [`Loader`](crate::Loader).
///
/// Names are wanted after a fault, too, but none after a chain of more than 16 files.
///
/// ```
/// use hayro_cmap::{CMapName, SalvageLoader};
///
/// let mut loader = SalvageLoader::new(b"/A usecmap ) /B usecmap");
/// assert_eq!(loader.wanted(), Some(CMapName::Custom(b"A")));
/// loader.supply(None);
/// assert_eq!(loader.wanted(), Some(CMapName::Custom(b"B")));
/// loader.supply(Some(b"begincidchar <41> 5 <42> /x endcidchar"));
/// let found = loader.finish();
/// assert_eq!(found.map.lookup_cid_code(0x41, 1), Some(5));
/// let faults: Vec<String> = found.faults.iter().map(ToString::to_string).collect();
/// assert_eq!(faults[0], "byte 11: a ) or > stands alone");
/// assert_eq!(faults[1..], ["A: no file has this name", "B: byte 27: a CID was expected"]);
/// ```
pub struct SalvageLoader {
    salvaging: Salvaging,
}

impl SalvageLoader {
    /// Begins to read a file. [`ParseOptions::salvage_loader`] reads over a bundle, or within a budget.
    pub fn new(data: &[u8]) -> SalvageLoader {
        ParseOptions::new().salvage_loader(data)
    }

    /// The name of the file that is wanted next.
    pub fn wanted(&self) -> Option<CMapName<'_>> {
        self.salvaging.wanted().map(CMapName::from_bytes)
    }

    /// Supplies the wanted file, as [`Loader::supply`](crate::Loader::supply) does.
    pub fn supply(&mut self, file: Option<&[u8]>) {
        self.salvaging.supply(file);
    }

    /// The map and the faults. The caller has none of the files that are still wanted.
    pub fn finish(mut self) -> Salvaged {
        while self.wanted().is_some() {
            self.supply(None);
        }
        self.salvaging.salvaged()
    }
}

impl Debug for SalvageLoader {
    fn fmt(&self, f: &mut Formatter<'_>) -> fmt::Result {
        f.debug_struct("SalvageLoader").field("wanted", &self.wanted()).finish_non_exhaustive()
    }
}

impl ParseOptions<'_> {
    /// A loader of a file, as of [`SalvageLoader::new`], with these options.
    pub fn salvage_loader(&self, data: &[u8]) -> SalvageLoader {
        SalvageLoader { salvaging: Salvaging::past_faults(self, data) }
    }

    /// Reads a file past its faults, as [`CMap::salvage`](crate::CMap::salvage) does.
    pub fn salvage<'a>(
        &self,
        data: &[u8],
        get_cmap: impl Fn(CMapName<'_>) -> Option<&'a [u8]>,
    ) -> Salvaged {
        let mut loader = self.salvage_loader(data);
        while let Some(name) = loader.wanted() {
            let file = get_cmap(name);
            loader.supply(file);
        }
        loader.finish()
    }
}
