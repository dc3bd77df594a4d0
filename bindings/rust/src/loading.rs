//! A loader of the library, and the name that it wants.

use crate::ffi::{Found, LoaderHandle};
use crate::map::CMap;
use crate::options::{ParseOptions, Salvaged};
use crate::reading::is_identity;
use crate::refusal::Refusal;

/// A loader, whose wanted name can be borrowed.
pub(crate) struct Loading {
    loader: LoaderHandle,
    wanted: Option<Vec<u8>>,
}

/// A loader past faults.
pub(crate) type Salvaging = Loading;

impl Loading {
    pub(crate) fn new(options: &ParseOptions<'_>, data: &[u8]) -> Loading {
        let load = |bundle: &mut _| LoaderHandle::load(data, bundle, options.most());
        Loading::of(options.tables().ask(load))
    }

    pub(crate) fn past_faults(options: &ParseOptions<'_>, data: &[u8]) -> Salvaging {
        let load = |bundle: &mut _| LoaderHandle::load_past_faults(data, bundle, options.most());
        Loading::of(options.tables().ask(load))
    }

    fn of(mut loader: LoaderHandle) -> Loading {
        Loading { wanted: loader.wanted(), loader }
    }

    pub(crate) fn wanted(&self) -> Option<&[u8]> {
        self.wanted.as_deref()
    }

    pub(crate) fn supply(&mut self, file: Option<&[u8]>) {
        let found = if file.is_some() { Found::Given } else { Found::Elsewhere };
        self.loader.supply(found, file.unwrap_or_default());
        self.wanted = self.loader.wanted();
    }

    /// Supplies the file of the bundle. Without one, no file has the name, not even Identity-H or Identity-V.
    pub(crate) fn supply_from_bundle(&mut self) {
        let wanted = self.wanted.as_deref().filter(|name| is_identity(name));
        let is_built_in = wanted.is_some_and(|name| !self.loader.is_in_bundle(name));
        let found = if is_built_in { Found::Nowhere } else { Found::Elsewhere };
        self.loader.supply(found, &[]);
        self.wanted = self.loader.wanted();
    }

    /// The map, if no file is wanted.
    pub(crate) fn finish(mut self) -> Result<CMap, Refusal> {
        self.loader.finish().map(CMap::of).map_err(Refusal::of)
    }

    /// The map and the faults of a loader past faults, if no file is wanted.
    pub(crate) fn salvaged(mut self) -> Salvaged {
        let faults = self.loader.found_faults().into_iter().map(Refusal::of).collect();
        let map = self.finish().expect("past faults no file is refused");
        Salvaged { map, faults }
    }
}
