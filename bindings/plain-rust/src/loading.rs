//! Loaders of the reader, over a bundle.

use crate::bundle::Bundle;
use crate::fallible::alloc::Global;
use crate::made;
use crate::map::CMap;
use crate::options::{ParseOptions, Salvaged};
use crate::reader::cmap_load::SalvageLoader;
use crate::reader::{self, Fault, NameCopies, identity_text};
use crate::reading::tables_of;
use crate::refusal::Refusal;

/// A loader, and the bundle for the names for which the caller has no file.
pub(crate) struct Loading {
    loader: reader::Loader<NameCopies>,
    bundle: Option<Bundle>,
}

impl Loading {
    pub(crate) fn new(options: &ParseOptions<'_>, data: &[u8]) -> Loading {
        let ParseOptions { bundle, budget } = *options;
        let loader = made(reader::Loader::new(Global, budget, data, tables_of(bundle)));
        Loading { loader, bundle: bundle.cloned() }
    }

    pub(crate) fn wanted(&self) -> Option<&[u8]> {
        self.loader.wanted()
    }

    pub(crate) fn supply(&mut self, file: Option<&[u8]>) {
        if let Some(name) = self.loader.wanted() {
            let bundle = self.bundle.as_ref();
            let file = file.or_else(|| elsewhere(bundle, name));
            made(self.loader.supply(file, tables_of(bundle)));
        }
    }

    /// Supplies the file of the bundle. Without one, no file has the name, not even Identity-H or Identity-V.
    pub(crate) fn supply_from_bundle(&mut self) {
        if let Some(name) = self.loader.wanted() {
            let bundle = self.bundle.as_ref();
            let file = bundle.and_then(|bundle| bundle.bytes_of(name));
            made(self.loader.supply(file, tables_of(bundle)));
        }
    }

    /// The map, if no file is wanted.
    pub(crate) fn finish(self) -> Result<CMap, Refusal> {
        match self.loader.finish() {
            Ok(layers) => Ok(CMap::of(reader::CMap::of(layers))),
            Err(Fault::Refused(refused)) => Err(Refusal::of(&made(refused.refusal(Global)))),
            Err(fault) => made(Err(fault)),
        }
    }
}

/// A loader past faults, whether it wants a file, and the bundle.
pub(crate) struct Salvaging {
    loader: SalvageLoader<NameCopies>,
    wants: bool,
    bundle: Option<Bundle>,
}

impl Salvaging {
    pub(crate) fn past_faults(options: &ParseOptions<'_>, data: &[u8]) -> Salvaging {
        let ParseOptions { bundle, budget } = *options;
        let mut loader = made(SalvageLoader::new(Global, budget, data, tables_of(bundle)));
        Salvaging { wants: made(loader.wants()), loader, bundle: bundle.cloned() }
    }

    pub(crate) fn wanted(&self) -> Option<&[u8]> {
        self.wants.then(|| self.loader.name())
    }

    pub(crate) fn supply(&mut self, file: Option<&[u8]>) {
        if self.wants {
            let bundle = self.bundle.as_ref();
            let file = file.or_else(|| elsewhere(bundle, self.loader.name()));
            made(self.loader.supply(file, tables_of(bundle)));
            self.wants = made(self.loader.wants());
        }
    }

    /// The map and the faults, if no file is wanted.
    pub(crate) fn salvaged(self) -> Salvaged {
        let faults = made(self.loader.faults(Global)).iter().map(Refusal::of).collect();
        Salvaged { map: CMap::of(reader::CMap::of(made(self.loader.finish()))), faults }
    }
}

/// The file of a name for which the caller has none: that of the bundle, and the texts of Identity-H and Identity-V.
fn elsewhere<'f>(bundle: Option<&'f Bundle>, name: &[u8]) -> Option<&'f [u8]> {
    bundle.and_then(|bundle| bundle.bytes_of(name)).or_else(|| identity_text(name))
}
