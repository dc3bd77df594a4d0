//! Bundles: predefined CMap files, and the tables of the binary form.

use crate::fallible::alloc::Global;
use crate::made;
use crate::reader::{self, BundleFiles, CMapName, OwnedBundle};
use alloc::sync::Arc;
use alloc::vec::Vec;
use core::fmt::{self, Debug, Formatter};

/// Predefined CMap files, which other files use by their names, and the tables of the binary form.
///
/// Any number of threads may use one. A clone copies nothing.
#[derive(Clone)]
pub struct Bundle {
    held: Arc<Held>,
}

/// A bundle over the bytes in the crate, or a bundle with copies of its files.
enum Held {
    #[cfg_attr(not(feature = "embed-cmaps"), allow(dead_code))]
    Embedded(reader::Bundle<'static>),
    Owned(OwnedBundle),
}

impl Bundle {
    /// The bundle of these bytes; `None` if they are invalid. Its files are copied.
    pub fn open(bytes: &[u8]) -> Option<Bundle> {
        let bundle = made(OwnedBundle::parse(Global, bytes))?;
        Some(Bundle { held: Arc::new(Held::Owned(bundle)) })
    }

    /// The bundle that is embedded in the crate: with the feature `embed-cmaps`, the file that
    /// `HAYRO_CMAP_BUNDLE` named when the crate was built. `None` without the feature, or if the variable
    /// named none.
    pub fn embedded() -> Option<&'static Bundle> {
        embedded::bundle()
    }

    /// The bytes of the file of a name.
    pub fn file(&self, name: CMapName<'_>) -> Option<Vec<u8>> {
        Some(self.bytes_of(name.to_bytes())?.to_vec())
    }

    pub(crate) fn bytes_of(&self, name: &[u8]) -> Option<&[u8]> {
        match &*self.held {
            Held::Embedded(bundle) => bundle.file_of(name),
            Held::Owned(bundle) => bundle.file_of(name),
        }
    }

    pub(crate) fn tables(&self) -> &reader::Bundle<'static> {
        match &*self.held {
            Held::Embedded(bundle) => bundle,
            Held::Owned(bundle) => bundle.without_files(),
        }
    }
}

impl Debug for Bundle {
    fn fmt(&self, f: &mut Formatter<'_>) -> fmt::Result {
        f.debug_struct("Bundle").finish_non_exhaustive()
    }
}

/// A predefined CMap file of the bundle that is embedded in the crate ([`Bundle::embedded`]).
pub fn load_embedded(name: CMapName<'_>) -> Option<&'static [u8]> {
    match &*Bundle::embedded()?.held {
        Held::Embedded(bundle) => reader::load_embedded(Some(bundle), name),
        Held::Owned(bundle) => bundle.file(name),
    }
}

#[cfg(feature = "embed-cmaps")]
mod embedded {
    use super::*;
    use std::sync::OnceLock;

    include!(concat!(env!("OUT_DIR"), "/bundle.rs"));

    pub(super) fn bundle() -> Option<&'static Bundle> {
        static BUNDLE: OnceLock<Option<Bundle>> = OnceLock::new();
        BUNDLE.get_or_init(|| parsed(BYTES?)).as_ref()
    }

    fn parsed(bytes: &'static [u8]) -> Option<Bundle> {
        let bundle = made(reader::Bundle::parse(Global, bytes))?;
        Some(Bundle { held: Arc::new(Held::Embedded(bundle)) })
    }
}

#[cfg(not(feature = "embed-cmaps"))]
mod embedded {
    pub(super) fn bundle() -> Option<&'static super::Bundle> {
        None
    }
}
