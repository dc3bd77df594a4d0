//! Bundles: predefined CMap files, and the tables of the binary form.

use crate::ffi::BundleHandle;
use crate::names::{CMapName, KNOWN_COUNT};
use crate::pool::Pool;
use std::fmt::{self, Debug, Formatter};
use std::sync::{LazyLock, OnceLock};

mod embedded {
    include!(concat!(env!("OUT_DIR"), "/bundle.rs"));

    pub(super) fn bytes() -> Option<&'static [u8]> {
        BYTES
    }
}

/// Predefined CMap files, which other files use by their names, and the tables of the binary form.
///
/// Any number of threads may use one. A clone copies nothing.
#[derive(Clone)]
pub struct Bundle {
    pool: Pool<BundleHandle>,
}

impl Bundle {
    /// The bundle of these bytes; `None` if they are invalid. Its files are copied.
    pub fn open(bytes: &[u8]) -> Option<Bundle> {
        BundleHandle::open(bytes).map(Bundle::of)
    }

    /// The bundle that is embedded in the crate: the file that `HAYRO_CMAP_BUNDLE` named when the crate was
    /// built. `None` if the variable named none, or if the bytes are invalid.
    pub fn embedded() -> Option<&'static Bundle> {
        static BUNDLE: LazyLock<Option<Bundle>> =
            LazyLock::new(|| Bundle::open(embedded::bytes()?));
        BUNDLE.as_ref()
    }

    /// The bytes of the file of a name.
    pub fn file(&self, name: CMapName<'_>) -> Option<Vec<u8>> {
        self.ask(|bundle| bundle.file(name.to_bytes()))
    }

    fn of(handle: BundleHandle) -> Bundle {
        Bundle { pool: Pool::new(handle) }
    }

    /// The bundle for calls that are given none: the embedded bundle without its files, so that binary files
    /// can be read, but no name has a file.
    pub(crate) fn none() -> &'static Bundle {
        static TABLES: LazyLock<Bundle> = LazyLock::new(|| {
            embedded_tables().unwrap_or_else(|| Bundle::of(BundleHandle::empty()))
        });
        &TABLES
    }

    pub(crate) fn ask<R>(&self, call: impl FnOnce(&mut BundleHandle) -> R) -> R {
        self.pool.ask(call)
    }
}

/// The embedded bundle without its files. A bundle begins with the length of its tables, in four bytes, and the
/// tables; the files follow.
fn embedded_tables() -> Option<Bundle> {
    let bytes = embedded::bytes()?;
    Bundle::embedded()?;
    let len = usize::try_from(u32::from_be_bytes(*bytes.first_chunk()?)).ok()?;
    Bundle::open(bytes.get(..len.checked_add(4)?)?)
}

impl Debug for Bundle {
    fn fmt(&self, f: &mut Formatter<'_>) -> fmt::Result {
        f.debug_struct("Bundle").finish_non_exhaustive()
    }
}

/// A predefined CMap file of the bundle that is embedded in the crate ([`Bundle::embedded`]).
///
/// The file is copied when it is first requested, and the copy stays until the program ends.
pub fn load_embedded(name: CMapName<'_>) -> Option<&'static [u8]> {
    static FILES: [OnceLock<Option<Vec<u8>>>; KNOWN_COUNT] =
        [const { OnceLock::new() }; KNOWN_COUNT];
    let bundle = Bundle::embedded()?;
    FILES[name.index()?].get_or_init(|| bundle.file(name)).as_deref()
}
