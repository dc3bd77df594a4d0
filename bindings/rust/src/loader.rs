//! Reading a file over files that the caller looks up.

use crate::CMapName;
use crate::loading::Loading;
use crate::map::CMap;
use crate::options::ParseOptions;
use crate::refusal::Refusal;
use alloc::borrow::Cow;
use core::fmt::{self, Debug, Formatter};

/// Reads a CMap file as [`CMap::parse_explained`] does, over files that the caller looks up in any way, at any time.
/// Identity-H and Identity-V need no file.
///
/// Each name is wanted once, in the order in which files are opened, and no name after a fault. Each file is parsed
/// once. A loader borrows nothing, so that a future can own it:
///
/// ```
/// use hayro_cmap::{CMap, CMapName, Loader, Refusal};
///
/// async fn load(
///     data: &[u8],
///     fetch: impl AsyncFn(CMapName<'_>) -> Option<Vec<u8>>,
/// ) -> Result<CMap, Refusal> {
///     let mut loader = Loader::new(data);
///     while let Some(name) = loader.wanted() {
///         let file = fetch(name).await;
///         loader.supply(file.as_deref());
///     }
///     loader.finish()
/// }
/// ```
pub struct Loader {
    loading: Loading,
}

impl Loader {
    /// Begins to read a file. [`ParseOptions::loader`] reads over a bundle, or within a budget.
    pub fn new(data: &[u8]) -> Loader {
        ParseOptions::new().loader(data)
    }

    /// The name of the file that is wanted next.
    ///
    /// ```
    /// use hayro_cmap::{CMapName, Loader};
    ///
    /// let mut loader = Loader::new(b"/A usecmap /H usecmap");
    /// assert_eq!(loader.wanted(), Some(CMapName::Custom(b"A")));
    /// loader.supply(Some(b"/B usecmap"));
    /// assert_eq!(loader.wanted(), Some(CMapName::Custom(b"B")));
    /// loader.supply(Some(b""));
    /// assert_eq!(loader.wanted(), Some(CMapName::H));
    /// loader.supply(None);
    /// assert_eq!(loader.wanted(), None);
    /// assert_eq!(loader.finish().unwrap_err().to_string(), "H: no file has this name");
    /// ```
    pub fn wanted(&self) -> Option<CMapName<'_>> {
        self.loading.wanted().map(CMapName::from_bytes)
    }

    /// Supplies the wanted file; `None` if the caller has none: the file of the bundle counts, and Identity-H and
    /// Identity-V need none. Nothing changes if no file is wanted.
    pub fn supply(&mut self, file: Option<&[u8]>) {
        self.loading.supply(file);
    }

    /// The map, or the reason why there is none. The caller has none of the files that are still wanted.
    pub fn finish(mut self) -> Result<CMap, Refusal> {
        while self.wanted().is_some() {
            self.supply(None);
        }
        self.loading.finish()
    }
}

impl Debug for Loader {
    fn fmt(&self, f: &mut Formatter<'_>) -> fmt::Result {
        f.debug_struct("Loader").field("wanted", &self.wanted()).finish_non_exhaustive()
    }
}

impl ParseOptions<'_> {
    /// A loader of a file, as of [`Loader::new`], with these options.
    ///
    /// ```
    /// use hayro_cmap::{Cause, ParseOptions};
    ///
    /// let mut loader = ParseOptions::new().budget(20).loader(b"/Base usecmap");
    /// loader.supply(Some(b"% more bytes"));
    /// assert_eq!(loader.finish().unwrap_err().cause(), Cause::OverBudget);
    /// ```
    pub fn loader(&self, data: &[u8]) -> Loader {
        Loader { loading: Loading::new(self, data) }
    }

    /// Reads a file, as [`CMap::parse_explained`] does. Used names need files, even Identity-H and Identity-V.
    pub fn parse<'a>(
        &self,
        data: &[u8],
        get_cmap: impl Fn(CMapName<'_>) -> Option<&'a [u8]>,
    ) -> Result<CMap, Refusal> {
        let mut loader = self.loader(data);
        while let Some(name) = loader.wanted() {
            match get_cmap(name) {
                Some(file) => loader.supply(Some(file)),
                None => loader.loading.supply_from_bundle(),
            }
        }
        loader.finish()
    }

    /// Reads the file of a name, as [`CMap::open`] does.
    pub fn open<'a>(
        &self,
        name: CMapName<'_>,
        get_cmap: impl Fn(CMapName<'_>) -> Option<&'a [u8]>,
    ) -> Result<Option<CMap>, Refusal> {
        let name = CMapName::from_bytes(name.to_bytes());
        let top = get_cmap(name);
        let of_bundle = || Some(Cow::Owned(self.bundle?.file(name)?));
        let Some(data) = top.map(Cow::Borrowed).or_else(of_bundle) else {
            return self.open_without_file(name);
        };
        let mut loader = self.loader(&data);
        while let Some(wanted) = loader.wanted() {
            // Each name is asked for once, the first name too.
            let file = if wanted == name { top } else { get_cmap(wanted) };
            loader.supply(file);
        }
        loader.finish().map(Some)
    }
}
