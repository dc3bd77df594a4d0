//! Reading a file without options.

use crate::CMapName;
use crate::map::CMap;
use crate::options::{ParseOptions, Salvaged};
use crate::refusal::Refusal;
use alloc::vec::Vec;

impl<'a> From<&'a str> for CMapName<'a> {
    fn from(text: &'a str) -> CMapName<'a> {
        CMapName::from_bytes(text.as_bytes())
    }
}

impl CMap {
    /// Reads a CMap file: a text, or a binary file if a bundle is embedded in the crate
    /// ([`Bundle::embedded`](crate::Bundle::embedded)).
    ///
    /// `get_cmap` gives the bytes of the files that are used, by the file itself and by used files. It is
    /// called once for each name, after the file that uses the name has been read. The answer is `None` if
    /// a file is outside the grammar, is missing, or would be the seventeenth of a chain;
    /// [`CMap::parse_explained`] gives the reason.
    ///
    /// ```
    /// use hayro_cmap::{CMap, CMapName};
    ///
    /// let base = b"begincidrange <20> <7E> 1 endcidrange";
    /// let map = CMap::parse(b"/Base usecmap", |name| match name {
    ///     CMapName::Custom(b"Base") => Some(base),
    ///     _ => None,
    /// });
    /// assert_eq!(map.unwrap().lookup_cid_code(0x41, 1), Some(34));
    /// ```
    pub fn parse<'a>(
        data: &[u8],
        get_cmap: impl Fn(CMapName<'_>) -> Option<&'a [u8]> + Clone + 'a,
    ) -> Option<CMap> {
        CMap::parse_explained(data, get_cmap).ok()
    }

    /// Reads a CMap file as [`CMap::parse`] does; the error is the reason why there is no map.
    ///
    /// ```
    /// use hayro_cmap::{CMap, Reason};
    ///
    /// let refusal = CMap::parse_explained(b"begincidchar <01> x endcidchar", |_| None).unwrap_err();
    /// assert_eq!(refusal.offset(), Some(19));
    /// assert_eq!(refusal.reason(), Some(Reason::CidExpected));
    /// assert_eq!(refusal.to_string(), "byte 19: a CID was expected");
    /// ```
    pub fn parse_explained<'a>(
        data: &[u8],
        get_cmap: impl Fn(CMapName<'_>) -> Option<&'a [u8]>,
    ) -> Result<CMap, Refusal> {
        ParseOptions::new().parse(data, get_cmap)
    }

    /// Reads a file, and the files that it uses, past their faults. It gives the map of everything else,
    /// and each fault; the faults of each file are listed once. For a file that [`CMap::parse`] accepts, the
    /// map is the same and there is no fault. For any other file, the first fault is one for which
    /// [`CMap::parse_explained`] refuses the file; in a text in rows it may be an earlier one. docs/FORMATS.md
    /// of the project defines how reading goes on, and what a text in rows is.
    ///
    /// `get_cmap` is called as by [`CMap::parse`], and after a fault, too, but not after a chain of more than 16
    /// files.
    ///
    /// ```
    /// let file = b"begincidchar <41> 5 <42> /x <43> 7 endcidchar";
    /// let found = hayro_cmap::CMap::salvage(file, |_| None);
    /// assert_eq!(found.map.lookup_cid_code(0x43, 1), Some(7));
    /// assert_eq!(found.faults.len(), 1);
    /// assert_eq!(found.faults[0].to_string(), "byte 27: a CID was expected");
    /// ```
    pub fn salvage<'a>(
        data: &[u8],
        get_cmap: impl Fn(CMapName<'_>) -> Option<&'a [u8]>,
    ) -> Salvaged {
        ParseOptions::new().salvage(data, get_cmap)
    }

    /// Reads the file of a name, so that the map has its [metadata](CMap::metadata). `get_cmap` gives this
    /// file and the files that it uses. If there is no file of the name, Identity-H and Identity-V are made
    /// without one, and any other name is `Ok(None)`.
    ///
    /// ```
    /// use hayro_cmap::{CMap, CMapName};
    ///
    /// let map = CMap::open(CMapName::IdentityV, |_| None)?.unwrap();
    /// assert_eq!(map.lookup_cid_code(0x1234, 2), Some(0x1234));
    /// assert!(CMap::open(CMapName::Custom(b"Else"), |_| None)?.is_none());
    /// # Ok::<(), hayro_cmap::Refusal>(())
    /// ```
    pub fn open<'a>(
        name: CMapName<'_>,
        get_cmap: impl Fn(CMapName<'_>) -> Option<&'a [u8]>,
    ) -> Result<Option<CMap>, Refusal> {
        ParseOptions::new().open(name, get_cmap)
    }

    /// The names of the files that a file uses, in the order of the uses; `None` if it is outside the
    /// grammar.
    ///
    /// ```
    /// let names = hayro_cmap::CMap::uses(b"/Base usecmap");
    /// assert_eq!(names, Some(vec![b"Base".to_vec()]));
    /// ```
    pub fn uses(data: &[u8]) -> Option<Vec<Vec<u8>>> {
        ParseOptions::new().uses(data)
    }
}
