//! The predefined CMap files of the system.

use crate::extractor::{Extractor, family_of};
use crate::loader::Loader;
use crate::map::CMap;
use crate::refusal::Refusal;
use crate::{CMapName, CidFamily};
use std::ffi::OsStr;
use std::fmt::{self, Display, Formatter};
use std::os::unix::ffi::OsStrExt;
use std::path::{Path, PathBuf};
use std::vec::Vec;
use std::{env, fs, io};

/// The folders of poppler-data, of Ghostscript, and of the packages cmap-adobe-*.
const SYSTEM_FOLDERS: [&str; 3] =
    ["/usr/share/poppler/cMap", "/var/lib/ghostscript/CMap", "/usr/share/fonts/cmap"];

/// The predefined CMap file of a name, such as 90ms-RKSJ-H; `None` if the system has none.
///
/// It is looked up in the folders of the environment variable `CMAP_PATH`, separated by colons, or without the
/// variable where packages of Linux put these files; in each folder first, then in its subfolders. No name
/// leads out of these folders, to a hidden file, or into a hidden subfolder. An error if a file is there but
/// can't be read.
pub fn predefined_file(name: CMapName<'_>) -> io::Result<Option<Vec<u8>>> {
    let name = name.to_bytes();
    if matches!(name, [] | [b'.', ..]) || name.contains(&b'/') || name.contains(&0) {
        return Ok(None);
    }
    let name = OsStr::from_bytes(name);
    for folder in folders() {
        for place in [folder.clone()].into_iter().chain(subfolders(&folder)) {
            let path = place.join(name);
            if path.is_file() {
                return fs::read(path).map(Some);
            }
        }
    }
    Ok(None)
}

/// The folders in which predefined CMap files are looked up.
fn folders() -> Vec<PathBuf> {
    match env::var_os("CMAP_PATH") {
        Some(path) => {
            env::split_paths(&path).filter(|folder| !folder.as_os_str().is_empty()).collect()
        }
        None => SYSTEM_FOLDERS.iter().map(PathBuf::from).collect(),
    }
}

/// The visible folders in a folder, in order; none if it can't be read.
fn subfolders(folder: &Path) -> Vec<PathBuf> {
    let Ok(entries) = fs::read_dir(folder) else {
        return Vec::new();
    };
    let is_hidden = |entry: &fs::DirEntry| entry.file_name().as_bytes().starts_with(b".");
    let is_folder = |entry: &fs::DirEntry| entry.file_type().is_ok_and(|kind| kind.is_dir());
    let is_seen = |entry: &fs::DirEntry| !is_hidden(entry) && is_folder(entry);
    let mut found: Vec<PathBuf> =
        entries.flatten().filter(is_seen).map(|entry| entry.path()).collect();
    found.sort();
    found
}

/// Why the predefined CMap of a name can't be read.
#[derive(Debug)]
#[non_exhaustive]
pub enum OpenError {
    /// Its file, or one that it uses, is refused.
    Refused(Refusal),
    /// A file is there, but can't be read.
    Io(io::Error),
}

impl Display for OpenError {
    fn fmt(&self, f: &mut Formatter<'_>) -> fmt::Result {
        match self {
            OpenError::Refused(refusal) => refusal.fmt(f),
            OpenError::Io(fault) => fault.fmt(f),
        }
    }
}

impl std::error::Error for OpenError {
    fn source(&self) -> Option<&(dyn std::error::Error + 'static)> {
        match self {
            OpenError::Refused(refusal) => Some(refusal),
            OpenError::Io(fault) => Some(fault),
        }
    }
}

impl From<io::Error> for OpenError {
    fn from(fault: io::Error) -> OpenError {
        OpenError::Io(fault)
    }
}

impl From<Refusal> for OpenError {
    fn from(refusal: Refusal) -> OpenError {
        OpenError::Refused(refusal)
    }
}

impl CMap {
    /// Reads the predefined CMap of a name, and the files that it uses, as
    /// [`predefined_file`](crate::predefined_file) finds them. If the system has no such file, Identity-H
    /// and Identity-V are made without one, and any other name is `Ok(None)`.
    ///
    /// ```no_run
    /// use hayro_cmap::CMap;
    ///
    /// let map = CMap::open_predefined("90ms-RKSJ-H")?.expect("poppler-data isn't installed");
    /// assert_eq!(map.lookup_cid_code(0x93FA, 2), Some(3284));
    /// # Ok::<(), hayro_cmap::OpenError>(())
    /// ```
    pub fn open_predefined<'n>(name: impl Into<CMapName<'n>>) -> Result<Option<CMap>, OpenError> {
        let name = name.into();
        let Some(data) = predefined_file(name)? else {
            return Ok(CMap::open(name, |_| None)?);
        };
        let mut loader = Loader::new(&data);
        while let Some(used) = loader.wanted() {
            let file = predefined_file(used)?;
            loader.supply(file.as_deref());
        }
        Ok(Some(loader.finish()?))
    }
}

impl Extractor {
    /// The maps of a font, as of [`Extractor::over`]. The maps of the character collection, such as
    /// Adobe-Japan1-UCS2 and UniJIS-UTF16-H, are the ones that the system has.
    ///
    /// ```no_run
    /// use hayro_cmap::{CMap, Extractor};
    ///
    /// let encoding = CMap::open_predefined("90ms-RKSJ-H")?.expect("poppler-data isn't installed");
    /// let font = Extractor::over_predefined(encoding, None)?;
    /// assert_eq!(font.text(b"\x93\xFA\x96\x7B"), "日本");
    /// # Ok::<(), hayro_cmap::OpenError>(())
    /// ```
    pub fn over_predefined(
        encoding: CMap,
        to_unicode: Option<CMap>,
    ) -> Result<Extractor, OpenError> {
        let family = family_of(&encoding);
        let open = |name: CMapName<'_>| CMap::open_predefined(name);
        Extractor::by_names(encoding, to_unicode, family.as_ref(), open)
    }

    /// The same with the maps of this character collection, as of [`Extractor::over_collection`].
    ///
    /// ```no_run
    /// use hayro_cmap::{CMap, CidFamily, Extractor};
    ///
    /// let (encoding, family) = (CMap::identity_h(), CidFamily::AdobeJapan1);
    /// let font = Extractor::over_predefined_collection(encoding, None, &family)?;
    /// assert_eq!(font.encoder().encode("あ").unwrap(), 843_u16.to_be_bytes());
    /// # Ok::<(), hayro_cmap::OpenError>(())
    /// ```
    pub fn over_predefined_collection(
        encoding: CMap,
        to_unicode: Option<CMap>,
        family: &CidFamily,
    ) -> Result<Extractor, OpenError> {
        let open = |name: CMapName<'_>| CMap::open_predefined(name);
        Extractor::by_names(encoding, to_unicode, Some(family), open)
    }
}
