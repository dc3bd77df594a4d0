//! Files and folders.

use crate::fallible::{String, Vec};
use crate::host::HostRuntime;
use std::fs;
use std::io::{self, Cursor, ErrorKind, Read};

pub use std::fs::{File, Metadata, Permissions};

/// The metadata of a path; links are followed.
pub fn metadata(_: &HostRuntime, path: &str) -> io::Result<Metadata> {
    fs::metadata(path)
}

/// The metadata of a path; links aren't followed.
pub fn symlink_metadata(_: &HostRuntime, path: &str) -> io::Result<Metadata> {
    fs::symlink_metadata(path)
}

/// The bytes of a file.
pub fn read(_: &HostRuntime, path: &str) -> io::Result<Vec<u8>> {
    fs::read(path).map(Vec::from_std)
}

/// Renames a file.
pub fn rename(_: &HostRuntime, from: &str, to: &str) -> io::Result<()> {
    fs::rename(from, to)
}

/// Removes a file.
pub fn remove_file(_: &HostRuntime, path: &str) -> io::Result<()> {
    fs::remove_file(path)
}

/// A path that is UTF-8.
pub struct TextPath(std::string::String);

impl TextPath {
    /// Its text.
    pub fn into_string(self) -> String {
        String::from_std(self.0)
    }
}

/// The absolute path without links; an error if it isn't UTF-8.
pub fn canonicalize(_: &HostRuntime, path: &str) -> io::Result<TextPath> {
    match fs::canonicalize(path)?.into_os_string().into_string() {
        Ok(text) => Ok(TextPath(text)),
        Err(_) => Err(io::Error::from(ErrorKind::InvalidInput)),
    }
}

/// Options for opening a file.
pub struct OpenOptions(fs::OpenOptions);

impl OpenOptions {
    /// No options.
    pub fn new() -> Self {
        OpenOptions(fs::OpenOptions::new())
    }

    /// Whether the file is opened for writing.
    pub fn write(mut self, is_written: bool) -> Self {
        self.0.write(is_written);
        self
    }

    /// Whether the file is created, and must be new.
    pub fn create_new(mut self, is_new: bool) -> Self {
        self.0.create_new(is_new);
        self
    }

    /// Opens a file.
    pub fn open(&self, _: &HostRuntime, path: &str) -> io::Result<File> {
        self.0.open(path)
    }
}

/// Reads folders.
pub trait Files {
    /// The names of the entries of a folder, each with a zero byte after it.
    fn open_dir(&self, path: &str) -> io::Result<Names>;
}

impl Files for HostRuntime {
    fn open_dir(&self, path: &str) -> io::Result<Names> {
        let mut names = std::vec::Vec::new();
        for entry in fs::read_dir(path)? {
            names.extend_from_slice(entry?.file_name().as_encoded_bytes());
            names.push(0);
        }
        Ok(Names(Cursor::new(names)))
    }
}

/// Names, each with a zero byte after it.
pub struct Names(Cursor<std::vec::Vec<u8>>);

impl Read for Names {
    fn read(&mut self, buffer: &mut [u8]) -> io::Result<usize> {
        self.0.read(buffer)
    }
}
