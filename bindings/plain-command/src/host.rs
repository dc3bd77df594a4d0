//! The system of a program: its arguments and variables, files and streams.

pub mod env;
pub mod fs;

use crate::fallible::Vec;
use crate::fallible::alloc::{AllocError, AllocFailed, Global};
use std::ffi::OsString;
use std::fmt::Arguments;
use std::io::{self, ErrorKind, Read, Stderr, Stdout, Write};

/// The system, which is passed to `main`.
pub struct HostRuntime {
    arguments: std::vec::Vec<OsString>,
}

impl HostRuntime {
    /// The system of the running program.
    pub(crate) fn of_process() -> HostRuntime {
        HostRuntime { arguments: std::env::args_os().collect() }
    }

    /// The allocator.
    pub fn alloc(&self) -> Global {
        Global
    }

    /// The standard input.
    pub fn stdin(&self) -> Stdin {
        Stdin
    }

    /// The standard output.
    pub fn stdout(&self) -> Stdout {
        io::stdout()
    }

    /// The standard error.
    pub fn stderr(&self) -> Stderr {
        io::stderr()
    }

    /// Prints a text.
    pub fn print(&self, text: &str) -> io::Result<()> {
        let mut out = io::stdout().lock();
        out.write_all(text.as_bytes())?;
        out.flush()
    }

    /// Prints a line.
    pub fn println(&self, text: &str) -> io::Result<()> {
        self.print(&format!("{text}\n"))
    }

    /// Writes a text to the standard error.
    pub fn eprint(&self, text: &str) -> io::Result<()> {
        io::stderr().write_all(text.as_bytes())
    }

    /// Writes a line to the standard error.
    pub fn eprintln(&self, text: &str) -> io::Result<()> {
        self.eprint(&format!("{text}\n"))
    }

    /// Writes a formatted text to the standard error.
    pub fn eprint_fmt(&self, text: Arguments<'_>) -> io::Result<()> {
        self.eprint(&text.to_string())
    }

    /// Writes a formatted line to the standard error.
    pub fn eprintln_fmt(&self, text: Arguments<'_>) -> io::Result<()> {
        self.eprint(&format!("{text}\n"))
    }
}

/// The standard input.
pub struct Stdin;

impl Stdin {
    /// Adds the rest of the input. It returns its number of bytes.
    pub fn read_to_end(&self, bytes: &mut Vec<u8>) -> io::Result<usize> {
        let mut read = std::vec::Vec::new();
        let len = io::stdin().lock().read_to_end(&mut read)?;
        bytes.append(&mut Vec::from_std(read))?;
        Ok(len)
    }
}

impl From<AllocError> for io::Error {
    fn from(_: AllocError) -> io::Error {
        io::Error::from(ErrorKind::OutOfMemory)
    }
}

impl<T> From<AllocFailed<T>> for io::Error {
    fn from(_: AllocFailed<T>) -> io::Error {
        io::Error::from(ErrorKind::OutOfMemory)
    }
}
