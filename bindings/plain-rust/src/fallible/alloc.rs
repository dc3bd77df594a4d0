//! The allocator, and the errors of calls that take memory.

use core::error::Error;
use core::fmt::{self, Display, Formatter};

/// The allocator of the program.
#[derive(Clone, Copy, Debug, Default)]
pub struct Global;

/// Memory ran out.
#[derive(Clone, Copy, Debug, PartialEq, Eq)]
pub struct AllocError;

impl Display for AllocError {
    fn fmt(&self, f: &mut Formatter<'_>) -> fmt::Result {
        f.write_str("memory allocation failed")
    }
}

impl Error for AllocError {}

impl From<::alloc::collections::TryReserveError> for AllocError {
    fn from(_: ::alloc::collections::TryReserveError) -> AllocError {
        AllocError
    }
}

/// Memory ran out for a value, which is handed back.
#[derive(Clone, Copy, Debug)]
pub struct AllocFailed<T> {
    /// The value that isn't stored.
    pub value: T,
}

impl<T> From<AllocFailed<T>> for AllocError {
    fn from(_: AllocFailed<T>) -> AllocError {
        AllocError
    }
}
