//! Arguments and variables.

use crate::fallible::String;
use crate::fallible::alloc::AllocError;
use crate::host::HostRuntime;
use std::env;

/// Why there is no argument.
pub enum FillError {
    /// There are fewer arguments.
    NotPresent,
    /// It is longer than the buffer for it.
    TooLong,
}

/// The arguments.
pub trait Env {
    /// Copies the argument at an index to the head of a buffer, and returns its length.
    fn arg(&self, index: usize, buffer: &mut [u8]) -> Result<usize, FillError>;
}

impl Env for HostRuntime {
    fn arg(&self, index: usize, buffer: &mut [u8]) -> Result<usize, FillError> {
        let argument = self.arguments.get(index).ok_or(FillError::NotPresent)?.as_encoded_bytes();
        let buffer = buffer.get_mut(..argument.len()).ok_or(FillError::TooLong)?;
        buffer.copy_from_slice(argument);
        Ok(argument.len())
    }
}

/// The arguments. If one isn't UTF-8, the error is the one of memory that ran out.
pub fn args(rt: &HostRuntime) -> Result<std::vec::IntoIter<String>, AllocError> {
    let texts = rt.arguments.iter().map(|argument| argument.to_str().ok_or(AllocError));
    let texts = texts.map(|text| Ok(String::from_std(text?.to_owned())));
    Ok(texts.collect::<Result<std::vec::Vec<_>, AllocError>>()?.into_iter())
}

/// Why a variable has no text.
pub enum VarError {
    /// It isn't set.
    NotPresent,
    /// It isn't UTF-8.
    NotUnicode,
    /// Memory ran out.
    OutOfMemory,
}

/// The text of a variable.
pub fn var(_: &HostRuntime, name: &str) -> Result<String, VarError> {
    match env::var(name) {
        Ok(text) => Ok(String::from_std(text)),
        Err(env::VarError::NotPresent) => Err(VarError::NotPresent),
        Err(env::VarError::NotUnicode(_)) => Err(VarError::NotUnicode),
    }
}

/// The paths of a list, separated as the system does; paths that aren't UTF-8 are left out.
pub fn split_paths(list: &str) -> impl Iterator<Item = String> {
    env::split_paths(list)
        .filter_map(|path| path.into_os_string().into_string().ok())
        .map(String::from_std)
}
