use crate::fallible::Vec;
use crate::fallible::alloc::{AllocError, Global};
use core::borrow::Borrow;
use core::fmt::{self, Arguments, Debug, Display, Formatter, Write};
use core::ops::Deref;

/// A text that grows.
#[derive(PartialEq, Eq, PartialOrd, Ord, Hash)]
pub struct String(::alloc::string::String);

impl String {
    /// The empty text, which takes no memory.
    pub fn new(_: Global) -> Self {
        String(::alloc::string::String::new())
    }

    /// The empty text, with memory for this many bytes.
    pub fn with_capacity(alloc: Global, capacity: usize) -> Result<Self, AllocError> {
        let mut text = String::new(alloc);
        text.0.try_reserve_exact(capacity)?;
        Ok(text)
    }

    /// A copy of a text.
    pub fn from_str(alloc: Global, text: &str) -> Result<Self, AllocError> {
        let mut copy = String::with_capacity(alloc, text.len())?;
        copy.0.push_str(text);
        Ok(copy)
    }

    /// A text of `alloc`, without a copy.
    pub fn from_std(text: ::alloc::string::String) -> Self {
        String(text)
    }

    /// The text that `format!` makes.
    pub fn from_fmt(alloc: Global, printed: Arguments<'_>) -> Result<Self, AllocError> {
        let mut text = String::new(alloc);
        text.write_fmt(printed)?;
        Ok(text)
    }

    /// The text.
    #[inline]
    pub fn as_str(&self) -> &str {
        &self.0
    }

    /// The bytes of the text, without a copy.
    pub fn into_bytes(self) -> Vec<u8> {
        Vec::from_std(self.0.into_bytes())
    }

    /// The text as one of `alloc`, without a copy.
    pub fn into_std(self) -> ::alloc::string::String {
        self.0
    }

    /// Adds a character at the end.
    #[inline]
    pub fn push(&mut self, c: char) -> Result<(), AllocError> {
        if self.0.capacity() - self.0.len() < c.len_utf8() {
            self.0.try_reserve(c.len_utf8())?;
        }
        self.0.push(c);
        Ok(())
    }

    /// Adds a text at the end.
    pub fn push_str(&mut self, text: &str) -> Result<(), AllocError> {
        self.0.try_reserve(text.len())?;
        self.0.push_str(text);
        Ok(())
    }

    /// Adds the text that a value displays.
    pub fn write(&mut self, value: impl Display) -> Result<(), AllocError> {
        self.write_fmt(format_args!("{value}"))
    }

    /// Adds the text that `write!` makes. An error of a value's `Display` counts as memory that ran out.
    pub fn write_fmt(&mut self, printed: Arguments<'_>) -> Result<(), AllocError> {
        Adding(self).write_fmt(printed).map_err(|fmt::Error| AllocError)
    }
}

/// `to_string` into a text.
pub trait Printed: Display {
    /// The text that the value displays.
    fn to_string_in(&self, alloc: Global) -> Result<String, AllocError> {
        let mut text = String::new(alloc);
        text.write(self)?;
        Ok(text)
    }
}

impl<T: Display> Printed for T {}

/// A text to which a formatter adds.
struct Adding<'t>(&'t mut String);

impl Write for Adding<'_> {
    fn write_str(&mut self, text: &str) -> fmt::Result {
        self.0.push_str(text).map_err(|AllocError| fmt::Error)
    }
}

impl Deref for String {
    type Target = str;

    #[inline]
    fn deref(&self) -> &str {
        &self.0
    }
}

impl Borrow<str> for String {
    fn borrow(&self) -> &str {
        &self.0
    }
}

impl Debug for String {
    fn fmt(&self, f: &mut Formatter<'_>) -> fmt::Result {
        Debug::fmt(&self.0, f)
    }
}

impl Display for String {
    fn fmt(&self, f: &mut Formatter<'_>) -> fmt::Result {
        Display::fmt(&self.0, f)
    }
}

#[cfg(test)]
mod tests {
    use super::*;

    #[test]
    fn characters_are_added_at_the_end() {
        let mut text = String::from_str(Global, "日本").unwrap();
        text.push('語').unwrap();
        write!(text, " {:02}", 7).unwrap();
        text.push_str("\n").unwrap();
        assert_eq!(text.as_str(), "日本語 07\n");
        assert_eq!(text.into_std(), "日本語 07\n");
        assert!(String::with_capacity(Global, usize::MAX).is_err());
    }
}
