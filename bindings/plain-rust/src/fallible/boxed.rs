use crate::fallible::alloc::{AllocFailed, Global};
use alloc::vec::Vec;
use core::fmt::{self, Debug, Formatter};
use core::ops::{Deref, DerefMut};

/// A value in memory of its own.
///
/// It is an array of one item in a box of `alloc`: memory for an array can be requested without ending the program.
#[derive(PartialEq, Eq, PartialOrd, Ord, Hash)]
pub struct Box<T>(::alloc::boxed::Box<[T; 1]>);

impl<T> Box<T> {
    /// Moves a value into memory of its own.
    pub fn new(_: Global, value: T) -> Result<Self, AllocFailed<T>> {
        let mut one = Vec::new();
        if one.try_reserve_exact(1).is_err() {
            return Err(AllocFailed { value });
        }
        one.push(value);
        match one.into_boxed_slice().try_into() {
            Ok(one) => Ok(Box(one)),
            Err(_) => unreachable!("it has one item"),
        }
    }

    /// Moves the value out of its memory.
    pub fn into_inner(held: Self) -> T {
        let [value] = *held.0;
        value
    }

    /// The value in an array of one item in a box of `alloc`, without a copy.
    pub fn into_std(self) -> ::alloc::boxed::Box<[T; 1]> {
        self.0
    }

    /// The value of an array of one item in a box of `alloc`, without a copy.
    pub fn from_std(one: ::alloc::boxed::Box<[T; 1]>) -> Self {
        Box(one)
    }
}

impl<T: Debug> Debug for Box<T> {
    fn fmt(&self, f: &mut Formatter<'_>) -> fmt::Result {
        (**self).fmt(f)
    }
}

impl<T> Deref for Box<T> {
    type Target = T;

    #[inline]
    fn deref(&self) -> &T {
        let [value] = &*self.0;
        value
    }
}

impl<T> DerefMut for Box<T> {
    #[inline]
    fn deref_mut(&mut self) -> &mut T {
        let [value] = &mut *self.0;
        value
    }
}

#[cfg(test)]
mod tests {
    use super::*;

    #[test]
    fn a_box_holds_its_value() {
        let mut held = Box::new(Global, [1, 2]).unwrap();
        held[1] = 3;
        assert_eq!(*held, [1, 3]);
        assert_eq!(Box::into_inner(held), [1, 3]);
    }
}
