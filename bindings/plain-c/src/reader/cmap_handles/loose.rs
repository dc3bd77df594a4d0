//! A box as its pointer.

#![allow(unsafe_code)]

use crate::fallible::Box;
use crate::fallible::alloc::Global;
use core::ptr::NonNull;

/// A pointer that owns what a box owns.
pub struct Loose<T, A> {
    /// Where the value lies.
    pub at: *mut T,
    /// What frees its block.
    pub alloc: A,
}

impl<T> Loose<T, Global> {
    /// A pointer that owns what this box owns.
    pub fn of(value: Box<T>) -> Self {
        Loose {
            at: value.into_raw().as_ptr(),
            alloc: Global,
        }
    }

    /// A box that owns what the pointer owns.
    pub fn into_box(self) -> Box<T> {
        // SAFETY: a slot is full where its handle is, and `of` made its pointer.
        unsafe { Box::from_raw(NonNull::new_unchecked(self.at)) }
    }
}
