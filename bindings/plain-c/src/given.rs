//! What C hands in. Each function stands on the rules of the header: a pointer that isn't null points to as many items as
//! its length says, aligned, which nobody else changes during the call, nor reads if they are changed.

use core::marker::PhantomData;
use core::slice::{from_raw_parts, from_raw_parts_mut};

/// HAYRO_CMAP_ABSENT
pub const ABSENT: u32 = 5;
/// HAYRO_CMAP_NO_MODE
pub const NO_MODE: u32 = 2;

/// What a pointer points to, unless it is null.
#[inline(always)]
pub unsafe fn one<'a, T>(at: *const T) -> Option<&'a T> {
    unsafe { at.as_ref() }
}

/// The same of what the call changes.
#[inline(always)]
pub unsafe fn one_mut<'a, T>(at: *mut T) -> Option<&'a mut T> {
    unsafe { at.as_mut() }
}

/// The items that a pointer points to; `None` where it is null and there are some.
#[inline(always)]
pub unsafe fn items<'a, T>(at: *const T, len: usize) -> Option<&'a [T]> {
    match (at.is_null(), len) {
        (_, 0) => Some(&[]),
        (true, _) => None,
        (false, _) => Some(unsafe { from_raw_parts(at, len) }),
    }
}

/// The same of items that the call changes.
#[inline(always)]
pub unsafe fn items_mut<'a, T>(at: *mut T, len: usize) -> Option<&'a mut [T]> {
    match (at.is_null(), len) {
        (_, 0) => Some(&mut []),
        (true, _) => None,
        (false, _) => Some(unsafe { from_raw_parts_mut(at, len) }),
    }
}

/// Bytes in a struct of C; none where the pointer is null.
#[repr(C)]
#[derive(Clone, Copy)]
pub struct Span<'a> {
    at: *const u8,
    len: usize,
    of: PhantomData<&'a [u8]>,
}

impl<'a> Span<'a> {
    /// The bytes. Only C makes a span, by the rules above.
    #[inline]
    pub fn bytes(self) -> &'a [u8] {
        unsafe { items(self.at, self.len) }.unwrap_or(&[])
    }
}
