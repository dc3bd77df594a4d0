//! Values that have several owners.

use crate::fallible::Box;
use crate::fallible::alloc::{AllocError, Global};
use core::ops::Deref;
use core::ptr::NonNull;
use core::sync::atomic::{AtomicUsize, Ordering, fence};

/// A value with several owners, which may be in several threads.
pub struct Arc<T> {
    at: NonNull<Counted<T>>,
}

struct Counted<T> {
    owners: AtomicUsize,
    value: T,
}

impl<T> Arc<T> {
    /// A value with one owner.
    pub fn new(alloc: Global, value: T) -> Result<Self, AllocError> {
        let owners = AtomicUsize::new(1);
        let at = Box::new(alloc, Counted { owners, value })?.into_raw();
        Ok(Arc { at })
    }

    /// One more owner; an error where so many owners can't be counted.
    pub fn try_clone(this: &Self) -> Result<Self, AllocError> {
        let more = |count: usize| (count < isize::MAX as usize).then_some(count + 1);
        let owners = &this.counted().owners;
        match owners.fetch_update(Ordering::Relaxed, Ordering::Relaxed, more) {
            Ok(_) => Ok(Arc { at: this.at }),
            Err(_) => Err(AllocError),
        }
    }

    fn counted(&self) -> &Counted<T> {
        // SAFETY: the last owner frees it.
        unsafe { self.at.as_ref() }
    }
}

impl<T> Deref for Arc<T> {
    type Target = T;

    #[inline]
    fn deref(&self) -> &T {
        &self.counted().value
    }
}

impl<T> Drop for Arc<T> {
    fn drop(&mut self) {
        if self.counted().owners.fetch_sub(1, Ordering::Release) == 1 {
            fence(Ordering::Acquire);
            // SAFETY: `new` made it of a box, and no other owner is left.
            drop(unsafe { Box::from_raw(self.at) });
        }
    }
}

// SAFETY: as for the `Arc` of Rust, an owner reads the value, and the last one drops it.
unsafe impl<T: Send + Sync> Send for Arc<T> {}
unsafe impl<T: Send + Sync> Sync for Arc<T> {}

impl<T> Box<T> {
    /// The pointer to the value, which then owns it.
    pub(crate) fn into_raw(self) -> NonNull<T> {
        // a list of one item lies where that does
        NonNull::from(::alloc::boxed::Box::leak(self.into_std())).cast()
    }

    /// The box of a pointer of `into_raw`, which then no longer owns the value.
    pub(crate) unsafe fn from_raw(at: NonNull<T>) -> Self {
        Box::from_std(unsafe { ::alloc::boxed::Box::from_raw(at.as_ptr().cast()) })
    }
}
