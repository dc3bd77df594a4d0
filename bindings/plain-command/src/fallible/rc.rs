//! Shared lists.

use crate::fallible::Vec;
use crate::fallible::alloc::AllocError;
use alloc::rc::Rc;

/// A list that is shared and not copied.
pub struct RcSlice<T>(Rc<Vec<T>>);

impl<T> RcSlice<T> {
    /// The items of a list, which aren't copied. If there is no memory for the counts, the program ends.
    pub fn from_vec(items: Vec<T>) -> Result<Self, AllocError> {
        Ok(RcSlice(Rc::new(items)))
    }

    /// The same list. The call returns a `Result`, as in the port, so the type isn't `Clone`.
    #[allow(clippy::should_implement_trait)]
    pub fn clone(&self) -> Result<Self, AllocError> {
        Ok(RcSlice(Rc::clone(&self.0)))
    }

    /// The items.
    pub fn as_slice(&self) -> &[T] {
        self.0.as_slice()
    }
}
