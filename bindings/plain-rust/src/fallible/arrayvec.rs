//! Lists of a fixed capacity.

/// A list of at most `CAP` items, which takes no memory of the heap.
pub struct ArrayVec<T, const CAP: usize> {
    items: [T; CAP],
    len: usize,
}

impl<T: Copy + Default, const CAP: usize> ArrayVec<T, CAP> {
    /// The empty list.
    #[allow(clippy::new_without_default)]
    pub fn new() -> Self {
        ArrayVec { items: [T::default(); CAP], len: 0 }
    }

    /// Adds an item at the end. The list has fewer than `CAP` items.
    pub fn push(&mut self, item: T) {
        self.items[self.len] = item;
        self.len += 1;
    }

    /// Takes the last item away; `None` if there is none.
    pub fn pop(&mut self) -> Option<T> {
        self.len = self.len.checked_sub(1)?;
        Some(self.items[self.len])
    }

    /// Takes all items away.
    pub fn clear(&mut self) {
        self.len = 0;
    }

    /// The number of items.
    #[allow(clippy::len_without_is_empty)]
    pub fn len(&self) -> usize {
        self.len
    }

    /// The items.
    pub fn as_slice(&self) -> &[T] {
        &self.items[..self.len]
    }
}
