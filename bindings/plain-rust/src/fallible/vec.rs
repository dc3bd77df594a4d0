use crate::fallible::alloc::{AllocError, AllocFailed, Global};
use crate::fallible::sorting::{sorted_indices, with_capacity};
use core::borrow::Borrow;
use core::fmt::{self, Debug, Formatter};
use core::ops::{Deref, DerefMut};
use core::slice::{Iter, IterMut};

/// A list that grows.
#[derive(PartialEq, Eq, PartialOrd, Ord, Hash)]
pub struct Vec<T>(::alloc::vec::Vec<T>);

impl<T> Vec<T> {
    /// The empty list, which takes no memory.
    pub fn new(_: Global) -> Self {
        Vec(::alloc::vec::Vec::new())
    }

    /// The empty list, with memory for this many items.
    pub fn with_capacity(alloc: Global, capacity: usize) -> Result<Self, AllocError> {
        let mut items = Vec::new(alloc);
        items.0.try_reserve_exact(capacity)?;
        Ok(items)
    }

    /// A list of `alloc`, without a copy.
    pub fn from_std(items: ::alloc::vec::Vec<T>) -> Self {
        Vec(items)
    }

    /// The list as one of `alloc`, without a copy.
    pub fn into_std(self) -> ::alloc::vec::Vec<T> {
        self.0
    }

    /// The items.
    #[inline]
    pub fn as_slice(&self) -> &[T] {
        &self.0
    }

    /// The items.
    #[inline]
    pub fn as_mut_slice(&mut self) -> &mut [T] {
        &mut self.0
    }

    /// How many items the list can have without more memory.
    #[inline]
    pub fn capacity(&self) -> usize {
        self.0.capacity()
    }

    /// Takes memory for further items, or for more.
    pub fn reserve(&mut self, additional: usize) -> Result<(), AllocError> {
        Ok(self.0.try_reserve(additional)?)
    }

    /// Takes memory for further items, and not for more.
    pub fn reserve_exact(&mut self, additional: usize) -> Result<(), AllocError> {
        Ok(self.0.try_reserve_exact(additional)?)
    }

    /// Adds an item at the end.
    #[inline]
    pub fn push(&mut self, value: T) -> Result<(), AllocFailed<T>> {
        if self.0.len() == self.0.capacity() && self.grow().is_err() {
            return Err(AllocFailed { value });
        }
        self.0.push(value);
        Ok(())
    }

    /// Adds an item at the end; memory for it was taken before.
    #[inline]
    pub fn push_reserved(&mut self, value: T) {
        debug_assert!(self.0.len() < self.0.capacity());
        self.0.push(value);
    }

    /// Adds an item at an index.
    ///
    /// # Panics
    ///
    /// If the index is past the end.
    pub fn insert(&mut self, index: usize, value: T) -> Result<(), AllocFailed<T>> {
        if self.0.len() == self.0.capacity() && self.grow().is_err() {
            return Err(AllocFailed { value });
        }
        self.0.insert(index, value);
        Ok(())
    }

    /// Moves the items of another list to the end.
    pub fn append(&mut self, other: &mut Vec<T>) -> Result<(), AllocError> {
        self.reserve(other.len())?;
        self.0.append(&mut other.0);
        Ok(())
    }

    #[cold]
    fn grow(&mut self) -> Result<(), AllocError> {
        self.reserve(1)
    }

    /// Removes the last item, and returns it.
    #[inline]
    pub fn pop(&mut self) -> Option<T> {
        self.0.pop()
    }

    /// Drops all items.
    pub fn clear(&mut self) {
        self.0.clear();
    }

    /// Drops the items from an index on.
    pub fn truncate(&mut self, len: usize) {
        self.0.truncate(len);
    }

    /// Sorts the items; equal items may change their order.
    pub fn sort(&mut self) -> Result<(), AllocError>
    where
        T: Ord,
    {
        self.0.sort_unstable();
        Ok(())
    }

    /// Adds copies of a value at the end, or drops items there, so that there are `len`.
    pub fn resize(&mut self, len: usize, value: T) -> Result<(), AllocError>
    where
        T: Clone,
    {
        self.reserve(len.saturating_sub(self.0.len()))?;
        self.0.resize(len, value);
        Ok(())
    }

    /// Sorts by keys, each of which is made once. Items of equal keys stay in their order.
    pub fn sort_by_key<K: Ord + Copy>(&mut self, key: impl FnMut(&T) -> K) -> Result<(), AllocError> {
        let order = sorted_indices(self.0.iter().map(key))?;
        let mut taken = with_capacity(self.0.len())?;
        taken.extend(self.0.drain(..).map(Some));
        self.0.extend(order.into_iter().filter_map(|index| taken[index].take()));
        Ok(())
    }

    /// Drops each item whose key equals the key of the item before it.
    pub fn dedup_by_key<K: PartialEq>(&mut self, key: impl FnMut(&mut T) -> K) {
        self.0.dedup_by_key(key);
    }

    /// Gives memory back if more than half of it is unused. This takes a copy, since `shrink_to_fit` of `alloc` ends
    /// the program if memory runs out. If there is no memory for the copy, the list stays as it is.
    pub fn shrink_to_fit(&mut self) {
        let mut exact = ::alloc::vec::Vec::new();
        if self.0.len() < self.0.capacity() / 2 && exact.try_reserve_exact(self.0.len()).is_ok() {
            exact.append(&mut self.0);
            self.0 = exact;
        }
    }
}

impl<T: Clone> Vec<T> {
    /// A list with `len` copies of an item.
    pub fn from_elem(alloc: Global, item: T, len: usize) -> Result<Self, AllocError> {
        let mut items = Vec::with_capacity(alloc, len)?;
        items.0.resize(len, item);
        Ok(items)
    }
}

impl<T: Copy> Vec<T> {
    /// A copy of the items.
    pub fn from_slice(alloc: Global, items: &[T]) -> Result<Self, AllocError> {
        let mut copy = Vec::with_capacity(alloc, items.len())?;
        copy.0.extend_from_slice(items);
        Ok(copy)
    }

    /// Adds copies of the items at the end.
    pub fn extend_from_slice(&mut self, items: &[T]) -> Result<(), AllocError> {
        self.reserve(items.len())?;
        self.0.extend_from_slice(items);
        Ok(())
    }
}

impl<T> Borrow<[T]> for Vec<T> {
    fn borrow(&self) -> &[T] {
        &self.0
    }
}

impl<T> Deref for Vec<T> {
    type Target = [T];

    #[inline]
    fn deref(&self) -> &[T] {
        &self.0
    }
}

impl<T> DerefMut for Vec<T> {
    #[inline]
    fn deref_mut(&mut self) -> &mut [T] {
        &mut self.0
    }
}

impl<T: Debug> Debug for Vec<T> {
    fn fmt(&self, f: &mut Formatter<'_>) -> fmt::Result {
        self.0.fmt(f)
    }
}

impl<T> IntoIterator for Vec<T> {
    type Item = T;
    type IntoIter = ::alloc::vec::IntoIter<T>;

    fn into_iter(self) -> Self::IntoIter {
        self.0.into_iter()
    }
}

impl<'a, T> IntoIterator for &'a Vec<T> {
    type Item = &'a T;
    type IntoIter = Iter<'a, T>;

    #[inline]
    fn into_iter(self) -> Iter<'a, T> {
        self.0.iter()
    }
}

impl<'a, T> IntoIterator for &'a mut Vec<T> {
    type Item = &'a mut T;
    type IntoIter = IterMut<'a, T>;

    #[inline]
    fn into_iter(self) -> IterMut<'a, T> {
        self.0.iter_mut()
    }
}

/// `collect` into a list.
pub trait CollectIn: Iterator + Sized {
    /// The items in a list.
    fn collect_in(self, alloc: Global) -> Result<Vec<Self::Item>, AllocError> {
        let mut items = Vec::with_capacity(alloc, self.size_hint().0)?;
        for item in self {
            items.push(item)?;
        }
        Ok(items)
    }
}

impl<I: Iterator> CollectIn for I {}

#[cfg(test)]
mod tests {
    use super::*;

    fn list<T: Copy>(items: &[T]) -> Vec<T> {
        Vec::from_slice(Global, items).unwrap()
    }

    #[test]
    fn an_item_is_copied() {
        assert_eq!(Vec::from_elem(Global, 7, 3).unwrap().as_slice(), [7; 3]);
        assert!(Vec::from_elem(Global, 7, 0).unwrap().is_empty());
    }

    #[test]
    fn a_list_grows_and_shrinks() {
        let mut items = Vec::new(Global);
        for item in 0..100 {
            items.push(item).unwrap();
        }
        items.insert(1, 7).unwrap();
        items.shrink_to_fit();
        assert!(items.len() == 101 && items.capacity() < 202);
        items.truncate(3);
        items.shrink_to_fit();
        assert_eq!((items.as_slice(), items.capacity()), (&[0, 7, 1][..], 3));
        assert_eq!(items.pop(), Some(1));
        items.resize(4, 9).unwrap();
        items.extend_from_slice(&[5]).unwrap();
        assert_eq!(items.as_slice(), [0, 7, 9, 9, 5]);
        items.clear();
        assert!(items.is_empty() && items.capacity() >= 5);
    }

    #[test]
    fn what_is_reserved_is_there() {
        let mut items = Vec::with_capacity(Global, 3).unwrap();
        items.push_reserved('a');
        items.reserve_exact(4).unwrap();
        assert!(items.capacity() >= 5);
        assert_eq!(Vec::<u64>::with_capacity(Global, usize::MAX).unwrap_err(), AllocError);
        assert!(items.reserve(usize::MAX).is_err());
    }

    #[test]
    fn items_are_sorted() {
        let mut items = list(&[3, 1, 2, 1]);
        items.sort().unwrap();
        assert_eq!(items.into_std(), [1, 1, 2, 3]);
    }

    #[test]
    fn a_sort_keeps_the_order_of_equal_keys() {
        let mut items = list(&[(2, 'a'), (1, 'b'), (2, 'c'), (0, 'd'), (1, 'e'), (2, 'f')]);
        items.sort_by_key(|item| item.0).unwrap();
        let sorted = [(0, 'd'), (1, 'b'), (1, 'e'), (2, 'a'), (2, 'c'), (2, 'f')];
        assert_eq!(items.as_slice(), sorted);
    }

    /// Checks `sort_by_key` by the first halves of pairs.
    fn check_sort(items: &[(u32, usize)]) {
        let mut expected = items.to_vec();
        expected.sort_by_key(|item| item.0);
        let mut sorted = list(items);
        sorted.sort_by_key(|item| item.0).unwrap();
        assert_eq!(sorted.as_slice(), expected);
    }

    #[test]
    fn sorted_lists_are_those_of_std() {
        let mut number = 1_u32;
        for len in 0..200 {
            for spread in [1, 3, 16, 1000] {
                let next = |index| {
                    number = number.wrapping_mul(1_664_525).wrapping_add(1_013_904_223);
                    ((number >> 16) % spread, index)
                };
                check_sort(&(0..len).map(next).collect::<::alloc::vec::Vec<_>>());
            }
        }
    }

    #[test]
    fn runs_are_merged() {
        for runs in 1..9 {
            let ascending = |index: usize| (((index % 50) * 7 + index / 50) as u32, index);
            let descending = |index: usize| (500 - ascending(index).0, index);
            check_sort(&(0..50 * runs).map(ascending).collect::<::alloc::vec::Vec<_>>());
            check_sort(&(0..50 * runs).map(descending).collect::<::alloc::vec::Vec<_>>());
        }
    }

    #[test]
    fn the_last_item_may_come_first() {
        let len = 1_000_000;
        let mut items: Vec<u32> = (1..len).chain([0]).collect_in(Global).unwrap();
        items.sort_by_key(|item| *item).unwrap();
        assert!(items.iter().copied().eq(0..len));
    }

    #[test]
    fn lists_are_walked() {
        let mut items = list(&[1, 2, 3]);
        for item in &mut items {
            *item *= 2;
        }
        assert_eq!((&items).into_iter().sum::<i32>(), 12);
        assert_eq!(items.into_iter().collect_in(Global).unwrap(), list(&[2, 4, 6]));
    }
}
