//! Queues, maps and sets.

use crate::fallible::alloc::{AllocFailed, Global};
use alloc::collections;
use alloc::vec::Vec;
use core::borrow::Borrow;

/// A queue by priority: the greatest item comes first.
pub struct BinaryHeap<T: Ord>(collections::BinaryHeap<T>);

impl<T: Ord> BinaryHeap<T> {
    /// The empty queue, which takes no memory.
    pub fn new(_: Global) -> Self {
        BinaryHeap(collections::BinaryHeap::new())
    }

    /// Adds an item.
    pub fn push(&mut self, value: T) -> Result<(), AllocFailed<T>> {
        if self.0.try_reserve(1).is_err() {
            return Err(AllocFailed { value });
        }
        self.0.push(value);
        Ok(())
    }

    /// Removes the greatest item, and returns it.
    pub fn pop(&mut self) -> Option<T> {
        self.0.pop()
    }

    /// The greatest item.
    pub fn peek(&self) -> Option<&T> {
        self.0.peek()
    }
}

/// The most entries of a part of a map.
const MOST_ENTRIES: usize = 512;

/// Values by their keys.
///
/// The entries lie in the order of their keys, in parts of at most 512. So a new entry moves few others, and a
/// binary search finds a key.
pub struct BTreeMap<K, V> {
    parts: Vec<Vec<(K, V)>>,
}

impl<K: Ord, V> BTreeMap<K, V> {
    /// The empty map, which takes no memory.
    pub fn new(_: Global) -> Self {
        BTreeMap { parts: Vec::new() }
    }

    /// The value of a key.
    pub fn get<Q: Ord + ?Sized>(&self, key: &Q) -> Option<&V>
    where
        K: Borrow<Q>,
    {
        let part = self.parts.get(self.part_of(key))?;
        let at = part.binary_search_by(|(other, _)| other.borrow().cmp(key)).ok()?;
        Some(&part[at].1)
    }

    /// The entries, in the order of their keys.
    pub fn iter(&self) -> impl Iterator<Item = (&K, &V)> {
        self.parts.iter().flatten().map(|(key, value)| (key, value))
    }

    /// Whether a key has a value.
    pub fn contains_key<Q: Ord + ?Sized>(&self, key: &Q) -> bool
    where
        K: Borrow<Q>,
    {
        self.get(key).is_some()
    }

    /// Gives a key its value. It returns the value that the key had.
    pub fn insert(&mut self, key: K, value: V) -> Result<Option<V>, AllocFailed<(K, V)>> {
        let index = self.part_of(&key);
        let Ok(part) = part_with_room(&mut self.parts, index, &key) else {
            return Err(AllocFailed { value: (key, value) });
        };
        match part.binary_search_by(|(other, _)| other.cmp(&key)) {
            Ok(at) => Ok(Some(core::mem::replace(&mut part[at].1, value))),
            Err(at) => {
                part.insert(at, (key, value));
                Ok(None)
            }
        }
    }

    /// Removes a key. It returns the value that the key had.
    pub fn remove<Q: Ord + ?Sized>(&mut self, key: &Q) -> Option<V>
    where
        K: Borrow<Q>,
    {
        let index = self.part_of(key);
        let part = self.parts.get_mut(index)?;
        let at = part.binary_search_by(|(other, _)| other.borrow().cmp(key)).ok()?;
        let (_, value) = part.remove(at);
        if part.is_empty() {
            self.parts.remove(index);
        }
        Some(value)
    }

    /// The index of the part that has the key, if one has it.
    fn part_of<Q: Ord + ?Sized>(&self, key: &Q) -> usize
    where
        K: Borrow<Q>,
    {
        let begins_by = |part: &Vec<(K, V)>| part[0].0.borrow() <= key;
        self.parts.partition_point(begins_by).saturating_sub(1)
    }
}

/// The part in which a key has its place, at an index or after it, with memory for one more entry.
fn part_with_room<'p, K: Ord, V>(
    parts: &'p mut Vec<Vec<(K, V)>>,
    index: usize,
    key: &K,
) -> Result<&'p mut Vec<(K, V)>, collections::TryReserveError> {
    if parts.is_empty() {
        let mut part = Vec::new();
        part.try_reserve(1)?;
        parts.try_reserve(1)?;
        parts.push(part);
    }
    if parts[index].len() < MOST_ENTRIES {
        parts[index].try_reserve(1)?;
        return Ok(&mut parts[index]);
    }
    let mut last = Vec::new();
    last.try_reserve_exact(MOST_ENTRIES)?;
    parts.try_reserve(1)?;
    last.extend(parts[index].drain(MOST_ENTRIES / 2..));
    let comes_last = last[0].0 <= *key;
    parts.insert(index + 1, last);
    Ok(&mut parts[index + usize::from(comes_last)])
}

/// Items, each once.
pub struct BTreeSet<T>(BTreeMap<T, ()>);

impl<T: Ord> BTreeSet<T> {
    /// The empty set, which takes no memory.
    pub fn new(alloc: Global) -> Self {
        BTreeSet(BTreeMap::new(alloc))
    }

    /// Whether the set has an item.
    pub fn contains<Q: Ord + ?Sized>(&self, item: &Q) -> bool
    where
        T: Borrow<Q>,
    {
        self.0.contains_key(item)
    }

    /// Adds an item. It returns whether the item is new.
    pub fn insert(&mut self, item: T) -> Result<bool, AllocFailed<T>> {
        match self.0.insert(item, ()) {
            Ok(before) => Ok(before.is_none()),
            Err(AllocFailed { value: (value, ()) }) => Err(AllocFailed { value }),
        }
    }
}

/// A queue with two ends.
pub struct VecDeque<T>(collections::VecDeque<T>);

impl<T> VecDeque<T> {
    /// The empty queue, which takes no memory.
    pub fn new(_: Global) -> Self {
        VecDeque(collections::VecDeque::new())
    }

    /// Adds an item at the end.
    pub fn push_back(&mut self, value: T) -> Result<(), AllocFailed<T>> {
        if self.0.try_reserve(1).is_err() {
            return Err(AllocFailed { value });
        }
        self.0.push_back(value);
        Ok(())
    }

    /// Removes the first item, and returns it.
    pub fn pop_front(&mut self) -> Option<T> {
        self.0.pop_front()
    }

    /// The first item.
    pub fn front(&self) -> Option<&T> {
        self.0.front()
    }
}

#[cfg(test)]
mod tests {
    use super::*;

    #[test]
    fn the_greatest_item_comes_first() {
        let mut heap = BinaryHeap::new(Global);
        for item in [2, 7, 1, 7] {
            heap.push(item).unwrap();
        }
        assert_eq!(heap.peek(), Some(&7));
        let items = core::array::from_fn(|_| heap.pop());
        assert_eq!(items, [Some(7), Some(7), Some(2), Some(1), None]);
    }

    #[test]
    fn a_map_is_that_of_alloc() {
        let mut map = BTreeMap::new(Global);
        let mut expected = collections::BTreeMap::new();
        assert_eq!(map.get(&7_u32), None);
        let mut number = 1_u32;
        for value in 0..20_000 {
            number = number.wrapping_mul(1_664_525).wrapping_add(1_013_904_223);
            let key = number >> 17;
            assert_eq!(map.insert(key, value).unwrap(), expected.insert(key, value));
        }
        for key in 0..0x8000 {
            assert_eq!(map.get(&key), expected.get(&key));
        }
        assert!(map.iter().eq(&expected));
    }

    #[test]
    fn keys_are_taken_out() {
        let mut map = BTreeMap::new(Global);
        for key in 0..2000_u32 {
            map.insert(key, key + 1).unwrap();
        }
        for key in (0..2000).step_by(2) {
            assert_eq!(map.remove(&key), Some(key + 1));
            assert_eq!(map.remove(&key), None);
        }
        assert!((0..2000).all(|key| map.get(&key).is_some() == (key % 2 == 1)));
    }

    #[test]
    fn a_set_has_an_item_once() {
        let mut set = BTreeSet::new(Global);
        assert!(set.insert(7_u32).unwrap() && !set.insert(7).unwrap());
        assert!(set.contains(&7) && !set.contains(&8));
    }

    #[test]
    fn the_first_item_of_a_queue_is_taken() {
        let mut queue = VecDeque::new(Global);
        queue.push_back(1).unwrap();
        queue.push_back(2).unwrap();
        assert_eq!((queue.front().copied(), queue.pop_front(), queue.pop_front()), (Some(1), Some(1), Some(2)));
        assert_eq!(queue.pop_front(), None);
        assert_eq!(queue.front(), None);
    }

    #[test]
    fn keys_in_order_are_all_found() {
        let mut map = BTreeMap::new(Global);
        for key in (0..3000_u32).chain((3000..6000).rev()) {
            assert_eq!(map.insert(key.to_be_bytes(), key).unwrap(), None);
        }
        for key in 0..6000_u32 {
            assert_eq!(map.get(&key.to_be_bytes()[..]), Some(&key));
        }
    }
}
