use core::ops::RangeTo;

/// `map` of an array, with a function that can fail.
pub trait TryEach<T, const N: usize> {
    /// The results of the function for the items, or the first error. After an error the function isn't called again.
    fn try_each<U, E>(self, f: impl FnMut(T) -> Result<U, E>) -> Result<[U; N], E>;
}

impl<T, const N: usize> TryEach<T, N> for [T; N] {
    fn try_each<U, E>(self, mut f: impl FnMut(T) -> Result<U, E>) -> Result<[U; N], E> {
        let mut fault = None;
        let made = self.map(|item| match fault {
            None => f(item).map_err(|error| fault = Some(error)).ok(),
            Some(_) => None,
        });
        match fault {
            None => Ok(made.map(|item| item.expect("each is made"))),
            Some(error) => Err(error),
        }
    }
}

/// Removes items from the start of a slice, like `split_off` and `split_off_first` of slices in Rust 1.87.
pub trait TakeFront<'a, T> {
    /// Removes the items of the range, and returns them; `None` if there are fewer, and then all stay.
    fn take_front(&mut self, range: RangeTo<usize>) -> Option<&'a [T]>;

    /// Removes the first item, and returns it.
    fn take_one(&mut self) -> Option<&'a T>;
}

impl<'a, T> TakeFront<'a, T> for &'a [T] {
    #[inline]
    fn take_front(&mut self, range: RangeTo<usize>) -> Option<&'a [T]> {
        let (front, rest) = self.split_at_checked(range.end)?;
        *self = rest;
        Some(front)
    }

    #[inline]
    fn take_one(&mut self) -> Option<&'a T> {
        let (first, rest) = self.split_first()?;
        *self = rest;
        Some(first)
    }
}

#[cfg(test)]
mod tests {
    use super::*;

    #[test]
    fn the_first_error_ends_it() {
        let mut asked = 0;
        let found = [1, 2, 3].try_each(|item| {
            asked += 1;
            if item == 2 { Err("two") } else { Ok(item) }
        });
        assert_eq!((found, asked), (Err("two"), 2));
        assert_eq!([1, 2].try_each(|item| Ok::<_, ()>(item + 1)), Ok([2, 3]));
    }

    #[test]
    fn items_are_taken_off_the_front() {
        let mut items = &[1, 2, 3][..];
        assert_eq!(items.take_one(), Some(&1));
        assert_eq!(items.take_front(..3), None);
        assert_eq!(items.take_front(..2), Some(&[2, 3][..]));
        assert_eq!((items.take_front(..0), items.take_one()), (Some(&[][..]), None));
    }
}
