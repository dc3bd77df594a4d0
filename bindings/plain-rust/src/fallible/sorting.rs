use alloc::collections::TryReserveError;
use alloc::vec::Vec;
use core::mem;

/// The most runs that are merged. If there are more, the keys are sorted as a whole.
const MOST_RUNS: usize = 32;

/// The indices of the keys, in the order of the keys; the indices of equal keys ascend. A few runs that ascend or
/// descend already are merged two by two, which takes little time.
pub(super) fn sorted_indices<K: Ord + Copy>(
    keys: impl ExactSizeIterator<Item = K>,
) -> Result<Vec<usize>, TryReserveError> {
    let mut pairs = with_capacity(keys.len())?;
    pairs.extend(keys.zip(0..));
    let mut ends = ascending_runs(&mut pairs)?;
    if ends.len() > MOST_RUNS {
        pairs.sort_unstable();
    } else if ends.len() > 1 {
        let mut merged = with_capacity(pairs.len())?;
        merged.extend_from_slice(&pairs);
        while ends.len() > 1 {
            merge_pairs(&pairs, &mut ends, &mut merged);
            mem::swap(&mut pairs, &mut merged);
        }
    }
    let mut indices = with_capacity(pairs.len())?;
    indices.extend(pairs.iter().map(|(_, index)| *index));
    Ok(indices)
}

pub(super) fn with_capacity<T>(capacity: usize) -> Result<Vec<T>, TryReserveError> {
    let mut items = Vec::new();
    items.try_reserve_exact(capacity)?;
    Ok(items)
}

/// The ends of the runs of ascending keys, at most one more than are merged. A strictly descending run is reversed.
fn ascending_runs<K: Ord>(pairs: &mut [(K, usize)]) -> Result<Vec<usize>, TryReserveError> {
    let mut ends = with_capacity(MOST_RUNS + 1)?;
    let mut start = 0;
    while start < pairs.len() && ends.len() <= MOST_RUNS {
        let descends = |pairs: &[(K, usize)], at: usize| pairs[at].0 < pairs[at - 1].0;
        let is_descending = start + 1 < pairs.len() && descends(pairs, start + 1);
        let others = start + 1..pairs.len();
        let end = others.clone().find(|&at| descends(pairs, at) != is_descending).unwrap_or(others.end);
        if is_descending {
            pairs[start..end].reverse();
        }
        ends.push(end);
        start = end;
    }
    Ok(ends)
}

/// Merges the runs two by two into `merged`, which has as many places.
fn merge_pairs<K: Ord + Copy>(pairs: &[(K, usize)], ends: &mut Vec<usize>, merged: &mut [(K, usize)]) {
    let mut start = 0;
    let count = ends.len().div_ceil(2);
    for run in 0..count {
        let middle = ends[2 * run];
        let end = ends.get(2 * run + 1).copied().unwrap_or(middle);
        merge(&pairs[start..middle], &pairs[middle..end], &mut merged[start..end]);
        ends[run] = end;
        start = end;
    }
    ends.truncate(count);
}

/// Merges two runs into `places`, which are as many; of two equal keys the one of the left run comes first.
fn merge<K: Ord + Copy>(
    mut left: &[(K, usize)],
    mut right: &[(K, usize)],
    places: &mut [(K, usize)],
) {
    let mut places = places.iter_mut();
    while let ([first, others @ ..], [other, rest @ ..]) = (left, right) {
        let Some(place) = places.next() else { return };
        if other.0 < first.0 {
            *place = *other;
            right = rest;
        } else {
            *place = *first;
            left = others;
        }
    }
    let (front, back) = places.into_slice().split_at_mut(left.len());
    front.copy_from_slice(left);
    back.copy_from_slice(right);
}
