//! One map, bundle or encoder for any number of threads.

use crate::ffi::Share;
use std::sync::{Mutex, MutexGuard, PoisonError};

/// The number of threads that can use a pool at the same time without waiting for each other.
const SLOTS: usize = 8;

/// Handles of one map, bundle or encoder. Each call has one of them for itself.
///
/// Each thread of the program has a slot while it lives. If there are more threads than slots, some share a
/// slot. A slot gets its handle at the first call.
pub(crate) struct Pool<H> {
    source: Mutex<H>,
    slots: [Slot<H>; SLOTS],
}

/// A slot. It has a cache line of its own, so that threads don't slow each other down.
#[repr(align(64))]
struct Slot<H>(Mutex<Option<H>>);

impl<H: Share> Pool<H> {
    pub(crate) fn new(handle: H) -> Pool<H> {
        let slots = std::array::from_fn(|_| Slot(Mutex::new(None)));
        Pool { source: Mutex::new(handle), slots }
    }

    /// Calls with a handle that no other call has. The call mustn't use the same pool.
    pub(crate) fn ask<R>(&self, call: impl FnOnce(&mut H) -> R) -> R {
        let mut slot = locked(&self.slots[slot_of_thread()].0);
        call(slot.get_or_insert_with(|| self.share()))
    }

    #[cold]
    fn share(&self) -> H {
        locked(&self.source).share()
    }
}

impl<H: Share> Clone for Pool<H> {
    /// Another pool of the same map, bundle or encoder.
    fn clone(&self) -> Pool<H> {
        Pool::new(self.share())
    }
}

/// The slot of the calling thread.
fn slot_of_thread() -> usize {
    static TURNS: Turns = Turns::new();
    thread_local! {
        static TURN: Turn = TURNS.take();
    }
    // A thread that is ending may have given its slot back, and may still call.
    TURN.try_with(|turn| turn.slot).unwrap_or(0)
}

/// The number of threads of each slot. A thread that ends gives its slot back.
struct Turns(Mutex<[usize; SLOTS]>);

/// The slot of a thread.
struct Turn {
    slot: usize,
    of: &'static Turns,
}

impl Turns {
    const fn new() -> Turns {
        Turns(Mutex::new([0; SLOTS]))
    }

    /// A slot with the fewest threads.
    fn take(&'static self) -> Turn {
        let mut threads = locked(&self.0);
        let slot = (0..SLOTS).min_by_key(|&slot| threads[slot]).unwrap_or(0);
        threads[slot] += 1;
        Turn { slot, of: self }
    }
}

impl Drop for Turn {
    fn drop(&mut self) {
        locked(&self.of.0)[self.slot] -= 1;
    }
}

/// Locks a mutex, even after a panic: the handle is then as it is between two calls.
fn locked<T>(mutex: &Mutex<T>) -> MutexGuard<'_, T> {
    mutex.lock().unwrap_or_else(PoisonError::into_inner)
}

#[cfg(test)]
mod tests {
    use super::*;

    static TURNS: Turns = Turns::new();

    #[test]
    fn threads_that_live_share_no_slot() {
        for _ in 0..SLOTS - 1 {
            drop(TURNS.take());
        }
        let turns: [Turn; SLOTS] = std::array::from_fn(|_| TURNS.take());
        let mut slots = turns.each_ref().map(|turn| turn.slot);
        slots.sort_unstable();
        assert_eq!(slots, std::array::from_fn(|slot| slot));
    }
}
