//! Requests for memory of the reader's calls, which are refused.

use std::alloc::{GlobalAlloc, Layout, System};
use std::cell::Cell;
use std::ops::Range;

/// The allocator of the system, which refuses requests of a thread.
struct Refusing;

#[global_allocator]
static ALLOCATOR: Refusing = Refusing;

thread_local! {
    /// Which of the requests of calls are refused.
    static REFUSED: Cell<(usize, usize)> = const { Cell::new((0, 0)) };
    /// How many requests calls have made.
    static MADE: Cell<usize> = const { Cell::new(0) };
    /// Whether a call is asked.
    static IN_CALL: Cell<bool> = const { Cell::new(false) };
}

/// What a call of the reader answers; its requests for memory are counted.
pub fn counted<T>(call: impl FnOnce() -> T) -> T {
    IN_CALL.set(true);
    let answer = call();
    IN_CALL.set(false);
    answer
}

/// What comes while these of the requests of calls are refused, and whether there were such requests.
pub fn refusing<T>(refused: Range<usize>, ask: impl FnOnce() -> T) -> (T, bool) {
    REFUSED.set((refused.start, refused.end));
    MADE.set(0);
    let answer = ask();
    REFUSED.set((0, 0));
    (answer, MADE.get() > refused.start)
}

/// Whether a request is granted.
fn is_granted() -> bool {
    if !IN_CALL.get() {
        return true;
    }
    let (index, (start, end)) = (MADE.get(), REFUSED.get());
    MADE.set(index + 1);
    !(start..end).contains(&index)
}

// SAFETY: each block is one of the system's allocator.
unsafe impl GlobalAlloc for Refusing {
    unsafe fn alloc(&self, layout: Layout) -> *mut u8 {
        // SAFETY: the caller keeps what `alloc` requires.
        if is_granted() { unsafe { System.alloc(layout) } } else { std::ptr::null_mut() }
    }

    unsafe fn dealloc(&self, place: *mut u8, layout: Layout) {
        // SAFETY: the caller keeps what `dealloc` requires.
        unsafe { System.dealloc(place, layout) }
    }

    unsafe fn realloc(&self, place: *mut u8, layout: Layout, len: usize) -> *mut u8 {
        // SAFETY: the caller keeps what `realloc` requires.
        if is_granted() {
            unsafe { System.realloc(place, layout, len) }
        } else {
            std::ptr::null_mut()
        }
    }
}
