//! What a library without Rust's `std` needs: the memory of C, and what happens where a function panics.

use core::alloc::{GlobalAlloc, Layout};
use core::ffi::{c_int, c_void};
use core::panic::PanicInfo;
use core::ptr::{copy_nonoverlapping, null_mut};

#[link(name = "c")]
unsafe extern "C" {
    fn abort() -> !;
    fn free(block: *mut c_void);
    fn malloc(size: usize) -> *mut c_void;
    fn posix_memalign(block: *mut *mut c_void, alignment: usize, size: usize) -> c_int;
    fn realloc(block: *mut c_void, size: usize) -> *mut c_void;
}

/// How blocks of malloc are aligned at least. A number of 128 bits needs more on 32 bits.
const ALIGNMENT: usize = 2 * size_of::<usize>();

/// The memory of C.
struct OfC;

// SAFETY: a block has the size, is aligned as asked for, and is its owner's until it is freed.
unsafe impl GlobalAlloc for OfC {
    unsafe fn alloc(&self, layout: Layout) -> *mut u8 {
        if layout.align() <= ALIGNMENT {
            return unsafe { malloc(layout.size()) }.cast();
        }
        let mut block = null_mut();
        match unsafe { posix_memalign(&mut block, layout.align(), layout.size()) } {
            0 => block.cast(),
            _ => null_mut(),
        }
    }

    unsafe fn dealloc(&self, block: *mut u8, _: Layout) {
        unsafe { free(block.cast()) }
    }

    unsafe fn realloc(&self, block: *mut u8, layout: Layout, size: usize) -> *mut u8 {
        if layout.align() <= ALIGNMENT {
            return unsafe { realloc(block.cast(), size) }.cast();
        }
        let other = unsafe { self.alloc(Layout::from_size_align_unchecked(size, layout.align())) };
        if !other.is_null() {
            unsafe { copy_nonoverlapping(block, other, layout.size().min(size)) };
            unsafe { self.dealloc(block, layout) };
        }
        other
    }
}

#[global_allocator]
static MEMORY: OfC = OfC;

#[panic_handler]
fn panic(_: &PanicInfo<'_>) -> ! {
    // SAFETY: it may be called anywhere.
    unsafe { abort() }
}
