//! The C library of hayro_cmap, whose calls `include/hayro_cmap.h` describes.
//!
//! The modules below `reader` are the sources of the proved library, without their contracts; `exports` is made of their
//! calls for C. By hand are `given`, `lookup`, `alone`, `fallible` and `reader::cmap_handles::loose`. Unsafe code is in
//! the modules that allow it. A null pointer with a length other than 0 is a status. A panic ends the program.
#![no_std]
#![deny(unsafe_code)]

extern crate alloc;
#[cfg(any(test, feature = "std", windows, target_family = "wasm"))]
extern crate std;

#[cfg(not(any(test, feature = "std", windows, target_family = "wasm")))]
#[allow(unsafe_code)]
mod alone;
#[allow(clippy::missing_safety_doc, unsafe_code)]
mod exports;
#[allow(dead_code, unused_imports)]
mod fallible;
#[allow(unsafe_code)]
mod given;
mod lookup;
// Proofs read some arguments alone, other crates of the project use some items, and the style is that of the sources.
#[allow(clippy::all, dead_code, unused_imports, unused_labels, unused_variables)]
mod reader;

#[cfg(target_pointer_width = "16")]
compile_error!("hayro-cmap needs addresses of at least 32 bits");
