//! Collections whose growth is an error if memory runs out.
//!
//! Each wraps the collection of the same name in `alloc`, or lists of `alloc`, and takes memory by `try_reserve` before
//! it adds something. So none of them ends the program.

pub mod alloc;
pub(crate) mod arrayvec;
mod boxed;
pub mod collections;
pub(crate) mod itoa;
mod slices;
mod sorting;
mod string;
pub(crate) mod ucd_normal;
mod vec;

pub use boxed::Box;
pub use slices::{TakeFront, TryEach};
pub use string::{Printed, String};
pub use vec::{CollectIn, Vec};
