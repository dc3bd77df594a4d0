#![doc = include_str!("../README.md")]
#![no_std]
#![forbid(unsafe_code)]
#![warn(missing_docs)]

extern crate alloc;
#[cfg(feature = "std")]
extern crate std;

#[cfg(target_pointer_width = "16")]
compile_error!("hayro-cmap needs addresses of at least 32 bits");

mod based;
mod builder;
mod bundle;
mod collection;
mod declaring;
mod encode_error;
mod encoding;
mod extracting;
mod extractor;
pub mod fallible;
mod finding;
mod folding;
mod linting;
mod loader;
mod loading;
mod map;
mod metadata;
mod opening;
mod options;
mod piece;
#[cfg(feature = "std")]
mod predefined;
// Only proofs use some arguments, only other crates of the project use some items, and the style is the sources' own.
#[allow(clippy::all, dead_code, missing_docs, unused_imports, unused_labels, unused_variables)]
pub mod reader;
mod reading;
mod reason;
mod refusal;
mod said;
mod salvage_loader;
mod text;
#[cfg(test)]
mod units;
mod writing;

pub use based::BaseError;
pub use builder::{CMapBuilder, Codes, WriteError};
pub use bundle::{Bundle, load_embedded};
pub use collection::{CharacterCollection, CidFamily};
pub use encode_error::EncodeError;
pub use encoding::Encoder;
pub use extractor::{Character, Extractor};
pub use finding::{Finding, Place, Warning};
pub use folding::fold;
pub use loader::Loader;
pub use map::{CMap, CidRange, Codespace, Layer, StringCode, TextRange};
pub use metadata::{Metadata, WritingMode};
pub use options::{ParseOptions, Salvaged};
pub use piece::{Grade, Piece};
#[cfg(feature = "std")]
pub use predefined::{OpenError, predefined_file};
pub use reader::{CMapName, Cid};
pub use reason::{Cause, ReadAs, Reason, Segment};
pub use refusal::Refusal;
pub use salvage_loader::SalvageLoader;
pub use text::BfString;

use alloc::alloc::{Layout, handle_alloc_error};
use alloc::string::String;

/// The version of the project from whose sources the crate is made.
pub fn library_version() -> String {
    let version = env!("CARGO_PKG_VERSION");
    String::from(version.split_once('+').map_or(version, |(_, own)| own))
}

/// The value. If memory ran out, the program ends, as with the collections of `alloc`.
fn made<T, E>(made: Result<T, E>) -> T {
    made.unwrap_or_else(|_| handle_alloc_error(Layout::new::<u8>()))
}
