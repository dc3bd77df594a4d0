#![doc = include_str!("../README.md")]
#![deny(unsafe_code, unsafe_op_in_unsafe_fn)]
#![warn(missing_docs)]

extern crate alloc;

mod based;
mod builder;
mod bundle;
mod collection;
mod encode_error;
mod encoding;
mod extracting;
mod extractor;
#[allow(unsafe_code)]
mod ffi;
mod finding;
mod folding;
mod linting;
mod loader;
mod loading;
mod map;
mod metadata;
mod names;
mod opening;
mod options;
mod piece;
mod pool;
mod predefined;
mod reading;
mod reason;
mod refusal;
mod salvage_loader;
mod text;
mod writing;

pub use based::BaseError;
pub use builder::{CMapBuilder, Codes, WriteError};
pub use bundle::{Bundle, load_embedded};
pub use collection::{CharacterCollection, CidFamily};
pub use encode_error::EncodeError;
pub use encoding::Encoder;
pub use extractor::{Character, Extractor};
pub use finding::{Finding, Place, Warning};
pub use folding::fold;
pub use loader::Loader;
pub use map::{CMap, Cid, CidRange, Codespace, Layer, StringCode, TextRange};
pub use metadata::{Metadata, WritingMode};
pub use names::CMapName;
pub use options::{ParseOptions, Salvaged};
pub use piece::{Grade, Piece};
pub use predefined::{OpenError, predefined_file};
pub use reason::{Cause, ReadAs, Reason, Segment};
pub use refusal::Refusal;
pub use salvage_loader::SalvageLoader;
pub use text::BfString;

/// The version of the library under the crate, which is the version of the project.
pub fn library_version() -> String {
    let version = ffi::version().unwrap_or_default();
    String::from_utf8_lossy(&version).into_owned()
}
