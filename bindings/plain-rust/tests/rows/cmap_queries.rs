//! The modules of the program `cmap_query`.

pub mod answers;
pub mod arguments;
mod embedded;
pub mod failure;
pub mod input;
pub mod options;
pub mod output;
pub mod query;

pub use hayro_cmap::reader::code_lengths;
