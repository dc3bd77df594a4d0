//! The reader under the calls of this crate, for programs that continue if memory runs out. A call that takes memory is
//! passed [`Global`](crate::fallible::alloc::Global), and reports if memory ran out.
//!
//! ```
//! use hayro_cmap::fallible::alloc::{AllocError, Global};
//! use hayro_cmap::reader::CMap;
//!
//! let file = b"begincidrange <20> <7E> 1 endcidrange";
//! let map = CMap::parse(Global, file, None, &|_name| None)?.expect("it is in the grammar");
//! assert_eq!(map.lookup_cid_code(0x41, 1), Some(34));
//! # Ok::<(), AllocError>(())
//! ```

pub(crate) mod cmap_binary;
pub(crate) mod cmap_codespaces;
pub(crate) mod cmap_edit;
pub(crate) mod cmap_encode;
pub(crate) mod cmap_layers;
pub(crate) mod cmap_lint;
pub(crate) mod cmap_load;
pub(crate) mod cmap_runs;
pub(crate) mod cmap_text;
pub(crate) mod cmap_text_writer;
pub(crate) mod cmap_tokens;
pub(crate) mod cmap_unicode;
pub(crate) mod cmap_values;
pub(crate) mod hayro_cmap;

pub use cmap_encode::{Encoder, Grade, Piece, Unencodable, fold};
pub use cmap_lint::{finding, lint, read_as, warning};
pub use cmap_load::named_files::BundleFiles;
pub use cmap_unicode::{Character, Extractor, declared_cid, ucs2_name, unicode_name};
pub use hayro_cmap::*;
