//! Folding: texts in the characters that are usually written.

use crate::ffi;
use alloc::string::String;

/// A text in the characters that are usually written for what it shows, so that it can be searched and split.
///
/// Texts of fonts may have other characters. Variation selectors are dropped. Presentation forms of Latin, Armenian,
/// Hebrew and Arabic letters (U+FB00 to U+FDFF, U+FE70 to U+FEFF) and Kangxi radicals (U+2F00 to U+2FDF) become the
/// letters or the ideograph to which the Unicode Standard decomposes them. Spaces of other widths (U+00A0, U+2000 to
/// U+200A, U+202F, U+205F) become U+0020. Punctuation for vertical writing (U+FE10 to U+FE19, U+FE30 to U+FE48)
/// becomes the punctuation for horizontal writing. The half-width bar U+FFE8 becomes U+007C.
///
/// ```
/// use hayro_cmap::fold;
///
/// assert_eq!(fold("o\u{FB03}ce\u{2002}\u{8FBB}\u{E0100}"), "office \u{8FBB}");
/// ```
pub fn fold(text: &str) -> String {
    ffi::fold(text)
}
