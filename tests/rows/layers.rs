//! What a layer of a map has.

use crate::library::{CidRange, Codespace, Layer, TextRange};
use crate::maps::{name, text};

/// The name of a layer, how many declarations it has, and its codespace ranges.
pub fn declared(layer: &Layer) -> String {
    let spaces: String = layer.codespaces.iter().map(codespace).collect();
    format!(
        " name{} cids{} notdefs{} bfs {} codespaces{}",
        name(layer.metadata.name.as_deref()),
        counts(&layer.cid_counts),
        counts(&layer.notdef_counts),
        layer.text_count,
        if spaces.is_empty() { " none" } else { &spaces },
    )
}

/// The counts above 0, as `1:3 2:5`.
fn counts(counts: &[usize; 4]) -> String {
    let counts = (1..).zip(counts).filter(|(_, count)| **count > 0);
    let shown: String = counts.map(|(byte_len, count)| format!(" {byte_len}:{count}")).collect();
    if shown.is_empty() { String::from(" none") } else { shown }
}

/// A codespace range, as `2:8140-9FFC`.
fn codespace(space: &Codespace) -> String {
    let Codespace { byte_len, low, high } = space;
    let digits = 2 * byte_len;
    format!(" {byte_len}:{low:0digits$X}-{high:0digits$X}")
}

/// The codespace ranges of a layer, its CIDs, its notdefs and its texts.
pub fn declarations_of(layer: &Layer) -> String {
    let spaces = layer.codespaces.iter().map(|space| format!(" / codespace{}", codespace(space)));
    let texts = layer.texts.iter().map(text_range);
    let cids = cid_ranges("cid", &layer.cids);
    spaces.chain(cids).chain(cid_ranges("notdef", &layer.notdefs)).chain(texts).collect()
}

/// CIDs, as `cid 2:0041-005A 34`.
fn cid_ranges<'l>(word: &str, ranges: &'l [Vec<CidRange>; 4]) -> impl Iterator<Item = String> + 'l {
    let word = word.to_owned();
    let ranges =
        (1..).zip(ranges).flat_map(|(len, ranges)| ranges.iter().map(move |range| (len, range)));
    ranges.map(move |(len, range): (usize, _)| {
        let (digits, CidRange { first, last, cid }) = (2 * len, range);
        format!(" / {word} {len}:{first:0digits$X}-{last:0digits$X} {cid}")
    })
}

/// Texts, as `text 41-5A U+0041`.
fn text_range(range: &TextRange) -> String {
    format!(" / text {:X}-{:X}{}", range.first, range.last, text(range.text.as_ref()))
}
