//! Destinations and tables of ranges, as declarations of a file.

use super::text_of;
use crate::bytes::{asked, code_of};
use crate::maps::{text, unless};
use crate::row_error::{Answer, RowError};
use hayro_cmap::CMap;
use std::ops::RangeInclusive;

/// What comes after a word that asks something of a destination: that of all codes of four bytes. No file has an
/// empty one.
pub fn of_destination(bytes: &[u8], word: &str, rest: &str) -> Answer<String> {
    if bytes.is_empty() {
        return Err(RowError::NoCall);
    }
    let digits: String = bytes.iter().map(|byte| format!("{byte:02X}")).collect();
    let map = map_of(&format!("beginbfrange <00000000> <FFFFFFFF> <{digits}> endbfrange"))?;
    match word {
        "units" => units(&map),
        "text" => text_at(&map, rest),
        _ => Err(RowError::UNKNOWN_WORD),
    }
}

fn map_of(file: &str) -> Answer<CMap> {
    CMap::parse(file.as_bytes(), |_name| None).ok_or(RowError::Mismatch)
}

fn units(map: &CMap) -> Answer<String> {
    let [declared] = &map.text_ranges(0)[..] else { return Err(RowError::Mismatch) };
    Ok(declared.units.iter().map(|unit| format!(" {unit:04X}")).collect())
}

/// The text at the offset that a line begins with.
fn text_at(map: &CMap, rest: &str) -> Answer<String> {
    let digits = asked(rest, ' ', "text OFFSET ..")?;
    let offset = digits.parse().map_err(|_| RowError::Wrong("no offset"))?;
    let found = map.lookup_bf_string(offset).map(text_of);
    Ok(format!(" {digits}{}", text(found.as_ref())))
}

/// What comes after a word that asks something of the table of ranges: each is a notdef of codes of four bytes, whose
/// CID is the index of the declaration.
pub fn of_ranges(ranges: &str, word: &str, rest: &str) -> Answer<String> {
    let declared = ranges.split_whitespace().enumerate().map(|(index, range)| {
        let (start, end) = range.split_once('-').ok_or(RowError::Wrong("a range is START-END"))?;
        Ok(format!(" <{:08X}> <{:08X}> {index}", code_of(start)?, code_of(end)?))
    });
    let declared = declared.collect::<Answer<Vec<String>>>()?;
    let map = map_of(&format!("beginnotdefrange{} endnotdefrange", declared.concat()))?;
    match word {
        "runs" => Ok(runs(&map, declared.len())),
        "found" if rest.is_empty() => Err(RowError::Wrong("no code")),
        "found" => rest.split_whitespace().map(|word| found(&map, word)).collect(),
        "declarations" => Ok(count(&map)),
        _ => Err(RowError::UNKNOWN_WORD),
    }
}

/// The runs, as `0-F:0 10-1F:1`: the codes of each CID.
fn runs(map: &CMap, count: usize) -> String {
    let of_index = |index| map.codes_of_cid(index, 4).into_iter().map(move |codes| (codes, index));
    let mut runs: Vec<_> = (0..count as u32).flat_map(of_index).collect();
    runs.sort_by_key(|(codes, _)| *codes.start());
    let run = |(codes, index): &(RangeInclusive<u32>, u32)| {
        format!(" {:X}-{:X}:{index}", codes.start(), codes.end())
    };
    if runs.is_empty() { String::from(" none") } else { runs.iter().map(run).collect() }
}

/// A code with the index of what is found for it.
fn found(map: &CMap, word: &str) -> Answer<String> {
    let digits = asked(word, ':', "a code without its answer")?;
    let index = map.lookup_cid_code(code_of(digits)?, 4);
    Ok(format!(" {digits}:{}", index.map_or(String::from("none"), |index| index.to_string())))
}

/// How many declarations there are; each has to stand at its index.
fn count(map: &CMap) -> String {
    let declared = map.notdef_ranges(0, 4);
    let is_ordered = (0..).zip(&declared).all(|(index, range)| range.cid == index);
    format!(" {}{}", declared.len(), unless(is_ordered))
}
