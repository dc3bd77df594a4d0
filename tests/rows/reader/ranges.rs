//! Tables of declarations: the maximal runs of their ranges, and what is found.

use super::memory::counted;
use crate::bytes::{asked, code_of};
use crate::maps::unless;
use crate::row_error::{Answer, RowError};
use hayro_cmap::fallible::Vec as FallibleVec;
use hayro_cmap::fallible::alloc::Global;
use hayro_cmap::reader::runs::{HasRange, Looks, Range, Table};

/// A declaration that knows its index.
struct Declared {
    range: Range,
    index: usize,
}

impl HasRange for Declared {
    fn range(&self) -> &Range {
        &self.range
    }
}

/// What comes after a word that asks something of the table of ranges.
pub fn answer(ranges: &str, word: &str, rest: &str) -> Answer<String> {
    let ranges = ranges.split_whitespace().map(range_of).collect::<Answer<Vec<Range>>>()?;
    let declared = ranges.into_iter().enumerate().map(|(index, range)| Declared { range, index });
    let declared = FallibleVec::from_std(declared.collect());
    let table = counted(|| Table::build(Global, declared))?;
    match word {
        "runs" => Ok(runs(&table)),
        "found" if rest.is_empty() => Err(RowError::Wrong("no code")),
        "found" => rest.split_whitespace().map(|word| found(&table, word)).collect(),
        "declarations" => Ok(count(&table)),
        _ => Err(RowError::UNKNOWN_WORD),
    }
}

/// A range that is written as `0-FF`.
fn range_of(word: &str) -> Answer<Range> {
    let (start, end) = word.split_once('-').ok_or(RowError::Wrong("a range is START-END"))?;
    Ok(Range { start: code_of(start)?, end: code_of(end)? })
}

/// How many declarations there are; each has to stand at its index.
fn count(table: &Table<Declared>) -> String {
    let count = table.decl_count();
    let is_ordered = (0..count).all(|index| table.decl(index, &mut Looks::new()).index == index);
    format!(" {count}{}", unless(is_ordered))
}

/// The runs, as `0-F:0 10-1F:1`.
fn runs(table: &Table<Declared>) -> String {
    let run = |index| {
        let (first, last, declared) = table.run(index, &mut Looks::new());
        format!(" {first:X}-{last:X}:{declared}")
    };
    match table.run_count() {
        0 => String::from(" none"),
        count => (0..count).map(run).collect(),
    }
}

/// A code with the index of what is found for it.
fn found(table: &Table<Declared>, word: &str) -> Answer<String> {
    let digits = asked(word, ':', "a code without its answer")?;
    let found = table.find(code_of(digits)?, &mut Looks::new());
    let index = found.map_or(String::from("none"), |declared| declared.index.to_string());
    Ok(format!(" {digits}:{index}"))
}
