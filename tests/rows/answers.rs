//! What comes of a row: the right line for one that begins with a word.

use crate::bytes::{asked, split_word};
use crate::library::Library;
use crate::row::{Row, RowKind};
use crate::row_error::{Answer, RowError};
use crate::{files, maps, program_runs};
use std::ops::Range;

/// The line that comes of a row in place of this one.
pub fn answer<L: Library>(library: &L, row: &Row<'_>, line: &str) -> Answer<String> {
    match answer_by_calls(library, row, line) {
        Err(RowError::Mismatch) => Ok(RowError::Mismatch.to_string()),
        answer => answer,
    }
}

/// The same, where calls that must agree do.
fn answer_by_calls<L: Library>(library: &L, row: &Row<'_>, line: &str) -> Answer<String> {
    let (word, rest) = split_word(line);
    match word {
        "accepted" | "refused" | "over" | "no" => {
            outcome(library, row, row.input()).map(String::from)
        }
        "fronts" => prefixes(library, row, rest),
        _ => Ok(format!("{word}{}", answer_of(library, row, word, rest)?)),
    }
}

/// What comes of an input other than the row's own, in a word or two.
fn outcome<L: Library>(library: &L, row: &Row<'_>, input: &[u8]) -> Answer<&'static str> {
    match row.kind {
        RowKind::File => files::outcome(library, row, input),
        RowKind::Bundle => Ok(if library.is_bundle(input)? { "accepted" } else { "refused" }),
        _ => library.outcome_of_part(row, input),
    }
}

fn answer_of<L: Library>(library: &L, row: &Row<'_>, word: &str, rest: &str) -> Answer<String> {
    match row.kind {
        RowKind::File => files::answer(library, row, word, rest),
        RowKind::Bundle => files::held(library, row.input(), word, rest),
        RowKind::Predefined => maps::answer(&predefined(library, row.words)?, word, rest),
        RowKind::Run => program_runs::answer(library, row, word),
        _ => library.answer_of_part(row, word, rest),
    }
}

/// A map that needs no file.
fn predefined<L: Library>(library: &L, name: &str) -> Answer<L::Map> {
    match name {
        "Identity-H" => library.identity(false),
        "Identity-V" => library.identity(true),
        _ => Err(RowError::Wrong("Identity-H or Identity-V")),
    }
}

/// The outcome that a line begins with, and the lengths at which a prefix of the input has it.
fn prefixes<L: Library>(library: &L, row: &Row<'_>, rest: &str) -> Answer<String> {
    let asked = asked(rest, ' ', "fronts OUTCOME ..")?;
    if !matches!(asked, "accepted" | "refused" | "end" | "malformed") {
        return Err(RowError::Wrong("an unknown outcome"));
    }
    let input = row.input();
    let outcomes = (0..input.len()).map(|len| Ok(outcome(library, row, &input[..len])? == asked));
    let lengths = runs_of(&outcomes.collect::<Answer<Vec<bool>>>()?);
    let shown: String = lengths.iter().map(|lengths| shown(lengths, input.len())).collect();
    Ok(format!("fronts {asked}{}", if shown.is_empty() { " none" } else { &shown }))
}

/// The maximal runs of indices of what holds.
fn runs_of(holds: &[bool]) -> Vec<Range<usize>> {
    let mut runs: Vec<Range<usize>> = Vec::new();
    for (index, _) in holds.iter().enumerate().filter(|(_, holds)| **holds) {
        match runs.last_mut() {
            Some(last) if last.end == index => last.end += 1,
            _ => runs.push(index..index + 1),
        }
    }
    runs
}

/// Some of the lengths below that of the input.
fn shown(lengths: &Range<usize>, all: usize) -> String {
    match *lengths {
        Range { start: 0, end } if end == all => String::from(" all"),
        Range { start, end } if start + 1 == end => format!(" {start}"),
        Range { start, end } => format!(" {start}-{}", end - 1),
    }
}
