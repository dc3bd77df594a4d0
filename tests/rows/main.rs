//! Runs the rows of data over the crate in plain Rust: by the calls of its reader, and by its own calls.
//!
//! `scripts/plain-rust` adds the module `cmap_queries`, the library of the program `cmap_query`.

mod answers;
mod bytes;
mod calls;
#[allow(clippy::all, dead_code, unused_imports)]
mod cmap_queries;
mod files;
mod layers;
mod library;
mod maps;
mod program_runs;
mod reader;
mod report;
mod row;
mod row_error;
mod rows;

use answers::answer;
use bytes::canonical;
use calls::Crate;
use reader::Reader;
use reader::memory::refusing;
use report::{asked_words, check};
use row::{Expectation, Row};
use row_error::RowError;
use rows::rows_of;
use std::collections::BTreeSet;
use std::fs;

const FOLDER: &str = concat!(env!("CARGO_MANIFEST_DIR"), "/tests/rows");

#[test]
fn rows_by_the_calls_of_the_reader() {
    check(&Reader, FOLDER, "passed");
}

#[test]
fn rows_by_the_calls_of_the_crate() {
    check(&Crate { run: |_, _| Err(RowError::NoCall) }, FOLDER, "passed-by-calls");
}

/// Each request for memory of the rows of `memory.rows` is refused in turn, alone and with all after it. Where one is
/// refused, the call reports it, or needs none for its answer; when it is asked once more, it answers as with memory.
#[test]
fn requests_for_memory_are_refused() {
    let path = format!("{FOLDER}/data/memory.rows");
    let text = fs::read_to_string(path).expect("it can be read");
    let (mut asked, mut refused) = (BTreeSet::new(), BTreeSet::new());
    for row in rows_of(&text).expect("they are rows") {
        for expectation in &row.expectations {
            let words = asked_words(row.kind, expectation.line);
            if refuse_each(&row, expectation) > 0 {
                refused.insert(words.clone());
            }
            asked.insert(words);
        }
    }
    assert_eq!(refused, asked, "what reports that there is no memory, and what is asked");
}

/// Refuses the requests of an expectation, and says how often it is reported that there is no memory.
fn refuse_each(row: &Row<'_>, expectation: &Expectation<'_>) -> usize {
    let Expectation { number, line, .. } = *expectation;
    let expected = canonical(line);
    let mut reported = 0;
    for first in 0.. {
        let (alone, is_refused) = refusing(first..first + 1, || answer_again(row, line));
        assert_eq!(alone, expected, "line {number}: request {first} refused");
        if !is_refused {
            break;
        }
        match refusing(first..usize::MAX, || answer_again(row, line)).0 {
            Err(RowError::NoMemory) => reported += 1,
            got => assert_eq!(got, expected, "line {number}: all from request {first} on refused"),
        }
    }
    reported
}

/// What comes of an expectation; where memory runs out, it is asked once more.
fn answer_again(row: &Row<'_>, line: &str) -> Result<String, RowError> {
    match answer(&Reader, row, line) {
        Err(RowError::NoMemory) => answer(&Reader, row, line),
        answer => answer,
    }
}
