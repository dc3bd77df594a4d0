//! Runs the rows of data over the C library, by the crate in bindings/rust, and those of `run` by the program
//! that the variable `CMAP_QUERY` names.

mod answers;
mod bytes;
mod calls;
mod files;
mod layers;
mod library;
mod maps;
mod process;
mod program_runs;
mod report;
mod row;
#[allow(dead_code)]
mod row_error;
mod rows;

use calls::Crate;
use report::{Report, check, files_of_rows};
use row::RowKind;
use row_error::RowError;

const FOLDER: &str = concat!(env!("CARGO_MANIFEST_DIR"), "/rows");

#[test]
fn rows() {
    check(&Crate { run: |_, _| Err(RowError::NoCall) }, FOLDER, "passed-by-calls");
}

#[test]
fn runs() {
    if process::program().is_none() {
        println!("skipped: rows of runs, since CMAP_QUERY names no program");
        return;
    }
    let is_run = |kind| kind == RowKind::Run;
    let report = Report::of(&Crate { run: process::run }, &files_of_rows(FOLDER), is_run);
    assert!(report.wrong.is_empty(), "{}", report.wrong.join("\n"));
    for line in report.to_string().lines().filter(|line| !line.contains(": 0 passed")) {
        println!("runs: {line}");
    }
}
