//! What comes of the rows of files, and what is left aside.

use crate::answers::answer;
use crate::bytes::{canonical, split_word};
use crate::library::Library;
use crate::row::{Expectation, Row, RowKind};
use crate::row_error::{Answer, RowError};
use crate::rows::rows_of;
use std::collections::BTreeMap;
use std::fmt::{self, Display, Formatter};
use std::path::{Path, PathBuf};
use std::{env, fs};

/// What comes of the rows of files.
#[derive(Default)]
pub struct Report {
    /// A line for each expectation that isn't met.
    pub wrong: Vec<String>,
    /// A line for each file.
    files: Vec<String>,
    /// The rows by their kinds of which nothing could be asked.
    rows_aside: BTreeMap<&'static str, usize>,
    /// The expectations of other rows by their words that couldn't be asked.
    expectations_aside: BTreeMap<String, usize>,
}

/// What comes of a row.
enum Outcome {
    Passed,
    Failed,
    /// The library has no call for any of its expectations.
    LeftAside,
}

impl Report {
    /// Runs the rows of some kinds of the files.
    pub fn of<L: Library>(library: &L, paths: &[PathBuf], kinds: fn(RowKind) -> bool) -> Report {
        let mut report = Report::default();
        for path in paths {
            report.run_file(library, path, kinds);
        }
        report
    }

    fn run_file<L: Library>(&mut self, library: &L, path: &Path, kinds: fn(RowKind) -> bool) {
        let name = path.file_name().unwrap_or_default().to_string_lossy();
        let text = fs::read_to_string(path).unwrap_or_else(|fault| panic!("{name}: {fault}"));
        let rows = rows_of(&text).unwrap_or_else(|fault| panic!("{name}:{fault}"));
        let [mut passed, mut failed, mut aside] = [0; 3];
        for row in rows.iter().filter(|row| kinds(row.kind)) {
            match self.run_row(library, &name, row) {
                Outcome::Passed => passed += 1,
                Outcome::Failed => failed += 1,
                Outcome::LeftAside => aside += 1,
            }
        }
        let aside = if aside > 0 { format!(", {aside} left aside") } else { String::new() };
        self.files.push(format!("{name}: {passed} passed, {failed} failed{aside}"));
    }

    fn run_row<L: Library>(&mut self, library: &L, name: &str, row: &Row<'_>) -> Outcome {
        let (wrong_before, mut words_aside) = (self.wrong.len(), Vec::new());
        for expectation in &row.expectations {
            match unmet(library, row, expectation) {
                Ok(None) => {}
                Ok(Some(unmet)) => {
                    let Expectation { number, .. } = expectation;
                    self.wrong.push(format!("{name}:{number}: {}: {unmet}", row.title));
                }
                Err(RowError::NoCall) => words_aside.push(asked_words(row.kind, expectation.line)),
                Err(fault) => panic!("{name}:{}: {fault}", expectation.number),
            }
        }
        if words_aside.len() == row.expectations.len() {
            *self.rows_aside.entry(row.kind.name()).or_default() += 1;
            return Outcome::LeftAside;
        }
        for words in words_aside {
            *self.expectations_aside.entry(words).or_default() += 1;
        }
        if self.wrong.len() > wrong_before { Outcome::Failed } else { Outcome::Passed }
    }
}

/// What is wrong with the answer to an expectation.
fn unmet<L: Library>(
    library: &L,
    row: &Row<'_>,
    expectation: &Expectation<'_>,
) -> Answer<Option<String>> {
    let (got, expected) = (answer(library, row, expectation.line)?, canonical(expectation.line)?);
    let not = if expectation.is_not { "not " } else { "" };
    let is_met = (got == expected) != expectation.is_not;
    Ok((!is_met).then(|| format!("expected {not}{expected}, got {got}")))
}

/// What a line asks: the kind of the row and the word of the line, as `file salvaged asked`.
pub fn asked_words(kind: RowKind, line: &str) -> String {
    let words = match split_word(line) {
        (word @ "salvaged", rest) => format!("{word} {}", split_word(rest).0),
        (word, _) => word.to_owned(),
    };
    format!("{} {words}", kind.name())
}

/// The counts, as a file beside the rows has them.
impl Display for Report {
    fn fmt(&self, f: &mut Formatter<'_>) -> fmt::Result {
        self.files.iter().try_for_each(|line| writeln!(f, "{line}"))?;
        let rows = self.rows_aside.iter().map(|(kind, count)| format!("{count} of {kind}"));
        let expectations = self.expectations_aside.iter();
        let expectations = expectations.map(|(words, count)| format!("{count} of {words}"));
        for (what, counts) in
            [("rows", rows.collect()), ("expectations of others", expectations.collect())]
        {
            let counts: Vec<String> = counts;
            if !counts.is_empty() {
                writeln!(f, "left aside: {what}: {}", counts.join(", "))?;
            }
        }
        Ok(())
    }
}

/// The files of rows below a folder, in order.
pub fn files_of_rows(folder: &str) -> Vec<PathBuf> {
    let entries = fs::read_dir(Path::new(folder).join("data")).expect("the folder can be read");
    let mut paths: Vec<_> = entries.map(|entry| entry.expect("it can be read").path()).collect();
    paths.sort();
    paths
}

/// Runs all rows in a folder, and compares the counts with a file there. The variable `ROWS` names the files to
/// run in place of all.
pub fn check<L: Library>(library: &L, folder: &str, counts: &str) {
    let chosen = env::var("ROWS").unwrap_or_default();
    let chosen: Vec<&str> = chosen.split_whitespace().collect();
    let is_chosen =
        |path: &PathBuf| chosen.is_empty() || chosen.iter().any(|name| path.ends_with(name));
    let paths: Vec<PathBuf> = files_of_rows(folder).into_iter().filter(is_chosen).collect();
    assert!(paths.len() >= chosen.len().max(1), "no such files: {chosen:?}");
    let report = Report::of(library, &paths, |_kind| true);
    print!("{report}");
    assert!(report.wrong.is_empty(), "{}", report.wrong.join("\n"));
    if chosen.is_empty() {
        let counts = fs::read_to_string(Path::new(folder).join(counts)).expect("it can be read");
        assert_eq!(report.to_string(), counts);
    }
}
