//! The rows of a file, as they are read.

use crate::bytes::split_word;
use crate::row::{Expectation, Part, Place, Row};
use crate::row_error::{Answer, RowError};

/// The rows of a file; or what is wrong with it, after the number of the line.
pub fn rows_of(text: &str) -> Result<Vec<Row<'_>>, String> {
    let mut reading = Reading::default();
    let mut number = 0;
    let lines = text.lines().chain([""]).try_for_each(|line| {
        number += 1;
        reading.take(number, line)
    });
    match lines {
        Ok(()) if reading.rows.is_empty() => Err(String::from("no row")),
        Ok(()) => Ok(reading.rows),
        Err(fault) => Err(format!("{number}: {fault}")),
    }
}

/// What is read of a file.
#[derive(Default)]
struct Reading<'r> {
    title: &'r str,
    definitions: Vec<Part<'r>>,
    rows: Vec<Row<'r>>,
    paragraph: Paragraph<'r>,
}

/// The paragraph in which a line stands.
#[derive(Default)]
enum Paragraph<'r> {
    /// None.
    #[default]
    Between,
    Definition(Part<'r>),
    Row(Row<'r>),
}

impl<'r> Reading<'r> {
    fn take(&mut self, number: usize, line: &'r str) -> Answer<()> {
        if line.starts_with(' ') || line.ends_with(' ') {
            return Err(RowError::Wrong("a blank at an end of a line is written \\x20"));
        }
        if line.is_empty() {
            return self.end_paragraph();
        }
        if line.starts_with('#') {
            return Ok(());
        }
        let (word, rest) = split_word(line);
        match &mut self.paragraph {
            Paragraph::Between => self.begin(word, rest),
            Paragraph::Definition(part) => match part.add(word, rest, &self.definitions)? {
                true => Ok(()),
                false => Err(RowError::UNKNOWN_WORD),
            },
            Paragraph::Row(row) => {
                let is_begun = row.expectations.is_empty();
                if !(is_begun && row.take(word, rest, &self.definitions)?) {
                    row.expectations.push(expectation(number, line));
                }
                Ok(())
            }
        }
    }

    /// Begins a paragraph, or rows with a title.
    fn begin(&mut self, word: &'r str, rest: &'r str) -> Answer<()> {
        match word {
            "title" => self.title = rest,
            "let" => self.paragraph = Paragraph::Definition(self.definition(rest)?),
            _ => self.paragraph = Paragraph::Row(Row::begun(self.title, word, rest)?),
        }
        Ok(())
    }

    /// A definition of a name that isn't there yet.
    fn definition(&self, rest: &'r str) -> Answer<Part<'r>> {
        let (name, text) = split_word(rest);
        if self.definitions.iter().any(|part| part.name == name) {
            return Err(RowError::Wrong("a name that exists"));
        }
        Part::of(Place::Definition, name, text)
    }

    fn end_paragraph(&mut self) -> Answer<()> {
        match std::mem::take(&mut self.paragraph) {
            Paragraph::Between => {}
            Paragraph::Definition(part) => self.definitions.push(part),
            Paragraph::Row(row) if row.expectations.is_empty() => {
                return Err(RowError::Wrong("nothing is expected of the row above"));
            }
            Paragraph::Row(row) => self.rows.push(row),
        }
        Ok(())
    }
}

/// What a line expects: that the answer is this line, or, after `not`, another one.
fn expectation(number: usize, line: &str) -> Expectation<'_> {
    let other = line.strip_prefix("not ").map(str::trim_start);
    Expectation { number, is_not: other.is_some(), line: other.unwrap_or(line) }
}
