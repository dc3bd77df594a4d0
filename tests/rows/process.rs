//! Runs of a program.

use crate::library::Run;
use crate::row_error::{Answer, RowError};
use std::fs::{self, File};
use std::io::{self, Seek};
use std::path::{Path, PathBuf};
use std::process::{self, Command, Output};
use std::{env, str};

/// The program that the variable `CMAP_QUERY` names.
pub fn program() -> Option<PathBuf> {
    env::var_os("CMAP_QUERY").map(PathBuf::from)
}

/// A run of that program on arguments and an input.
pub fn run(arguments: &[String], input: &[u8]) -> Answer<Run> {
    let program = program().ok_or(RowError::NoCall)?;
    let (ran, read) = run_over_file(&program, arguments, input)
        .map_err(|_| RowError::Wrong("the program can't be run"))?;
    let text = |bytes: &[u8]| match str::from_utf8(bytes) {
        Ok(text) => Ok(text.to_owned()),
        Err(_) => Err(RowError::Wrong("not UTF-8")),
    };
    let status = ran.status.code().ok_or(RowError::Wrong("a signal ended the program"))?;
    Ok(Run { status, out: text(&ran.stdout)?, err: text(&ran.stderr)?, is_read: read > 0 })
}

/// How a program ends over a file as its standard input, and how many bytes of it were read.
fn run_over_file(program: &Path, words: &[String], input: &[u8]) -> io::Result<(Output, u64)> {
    let path = env::temp_dir().join(format!("rows-{}", process::id()));
    fs::write(&path, input)?;
    let mut file = File::open(&path)?;
    // Both have one position in the file.
    let ran = Command::new(program).args(words).stdin(file.try_clone()?).output()?;
    fs::remove_file(&path)?;
    Ok((ran, file.stream_position()?))
}
