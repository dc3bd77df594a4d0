//! What is asked of a run of `cmap_query`.

use crate::bytes::unescaped;
use crate::library::Library;
use crate::row::Row;
use crate::row_error::{Answer, RowError};

/// How a run ends, and the lines that it writes.
pub fn answer<L: Library>(library: &L, row: &Row<'_>, word: &str) -> Answer<String> {
    if word != "ends" {
        return Err(RowError::UNKNOWN_WORD);
    }
    let arguments = row.words.split_whitespace().map(argument).collect::<Answer<Vec<_>>>()?;
    let run = library.run(&arguments, row.input())?;
    let unread = if row.input().is_empty() || run.is_read { "" } else { " unread" };
    Ok(format!(" {}{}{}{unread}", run.status, lines(&run.out), lines(&run.err)))
}

/// An argument, of which `""` is the empty one.
fn argument(word: &str) -> Answer<String> {
    let bytes = unescaped(if word == "\"\"" { "" } else { word })?;
    String::from_utf8(bytes).map_err(|_| RowError::Wrong("not UTF-8"))
}

/// Lines, separated by ` / `, and `cut` where the last one has no end.
fn lines(text: &str) -> String {
    let lines: Vec<String> = text.lines().map(|line| format!(" {line}")).collect();
    let is_cut = !text.is_empty() && !text.ends_with('\n');
    lines.join(" /") + if is_cut { " cut" } else { "" }
}
