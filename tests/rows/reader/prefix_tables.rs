//! Prefix tables: the bytes that they take, and the symbols that bits encode.

use super::memory::counted;
use crate::bytes::{asked, hexadecimal};
use crate::row::RowKind;
use crate::row_error::{Answer, RowError};
use hayro_cmap::fallible::alloc::Global;
use hayro_cmap::reader::bcmap::{PrefixTable, Reader};

/// The table of deltas or of counts at the head of bytes, and how many of them are read.
fn table_of(kind: RowKind, bytes: &[u8]) -> Answer<(Option<PrefixTable>, usize)> {
    let mut reader = Reader::new(bytes);
    let parse = match kind {
        RowKind::Counts => PrefixTable::parse_count,
        _ => PrefixTable::parse_delta,
    };
    match (counted(|| parse(Global, &mut reader)), reader.position()) {
        (Ok(Some(table)), position) => Ok((Some(table), position)),
        (Ok(None), 0) => Ok((None, 0)),
        (Err(_), 0) => Err(RowError::NoMemory),
        // Without a table the reader doesn't move.
        (Ok(None) | Err(_), _) => Err(RowError::Mismatch),
    }
}

/// Whether bytes begin with a table.
pub fn outcome(kind: RowKind, bytes: &[u8]) -> Answer<&'static str> {
    Ok(if table_of(kind, bytes)?.0.is_some() { "accepted" } else { "refused" })
}

/// What comes after a word that asks something of the table at the head of bytes.
pub fn answer(kind: RowKind, bytes: &[u8], word: &str, rest: &str) -> Answer<String> {
    match (word, table_of(kind, bytes)?) {
        ("takes", (Some(_), position)) => Ok(format!(" {position}")),
        ("symbols", (Some(table), _)) => symbols(&table, rest),
        ("takes" | "symbols", (None, _)) => Ok(String::from(" none")),
        _ => Err(RowError::UNKNOWN_WORD),
    }
}

/// The symbols that the bits of the bytes before a colon encode, and how many bits are left.
fn symbols(table: &PrefixTable, rest: &str) -> Answer<String> {
    let digits = asked(rest, ':', "symbols DIGITS: ..")?;
    let bytes = hexadecimal(digits)?;
    let (mut reader, most) = (Reader::new(&bytes), 8 * bytes.len());
    let symbols = (0..most).map_while(|_| table.decode(&mut reader));
    let shown: String = symbols.map(|symbol| format!(" {symbol}")).collect();
    let left = (0..most).map_while(|_| reader.read_bit()).count();
    Ok(format!(" {digits}:{shown} left {left}"))
}
