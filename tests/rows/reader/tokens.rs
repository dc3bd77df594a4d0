//! The tokens of a text.

use super::memory::counted;
use crate::bytes::Escaped;
use crate::maps::code_as_digits;
use crate::row_error::{Answer, RowError};
use hayro_cmap::fallible::Vec as FallibleVec;
use hayro_cmap::fallible::alloc::Global;
use hayro_cmap::reader::token::{Number, Scanner, StringToken, Token};

/// How a string is shown; the others are shown if there is a way for each.
struct Shown {
    string: fn(StringToken<'_>) -> Answer<String>,
    are_others_shown: bool,
}

/// What comes after a word that asks something of all tokens of a text.
pub fn answer(text: &[u8], word: &str) -> Answer<String> {
    let (string, are_others_shown): (fn(StringToken<'_>) -> Answer<String>, bool) = match word {
        "tokens" => (value, true),
        "pieces" => (piece, true),
        "plain" => (plain_number, false),
        "lengths" => (length, false),
        _ => return Err(RowError::UNKNOWN_WORD),
    };
    let (tokens, end) = tokens_of(text, &Shown { string, are_others_shown })?;
    Ok(if are_others_shown { format!("{tokens} {end}") } else { tokens })
}

/// Whether the tokens of a text end, or it is malformed.
pub fn outcome(text: &[u8]) -> Answer<&'static str> {
    Ok(tokens_of(text, &Shown { string: length, are_others_shown: false })?.1)
}

/// All tokens of a text, and how they end.
fn tokens_of(text: &[u8], shown: &Shown) -> Answer<(String, &'static str)> {
    let (mut scanner, mut tokens) = (Scanner::new(text), String::new());
    for _ in 0..=text.len() {
        match scanner.next_token() {
            Ok(Some(token)) => tokens += &token_as_word(token, shown)?,
            Ok(None) => return Ok((tokens, "end")),
            Err(_) => return Ok((tokens, "malformed")),
        }
    }
    Ok((tokens, "endless"))
}

fn token_as_word(token: Token<'_>, shown: &Shown) -> Answer<String> {
    Ok(match token {
        Token::String(string) => (shown.string)(string)?,
        _ if !shown.are_others_shown => String::new(),
        Token::Name(name) => {
            let kind = if name.is_literal() { "literal" } else { "name" };
            format!(" {kind}:{}", Escaped(name.as_bytes()))
        }
        Token::Number(Number::Integer(number)) => format!(" integer:{number}"),
        Token::Number(Number::Real) => String::from(" real"),
    })
}

fn value(string: StringToken<'_>) -> Answer<String> {
    Ok(format!(" string:{}", Escaped(&value_of(string)?)))
}

/// A string as it is written.
fn piece(string: StringToken<'_>) -> Answer<String> {
    value_of(string)?;
    Ok(format!(" string:{}", Escaped(string.raw())))
}

/// The number of a plain string, in two digits for each of its bytes.
fn plain_number(string: StringToken<'_>) -> Answer<String> {
    value_of(string)?;
    let number = string.plain_number();
    Ok(number.map_or(String::from(" none"), |(len, number)| code_as_digits(len, number)))
}

/// How many bytes the value has.
fn length(string: StringToken<'_>) -> Answer<String> {
    Ok(format!(" {}", value_of(string)?.len()))
}

/// The value of a string, in a vector that held other bytes, which stay where memory runs out.
fn value_of(string: StringToken<'_>) -> Answer<FallibleVec<u8>> {
    const BEFORE: &[u8] = b"replaced";
    let mut value = counted(|| FallibleVec::from_slice(Global, BEFORE))?;
    match counted(|| string.decode_into(&mut value)) {
        Ok(()) => Ok(value),
        Err(_) if value.as_slice() == BEFORE => Err(RowError::NoMemory),
        Err(_) => Err(RowError::Mismatch),
    }
}
