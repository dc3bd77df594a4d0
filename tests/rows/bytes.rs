//! Bytes and numbers as rows write them.

use crate::row_error::{Answer, RowError};
use std::fmt::{self, Display, Formatter};

/// The bytes of a text, in which `\n`, `\r`, `\t`, `\f`, `\0`, `\\` and `\x41` are escapes.
pub fn unescaped(text: &str) -> Answer<Vec<u8>> {
    let mut bytes = Vec::new();
    let mut rest = text.as_bytes();
    while let [first, after @ ..] = rest {
        let (byte, after) = match first {
            b'\\' => escaped_byte(after)?,
            byte => (*byte, after),
        };
        bytes.push(byte);
        rest = after;
    }
    Ok(bytes)
}

/// The byte that an escape stands for, by what follows its backslash, and what follows the escape.
fn escaped_byte(escape: &[u8]) -> Answer<(u8, &[u8])> {
    let (byte, after) = match escape {
        [b'n', after @ ..] => (b'\n', after),
        [b'r', after @ ..] => (b'\r', after),
        [b't', after @ ..] => (b'\t', after),
        [b'f', after @ ..] => (0x0C, after),
        [b'0', after @ ..] => (0, after),
        [b'\\', after @ ..] => (b'\\', after),
        [b'x', high, low, after @ ..] => (byte_of(*high, *low)?, after),
        [] => return Err(RowError::Wrong("an escape that is cut")),
        _ => return Err(RowError::Wrong("an unknown escape")),
    };
    Ok((byte, after))
}

/// The byte of two hexadecimal digits.
fn byte_of(high: u8, low: u8) -> Answer<u8> {
    let digit = |digit: u8| char::from(digit).to_digit(16);
    let byte =
        digit(high).zip(digit(low)).and_then(|(high, low)| u8::try_from(16 * high + low).ok());
    byte.ok_or(RowError::Wrong("no hexadecimal digits"))
}

/// The bytes of hexadecimal digits in pairs, between which blanks may stand.
pub fn hexadecimal(digits: &str) -> Answer<Vec<u8>> {
    let mut bytes = Vec::new();
    let mut rest = digits.as_bytes();
    loop {
        rest = match rest {
            [] => return Ok(bytes),
            [b' ', after @ ..] => after,
            [high, low, after @ ..] => {
                bytes.push(byte_of(*high, *low)?);
                after
            }
            [_] => return Err(RowError::Wrong("a digit without its other one")),
        }
    }
}

/// The first word of a line, and what follows the blanks after it.
pub fn split_word(line: &str) -> (&str, &str) {
    line.split_once(' ').map_or((line, ""), |(word, rest)| (word, rest.trim_start()))
}

/// The number of decimal digits.
pub fn number(digits: &str) -> Answer<u64> {
    digits.parse().map_err(|_| RowError::Wrong("no number"))
}

/// The code of hexadecimal digits.
pub fn code_of(digits: &str) -> Answer<u32> {
    u32::from_str_radix(digits, 16).map_err(|_| RowError::Wrong("no code"))
}

/// What stands before the first of these characters; without one, `form` says how the line is written.
pub fn asked<'l>(rest: &'l str, end: char, form: &'static str) -> Answer<&'l str> {
    Ok(rest.split_once(end).ok_or(RowError::Wrong(form))?.0)
}

/// A line in the one way in which it is compared: one blank between words, and bytes escaped alike.
pub fn canonical(line: &str) -> Answer<String> {
    let words = line.split_whitespace().map(|word| Ok(Escaped(&unescaped(word)?).to_string()));
    Ok(words.collect::<Answer<Vec<_>>>()?.join(" "))
}

/// Bytes in the one way in which a line shows them.
pub struct Escaped<'b>(pub &'b [u8]);

impl Display for Escaped<'_> {
    fn fmt(&self, f: &mut Formatter<'_>) -> fmt::Result {
        self.0.iter().try_for_each(|byte| match byte {
            b'\\' => f.write_str("\\\\"),
            b'\n' => f.write_str("\\n"),
            b'\r' => f.write_str("\\r"),
            b'\t' => f.write_str("\\t"),
            0x0C => f.write_str("\\f"),
            0 => f.write_str("\\0"),
            b'!'..=b'~' => write!(f, "{}", char::from(*byte)),
            _ => write!(f, "\\x{byte:02X}"),
        })
    }
}
