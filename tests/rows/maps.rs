//! What is asked of a map.

use crate::bytes::{Escaped, asked, code_of, hexadecimal, number};
use crate::layers::{declarations_of, declared};
use crate::library::{Code, Collection, Map, Text};
use crate::row_error::{Answer, RowError};

/// The words that ask something of a map.
const QUESTIONS: [&str; 12] = [
    "cid",
    "strict",
    "codes",
    "bf",
    "name",
    "mode",
    "collection",
    "unicode",
    "ucs2",
    "layers",
    "declared",
    "declarations",
];

/// Whether a word asks something of a map.
pub fn is_question(word: &str) -> bool {
    QUESTIONS.contains(&word)
}

/// What comes after a word; a copy of the map has to answer the same.
pub fn answer<M: Map>(map: &M, word: &str, rest: &str) -> Answer<String> {
    let answer = answer_alone(map, word, rest)?;
    let is_same = answer_alone(&map.copy()?, word, rest)? == answer;
    Ok(answer + unless(is_same))
}

/// What comes after a word.
pub fn answer_alone<M: Map>(map: &M, word: &str, rest: &str) -> Answer<String> {
    match word {
        "cid" | "strict" => cids(map, word, rest),
        "codes" => codes(map, rest),
        "bf" => text_of(map, rest),
        "declared" => layer(map, rest),
        "declarations" => declarations(map),
        "collection" => Ok(collection(map.metadata()?.collection)),
        "name" => Ok(name(map.metadata()?.name.as_deref())),
        "mode" => Ok(format!(" {}", map.metadata()?.mode.unwrap_or("none"))),
        "unicode" | "ucs2" => Ok(map_of_family(map.metadata()?.collection, word)),
        "layers" => Ok(format!(" {}", map.layer_count())),
        _ => Err(RowError::UNKNOWN_WORD),
    }
}

/// What is added where calls that must agree differ.
pub fn unless(is_agreed: bool) -> &'static str {
    if is_agreed { "" } else { " mismatch" }
}

/// The codes of a line, each with its CID.
fn cids<M: Map>(map: &M, word: &str, rest: &str) -> Answer<String> {
    let words: Vec<&str> = rest.split_whitespace().collect();
    let pairs = words.chunks(2).map(|pair| match pair {
        [code, _] => cid(map, word, code),
        _ => Err(RowError::Wrong("a code without its answer")),
    });
    match words[..] {
        [] => Err(RowError::Wrong("a code without its answer")),
        _ => pairs.collect(),
    }
}

/// A code as `2:0041` with its CID.
fn cid<M: Map>(map: &M, word: &str, asked: &str) -> Answer<String> {
    let (byte_len, code) = split_code(asked)?;
    let (plain, strict) = (map.cid(code, byte_len), map.strict_cid(code, byte_len));
    let found = if word == "strict" { strict } else { plain };
    let is_agreed = map.is_cid_agreed(code, byte_len) && (strict.is_none() || strict == plain);
    Ok(format!(" {asked} {}{}", shown(found), unless(is_agreed)))
}

fn shown(found: Option<u32>) -> String {
    found.map_or(String::from("none"), |found| found.to_string())
}

/// How many bytes a code has, and the code.
fn split_code(asked: &str) -> Answer<(u8, u32)> {
    const FORM: RowError = RowError::Wrong("a code is LENGTH:DIGITS");
    let (len, digits) = asked.split_once(':').ok_or(FORM)?;
    Ok((len.parse().map_err(|_| FORM)?, code_of(digits)?))
}

/// The codes of the string before a colon.
fn codes<M: Map>(map: &M, rest: &str) -> Answer<String> {
    let digits = asked(rest, ':', "codes DIGITS: ..")?;
    let codes: String = map.codes(&hexadecimal(digits)?).iter().map(code_of_string).collect();
    Ok(format!(" {digits}:{codes}"))
}

fn code_of_string(code: &Code) -> String {
    let outside = if code.in_codespace { "" } else { " outside" };
    let cut = if code.cut_short { " cut" } else { "" };
    format!("{outside}{cut}{}", code_as_digits(code.byte_len, code.code))
}

/// How many bytes a code has, and the code in two digits for each of them.
pub fn code_as_digits(byte_len: u8, code: u32) -> String {
    let digits = 2 * usize::from(byte_len);
    format!(" {byte_len}:{code:0digits$X}")
}

/// The code that a line begins with, and its text.
fn text_of<M: Map>(map: &M, rest: &str) -> Answer<String> {
    let digits = asked(rest, ' ', "bf DIGITS ..")?;
    let code = code_of(digits)?;
    let (found, is_agreed) = (map.text(code)?, map.is_text_agreed(code)?);
    Ok(format!(" {digits}{}{}", text(found.as_ref()), unless(is_agreed)))
}

/// The characters of a text.
pub fn text(text: Option<&Text>) -> String {
    let Some(Text { characters, is_one }) = text else { return String::from(" none") };
    let shown: String = characters.chars().map(|c| format!(" U+{:04X}", u32::from(c))).collect();
    let is_agreed = match characters.chars().count() {
        0 => false,
        count => *is_one == (count == 1),
    };
    shown + unless(is_agreed)
}

/// The name that a file gives itself.
pub fn name(name: Option<&[u8]>) -> String {
    name.map_or(String::from(" none"), |name| format!(" /{}", Escaped(name)))
}

fn collection(collection: Option<Collection>) -> String {
    let Some(found) = collection else { return String::from(" none") };
    let (registry, ordering) = (Escaped(&found.registry), Escaped(&found.ordering));
    let family = match found.is_custom {
        true => format!("({registry}) ({ordering})"),
        false => format!("{registry}-{ordering}"),
    };
    format!(" {family} {}{}", found.supplement, unless(found.is_copied))
}

/// The name of the map from Unicode of a collection, or of that to UCS-2.
fn map_of_family(collection: Option<Collection>, word: &str) -> String {
    let name =
        collection.and_then(|found| if word == "unicode" { found.unicode } else { found.ucs2 });
    name.map_or(String::from(" none"), |name| format!(" {}", Escaped(&name)))
}

/// What the layer has whose number a line begins with.
fn layer<M: Map>(map: &M, rest: &str) -> Answer<String> {
    let digits = asked(rest, ' ', "declared LAYER ..")?;
    let found = map.layer(number(digits)? as usize)?;
    Ok(format!(" {digits}{}", found.as_ref().map_or(String::from(" none"), declared)))
}

/// All declarations of the top layer.
fn declarations<M: Map>(map: &M) -> Answer<String> {
    let shown = map.layer(0)?.as_ref().map(declarations_of).unwrap_or_default();
    Ok(if shown.is_empty() { String::from(" none") } else { shown })
}
