//! Prints the text that each page of a PDF file shows by fonts with ToUnicode CMaps, a line for each page.
//!
//!     pdf_text FILE
//!
//! It finds objects by the words around them, and reads no compressed streams, no object streams
//! and no escapes in strings. A program for all PDF files takes dictionaries, strings and decoded
//! streams from its PDF library, and makes an `Extractor` of each font as `font_of` does.

use hayro_cmap::{CMap, Extractor};
use std::collections::{BTreeMap, HashMap};
use std::error::Error;
use std::{env, fs, str};

/// The bytes of the objects of a file, by their numbers. ISO 32000-1, 7.3.10.
type Objects<'a> = BTreeMap<u32, &'a [u8]>;

/// The bytes before a word and after it.
fn split<'a>(data: &'a [u8], word: &[u8]) -> Option<(&'a [u8], &'a [u8])> {
    let start = data.windows(word.len()).position(|part| part == word)?;
    Some((&data[..start], &data[start + word.len()..]))
}

fn objects_of(file: &[u8]) -> Objects<'_> {
    let mut objects = Objects::new();
    let mut rest = file;
    while let Some((before, (object, after))) =
        split(rest, b" 0 obj").and_then(|(before, after)| Some((before, split(after, b"endobj")?)))
    {
        let digits = before.rsplit(|byte| !byte.is_ascii_digit()).next();
        if let Some(number) = digits.and_then(number_in) {
            objects.insert(number, object);
        }
        rest = after;
    }
    objects
}

/// The number that bytes begin with.
fn number_in(data: &[u8]) -> Option<u32> {
    str::from_utf8(data).ok()?.split_whitespace().next()?.parse().ok()
}

/// The object to which a dictionary refers, such as by `/Key 7 0 R`.
fn referred<'a>(objects: &Objects<'a>, dictionary: &[u8], key: &[u8]) -> Option<&'a [u8]> {
    let (_, value) = split(dictionary, key)?;
    let (number, _) = split(value, b" 0 R")?;
    objects.get(&number_in(number)?).copied()
}

/// The data of a stream.
fn stream_of(object: &[u8]) -> Option<&[u8]> {
    let (_, data) = split(object, b"stream\n")?;
    let (data, _) = split(data, b"\nendstream")?;
    Some(data)
}

/// The extractor of a font with a ToUnicode CMap: codes of a composite font have two bytes here,
/// codes of a simple font one. ISO 32000-1, 9.10.2.
fn font_of(objects: &Objects<'_>, font: &[u8]) -> Option<Extractor> {
    let to_unicode =
        CMap::parse(stream_of(referred(objects, font, b"/ToUnicode ")?)?, |_name| None)?;
    Some(match split(font, b"/Identity-H") {
        Some(_) => Extractor::new(CMap::identity_h(), Some(to_unicode), None),
        None => Extractor::simple(Some(to_unicode)),
    })
}

/// The fonts of a page by the names of its resources.
fn fonts_of<'p>(objects: &Objects<'_>, page: &'p [u8]) -> Option<HashMap<&'p [u8], Extractor>> {
    let (_, fonts) = split(page, b"/Font <<")?;
    let (fonts, _) = split(fonts, b">>")?;
    let words: Vec<&[u8]> =
        fonts.split(u8::is_ascii_whitespace).filter(|word| !word.is_empty()).collect();
    let fonts = words.chunks_exact(4).filter_map(|entry| {
        let object = objects.get(&number_in(entry[1])?)?;
        Some((entry[0], font_of(objects, object)?))
    });
    Some(fonts.collect())
}

/// The bytes of a hexadecimal string. A digit that is missing at its end is 0.
fn bytes_of(digits: &[u8]) -> Vec<u8> {
    let values: Vec<u8> =
        digits.iter().filter_map(|it| char::from(*it).to_digit(16)).map(|it| it as u8).collect();
    values.chunks(2).map(|pair| pair[0] << 4 | pair.get(1).unwrap_or(&0)).collect()
}

/// A token of a content stream.
enum Token<'a> {
    Name(&'a [u8]),
    String(Vec<u8>),
    Word(&'a [u8]),
}

/// The token that bytes begin with, and what comes after it.
fn token_of(data: &[u8]) -> Option<(Token<'_>, &[u8])> {
    let start = data.iter().position(|byte| !b" \t\r\n[]".contains(byte))?;
    match &data[start..] {
        [b'<', rest @ ..] => {
            let (digits, after) = split(rest, b">")?;
            Some((Token::String(bytes_of(digits)), after))
        }
        [b'(', rest @ ..] => {
            let (string, after) = split(rest, b")")?;
            Some((Token::String(string.to_vec()), after))
        }
        word => {
            let is_end = |byte: &u8| b" \t\r\n/<>()[]".contains(byte);
            let len = word.iter().skip(1).position(is_end).map_or(word.len(), |at| at + 1);
            let (word, after) = word.split_at(len);
            Some((if word[0] == b'/' { Token::Name(word) } else { Token::Word(word) }, after))
        }
    }
}

/// The text of the strings of a content stream, each by the font that was selected before it.
fn text_of(content: &[u8], fonts: &HashMap<&[u8], Extractor>) -> String {
    let mut text = String::new();
    let (mut name, mut font) = (&b""[..], None);
    let mut rest = content;
    while let Some((token, after)) = token_of(rest) {
        match token {
            Token::Name(word) => name = word,
            Token::Word(b"Tf") => font = fonts.get(name),
            Token::Word(_) => {}
            Token::String(string) => text.extend(font.map(|font| font.text(&string))),
        }
        rest = after;
    }
    text
}

fn main() -> Result<(), Box<dyn Error>> {
    let path = env::args().nth(1).ok_or("usage: pdf_text FILE")?;
    let file = fs::read(path)?;
    let objects = objects_of(&file);
    for page in objects.values().filter(|object| split(object, b"/Type /Page ").is_some()) {
        let fonts = fonts_of(&objects, page).ok_or("a page has no fonts")?;
        let content = referred(&objects, page, b"/Contents ")
            .and_then(stream_of)
            .ok_or("a page has no content")?;
        println!("{}", text_of(content, &fonts));
    }
    Ok(())
}
