//! Prints the string of a font that shows a text, in hexadecimal digits.
//!
//!     encode FILE TEXT [MISSING]
//!
//! The font has the predefined CMap Identity-H, so its codes have two bytes. FILE is its ToUnicode
//! CMap, which uses no other file. MISSING is a text that stands for each character that can't be encoded.

use hayro_cmap::{CMap, Encoder, Extractor};
use std::error::Error;
use std::{env, fs, process};

/// The string of a text.
fn encoded(encoder: &Encoder, text: &str) -> Result<Vec<u8>, String> {
    let refused = |offset| format!("{}: can't be encoded", &text[offset..]);
    encoder.encode(text).map_err(|error| refused(error.offset))
}

fn run() -> Result<(), Box<dyn Error>> {
    let words: Vec<String> = env::args().skip(1).collect();
    let [file, text, missing @ ..] = &words[..] else {
        return Err("usage: encode FILE TEXT [MISSING]".into());
    };
    let to_unicode = CMap::parse_explained(&fs::read(file)?, |_| None)?;
    let encoder = Extractor::new(CMap::identity_h(), Some(to_unicode), None).encoder();
    let string = match missing.first() {
        Some(missing) => encoder.encode_lossy(text, &encoded(&encoder, missing)?),
        None => encoded(&encoder, text)?,
    };
    println!("{}", string.iter().map(|byte| format!("{byte:02X}")).collect::<String>());
    Ok(())
}

fn main() {
    if let Err(fault) = run() {
        eprintln!("{fault}");
        process::exit(1);
    }
}
