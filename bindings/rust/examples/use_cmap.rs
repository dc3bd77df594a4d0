//! Reads the CMap stream of a PDF file over the CMap that its entry UseCMap gives (ISO 32000-1, 9.7.5.3).
//!
//!     use_cmap STREAM BASE CODE
//!
//! It prints the CID of a code of two bytes, in hexadecimal digits. BASE uses no other file.

use hayro_cmap::CMap;
use std::{env, error::Error, fs};

fn main() -> Result<(), Box<dyn Error>> {
    let words: Vec<String> = env::args().skip(1).collect();
    let [stream, base, code] = &words[..] else {
        return Err("usage: use_cmap STREAM BASE CODE".into());
    };
    let base = CMap::parse(&fs::read(base)?, |_name| None).ok_or("the base is refused")?;
    let map = CMap::parse_with_base(&fs::read(stream)?, &base)?;
    let cid = map.lookup_cid_code(u32::from_str_radix(code, 16)?, 2).ok_or("no CID")?;
    println!("{cid}");
    Ok(())
}
