//! Prints the codes of the string 日本語 in Shift-JIS with their CIDs, by a CMap file: codes FILE.

use hayro_cmap::CMap;
use std::{env, error::Error, fs};

fn main() -> Result<(), Box<dyn Error>> {
    let path = env::args().nth(1).ok_or("usage: codes FILE")?;
    let file = fs::read(path)?;
    let map = CMap::parse(&file, |_name| None).ok_or("refused")?;
    for code in map.decode(b"\x93\xFA\x96\x7B\x8C\xEA") {
        println!("{:X} {:?}", code.code, code.cid);
    }
    Ok(())
}
