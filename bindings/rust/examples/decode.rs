//! Prints the codes of a string by a CMap file of a folder, with their CIDs and texts.
//!
//!     decode FOLDER FILE HEX
//!
//! A line is a code, its CID or none, and its text if it has one, such as `<93FA> 3284 日`. Only the
//! files that FILE uses are read. A CMap of a composite font mostly has only CIDs: the text of a code is
//! then the text of its CID in the CMap from its character collection to Unicode, such as
//! Adobe-Japan1-UCS2 (ISO 32000-1, 9.10.2), if the folder has this CMap.

use hayro_cmap::{BfString, CMap, CMapName, Extractor, Loader, Refusal, StringCode};
use std::error::Error;
use std::path::Path;
use std::{env, fs, process};

/// The file of a name in a folder. A name may come from a file, and mustn't lead out of the folder.
fn read(folder: &Path, name: &[u8]) -> Option<Vec<u8>> {
    let name = std::str::from_utf8(name).ok().filter(|name| !name.contains('/'))?;
    fs::read(folder.join(name)).ok()
}

/// The map of a file of the folder; `None` if there is no such file.
fn map_of(folder: &Path, name: CMapName<'_>) -> Result<Option<CMap>, String> {
    let Some(data) = read(folder, name.to_bytes()) else {
        return Ok(None);
    };
    let mut loader = Loader::new(&data);
    while let Some(used) = loader.wanted() {
        let file = read(folder, used.to_bytes());
        loader.supply(file.as_deref());
    }
    loader.finish().map(Some).map_err(|refusal| message_of(name, &refusal))
}

/// The file at fault, and what is wrong with it.
fn message_of(name: CMapName<'_>, refusal: &Refusal) -> String {
    match refusal.names() {
        [] => format!("{}: {refusal}", name.to_bytes().escape_ascii()),
        _ => refusal.to_string(),
    }
}

/// The map from the CIDs of a map's collection to Unicode, if the folder has its file.
fn texts_of(folder: &Path, map: &CMap) -> Result<Option<CMap>, String> {
    match &map.metadata().character_collection {
        Some(collection) => map_of(folder, CMapName::from_bytes(&collection.family.ucs2_name())),
        None => Ok(None),
    }
}

fn bytes_of(hex: &str) -> Result<Vec<u8>, Box<dyn Error>> {
    let pairs = hex.as_bytes().chunks(2);
    pairs.map(|pair| Ok(u8::from_str_radix(std::str::from_utf8(pair)?, 16)?)).collect()
}

fn line_of(code: &StringCode, text: Option<BfString>) -> String {
    let digits = 2 * usize::from(code.byte_len);
    let cid = code.cid.map_or("none".into(), |cid| cid.to_string());
    let text = text.map_or(String::new(), |text| format!(" {text}"));
    format!("<{:0digits$X}> {cid}{text}", code.code)
}

fn run() -> Result<(), Box<dyn Error>> {
    let words: Vec<String> = env::args().skip(1).collect();
    let [folder, file, hex] = &words[..] else {
        return Err("usage: decode FOLDER FILE HEX".into());
    };
    let (folder, string) = (Path::new(folder), bytes_of(hex)?);
    let map = map_of(folder, CMapName::from_bytes(file.as_bytes()))?;
    let map = map.ok_or_else(|| format!("{file}: no such file"))?;
    let texts = texts_of(folder, &map)?;
    let font = Extractor::new(map.clone(), Some(map), texts);
    for it in font.characters(&string) {
        println!("{}", line_of(&it.code, it.text));
    }
    Ok(())
}

fn main() {
    if let Err(fault) = run() {
        eprintln!("{fault}");
        process::exit(1);
    }
}
