//! Reads a CMap file, and makes rounds, so that the instructions of a round can be counted:
//!
//!     rounds parse|lookup|bf|decode FILE N
//!
//! A round reads the file as a map; looks up the CID or the text of each code of two bytes; or cuts a string of these
//! codes, and looks up their CIDs. The program prints a sum of the results.

use hayro_cmap::{BfString, CMap, reader};
use std::{env, fs, process};

/// One more than the last code of two bytes.
const CODE_COUNT: u32 = 0x1_0000;

fn map_of(data: &[u8]) -> CMap {
    CMap::parse(data, |_name| None).expect("the file is in the grammar")
}

fn cid_sum(map: &CMap) -> u64 {
    (0..CODE_COUNT).map(|code| u64::from(map.lookup_cid_code(code, 2).unwrap_or(0))).sum()
}

fn text_sum(map: &CMap) -> u64 {
    (0..CODE_COUNT).map(|code| map.lookup_bf_string(code).map_or(0, sum_of_text)).sum()
}

fn sum_of_text(text: BfString) -> u64 {
    match text {
        BfString::Char(character) => u64::from(character),
        BfString::String(text) => text.len() as u64,
    }
}

fn decoded_sum(map: &reader::CMap, string: &[u8]) -> u64 {
    let (mut sum, mut rest) = (0, string);
    while let Some(code) = map.next_code(rest) {
        sum += u64::from(map.lookup_cid_code(code.code, code.byte_len).unwrap_or(0));
        rest = &rest[usize::from(code.byte_len)..];
    }
    sum
}

fn main() {
    let arguments: Vec<String> = env::args().skip(1).collect();
    let [mode, file, rounds] = &arguments[..] else {
        eprintln!("usage: rounds parse|lookup|bf|decode FILE N");
        process::exit(2);
    };
    let data = fs::read(file).expect("the file can be read");
    let map = map_of(&data);
    let string: Vec<u8> = (0..=u16::MAX).flat_map(u16::to_be_bytes).collect();
    let no_files = |_name: hayro_cmap::CMapName<'_>| None;
    let held = reader::CMap::parse(hayro_cmap::fallible::alloc::Global, &data, None, &no_files);
    let held = held.ok().flatten().expect("the file is in the grammar");
    let round = || match mode.as_str() {
        "parse" => u64::from(map_of(&data).metadata().name.is_some()),
        "lookup" => cid_sum(&map),
        "bf" => text_sum(&map),
        _ => decoded_sum(&held, &string),
    };
    let rounds = rounds.parse().expect("a number of rounds");
    println!("{}", (0..rounds).map(|_| round()).fold(0, u64::wrapping_add));
}
