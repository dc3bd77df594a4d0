//! Inputs: whole files, spoiled windows of these files, and generated files.

use crate::answers::Files;
use crate::numbers::Numbers;

/// The bytes of a file to read.
pub struct Input {
    /// A description, for a report.
    pub what: String,
    pub data: Vec<u8>,
    /// Whether it is a whole file: then more of its codes are looked up.
    pub is_whole: bool,
    pub seed: u64,
}

/// The inputs, by their index.
pub struct Inputs {
    /// Whole files, texts and binary ones, with their descriptions.
    files: Vec<(String, Vec<u8>)>,
}

/// The most bytes of a window of a file.
const WINDOW: usize = 3000;

impl Inputs {
    pub fn new(files: &Files, bundle: &plain::Bundle) -> Inputs {
        let mut whole = Vec::new();
        for (name, text) in files {
            whole.push((format!("text {}", name.escape_ascii()), text.clone()));
            if let Some(binary) = bundle.file(plain::CMapName::from_bytes(name)) {
                whole.push((format!("binary {}", name.escape_ascii()), binary));
            }
        }
        whole.sort();
        Inputs { files: whole }
    }

    pub fn whole_count(&self) -> u64 {
        self.files.len() as u64
    }

    /// The input of an index: first the whole files, then others.
    pub fn input(&self, index: u64, seed: u64) -> Input {
        if let Some((what, data)) = self.files.get(index as usize) {
            return Input { what: what.clone(), data: data.clone(), is_whole: true, seed: index };
        }
        let seed = seed.wrapping_add(index);
        let mut numbers = Numbers::new(seed);
        let (what, data) = match numbers.below(3) {
            0 => (String::from("generated"), generated(&mut numbers)),
            _ => {
                let (name, data) = numbers.one_of(&self.files);
                (format!("spoiled {name}"), spoiled(data, &mut numbers))
            }
        };
        Input { what: format!("{what}, seed {seed}"), data, is_whole: false, seed }
    }
}

/// A window of a file, with up to five changes. A binary file keeps its head, in which the length is mostly set.
fn spoiled(file: &[u8], numbers: &mut Numbers) -> Vec<u8> {
    const HEAD: usize = 10;
    if !file.starts_with(b"bcmap") {
        return changed(window(file, numbers), numbers);
    }
    let body = file.get(HEAD..).unwrap_or_default();
    let mut data = file[..HEAD.min(file.len())].to_vec();
    data.extend(changed(&body[..numbers.below(WINDOW).min(body.len())], numbers));
    if data.len() >= HEAD && numbers.below(20) > 0 {
        let len = data.len() as u32;
        data[HEAD - 4..HEAD].copy_from_slice(&len.to_be_bytes());
    }
    data
}

fn window<'f>(file: &'f [u8], numbers: &mut Numbers) -> &'f [u8] {
    let start = numbers.below(file.len() + 1).saturating_sub(WINDOW / 4);
    let end = (start + numbers.below(WINDOW)).min(file.len());
    &file[start..end]
}

fn changed(data: &[u8], numbers: &mut Numbers) -> Vec<u8> {
    let mut data = data.to_vec();
    for _ in 0..numbers.below(6) {
        if data.is_empty() {
            break;
        }
        let at = numbers.below(data.len());
        match numbers.below(4) {
            0 => data[at] = numbers.next() as u8,
            1 => drop(data.remove(at)),
            2 => data.insert(at, *numbers.one_of(b"<>()[]/% 09fF\r\n\\{}~\0")),
            _ => {
                let part = data[at..data.len().min(at + numbers.below(40))].to_vec();
                let to = numbers.below(data.len());
                data.splice(to..to, part);
            }
        }
    }
    data
}

/// Sections of texts: the word after `begin` and `end`, and the parts of an entry.
const SECTIONS: [(&str, &[Part]); 7] = [
    ("codespacerange", &[Part::Code, Part::Code]),
    ("cidrange", &[Part::Code, Part::Code, Part::Cid]),
    ("cidchar", &[Part::Code, Part::Cid]),
    ("notdefrange", &[Part::Code, Part::Code, Part::Cid]),
    ("notdefchar", &[Part::Code, Part::Cid]),
    ("bfrange", &[Part::Code, Part::Code, Part::Text]),
    ("bfchar", &[Part::Code, Part::Text]),
];

enum Part {
    Code,
    Cid,
    Text,
}

const OTHER_TOKENS: [&str; 16] = [
    "/CMapName /Own def",
    "/WMode 1 def",
    "/Registry (Adobe) def /Ordering (Japan1) def /Supplement 6 def",
    "/Registry (A\\102\\)) /Ordering /X /Supplement -7",
    "/H usecmap",
    "/V usecmap",
    "/Missing usecmap",
    "/Identity-V usecmap",
    "% a comment\r",
    "16#1F 1.5e3 -4 +0",
    "<< [ { } ] >>",
    "(un(balanced)",
    "<4G>",
    "usecmap",
    "endcidrange",
    "begincidchar",
];

/// A text of a few sections, mostly in the grammar.
fn generated(numbers: &mut Numbers) -> Vec<u8> {
    let mut text = String::new();
    for _ in 0..1 + numbers.below(6) {
        if numbers.below(3) == 0 {
            let token: &&str = numbers.one_of(&OTHER_TOKENS);
            text.push_str(token);
            text.push(' ');
        }
        push_section(&mut text, numbers);
    }
    match numbers.below(4) {
        0 => changed(text.as_bytes(), numbers),
        _ => text.into_bytes(),
    }
}

fn push_section(text: &mut String, numbers: &mut Numbers) {
    let (name, parts) = numbers.one_of(&SECTIONS);
    text.push_str(&format!("begin{name}\n"));
    let (len, wide) = (1 + numbers.below(4), 1 << (4 * (1 + numbers.below(8))));
    for _ in 0..numbers.below(24) {
        let mut code = numbers.below(wide) as u64;
        for part in *parts {
            match part {
                Part::Code => text.push_str(&format!("<{code:0digits$x}> ", digits = 2 * len)),
                Part::Cid => {
                    text.push_str(&format!("{} ", numbers.below(1 << 31) >> numbers.below(31)))
                }
                Part::Text => push_text(text, numbers),
            }
            code += numbers.below(1 + wide / 8) as u64;
        }
        text.push('\n');
    }
    text.push_str(&format!("end{name}\n"));
}

fn push_text(text: &mut String, numbers: &mut Numbers) {
    let units = ["0041", "D83D", "DE00", "65E5", "FFFF", "00", "D7FE", "0066 0066"];
    text.push('<');
    for _ in 0..1 + numbers.below(3) {
        let unit: &&str = numbers.one_of(&units);
        text.push_str(unit);
    }
    text.push_str("> ");
}
