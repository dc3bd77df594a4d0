//! The questions to a crate about an input, and the answers. Both crates have the same calls, so the questions are
//! written once.

use crate::inputs::Input;
use crate::numbers::Numbers;
use std::collections::HashMap;
use std::fmt::Write;

/// Files by their names.
pub type Files = HashMap<Vec<u8>, Vec<u8>>;

/// The answers of a crate, question by question.
#[derive(Debug, Default, PartialEq)]
pub struct Answers {
    pub has_map: bool,
    /// CIDs, codes, ends of ranges, characters, units, lengths and flags; `u64::MAX` for none.
    numbers: Vec<u64>,
    /// Refusals, layers, texts and files, in lines.
    text: String,
    /// How many answers `text` has.
    texts: u64,
}

impl Answers {
    fn number(&mut self, number: Option<u32>) {
        self.numbers.push(number.map_or(u64::MAX, u64::from));
    }

    fn shown(&mut self, shown: impl std::fmt::Display) {
        writeln!(self.text, "{shown}").expect("a string takes it");
        self.texts += 1;
    }

    pub fn count(&self) -> u64 {
        self.numbers.len() as u64 + self.texts
    }

    /// The first answer that differs in another crate.
    pub fn first_difference(&self, other: &Answers) -> String {
        let mut lines = self.text.lines().zip(other.text.lines()).enumerate();
        let mut numbers = self.numbers.iter().zip(&other.numbers).enumerate();
        match (lines.find(|(_, (a, b))| a != b), numbers.find(|(_, (a, b))| a != b)) {
            (Some((at, (a, b))), _) => format!("text {at}: {a:?} and {b:?}"),
            (_, Some((at, (a, b)))) => format!("number {at}: {a} and {b}"),
            _ => String::from("one has more answers"),
        }
    }
}

/// Writes the questions for a crate.
macro_rules! questions {
    ($answers:ident, $module:ident, $krate:ident) => {
        pub use $module::answers as $answers;

        mod $module {
            use super::*;
            use $krate::{
                BfString, Bundle, CMap, CMapBuilder, CMapName, Codes, Extractor, ParseOptions,
                Refusal, Salvaged, StringCode, WriteError,
            };

            /// The answers of the crate about an input, over these files and, for most inputs, this bundle.
            pub fn answers(files: &Files, bundle: &Bundle, input: &Input) -> Answers {
                let mut answers = Answers::default();
                let mut numbers = Numbers::new(input.seed);
                let bundle = (numbers.below(3) > 0).then_some(bundle);
                let options = options(bundle, &mut numbers);
                // If a file at fault uses a file of the bundle, the bindings may take it without a call of `get_cmap`.
                let get_cmap = |name: CMapName<'_>| match (bundle, name) {
                    (_, CMapName::IdentityH | CMapName::IdentityV) => None,
                    (None, _) | (_, CMapName::Custom(_)) => {
                        files.get(name.to_bytes()).map(Vec::as_slice)
                    }
                    (Some(_), _) => None,
                };
                match options.parse(&input.data, get_cmap) {
                    Ok(map) => {
                        answers.has_map = true;
                        ask_map(&map, input.is_whole, &mut numbers, &mut answers);
                    }
                    Err(refusal) => ask_refusal(&refusal, &mut answers),
                }
                let Salvaged { map, faults } = options.salvage(&input.data, get_cmap);
                faults.iter().for_each(|fault| ask_refusal(fault, &mut answers));
                ask_map(&map, false, &mut numbers, &mut answers);
                ask_names(&options, input, get_cmap, &mut answers);
                answers
            }

            /// Over a bundle, if there is one, and sometimes within a budget.
            fn options<'b>(bundle: Option<&'b Bundle>, numbers: &mut Numbers) -> ParseOptions<'b> {
                let options = match bundle {
                    Some(bundle) => ParseOptions::new().bundle(bundle),
                    None => ParseOptions::new(),
                };
                match numbers.below(8) {
                    0 => options.budget(numbers.below(6000) as u64),
                    _ => options,
                }
            }

            fn ask_refusal(refusal: &Refusal, answers: &mut Answers) {
                answers.shown(refusal);
                let (cause, reason, segment) =
                    (refusal.cause(), refusal.reason(), refusal.segment());
                answers
                    .shown(format_args!("{cause:?} {reason:?} {segment:?} {:?}", refusal.offset()));
                answers.shown(format_args!("{:?}", refusal.names()));
            }

            /// The names that the input uses, and whether the input has a map when it is opened by the name Own.
            fn ask_names<'a>(
                options: &ParseOptions<'_>,
                input: &'a Input,
                get_cmap: impl Fn(CMapName<'_>) -> Option<&'a [u8]>,
                answers: &mut Answers,
            ) {
                answers.shown(format_args!("{:?}", options.uses(&input.data)));
                let own = |name: CMapName<'_>| match name.to_bytes() {
                    b"Own" => Some(&input.data[..]),
                    _ => get_cmap(name),
                };
                match options.open(CMapName::Custom(b"Own"), own) {
                    Ok(map) => answers.shown(map.is_some()),
                    Err(refusal) => ask_refusal(&refusal, answers),
                }
            }

            fn ask_map(map: &CMap, is_whole: bool, numbers: &mut Numbers, answers: &mut Answers) {
                for (index, layer) in map.layers().iter().enumerate() {
                    answers.shown(format_args!("{layer:?}"));
                    if index > 0 && !is_whole {
                        continue;
                    }
                    for byte_len in 0..6 {
                        let declared = map.cid_ranges(index, byte_len);
                        let notdefs = map.notdef_ranges(index, byte_len);
                        for range in declared.iter().chain(&notdefs) {
                            answers
                                .numbers
                                .extend([range.first, range.last, range.cid].map(u64::from));
                            ask_range(map, range.first, range.last, byte_len, is_whole, answers);
                        }
                    }
                    for range in map.text_ranges(index) {
                        answers.numbers.extend(range.units.iter().copied().map(u64::from));
                        ask_texts(map, range.first, range.last, is_whole, answers);
                    }
                }
                for _ in 0..8 {
                    let (code, byte_len) = (numbers.next() as u32, numbers.below(6) as u8);
                    let code = code >> (8 * numbers.below(4));
                    ask_range(map, code, code, byte_len, false, answers);
                    ask_texts(map, code, code, false, answers);
                    for range in map.codes_of_cid(numbers.below(0x4000) as u32, byte_len) {
                        answers.numbers.extend([*range.start(), *range.end()].map(u64::from));
                    }
                }
                ask_strings(map, numbers, answers);
                ask_file(declared_file(map).build(), answers);
                if is_whole {
                    ask_file(map.write(), answers);
                }
            }

            /// A file with the declarations of the top layer, except ranges of more than 4096 codes.
            fn declared_file(map: &CMap) -> CMapBuilder {
                let mut file = CMapBuilder::new().collection("Adobe", "Test", 1);
                if let Some(name) = &map.metadata().name {
                    file = file.name(name);
                }
                for space in &map.layers()[0].codespaces {
                    let (first, last, byte_len) = (space.low, space.high, space.byte_len as u8);
                    file = file.codespace(Codes { first, last, byte_len });
                }
                let codes = |first: u32, last: u32, byte_len: u8| {
                    let is_small = last.wrapping_sub(first) < 0x1000;
                    is_small.then_some(Codes { first, last, byte_len })
                };
                for byte_len in 1..5 {
                    for range in map.cid_ranges(0, byte_len) {
                        if let Some(codes) = codes(range.first, range.last, byte_len) {
                            file = file.cid(codes, range.cid);
                        }
                    }
                    for range in map.notdef_ranges(0, byte_len) {
                        if let Some(codes) = codes(range.first, range.last, byte_len) {
                            file = file.notdef(codes, range.cid);
                        }
                    }
                }
                for range in map.text_ranges(0) {
                    if let Some(codes) = codes(range.first, range.last, 4) {
                        file = file.text(codes, String::from_utf16_lossy(&range.units));
                    }
                }
                file
            }

            fn ask_file(file: Result<Vec<u8>, WriteError>, answers: &mut Answers) {
                match file {
                    Ok(file) => answers.shown(file.escape_ascii()),
                    Err(fault) => answers.shown(format_args!("{fault:?}")),
                }
            }

            /// The ends of a range, its neighbours, and the first 20 codes; for a whole file up to 65,536 codes.
            fn ask_range(
                map: &CMap,
                first: u32,
                last: u32,
                byte_len: u8,
                is_whole: bool,
                answers: &mut Answers,
            ) {
                let codes = [first.saturating_sub(1), first, last, last.saturating_add(1)];
                for code in codes {
                    answers.number(map.lookup_cid_code(code, byte_len));
                    answers.number(map.lookup_cid_code_strict(code, byte_len));
                }
                let count = if is_whole { last.saturating_sub(first).min(0xFFFF) + 1 } else { 20 };
                let mut cids = vec![0; count as usize];
                map.fill_cids(first, byte_len, u32::MAX, &mut cids);
                if is_whole {
                    for (code, cid) in (first..=last).zip(&cids) {
                        let found = map.lookup_cid_code(code, byte_len);
                        assert_eq!(found.unwrap_or(u32::MAX), *cid);
                        answers.number(map.lookup_cid_code_strict(code, byte_len));
                    }
                }
                answers.numbers.extend(cids.into_iter().map(u64::from));
            }

            fn ask_texts(map: &CMap, first: u32, last: u32, is_whole: bool, answers: &mut Answers) {
                let end = if is_whole { last } else { last.min(first.saturating_add(2)) };
                for code in first.saturating_sub(1)..=end.saturating_add(1) {
                    ask_text(map.lookup_bf_string(code), answers);
                }
                ask_text(map.lookup_bf_string(last), answers);
            }

            fn ask_text(text: Option<BfString>, answers: &mut Answers) {
                match text {
                    Some(BfString::Char(character)) => answers.number(Some(character.into())),
                    Some(BfString::String(text)) => answers.shown(format_args!("{text:?}")),
                    None => answers.number(None),
                }
            }

            /// The codes of a string, with their texts. The map serves as the font's CMap, as its ToUnicode CMap,
            /// and as the map of its collection.
            fn ask_strings(map: &CMap, numbers: &mut Numbers, answers: &mut Answers) {
                let mut string: Vec<u8> = (0..60).map(|_| numbers.next() as u8).collect();
                for layer in map.layers() {
                    for space in layer.codespaces.iter().take(20) {
                        let bytes = space.low.to_be_bytes();
                        string.extend(&bytes[4 - space.byte_len as usize..]);
                    }
                }
                let codes = map.decode(&string);
                for code in &codes {
                    ask_code(code, answers);
                }
                ask_file(map.write_codes(codes), answers);
                let font = Extractor::new(map.clone(), Some(map.clone()), Some(map.clone()));
                for character in font.characters(&string) {
                    ask_code(&character.code, answers);
                    ask_text(character.text, answers);
                }
            }

            fn ask_code(code: &StringCode, answers: &mut Answers) {
                answers.number(code.cid);
                let flags = [code.in_codespace, code.cut_short].map(u64::from);
                answers.numbers.extend([
                    code.code.into(),
                    code.byte_len.into(),
                    flags[0],
                    flags[1],
                ]);
            }
        }
    };
}

questions!(plain_answers, of_plain, plain);
questions!(proved_answers, of_proved, proved);
