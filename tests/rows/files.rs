//! What is asked of CMap files over other files, and of bundles.

use crate::bytes::{Escaped, asked, number, split_word, unescaped};
use crate::library::{File, Library, Outcome, Reading, Refusal};
use crate::maps;
use crate::row::Row;
use crate::row_error::{Answer, RowError};

/// What comes of bytes over what stands beside a row's input, in a word or two.
pub fn outcome<L: Library>(library: &L, row: &Row<'_>, bytes: &[u8]) -> Answer<&'static str> {
    with_file(row, bytes, |file| Ok(words(&library.read(file)?.outcome)))
}

/// What comes after a word that asks something of the file of a row.
pub fn answer<L: Library>(library: &L, row: &Row<'_>, word: &str, rest: &str) -> Answer<String> {
    with_file(row, row.input(), |file| match word {
        "asked" => Ok(format!(" {}", library.read(file)?.asked?)),
        "cause" => cause(library, file),
        "uses" => uses(library, file),
        "faults" => faults(library, file),
        "least" => least_budget(library, file, rest),
        "salvaged" => salvaged(library, file, rest),
        _ => of_map(library, file, word, rest),
    })
}

/// Asks about bytes over what stands beside a row's input. The files of a bundle answer to their names
/// where no other does.
fn with_file<T>(row: &Row<'_>, bytes: &[u8], ask: impl FnOnce(&File<'_>) -> T) -> T {
    let (bases, bundle, budget) = (row.bases(), row.bundle(), row.budget);
    ask(&File { bytes, bases: &bases, bundle, are_named: bases.is_empty(), budget })
}

fn words<M>(outcome: &Outcome<M>) -> &'static str {
    match outcome {
        Outcome::Map(_) => "accepted",
        Outcome::Refused(refusal) if refusal.is_over_budget => "over budget",
        Outcome::Refused(_) => "refused",
        Outcome::NoBundle => "no bundle",
    }
}

/// What a word asks of the map of a file.
fn of_map<L: Library>(library: &L, file: &File<'_>, word: &str, rest: &str) -> Answer<String> {
    match library.read(file)?.outcome {
        Outcome::Map(map) => maps::answer(&map, word, rest),
        outcome if maps::is_question(word) => Ok(format!(" {}", words(&outcome))),
        _ => Err(RowError::UNKNOWN_WORD),
    }
}

/// The names that lead from a file to the one at fault, and what is wrong with it. The files of a bundle have
/// no names here, and an invalid bundle is none.
fn cause<L: Library>(library: &L, file: &File<'_>) -> Answer<String> {
    let alone = File { are_named: false, ..*file };
    let Reading { outcome, .. } = library.read(&alone)?;
    let outcome = match outcome {
        Outcome::NoBundle => library.read(&File { bundle: None, ..alone })?.outcome,
        outcome => outcome,
    };
    match outcome {
        Outcome::Refused(refusal) => Ok(refusal_as_words(&refusal)),
        _ => Ok(String::from(" none")),
    }
}

fn refusal_as_words(refusal: &Refusal) -> String {
    let names: String = refusal.names.iter().map(|name| format!(" {}", Escaped(name))).collect();
    format!("{names} {}", refusal.cause)
}

/// The faults of a file that is read past them, each as `cause` has it.
fn faults<L: Library>(library: &L, file: &File<'_>) -> Answer<String> {
    let found = library.salvage(&File { are_named: false, ..*file })?;
    let faults: Vec<String> = found.faults.iter().map(refusal_as_words).collect();
    Ok(if faults.is_empty() { String::from(" none") } else { faults.join(" /") })
}

/// What the rest of a line asks of the map that a file gives past its faults, or how many files are asked for.
fn salvaged<L: Library>(library: &L, file: &File<'_>, rest: &str) -> Answer<String> {
    let (word, rest) = split_word(rest);
    let found = library.salvage(&File { are_named: false, ..*file })?;
    let answer = match word {
        "asked" => format!(" {}", found.asked?),
        _ => maps::answer_alone(&found.map, word, rest)?,
    };
    Ok(format!(" {word}{answer}"))
}

/// The names of the files that a file uses.
fn uses<L: Library>(library: &L, file: &File<'_>) -> Answer<String> {
    let is_valid = file.bundle.map_or(Ok(true), |bundle| library.is_bundle(bundle))?;
    if !is_valid {
        return Ok(String::from(" no bundle"));
    }
    Ok(match library.uses(file)?.as_deref() {
        None => String::from(" refused"),
        Some([]) => String::from(" none"),
        Some(names) => names.iter().map(|name| format!(" /{}", Escaped(name))).collect(),
    })
}

/// The budget that a line has, if the files of a file stay within it and pass one byte less. The row's own
/// budget doesn't count.
fn least_budget<L: Library>(library: &L, file: &File<'_>, rest: &str) -> Answer<String> {
    let digits = rest.strip_prefix("budget ").ok_or(RowError::Wrong("least budget N"))?;
    let least = number(digits)?;
    let is_passed = |budget| -> Answer<bool> {
        let Reading { outcome, .. } = library.read(&File { budget: Some(budget), ..*file })?;
        Ok(words(&outcome) == "over budget")
    };
    let is_less_passed = least.checked_sub(1).map_or(Ok(true), is_passed)?;
    let told = match (is_passed(least)?, is_less_passed) {
        (true, _) => " too small",
        (false, false) => " too large",
        (false, true) => "",
    };
    Ok(format!(" budget {least}{told}"))
}

/// The file at the index of the name that a line begins with.
pub fn held<L: Library>(library: &L, bundle: &[u8], word: &str, rest: &str) -> Answer<String> {
    let name = asked(rest, ' ', "holds NAME ..")?;
    if word != "holds" {
        return Err(RowError::UNKNOWN_WORD);
    }
    Ok(match library.file_of_bundle(bundle, &unescaped(name)?)? {
        Some(file) => format!(" {name} {}", Escaped(&file)),
        None => format!(" {name} none"),
    })
}
