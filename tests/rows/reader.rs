//! The calls of the reader under the crate in plain Rust.

pub mod memory;

mod destinations;
mod maps;
mod prefix_tables;
mod ranges;
mod tokens;

use crate::cmap_queries;
use crate::library::{File, Library, Outcome, Reading, Refusal, Run, Salvaged};
use crate::row::{Row, RowKind};
use crate::row_error::{Answer, RowError};
use hayro_cmap::fallible::alloc::{AllocError, AllocFailed, Global};
use hayro_cmap::fallible::{String as FallibleString, Vec as FallibleVec};
use hayro_cmap::reader::{
    self, Bundle, BundleFiles, CMap, Cause, Fault, NamedFiles, OwnedBundle, Source,
};
use memory::counted;
use std::cell::Cell;

/// The calls of the reader.
pub struct Reader;

impl From<AllocError> for RowError {
    fn from(_: AllocError) -> RowError {
        RowError::NoMemory
    }
}

impl<T> From<AllocFailed<T>> for RowError {
    fn from(_: AllocFailed<T>) -> RowError {
        RowError::NoMemory
    }
}

impl Library for Reader {
    type Map = CMap;

    fn identity(&self, is_vertical: bool) -> Answer<CMap> {
        let make = if is_vertical { CMap::identity_v } else { CMap::identity_h };
        Ok(counted(|| make(Global))?)
    }

    fn read(&self, file: &File<'_>) -> Answer<Reading<CMap>> {
        let bundle = bundle_of(file)?;
        if file.bundle.is_some() && bundle.is_none() {
            return Ok(Reading { outcome: Outcome::NoBundle, asked: Ok(0) });
        }
        let files = CountedFiles::of(file, bundle.as_ref());
        let File { bytes, budget, .. } = *file;
        let read = || CMap::parse_from(Global, budget, bytes, bundle.as_ref(), &files);
        let outcome = match counted(read) {
            Ok(map) => Outcome::Map(map),
            Err(Fault::Refused(refusal)) => Outcome::Refused(refused(&refusal)),
            Err(Fault::Memory) => return Err(RowError::NoMemory),
        };
        Ok(Reading { outcome, asked: Ok(files.asked.get()) })
    }

    fn salvage(&self, file: &File<'_>) -> Answer<Salvaged<CMap>> {
        let bundle = bundle_of(file)?;
        let files = CountedFiles::of(file, bundle.as_ref());
        let File { bytes, budget, .. } = *file;
        let read = || CMap::salvage(Global, budget, bytes, bundle.as_ref(), &files);
        let found = counted(read)?;
        let faults = found.faults.iter().map(refused).collect();
        Ok(Salvaged { map: found.map, faults, asked: Ok(files.asked.get()) })
    }

    fn uses(&self, file: &File<'_>) -> Answer<Option<Vec<Vec<u8>>>> {
        let bundle = bundle_of(file)?;
        let names = counted(|| CMap::uses(Global, file.bytes, bundle.as_ref()))?;
        Ok(names.map(|names| names.iter().map(|name| name.to_vec()).collect()))
    }

    fn is_bundle(&self, bytes: &[u8]) -> Answer<bool> {
        let is_bundle = counted(|| Bundle::parse(Global, bytes))?.is_some();
        let is_owned = counted(|| OwnedBundle::parse(Global, bytes))?.is_some();
        if is_bundle == is_owned { Ok(is_bundle) } else { Err(RowError::Mismatch) }
    }

    fn file_of_bundle(&self, bytes: &[u8], name: &[u8]) -> Answer<Option<Vec<u8>>> {
        let bundle = counted(|| Bundle::parse(Global, bytes))?;
        let owned = counted(|| OwnedBundle::parse(Global, bytes))?;
        let file = bundle.as_ref().and_then(|bundle| bundle.file_of(name));
        let of_owned = owned.as_ref().and_then(|bundle| bundle.file_of(name));
        if file == of_owned { Ok(file.map(<[u8]>::to_vec)) } else { Err(RowError::Mismatch) }
    }

    fn outcome_of_part(&self, row: &Row<'_>, input: &[u8]) -> Answer<&'static str> {
        match row.kind {
            RowKind::Tokens => tokens::outcome(input),
            RowKind::Deltas | RowKind::Counts => prefix_tables::outcome(row.kind, input),
            _ => Err(RowError::UNKNOWN_WORD),
        }
    }

    fn answer_of_part(&self, row: &Row<'_>, word: &str, rest: &str) -> Answer<String> {
        match row.kind {
            RowKind::Tokens => tokens::answer(row.input(), word),
            RowKind::Ranges => ranges::answer(row.words, word, rest),
            RowKind::Deltas | RowKind::Counts => {
                prefix_tables::answer(row.kind, row.input(), word, rest)
            }
            RowKind::Destination => destinations::answer(row.input(), word, rest),
            _ => Err(RowError::UNKNOWN_WORD),
        }
    }

    fn run(&self, arguments: &[String], input: &[u8]) -> Answer<Run> {
        let arguments = arguments.iter().map(|word| FallibleString::from_std(word.clone()));
        let arguments = FallibleVec::from_std(arguments.collect());
        let (mut rest, mut out, mut err) = (input, Vec::new(), Vec::new());
        let status = cmap_queries::answers::run(Global, &arguments, &mut rest, &mut out, &mut err);
        let text = |bytes| String::from_utf8(bytes).map_err(|_| RowError::Wrong("not UTF-8"));
        let is_read = rest.len() < input.len();
        Ok(Run { status: status.into(), out: text(out)?, err: text(err)?, is_read })
    }
}

/// The bundle beside a file; `None` also where it is invalid.
fn bundle_of<'r>(file: &File<'r>) -> Answer<Option<Bundle<'r>>> {
    let Some(bytes) = file.bundle else { return Ok(None) };
    Ok(counted(|| Bundle::parse(Global, bytes))?)
}

fn refused(refusal: &reader::Refusal<'_>) -> Refusal {
    Refusal {
        names: refusal.names.iter().map(|name| name.to_vec()).collect(),
        cause: refusal.cause.to_string(),
        is_over_budget: matches!(refusal.cause, Cause::OverBudget),
    }
}

/// Files that answer to their names, and how many were asked for.
struct CountedFiles<'r> {
    files: NamedFiles<'r, (&'r [u8], &'r [u8]), Bundle<'r>>,
    asked: Cell<u32>,
}

impl<'r> CountedFiles<'r> {
    fn of(file: &'r File<'r>, bundle: Option<&'r Bundle<'r>>) -> CountedFiles<'r> {
        let bundle = bundle.filter(|_| file.are_named);
        CountedFiles { files: NamedFiles { files: file.bases, bundle }, asked: Cell::new(0) }
    }
}

impl Source for CountedFiles<'_> {
    fn file(&self, name: &[u8]) -> Option<&[u8]> {
        self.asked.set(self.asked.get() + 1);
        self.files.file(name)
    }
}
