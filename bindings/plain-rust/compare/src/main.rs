//! Compares the answers of the crate of plain Rust with the answers of the bindings over the proved library:
//!
//!     compare FOLDER BUNDLE COUNT SEED
//!
//! Each file in FOLDER and its subfolders is read whole, and so are the binary files of the same names in BUNDLE.
//! COUNT inputs follow: spoiled windows of these files, and generated files. The seed of such an input is its index
//! plus SEED. A sum that overflows in the plain crate ends the program, and so does the first answer that differs.

mod answers;
mod inputs;
mod numbers;

use answers::{Answers, Files, plain_answers, proved_answers};
use inputs::{Input, Inputs};
use std::path::Path;
use std::sync::atomic::{AtomicU64, Ordering};
use std::{env, fs, io, process, thread};

/// How many inputs, maps and answers were compared.
#[derive(Default)]
struct Counts {
    inputs: AtomicU64,
    maps: AtomicU64,
    answers: AtomicU64,
}

impl Counts {
    fn add(&self, answers: &Answers) {
        self.inputs.fetch_add(1, Ordering::Relaxed);
        self.maps.fetch_add(u64::from(answers.has_map), Ordering::Relaxed);
        self.answers.fetch_add(answers.count(), Ordering::Relaxed);
    }
}

/// The files of a folder and of its subfolders, by their names.
fn files_below(folder: &Path, files: &mut Files) -> io::Result<()> {
    for entry in fs::read_dir(folder)? {
        let entry = entry?;
        if entry.file_type()?.is_dir() {
            files_below(&entry.path(), files)?;
        } else {
            files.insert(entry.file_name().into_encoded_bytes(), fs::read(entry.path())?);
        }
    }
    Ok(())
}

/// Asks both crates, and ends the program if their answers differ.
fn compare(files: &Files, bundle: &Bundles, input: &Input, counts: &Counts) {
    let plain = plain_answers(files, &bundle.plain, input);
    let proved = proved_answers(files, &bundle.proved, input);
    counts.add(&plain);
    if plain != proved {
        eprintln!("{:?}: the answers differ", input.what);
        eprintln!("{}", input.data.escape_ascii());
        eprintln!("{}", plain.first_difference(&proved));
        process::exit(1);
    }
}

/// The bundle, as each crate has it.
struct Bundles {
    plain: plain::Bundle,
    proved: proved::Bundle,
}

fn main() {
    let arguments: Vec<String> = env::args().skip(1).collect();
    let [folder, bundle, count, seed] = &arguments[..] else {
        eprintln!("usage: compare FOLDER BUNDLE COUNT SEED");
        process::exit(2);
    };
    let mut files = Files::new();
    files_below(Path::new(folder), &mut files).expect("the files can be read");
    let bytes = fs::read(bundle).expect("the bundle can be read");
    let bundles = Bundles {
        plain: plain::Bundle::open(&bytes).expect("it is a bundle"),
        proved: proved::Bundle::open(&bytes).expect("it is a bundle"),
    };
    let count: u64 = count.parse().expect("a number");
    let seed: u64 = seed.parse().expect("a number");
    let inputs = Inputs::new(&files, &bundles.plain);
    let (next, counts) = (AtomicU64::new(0), Counts::default());
    let total = inputs.whole_count() + count;
    thread::scope(|scope| {
        for _ in 0..thread::available_parallelism().map_or(1, usize::from) {
            scope.spawn(|| {
                loop {
                    let index = next.fetch_add(1, Ordering::Relaxed);
                    if index >= total {
                        break;
                    }
                    compare(&files, &bundles, &inputs.input(index, seed), &counts);
                }
            });
        }
    });
    let Counts { inputs, maps, answers } = counts;
    let (inputs, maps, answers) = (inputs.into_inner(), maps.into_inner(), answers.into_inner());
    println!("{inputs} inputs, {maps} of them maps: {answers} answers are the same");
}
