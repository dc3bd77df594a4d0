//! Finds the library `libhayro_cmap.a`, and embeds the bundle of predefined CMaps in the crate.

use std::fmt::Display;
use std::path::{Path, PathBuf};
use std::process::Command;
use std::{env, fs};

const LIBRARY: &str = "libhayro_cmap.a";

fn main() {
    if let Err(fault) = link_library().and_then(|()| embed_bundle()) {
        eprintln!("{fault}");
        std::process::exit(1);
    }
}

fn link_library() -> Result<(), String> {
    for name in ["HAYRO_CMAP_LIB_DIR", "PKG_CONFIG", "PKG_CONFIG_PATH", "PKG_CONFIG_LIBDIR"] {
        println!("cargo::rerun-if-env-changed={name}");
    }
    let (folder, others) = match env::var_os("HAYRO_CMAP_LIB_DIR") {
        Some(folder) => (folder_of_variable(PathBuf::from(folder))?, Vec::new()),
        None => folder_of_pkg_config()?,
    };
    println!("cargo::rerun-if-changed={}", folder.join(LIBRARY).display());
    println!("cargo::rustc-link-search=native={}", folder.display());
    println!("cargo::rustc-link-lib=static=hayro_cmap");
    for other in others {
        println!("cargo::rustc-link-lib={other}");
    }
    Ok(())
}

fn folder_of_variable(folder: PathBuf) -> Result<PathBuf, String> {
    if folder.join(LIBRARY).is_file() {
        return Ok(folder);
    }
    Err(format!(
        "HAYRO_CMAP_LIB_DIR is {}, and no {LIBRARY} is there.\n\
         Set it to the folder `lib` under the PREFIX of `scripts/c-library PREFIX`.",
        folder.display()
    ))
}

/// The folder of the library, and the other libraries that it needs.
fn folder_of_pkg_config() -> Result<(PathBuf, Vec<String>), String> {
    let words = pkg_config(&["--libs", "--static", "hayro_cmap"])?;
    let mut folders: Vec<PathBuf> =
        words.iter().filter_map(|word| word.strip_prefix("-L")).map(PathBuf::from).collect();
    // pkg-config leaves out the folders that a linker searches anyway.
    folders.extend(pkg_config(&["--variable=libdir", "hayro_cmap"])?.iter().map(PathBuf::from));
    let others = words.iter().filter_map(|word| word.strip_prefix("-l"));
    let others = others.filter(|name| *name != "hayro_cmap").map(String::from).collect();
    match folders.into_iter().find(|folder| folder.join(LIBRARY).is_file()) {
        Some(folder) => Ok((folder, others)),
        None => Err(format!(
            "pkg-config knows hayro_cmap, but no {LIBRARY} is in its folders.\n{ADVICE}"
        )),
    }
}

const ADVICE: &str = "\
In the project's repository run `scripts/c-library PREFIX`, and then either\n\
- set HAYRO_CMAP_LIB_DIR to PREFIX/lib, or\n\
- set PKG_CONFIG_PATH to PREFIX/lib/pkgconfig.";

fn pkg_config(words: &[&str]) -> Result<Vec<String>, String> {
    let program = env::var("PKG_CONFIG").unwrap_or_else(|_| "pkg-config".into());
    let ran = Command::new(&program).args(words).output();
    let ran = ran.map_err(|fault| {
        format!("HAYRO_CMAP_LIB_DIR isn't set, and {program} can't be run: {fault}.\n{ADVICE}")
    })?;
    if !ran.status.success() {
        let why = String::from_utf8_lossy(&ran.stderr);
        return Err(format!(
            "HAYRO_CMAP_LIB_DIR isn't set, and pkg-config doesn't know hayro_cmap.\n{ADVICE}\n\n{why}"
        ));
    }
    Ok(String::from_utf8_lossy(&ran.stdout).split_whitespace().map(String::from).collect())
}

/// Writes `bundle.rs` with the bytes of the file that HAYRO_CMAP_BUNDLE names.
fn embed_bundle() -> Result<(), String> {
    println!("cargo::rerun-if-env-changed=HAYRO_CMAP_BUNDLE");
    let out = PathBuf::from(env::var_os("OUT_DIR").ok_or("cargo sets OUT_DIR")?);
    let value = match env::var_os("HAYRO_CMAP_BUNDLE").filter(|name| !name.is_empty()) {
        Some(name) => {
            copy_bundle(Path::new(&name), &out.join("bundle"))?;
            r#"Some(include_bytes!(concat!(env!("OUT_DIR"), "/bundle")))"#
        }
        None => {
            if env::var_os("CARGO_FEATURE_EMBED_CMAPS").is_some() {
                println!("cargo::warning=HAYRO_CMAP_BUNDLE isn't set: no CMap is embedded");
            }
            "None"
        }
    };
    let text = format!("static BYTES: Option<&[u8]> = {value};\n");
    fs::write(out.join("bundle.rs"), text).map_err(|fault| format!("OUT_DIR: {fault}"))
}

fn copy_bundle(from: &Path, to: &Path) -> Result<(), String> {
    println!("cargo::rerun-if-changed={}", from.display());
    let told = |fault: &dyn Display| format!("HAYRO_CMAP_BUNDLE is {}: {fault}", from.display());
    let bytes = fs::read(from).map_err(|fault| told(&fault))?;
    if !has_form_of_bundle(&bytes) {
        return Err(told(&"no bundle"));
    }
    fs::write(to, bytes).map_err(|fault| told(&fault))
}

/// Whether bytes have the form of a bundle: the length of the tables, the tables, and files. A file has its length,
/// including the ten bytes of its head, at offset 6.
fn has_form_of_bundle(bytes: &[u8]) -> bool {
    let Some((len, rest)) = bytes.split_first_chunk() else { return false };
    let Some(mut rest) = rest.get(u32::from_be_bytes(*len) as usize..) else { return false };
    while !rest.is_empty() {
        let Some(&[a, b, c, d]) = rest.get(6..10) else { return false };
        let len = u32::from_be_bytes([a, b, c, d]) as usize;
        match rest.get(len..) {
            Some(after) if len >= 10 => rest = after,
            _ => return false,
        }
    }
    true
}
