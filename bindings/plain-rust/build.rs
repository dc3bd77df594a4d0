//! Embeds the bundle of predefined CMaps in the crate, with the feature `embed-cmaps`.

fn main() {
    println!("cargo::rerun-if-env-changed=HAYRO_CMAP_BUNDLE");
    #[cfg(feature = "embed-cmaps")]
    if let Err(fault) = embedding::embed_bundle() {
        eprintln!("{fault}");
        std::process::exit(1);
    }
}

#[cfg(feature = "embed-cmaps")]
extern crate alloc;
#[cfg(feature = "embed-cmaps")]
use sources::{fallible, reader};

/// The reader of the crate, which checks the bundle.
#[cfg(feature = "embed-cmaps")]
#[allow(clippy::all, dead_code, unused_imports, unused_labels, unused_variables)]
#[path = "src"]
mod sources {
    pub mod fallible;
    pub mod reader;
}

#[cfg(feature = "embed-cmaps")]
mod embedding {
    use crate::fallible::alloc::Global;
    use crate::reader::Bundle;
    use std::path::{Path, PathBuf};
    use std::{env, fs};

    /// Writes `bundle.rs` with the bytes of the file that HAYRO_CMAP_BUNDLE names.
    pub fn embed_bundle() -> Result<(), String> {
        let out = PathBuf::from(env::var_os("OUT_DIR").ok_or("cargo sets OUT_DIR")?);
        let value = match env::var_os("HAYRO_CMAP_BUNDLE").filter(|name| !name.is_empty()) {
            Some(name) => {
                copy_bundle(Path::new(&name), &out.join("bundle"))?;
                r#"Some(include_bytes!(concat!(env!("OUT_DIR"), "/bundle")))"#
            }
            None => {
                println!("cargo::warning=HAYRO_CMAP_BUNDLE isn't set: no CMap is embedded");
                "None"
            }
        };
        let text = format!("static BYTES: Option<&[u8]> = {value};\n");
        fs::write(out.join("bundle.rs"), text).map_err(|fault| format!("OUT_DIR: {fault}"))
    }

    fn copy_bundle(from: &Path, to: &Path) -> Result<(), String> {
        println!("cargo::rerun-if-changed={}", from.display());
        let told = |fault: &str| format!("HAYRO_CMAP_BUNDLE is {}: {fault}", from.display());
        let bytes = fs::read(from).map_err(|fault| told(&fault.to_string()))?;
        match Bundle::parse(Global, &bytes) {
            Ok(Some(_)) => fs::write(to, bytes).map_err(|fault| told(&fault.to_string())),
            Ok(None) => Err(told("no bundle")),
            Err(fault) => Err(told(&fault.to_string())),
        }
    }
}
