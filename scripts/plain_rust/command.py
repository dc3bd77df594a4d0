"""The package of the command in plain Rust: its files and their sources."""

import shutil

from common.programs import TOP, and_below

from .crate import OF_KIT, after_docs, copy_fallible, copy_licenses, erase_crate

BY_HAND = TOP / "bindings" / "plain-command"
COMMAND = "cmap"
# the crates of the kit whose interface is written by hand
KIT = ["clap", "hex"]
# the lines that the module `fallible` has here in addition to the reader's module
ADDED = "\npub mod rc;\n"
# the modules that are written by hand
MODULES = ["fallible", "host", "kit", "sources"]
# only proofs read some arguments, the library has more than the command needs, and the sources have their own style
ALLOWED = "#![allow(clippy::all, dead_code, unused_imports, unused_labels, unused_variables)]\n"


def cases_of_command():
    """The files with the cases of the command."""
    return sorted(path for path in (TOP / "examples" / "command").glob("*.cases") if path.stem != "bench")


def write_command(out):
    """Makes the package in a new folder: the crates below the command are modules of one, the command is its root."""
    shutil.copytree(BY_HAND, out, ignore=shutil.ignore_patterns("target", "Cargo.lock"))
    copy_licenses(out)
    source = out / "src"
    copy_fallible(out, ADDED)
    crates = sorted(and_below(COMMAND))
    paths = {name: f"crate::sources::{name}" for name in crates if name != COMMAND}
    known = {"std": "crate::fallible", "host": "crate::host", **OF_KIT, **{name: f"crate::kit::{name}" for name in KIT}, **paths}
    for crate in paths:
        own = {"crate": paths[crate], **known}
        erase_crate(crate, source / "sources" / crate, source / "sources" / f"{crate}.rs", own)
    modules = "".join(f"pub(crate) mod {name};\n" for name in paths)
    (source / "sources.rs").write_text(f"//! The crates on which the command stands.\n\n{modules}")
    erase_crate(COMMAND, source, source / "main.rs", {"crate": "crate", **known})
    add_modules(source / "main.rs")


def add_modules(root):
    """Declares the modules by hand in the root."""
    declared = "".join(f"mod {name};\n" for name in MODULES)
    added = f"#![forbid(unsafe_code)]\n{ALLOWED}\nextern crate alloc;\n\n{declared}\n"
    root.write_text(after_docs(added, root.read_text()))
