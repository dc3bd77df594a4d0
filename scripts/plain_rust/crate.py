"""The crate of the reader in plain Rust: its files and their sources."""

import re
import shutil

from common.programs import CRATES, TOP, and_below

from .erasing import erased
from .source import Unknown

BY_HAND = TOP / "bindings" / "plain-rust"
# the bindings over the C library, which have the same interface, and from which sources, tests and examples are copied
SHARED = TOP / "bindings" / "rust"
SHARED_SOURCES = [
    *("based", "builder", "collection", "encode_error", "extractor", "finding", "loader"),
    *("metadata", "opening", "options", "piece", "predefined", "reason", "salvage_loader"),
]
# the licences; LICENSE-UNICODE is for tables
LICENSES = ["LICENSE-APACHE", "LICENSE-MIT", "LICENSE-UNICODE"]
# the crates of the kit whose interface is written by hand
OF_KIT = {name: f"crate::fallible::{name}" for name in ("arrayvec", "itoa", "ucd_normal")}
README = "README.md"
# the crates that together use all crates of the reader
READER = ["hayro_cmap", "cmap_encode", "cmap_unicode", "cmap_edit", "cmap_lint", "cmap_text_writer"]
# the tests by rows of data and the tests of inner modules; rows for a program need the library of its queries
TESTS = TOP / "tests"
QUERIES = "cmap_queries"
# crates outside the reader that tests of modules need
TESTED = ["cmap_binary_writer", "cmap_bundle_maker"]
# functions of lookups that Rust inlines only with an attribute; this replaces other such attributes
INLINED = {
    "cmap_c/src/cids.rt": ["hayro_cmap_cid", "hayro_cmap_cid_strict"],
    "cmap_layers/src/lookup.rt": ["strict_cid", "text", "find_bf"],
    "cmap_runs/src/runs/search.rt": ["find_after_blocks", "find_among_last"],
    "cmap_tokens/src/utf16.rt": ["one_char"],
    "hayro_cmap/src/map.rt": ["lookup_bf_string", "next_code"],
}
# files about the pointers of C
POINTERS = ["cmap_c/src/loader_slot.rt", "cmap_c_writer/src/slot.rt", "cmap_handles/src/slot.rt"]


def crates_of_reader():
    """The crates of the reader."""
    return sorted({name for crate in READER for name in and_below(crate)})


def with_inlined(text, names):
    """The text with the attribute `inline(always)` before each of these functions."""
    for name in names:
        function = rf"^( *)(?:#\[(?:cold|inline\(\w+\))\]\n *)*((?:pub(?:\(\w+\))? )?fn {name}\b)"
        text, count = re.subn(function, r"\1#[inline(always)]\n\1\2", text, flags=re.M)
        if count != 1:
            raise Unknown(f"{count} functions have the name {name}")
    return text


def erased_file(path, paths):
    """The text of a source file as Rust. Only the files about the pointers of C may have unsafe code."""
    name = str(path.relative_to(CRATES))
    if name not in POINTERS:
        return with_inlined(erased(path.relative_to(TOP), path.read_text(), paths), INLINED.get(name, []))
    return after_docs("#![allow(unsafe_code)]\n\n", erased(path.relative_to(TOP), path.read_text(), paths, ["unsafe"]))


def after_docs(added, text):
    """The text of a file, with lines added after the comments on the whole file."""
    return re.sub(r"\A((?://![^\n]*\n)*)\n*", lambda docs: docs[1] + "\n" * bool(docs[1]) + added, text, count=1)


def erase_crate(crate, folder, root, paths):
    """Writes the sources of a crate into a folder, with its root as the file `root`; existing files stay."""
    for path in sorted((CRATES / crate / "src").rglob("*.rt")):
        inner = path.relative_to(CRATES / crate / "src").with_suffix(".rs")
        made = root if inner.name in ("lib.rs", "main.rs") and inner.parent.name == "" else folder / inner
        if not made.exists():
            made.parent.mkdir(parents=True, exist_ok=True)
            made.write_text(erased_file(path, paths))


def write_reader(out, crates):
    """Writes the sources of crates, with a module for each."""
    folder = out / "src" / "reader"
    paths = {crate: f"crate::reader::{crate}" for crate in crates}
    for crate in paths:
        own = {"crate": paths[crate], "std": "crate::fallible", **OF_KIT, **paths}
        erase_crate(crate, folder / crate, folder / f"{crate}.rs", own)


def write_rows(out):
    """Writes the rows of data, and the code that runs them as tests."""
    folder = out / "tests" / "rows"
    shutil.copytree(TESTS / "rows", folder, ignore=shutil.ignore_patterns("over_c.rs", "process.rs"), dirs_exist_ok=True)
    paths = {"crate": f"crate::{QUERIES}", "hayro_cmap": "hayro_cmap::reader", "std": "hayro_cmap::fallible"}
    erase_crate(QUERIES, folder / QUERIES, folder / f"{QUERIES}.rs", paths)


def write_units(out):
    """Writes the tests of modules, and the crates that they need in addition to the reader."""
    folder = out / "src" / "units"
    shutil.copytree(TESTS / "units", folder)
    paths = {**{crate: f"crate::reader::{crate}" for crate in crates_of_reader()},
             **{crate: f"crate::units::{crate}" for crate in TESTED}}
    for crate in TESTED:
        own = {"crate": paths[crate], "std": "crate::fallible", **paths}
        erase_crate(crate, folder / crate, folder / f"{crate}.rs", own)


def write_library(out):
    """Writes the files by hand, the shared files of the bindings over the C library, and the sources."""
    shutil.copytree(BY_HAND, out, ignore=shutil.ignore_patterns("target", "Cargo.lock", "compare"))
    copy_licenses(out)
    shutil.copy(SHARED / README, out / README)
    for name in SHARED_SOURCES:
        shutil.copy(SHARED / "src" / f"{name}.rs", out / "src" / f"{name}.rs")
    for folder in ["tests", "examples"]:
        shutil.copytree(SHARED / folder, out / folder, dirs_exist_ok=True)
    write_reader(out, crates_of_reader())
    write_rows(out)
    write_units(out)


def copy_fallible(out, added):
    """Copies the module `fallible` into another crate, with lines added at its end."""
    shutil.copytree(BY_HAND / "src" / "fallible", out / "src" / "fallible", dirs_exist_ok=True)
    (out / "src" / "fallible.rs").write_text((BY_HAND / "src" / "fallible.rs").read_text() + added)


def copy_licenses(out):
    """Copies the licences of the project."""
    for name in LICENSES:
        shutil.copy(TOP / name, out / name)
