"""The crate of the C library in plain Rust: its files and their sources."""

import re
import shutil

from common.programs import CRATES, TOP, and_below

from .crate import copy_fallible, copy_licenses, write_reader
from .exports import exports_of

BY_HAND = TOP / "bindings" / "plain-c"
# the crates with calls for C, and the one with their handles
WITH_CALLS = ["cmap_c", "cmap_c_writer"]
HANDLES = "cmap_handles"
VERSION = (TOP / "VERSION").read_text().strip()
# the result of hayro_cmap_version
PLAIN_VERSION = f"{VERSION}+plain"
# the lines that the module `fallible` has here in addition to the reader's module
ADDED = """
#[allow(unsafe_code)]
pub mod sync;

pub use crate::given::Span;
"""


def write_c_library(out):
    """Writes the files by hand, the module `fallible` with additions for handles, the sources, and the calls."""
    shutil.copytree(BY_HAND, out, ignore=shutil.ignore_patterns("target", "tests", "Cargo.lock"))
    copy_fallible(out, ADDED)
    copy_licenses(out)
    write_reader(out, crates_of_c_library())
    write_exports(out)
    write_version(out)


def crates_of_c_library():
    """The crates of the C library."""
    return sorted({name for crate in WITH_CALLS for name in and_below(crate)})


def write_version(out):
    """Writes the version, which shows that the library is in plain Rust."""
    path = out / "src" / "reader" / "cmap_c" / "version.rs"
    before = path.read_text()
    after = before.replace(f'b"{VERSION}"', f'b"{PLAIN_VERSION}"')
    if after == before:
        raise ValueError(f"{path} has no version {VERSION}")
    path.write_text(after)


def write_exports(out):
    """Writes the root of the modules, and the calls for C."""
    (out / "src" / "reader.rs").write_text("".join(f"pub(crate) mod {name};\n" for name in crates_of_c_library()))
    for crate in WITH_CALLS:
        root = out / "src" / "reader" / f"{crate}.rs"
        root.write_text(re.sub(r"^mod ", "pub(crate) mod ", root.read_text(), flags=re.M))
    files = [path for crate in [HANDLES, *WITH_CALLS] for path in sorted((CRATES / crate / "src").rglob("*.rt"))]
    (out / "src" / "exports.rs").write_text(exports_of(files))
