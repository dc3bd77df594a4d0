"""The toolchain's own module on crates, as `rt` uses it."""

import subprocess
import sys
from pathlib import Path

from .programs import TOP

# the crates whose exports the C library has
EXPORTS = ["cmap_c", "cmap_c_writer"]


class Toolchain:
    """The toolchain, and the crates of the project by their names."""

    def __init__(self):
        ran = subprocess.run(["rt", "doc"], check=True, capture_output=True, text=True)
        self.folder = Path(ran.stdout.strip()).parent
        sys.dont_write_bytecode = True
        sys.path.insert(0, str(self.folder / "bin"))
        import rtlib

        # this sets the handler of a signal, which is allowed in the main thread alone
        rtlib.guarded()
        self.rtlib = rtlib
        self.crates = {crate.name: crate for crate in rtlib.crates_below(str(TOP))}

    def build(self, crate, jobs, target, words=()):
        """Proves and builds a crate over the libraries below it, into a file of its folder; gives the status."""
        (Path(crate.folder) / target).parent.mkdir(parents=True, exist_ok=True)
        shared = crate.words(["--jobs", str(jobs)], keeps=False)
        return crate.call(self.rtlib.RATTLE, "build", *shared, *words, "-o", target)

    def compiler(self):
        """The options that make code from a proved crate."""
        return ["--toolchain", f"{self.folder}/toolchain", "--backend", "llvm"]

    def link(self, crate, target, code):
        """Links a program; gives the status."""
        words = ["--target", "x86_64-unknown-linux-gnu", "--toolchain", f"{self.folder}/toolchain", "-o", target, code]
        parts = [f"{self.folder}/c/{name}" for name in ["libos_c.a", "liblibc_c.a"]]
        return crate.call(f"{self.folder}/bin/rattle-link", *words, *parts)
