"""The installed library, and the programs in C and C++ that are built over it."""

import functools
from pathlib import Path

from .checks import Failed, run

TOP = Path(__file__).resolve().parent.parent.parent
EXAMPLES = TOP / "examples"
C_TESTS = TOP / "bindings" / "c" / "tests.c"
# a program with calls that allocate memory and that no example makes
C_MEMORY = TOP / "bindings" / "c" / "memory.c"
# the tests of null pointers, for which only the library of plain Rust checks
NULL_TESTS = TOP / "bindings" / "plain-c" / "tests" / "nulls.c"
CPP_TESTS = TOP / "bindings" / "cpp" / "tests.cc"

WARNINGS = ["-Wall", "-Wextra", "-Wpedantic", "-Werror"]
COMPILERS = {".c": ["gcc", "-std=c11"], ".cc": ["g++", "-std=c++17"]}
SANITIZERS = ["-O1", "-g", "-fsanitize=address,undefined", "-fno-sanitize-recover=all"]
MEMCHECK = ["valgrind", "--quiet", "--leak-check=full", "--error-exitcode=9"]
HELGRIND = ["valgrind", "--quiet", "--tool=helgrind", "--error-exitcode=9"]


class Library:
    """The files that scripts/install has put under a folder."""

    def __init__(self, prefix):
        self.prefix = prefix
        self.include = prefix / "include"
        self.folder = prefix / "lib"
        self.archive = self.folder / "libhayro_cmap.a"
        self.shared = self.folder / "libhayro_cmap.so"
        self.is_plain = "\nbuild=plain\n" in (self.folder / "pkgconfig" / "hayro_cmap.pc").read_text()

    def pkg_config(self):
        """The flags by which a program is built over the shared library."""
        ran = run("pkg-config", "--cflags", "--libs", "hayro_cmap", PKG_CONFIG_PATH=str(self.folder / "pkgconfig"))
        if ran.status != 0:
            raise Failed(f"pkg-config: {ran}")
        return ran.out.split()


class Programs:
    """Programs in C and C++, each built when it is first asked for."""

    def __init__(self, library, work):
        self.library, self.work = library, work

    @functools.cache
    def path(self, source):
        """The program of a source, over the archive."""
        return self.built(source, "archive", ["-O2", f"-I{self.library.include}", self.library.archive])

    @functools.cache
    def sanitized(self, source):
        """The program over the archive, with the sanitizers for addresses and for undefined behaviour."""
        return self.built(source, "sanitized", [*SANITIZERS, f"-I{self.library.include}", self.library.archive])

    @functools.cache
    def over_shared(self, source):
        """The program over the shared library, with the flags of pkg-config; LD_LIBRARY_PATH must name its folder."""
        return self.built(source, "shared", ["-O2", *self.library.pkg_config()])

    def built(self, source, kind, flags):
        """Builds a program."""
        program = self.work / f"{source.name}-{kind}"
        compiler = COMPILERS[source.suffix]
        ran = run(*compiler, *WARNINGS, "-pthread", "-o", program, source, *flags)
        if ran.status != 0:
            raise Failed(f"{source.relative_to(TOP)} isn't built: {ran.err}")
        return program
