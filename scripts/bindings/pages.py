"""Checks that the programs of README.md, docs/PYTHON.md and docs/RECIPES.md print what these pages show, and checks of
the reference pages."""

import shlex
import sys

from common.shown import shown_in

from .checks import needs, run
from .known import has_debian_files
from .library import EXAMPLES, TOP
from .suites import python_with

OWN = TOP / "crates" / "cmap" / "data" / "japanese" / "Sample-RKSJ-H"
# the content of a stream, with and without the use of a file
VERTICAL = "/WMode 1 def 1 begincidchar <8141> 7887 endcidchar\n"
STREAMS = {"using": f"/Sample-RKSJ-H usecmap {VERTICAL}", "alone": VERTICAL}

# texts that the pages of the reference contain
REFERENCE = {
    "c/hayro__cmap_8h.html": "Cuts a string into codes, one after another",
    "c/classhayro_1_1Map.html": "parse_with_base",
    "rust/hayro_cmap/struct.CMap.html": "Reads a CMap file over a base",
    "python/hayro_cmap.html": "class <strong>CMap</strong>",
    "cmap.html": "prints the codes of strings with their CIDs and texts",
}


def shown_by(name):
    """The command line of README.md that names a program, with what it prints."""
    [found] = [shown for shown in shown_in(TOP / "README.md") if name in shown.line and shown.printed]
    return found


def file_of(shown):
    """The file that a command line reads: its last word."""
    return TOP / shlex.split(shown.line)[-1]


@needs("gcc")
def test_c_readme(checks, setting):
    """The program reads the file from its standard input, plain and with the sanitizers."""
    shown = shown_by("./cids")
    for program in [setting.programs.path(EXAMPLES / "cids.c"), setting.programs.sanitized(EXAMPLES / "cids.c")]:
        ran = run("sh", "-c", 'exec "$0" < "$1"', program, file_of(shown))
        checks.ended("README.md: the program in C", ran, shown.printed)


@needs("cargo")
def test_rust_readme(checks, setting):
    """The example of the crate."""
    shown = shown_by("--example codes")
    checks.ended("README.md: the program in Rust", run(setting.crate.example("codes"), file_of(shown)), shown.printed)


def test_python_readme(checks, setting):
    """One example writes a PDF file, and the other prints its text."""
    python, path = python_with("pikepdf"), setting.work / "office.pdf"
    if python is None:
        print("skipped: python readme, for lack of pikepdf (Debian's python3-pikepdf)", flush=True)
        return
    environment = setting.package.in_project()
    checks.ended("README.md: a PDF file", run(python, EXAMPLES / "to_unicode.py", path, "o", "ffi", "c", "e", **environment), "")
    ran = run(python, EXAMPLES / "pdf_text.py", path, **environment)
    checks.ended("README.md: the program in Python", ran, shown_by("examples/pdf_text.py").printed)


def test_python_page(checks, setting):
    """The program of docs/PYTHON.md prints what the page shows."""
    if has_debian_files():
        ran = run(setting.package.python, EXAMPLES / "codes.py", **setting.package.in_project())
        checks.ended("docs/PYTHON.md: the program", ran, "日本語\n93fa 3284\n967b 3722\n8cea 1952\n")


def check_streams(checks, setting, program):
    """A stream has its own CIDs and the CIDs of its base."""
    for name, text in STREAMS.items():
        path = setting.work / f"{name}.cmap"
        path.write_text(text)
        for code, cid in [("8141", "7887\n"), ("93FA", "3284\n")]:
            checks.ended(f"{program.name}: {code} of a stream {name}", run(program, path, OWN, code), cid)
        ran = run(program, path, path, "0000")
        checks.same(f"{program.name}: a code without a CID", (ran.status, ran.out), (1, ""))


@needs("gcc")
def test_c_recipe(checks, setting):
    """A stream over the CMap of its entry UseCMap, plain and with the sanitizers."""
    source = EXAMPLES / "use_cmap.c"
    for program in [setting.programs.path(source), setting.programs.sanitized(source)]:
        check_streams(checks, setting, program)


@needs("cargo")
def test_rust_recipe(checks, setting):
    """A stream over the CMap of its entry UseCMap, by the example of the crate."""
    check_streams(checks, setting, setting.crate.example("use_cmap"))


@needs("doxygen", "cargo", "mandoc")
def test_reference(checks, setting):
    """The pages have the comments of a call in each language, and no dead links."""
    folder = setting.work / "reference"
    script = [sys.executable, TOP / "scripts" / "reference", "--library", setting.library.shared, folder]
    checks.ended("scripts/reference", run(*script, **setting.package.in_project()), "")
    for page, text in REFERENCE.items():
        checks.holds(f"the reference: {page}", text in (folder / page).read_text(), f"expected {text!r}")
