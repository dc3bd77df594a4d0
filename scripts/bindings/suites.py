"""The tests that are written in C, C++, Rust and Python, and how the crate and the package are built."""

import functools
import re
import sys

from . import header
from .checks import Failed, is_there, needs, run
from .known import has_debian_files
from .library import C_TESTS, CPP_TESTS, MEMCHECK, NULL_TESTS, TOP

CRATE = TOP / "bindings" / "rust"
# the package that runs the rows of data over the crate, and the program that some rows run
ROWS = TOP / "tests"
QUERY = TOP / "crates" / "cmap_query" / "out" / "cmap_query"
PACKAGE = TOP / "bindings" / "python"


class Crate:
    """The Rust crate, as cargo builds it over the library, without a network."""

    def __init__(self, library, work):
        self.library, self.work = library, work

    def cargo(self, command, *words, folder=CRATE, **environment):
        """Runs a command of cargo with these words."""
        environment = {"CARGO_TARGET_DIR": str(self.work / "target"), "CARGO_TERM_COLOR": "never", **environment}
        return run("cargo", command, "--offline", *words, folder=folder, **environment)

    def over_library(self):
        """The variable that names the folder of the library."""
        return {"HAYRO_CMAP_LIB_DIR": str(self.library.folder)}

    @functools.cache
    def example(self, name):
        """The program of an example."""
        ran = self.cargo("build", "--examples", **self.over_library())
        if ran.status != 0:
            raise Failed(f"the examples of the crate aren't built: {ran.err}")
        return self.work / "target" / "debug" / "examples" / name


class Package:
    """The Python package, over the library."""

    python = sys.executable

    def __init__(self, library, work):
        self.library, self.work = library, work

    @functools.cache
    def folder(self):
        """Installs the package by pip, with the library in it (cargo builds plain Rust); gives the folder."""
        folder = self.work / "python"
        source, environment = PACKAGE, self.over_library()
        if self.library.is_plain:
            source, environment = self.source_archive(), {"HAYRO_CMAP_LIBRARY": ""}
        pip = [self.python, "-m", "pip", "install", "--quiet", "--no-build-isolation", "--no-index", "--no-deps"]
        ran = run(*pip, "--target", folder, source, **environment)
        if ran.status != 0:
            raise Failed(f"pip installs no package: {ran.err}")
        return folder

    def source_archive(self):
        """The source archive of the package."""
        build = "import build_backend, sys; print(build_backend.build_sdist(sys.argv[1]))"
        ran = run(self.python, "-B", "-c", build, self.work, folder=PACKAGE)
        if ran.status != 0:
            raise Failed(f"no source archive is made: {ran.err}")
        return self.work / ran.out.strip()

    def over_library(self):
        """The variable that names the library."""
        return {"HAYRO_CMAP_LIBRARY": str(self.library.shared), "PYTHONIOENCODING": "utf-8"}

    def in_project(self):
        """The variables by which Python finds the package in the project, and the package finds the library."""
        return {**self.over_library(), "PYTHONPATH": str(PACKAGE), "PYTHONDONTWRITEBYTECODE": "1"}

    def installed(self):
        """The variables by which Python finds the installed package, and the package finds the library in itself."""
        return {"HAYRO_CMAP_LIBRARY": "", "PYTHONPATH": str(self.folder()), "PYTHONIOENCODING": "utf-8"}


def check_crate(checks, setting, what, **environment):
    """Runs the tests of the crate, those of its pages too."""
    ran = setting.crate.cargo("test", **setting.crate.over_library(), **environment)
    counts = re.findall(r"(\d+) passed; (\d+) failed", ran.out)
    passed = sum(int(number) for number, _ in counts)
    checks.holds(f"cargo test, {what}", ran.status == 0 and passed > 0, ran)
    print(f"cargo test, {what}: {passed} passed", flush=True)


@needs("gcc")
def test_c_suite(checks, setting):
    """The tests of hayro_cmap.h, plain and with the sanitizers."""
    checks.ended("the tests in C", run(setting.programs.path(C_TESTS)), "ok\n")
    checks.ended("the tests in C with the sanitizers", run(setting.programs.sanitized(C_TESTS)), "ok\n")


@needs("gcc", "valgrind")
def test_c_suite_under_memcheck(checks, setting):
    """Every block is freed, and no address is wrong."""
    ran = run(*MEMCHECK, setting.programs.path(C_TESTS))
    checks.ended("the tests in C under memcheck", ran, "ok\n")


@needs("gcc")
def test_c_nulls(checks, setting):
    """Each call of the library of plain Rust gives no answer if a pointer is null that must not be."""
    if setting.library.is_plain:
        asked = NULL_TESTS.read_text()
        missing = [name for name in header.declarations() if not re.search(rf"{name}\([^;]*NULL", asked)]
        checks.same("the calls without a test of null in C", missing, [])
        checks.ended("the tests of null in C", run(setting.programs.sanitized(NULL_TESTS)), "ok\n")


@needs("g++")
def test_cpp_suite(checks, setting):
    """The tests of hayro_cmap.hpp, as they are and with the sanitizers.

    The sanitizers see the header and the tests, which are the same over both libraries: one run is enough.
    """
    checks.ended("the tests in C++", run(setting.programs.path(CPP_TESTS)), "ok\n")
    if not setting.library.is_plain:
        checks.ended("the tests in C++ with the sanitizers", run(setting.programs.sanitized(CPP_TESTS)), "ok\n")


@needs("g++", "valgrind")
def test_cpp_suite_under_memcheck(checks, setting):
    """Every block is freed, and no address is wrong."""
    ran = run(*MEMCHECK, setting.programs.path(CPP_TESTS))
    checks.ended("the tests in C++ under memcheck", ran, "ok\n")


@needs("cargo")
def test_rust_suite(checks, setting):
    """The tests of the crate, without a bundle in it and with one."""
    check_crate(checks, setting, "no bundle", HAYRO_CMAP_BUNDLE="")
    for files in setting.files:
        check_crate(checks, setting, f"the bundle {files.bundle.name}", HAYRO_CMAP_BUNDLE=str(files.bundle))


@needs("cargo")
def test_rust_suite_of_rows(checks, setting):
    """The rows of data by the calls of the crate, and rows of whole runs by the proved program if it is built."""
    environment = {**setting.crate.over_library(), "HAYRO_CMAP_BUNDLE": ""}
    if QUERY.exists() and not setting.library.is_plain:
        environment["CMAP_QUERY"] = str(QUERY)
    ran = setting.crate.cargo("test", "--", "--nocapture", folder=ROWS, **environment)
    checks.holds("the rows", ran.status == 0, ran)
    print("\n".join(re.findall(r"^(?:left aside|skipped|runs): .*", ran.out, re.M)), flush=True)


@needs("cargo")
def test_rust_bundles(checks, setting):
    """With the feature for a bundle, a missing bundle is a warning, and an invalid bundle is an error."""
    build = ["check", "--features=embed-cmaps"]
    ran = setting.crate.cargo(*build, **setting.crate.over_library(), HAYRO_CMAP_BUNDLE="")
    checks.holds("no bundle", ran.status == 0 and "no CMap is embedded" in ran.err, ran)
    ran = setting.crate.cargo(*build, **setting.crate.over_library(), HAYRO_CMAP_BUNDLE="/etc/passwd")
    checks.holds("a bundle that is none", ran.status != 0 and "/etc/passwd: no bundle" in ran.err, ran)


@needs("cargo", "pkg-config")
def test_rust_finds_the_library(checks, setting):
    """cargo finds the library by pkg-config; without a library it prints what to do."""
    folder = str(setting.library.folder / "pkgconfig")
    ran = setting.crate.cargo("build", HAYRO_CMAP_BUNDLE="", PKG_CONFIG_PATH=folder)
    checks.holds("cargo build by pkg-config", ran.status == 0, ran)
    ran = setting.crate.cargo("build", HAYRO_CMAP_LIB_DIR="/nowhere")
    checks.holds("cargo build without a library", ran.status != 0 and "scripts/c-library PREFIX" in ran.err, ran)


@needs("cargo")
def test_rust_crates_share_a_target_folder(checks, setting):
    """cargo checks the plain crate and the bindings in turn, each as its own."""
    plain, target = setting.work / "plain-rust", str(setting.work / "shared-target")
    ran = run(TOP / "scripts" / "plain-rust", "--library", plain)
    checks.holds("scripts/plain-rust", ran.status == 0, ran)
    for what in ["first", "again"]:
        ran = run("cargo", "check", "--offline", folder=plain, CARGO_TARGET_DIR=target)
        checks.holds(f"the plain crate, {what}", ran.status == 0, ran)
        ran = setting.crate.cargo("check", **setting.crate.over_library(), CARGO_TARGET_DIR=target)
        checks.holds(f"the bindings, {what}", ran.status == 0, ran)


def check_unittest(checks, where, folder, environment):
    """Runs the tests of the package in a folder."""
    ran = run(Package.python, "-m", "unittest", "discover", "-s", "tests", "-t", ".", folder=folder, **environment)
    found = re.search(r"^Ran ([1-9]\d*) tests", ran.err, re.M)
    is_whole = not (has_debian_files() and is_there("pdftotext")) or "skipped" not in ran.err
    checks.holds(f"unittest, {where}", ran.status == 0 and is_whole and found, ran)
    print(f"unittest, {where}: {found[1] if found else 'no'} tests", flush=True)


def test_python_suite(checks, setting):
    """The tests of the package, as it stands in the project."""
    check_unittest(checks, "in the project", PACKAGE, setting.package.over_library())


@needs("pip")
def test_python_suite_installed(checks, setting):
    """The same tests, over the package as pip installs it."""
    folder = setting.work / "python-tests"
    folder.mkdir()
    (folder / "tests").symlink_to(PACKAGE / "tests")
    check_unittest(checks, "as pip installs it", folder, setting.package.installed())


@functools.cache
def python_with(module):
    """A Python that has a module: this one, else Debian's; or None."""
    for python in dict.fromkeys([sys.executable, "/usr/bin/python3"]):
        if is_there(python) and run(python, "-c", f"import {module}").status == 0:
            return python
    return None


def check_suite(checks, setting, python, what, folder):
    """Runs the tests of a folder, from within it, and counts the skipped tests."""
    ran = run(python, "-m", "unittest", folder=PACKAGE / folder, **setting.package.in_project())
    found = re.search(r"^Ran ([1-9]\d*) tests", ran.err, re.M)
    checks.holds(f"unittest, {what}", ran.status == 0 and found, ran)
    skipped = re.search(r"skipped=(\d+)", ran.err)
    rest = f", {skipped[1]} of them skipped" if skipped else ""
    print(f"unittest, {what}: {found[1] if found else 'no'} tests{rest}", flush=True)


def test_python_pdf_suite(checks, setting):
    """The tests over PDF files, where a Python has pikepdf."""
    python = python_with("pikepdf")
    if python is None:
        print("skipped: the tests over PDF files, for lack of pikepdf (Debian's python3-pikepdf)", flush=True)
        return
    check_suite(checks, setting, python, "over PDF files", "pdf_tests")


def test_python_adapters(checks, setting):
    """The tests of the adapters for pdfminer and pypdf, where a Python has one of these."""
    python = python_with("pdfminer") or python_with("pypdf")
    if python is None:
        print("skipped: the tests of the adapters, for lack of pdfminer (Debian's python3-pdfminer)", flush=True)
        return
    check_suite(checks, setting, python, "with pdfminer and pypdf", "adapter_tests")
