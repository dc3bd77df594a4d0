"""The examples that decode a string, in C, C++, Rust and Python; those of a bundle, of threads, of declarations and of
files that are written, in C; those that make a ToUnicode CMap, which pdftotext reads in a PDF file; and those that await
files and fill a form, in Python."""

from common.composite_font import pdf

from . import forms
from .checks import needs, run
from .known import (
    BASED,
    DECLARED,
    ENCODED,
    MADE,
    MADE_OF,
    REFUSED,
    STRINGS,
    WORDS,
    WRITTEN,
    WRITTEN_FOR,
    based_file,
    declaring_file,
    has_debian_files,
    refused_files,
    rows_of_strings,
    to_unicode_file,
)
from .library import EXAMPLES, HELGRIND, MEMCHECK
from .suites import python_with

NATIVE = {"C": EXAMPLES / "decode.c", "C++": EXAMPLES / "decode.cc"}
BUNDLE = EXAMPLES / "bundle.c"
THREADS = EXAMPLES / "threads.c"
DECLARING = EXAMPLES / "declared.c"
PREDEFINED = EXAMPLES / "predefined.c"
MAKING = {"C": EXAMPLES / "to_unicode.c", "C++": EXAMPLES / "to_unicode.cc"}
WRITING = EXAMPLES / "subset.c"
ENCODING = EXAMPLES / "encode.c"
# glyphs and their texts; one glyph is repeated
GLYPHS = ["o", "ffi", "c", "e", "日", "\U0001F600", "é", "o"]


def check_strings(checks, setting, what, command, **environment):
    """A command gives the known codes, CIDs and texts."""
    for files in setting.files:
        for name, digits, lines in STRINGS:
            ran = run(*command, files.folder, name, digits, **environment)
            checks.ended(f"{what}: {digits} by {files.folder}/{name}", ran, lines)


def check_refusals(checks, setting, what, command, **environment):
    """A command prints which file it refuses, where, and why."""
    folder = setting.once(refused_files)
    for name, (_, message) in REFUSED.items():
        ran = run(*command, folder, name, "41", **environment)
        checks.ended(f"{what}: {name}, which is refused", ran, "", status=1)
        checks.holds(f"{what}: why {name} is refused", message in ran.err, f"expected {message!r}, found {ran.err!r}")
    ran = run(*command, folder, "Absent", "41", **environment)
    checks.holds(f"{what}: a file that isn't there", ran.status == 1 and "Absent: " in ran.err, ran)


def check_texts(checks, what, command, **environment):
    """A command gives the texts of fonts' strings in each language for which poppler-data has files."""
    for folder, name, digits, text in rows_of_strings() if has_debian_files() else []:
        ran = run(*command, folder, name, digits, **environment)
        texts = "".join(line.split(" ", 2)[2] for line in ran.out.splitlines() if line.count(" ") >= 2)
        checks.holds(f"{what}: {digits} by {name}", (ran.status, texts) == (0, text), f"expected {text!r}, found {ran}")


@needs("gcc", "g++")
def test_c_and_cpp_decode(checks, setting):
    """The examples decode strings over the archive."""
    for language, source in NATIVE.items():
        command = [setting.programs.path(source)]
        check_strings(checks, setting, language, command)
        check_refusals(checks, setting, language, command)
        check_texts(checks, language, command)


@needs("gcc", "g++", "pkg-config")
def test_c_and_cpp_decode_over_the_shared_library(checks, setting):
    """The examples decode strings over the shared library, with flags of pkg-config; the soname finds the library."""
    for language, source in NATIVE.items():
        command = [setting.programs.over_shared(source)]
        folder = str(setting.library.folder)
        check_strings(checks, setting, f"{language}, shared library", command, LD_LIBRARY_PATH=folder)


@needs("gcc", "g++")
def test_c_and_cpp_decode_with_sanitizers(checks, setting):
    """The sanitizers find no wrong address and no undefined behaviour."""
    for language, source in NATIVE.items():
        command = [setting.programs.sanitized(source)]
        check_strings(checks, setting, f"{language}, sanitizers", command)


@needs("gcc", "g++", "valgrind")
def test_c_and_cpp_decode_under_memcheck(checks, setting):
    """Every block is freed, and no address is wrong."""
    for language, source in NATIVE.items():
        check_strings(checks, setting, f"{language}, memcheck", [*MEMCHECK, setting.programs.path(source)])


@needs("cargo")
def test_rust_decodes(checks, setting):
    """The example of the crate, as cargo builds it."""
    command = [setting.crate.example("decode")]
    check_strings(checks, setting, "Rust", command)
    check_refusals(checks, setting, "Rust", command)
    check_texts(checks, "Rust", command)


@needs("pip")
def test_python_decodes(checks, setting):
    """The example, over the package as pip installs it."""
    command = [setting.package.python, EXAMPLES / "decode.py"]
    environment = setting.package.installed()
    check_strings(checks, setting, "Python", command, **environment)
    check_refusals(checks, setting, "Python", command, **environment)
    check_texts(checks, "Python", command, **environment)


def test_python_awaits_files(checks, setting):
    """The example reads two files at the same time, of which one uses the other, and prints why it reads none."""
    command, environment = [setting.package.python, EXAMPLES / "awaited.py"], setting.package.in_project()
    for files in setting.files:
        ran = run(*command, files.folder, "3042FF08", "UniJIS-UTF16-V", "UniJIS-UTF16-H", **environment)
        checks.ended(f"files of {files.folder}", ran, "UniJIS-UTF16-V 843 7899\nUniJIS-UTF16-H 843 674\n")
    folder = setting.once(refused_files)
    for name, message in [("Absent", "Absent: no such file\n"), ("Based", "/Broken: byte 27: a CID was expected\n")]:
        ran = run(*command, folder, "41", name, **environment)
        checks.ended(f"the file {name}", ran, "", status=1)
        checks.same(f"why there is no map of {name}", ran.err, message)


def check_to_unicode(checks, setting, what, command, **environment):
    """A command writes a PDF file whose text pdftotext reads."""
    path = setting.work / "to_unicode.pdf"
    path.unlink(missing_ok=True)
    checks.ended(f"{what} writes a PDF file", run(*command, path, *GLYPHS, **environment), "")
    check_text(checks, what, path)


def check_text(checks, what, path):
    """The text of a PDF file is that of the glyphs."""
    ran = run("pdftotext", "-enc", "UTF-8", "-nopgbrk", path, "-")
    checks.same(f"{what}: its text by pdftotext", (ran.status, ran.out.strip()), (0, "".join(GLYPHS)))


@needs("cargo", "pdftotext")
def test_rust_writes_to_unicode(checks, setting):
    """The example of the crate, as cargo builds it."""
    check_to_unicode(checks, setting, "Rust", [setting.crate.example("to_unicode")])
    ran = run(setting.crate.example("pdf_text"), setting.work / "to_unicode.pdf")
    checks.ended("Rust reads the text of that file", ran, "".join(GLYPHS) + "\n")


@needs("pip", "pdftotext")
def test_python_writes_to_unicode(checks, setting):
    """The example, over the package as pip installs it."""
    command = [setting.package.python, EXAMPLES / "to_unicode.py"]
    check_to_unicode(checks, setting, "Python", command, **setting.package.installed())


def check_bundle(checks, setting, command):
    """A command gives the CIDs of words over a bundle."""
    lines = "".join(f"{word} {cid}\n" for word, cid in WORDS.items())
    for files in setting.files:
        ran = run(*command, files.bundle, *WORDS)
        checks.ended(f"{command_line(command)}: the bundle {files.bundle.name}", ran, lines)


def check_absent_file(checks, setting, command):
    """A command prints that a bundle has no file of a name."""
    for files in setting.files:
        ran = run(*command, files.bundle, "Nothing:2:0041")
        checks.ended(f"{command_line(command)}: a name without a file in {files.bundle.name}", ran, "", status=1)
        checks.same("what is said of it", ran.err, "the bundle has no file of this name\n")


def check_threads(checks, setting, command):
    """Each of four threads counts the codes with a CID."""
    for files in setting.files:
        ran = run(*command, files.folder / "UniJIS-UTF16-H")
        checks.ended(f"{command_line(command)}: {files.folder}", ran, f"{files.count}\n" * 4)
        ran = run(*command, files.folder / "UniJIS-UTF16-V", files.folder / "UniJIS-UTF16-H")
        checks.ended(f"{command_line(command)}: {files.folder}, over a base", ran, f"{files.count}\n" * 4)
    ran = run(*command, setting.once(based_file))
    checks.ended(f"{command_line(command)}: a file without its base", ran, "", status=1)


def command_line(command):
    """A command as a line of a shell."""
    return " ".join(map(str, command))


@needs("gcc")
def test_c_reads_a_bundle_once(checks, setting):
    """The example of a bundle, plain and with the sanitizers."""
    for program in [setting.programs.path(BUNDLE), setting.programs.sanitized(BUNDLE)]:
        check_bundle(checks, setting, [program])
        check_absent_file(checks, setting, [program])


@needs("gcc", "valgrind")
def test_c_reads_a_bundle_under_memcheck(checks, setting):
    """Every block is freed, and no address is wrong."""
    check_bundle(checks, setting, [*MEMCHECK, setting.programs.path(BUNDLE)])


@needs("gcc")
def test_c_threads_share_a_map(checks, setting):
    """The example of threads, plain and with the sanitizers."""
    for program in [setting.programs.path(THREADS), setting.programs.sanitized(THREADS)]:
        check_threads(checks, setting, [program])


@needs("gcc", "valgrind")
def test_c_threads_under_memcheck_and_helgrind(checks, setting):
    """Every block is freed, and no two threads use one place without order."""
    for checker in [MEMCHECK, HELGRIND]:
        check_threads(checks, setting, [*checker, setting.programs.path(THREADS)])


def check_declarations(checks, setting, command):
    """A command gives the declarations of a file, and the codes of two CIDs, one of which has no code."""
    ran = run(*command, setting.once(declaring_file), "7", "34")
    checks.ended(f"{command_line(command)}: what a file declares", ran, DECLARED)
    ran = run(*command, setting.once(based_file), "-b", setting.once(declaring_file), "7", "34")
    checks.ended(f"{command_line(command)}: what a file over a base declares", ran, BASED)
    ran = run(*command, setting.once(based_file), "7")
    checks.ended(f"{command_line(command)}: a file without its base", ran, "", status=1)


@needs("gcc")
def test_c_lists_declarations(checks, setting):
    """The example of declarations, plain and with the sanitizers."""
    for program in [setting.programs.path(DECLARING), setting.programs.sanitized(DECLARING)]:
        check_declarations(checks, setting, [program])


@needs("gcc", "valgrind")
def test_c_lists_declarations_under_memcheck(checks, setting):
    """Every block is freed, and no address is wrong."""
    check_declarations(checks, setting, [*MEMCHECK, setting.programs.path(DECLARING)])


def check_made_file(checks, setting, command):
    """A command makes a file that declares the given texts; declared.c lists them."""
    ran = run(*command, *MADE_OF)
    path = setting.work / "made"
    path.write_text(ran.out)
    checks.ended(f"{command_line(command)}: a file that is made", run(setting.programs.path(DECLARING), path), MADE)
    checks.ended(f"{command_line(command)}: a text that isn't one", run(*command, "41="), "", status=1)


@needs("gcc", "g++")
def test_c_and_cpp_make_files(checks, setting):
    """The examples of a ToUnicode CMap, plain and with the sanitizers."""
    for source in MAKING.values():
        for program in [setting.programs.path(source), setting.programs.sanitized(source)]:
            check_made_file(checks, setting, [program])


def check_strings_of_texts(checks, setting, command, **environment):
    """A command gives the string of a text by a ToUnicode CMap, or prints that there is none."""
    path = setting.once(to_unicode_file)
    for text, string in ENCODED.items():
        ran = run(*command, path, text, **environment)
        checks.ended(f"{command_line(command)}: {text}", ran, f"{string}\n")
    ran = run(*command, path, "Rxx", "é", **environment)
    checks.ended(f"{command_line(command)}: é for x", ran, "000100020002\n")
    ran = run(*command, path, "Reé", **environment)
    checks.ended(f"{command_line(command)}: a text without a string", ran, "", status=1)
    checks.same("what is said of it", ran.err, "eé: can't be encoded\n")


@needs("gcc")
def test_c_encodes_texts(checks, setting):
    """The example of an encoder, plain and with the sanitizers."""
    for program in [setting.programs.path(ENCODING), setting.programs.sanitized(ENCODING)]:
        check_strings_of_texts(checks, setting, [program])


@needs("cargo")
def test_rust_encodes_texts(checks, setting):
    """The example, over the crate."""
    check_strings_of_texts(checks, setting, [setting.crate.example("encode")])


@needs("pip")
def test_python_encodes_texts(checks, setting):
    """The example, over the package as pip installs it."""
    command = [setting.package.python, EXAMPLES / "encode.py"]
    check_strings_of_texts(checks, setting, command, **setting.package.installed())


@needs("pdftotext")
def test_python_fills_a_form(checks, setting):
    """Each field has the codes of the right glyphs of its collection, and pdftotext reads its text."""
    python = python_with("pikepdf")
    if python is None or not has_debian_files():
        print("skipped: python fills a form, for lack of pikepdf or poppler-data", flush=True)
        return
    environment, path = setting.package.in_project(), setting.work / "filled.pdf"
    command = [python, EXAMPLES / "fill_form.py", setting.once(forms.form_file), path]
    checks.ended("a form is filled", run(*command, *forms.words(), **environment), "")
    checks.ended("its values and strings", run(python, "-c", forms.LISTING, path), forms.listed())
    ran = run("pdftotext", "-raw", "-enc", "UTF-8", "-nopgbrk", path, "-")
    checks.ended("its text by pdftotext", ran, "".join(f"{text}\n" for _, _, text, _ in forms.FIELDS))
    ran = run(*command, "0=あ한", **environment)
    checks.ended("a text without a string", ran, "", status=1)
    checks.same("what is said of it", ran.err, "한: can't be encoded\n")


@needs("gcc", "valgrind")
def test_c_encodes_texts_under_memcheck(checks, setting):
    """Every block is freed, and no address is wrong."""
    check_strings_of_texts(checks, setting, [*MEMCHECK, setting.programs.path(ENCODING)])


@needs("gcc", "g++", "pdftotext")
def test_c_and_cpp_make_to_unicode(checks, setting):
    """Each makes the ToUnicode CMap of a PDF file whose text pdftotext reads."""
    codes = {text: f"{code:04X}" for code, text in enumerate(dict.fromkeys(GLYPHS), 1)}
    string = "".join(codes[text] for text in GLYPHS)
    for language, source in MAKING.items() if has_debian_files() else []:
        made = run(setting.programs.path(source), *(f"{code}={text}" for text, code in codes.items()))
        to_unicode, path = setting.work / "to_unicode.cmap", setting.work / "to_unicode.pdf"
        to_unicode.write_text(made.out)
        path.write_text(pdf("Identity-H", string, to_unicode))
        check_text(checks, language, path)


def check_written_file(checks, setting, command):
    """A command writes a file for some codes; declared.c lists the same answers for them as in the whole file."""
    ran = run(*command, setting.once(declaring_file), *WRITTEN_FOR)
    path = setting.work / "written"
    path.write_text(ran.out)
    checks.ended(f"{command_line(command)}: a file for some codes", run(setting.programs.path(DECLARING), path), WRITTEN)
    ran = run(*command, setting.once(declaring_file), "0000000041")
    checks.ended(f"{command_line(command)}: a code of five bytes", ran, "", status=1)


@needs("gcc")
def test_c_writes_a_file_for_some_codes(checks, setting):
    """The example of a subset, plain and with the sanitizers."""
    for program in [setting.programs.path(WRITING), setting.programs.sanitized(WRITING)]:
        check_written_file(checks, setting, [program])


@needs("gcc", "valgrind")
def test_c_makes_and_writes_files_under_memcheck(checks, setting):
    """Every block is freed, and no address is wrong."""
    check_made_file(checks, setting, [*MEMCHECK, setting.programs.path(MAKING["C"])])
    check_written_file(checks, setting, [*MEMCHECK, setting.programs.path(WRITING)])


def predefined_files(work):
    """A folder with a file that predefined.c must find, and a file that it must not find."""
    folder = work / "predefined"
    (folder / "below" / "Adobe-Japan1").mkdir(parents=True)
    (folder / "below" / "Adobe-Japan1" / "Small-H").write_text("")
    (folder / "below" / "Adobe-Japan1" / "Adobe-Japan1").write_text("")
    (folder / "below" / "Adobe-GB1" / "Small-H").mkdir(parents=True)
    (folder / "Outside").write_text("")
    return folder


@needs("gcc")
def test_c_finds_predefined_files(checks, setting):
    """The example finds files in the folders of CMAP_PATH and their subfolders alone."""
    command, folder = [setting.programs.path(PREDEFINED)], setting.once(predefined_files)
    path = f"/nowhere::{folder}/below"
    ran = run(*command, "Small-H", CMAP_PATH=path)
    checks.ended("predefined.c finds a file", ran, f"{folder}/below/Adobe-Japan1/Small-H\n")
    file = f"{folder}/below/Adobe-Japan1/Adobe-Japan1"
    checks.ended("predefined.c finds a file, no folder", run(*command, "Adobe-Japan1", CMAP_PATH=path), f"{file}\n")
    for name in ["../Outside", "..", "", "Small-*", "Else", "Adobe-GB1"]:
        checks.ended(f"predefined.c: {name}", run(*command, name, CMAP_PATH=path), "", status=1)
    checks.ended("predefined.c without folders", run(*command, "Small-H", CMAP_PATH=""), "", status=1)
