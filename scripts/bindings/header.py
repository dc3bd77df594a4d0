"""Checks of the header against the crates of the C library (calls, structs, enums, version) and against the libraries,
and checks of the installed files."""

import ctypes
import re
import shutil

from common import materials
from common.links import dead_links_under
from plain_rust.c_library import PLAIN_VERSION

from .checks import needs, run
from .library import C_TESTS, COMPILERS, TOP, WARNINGS

HEADER = re.sub(r"/\*.*?\*/", "", (TOP / "include" / "hayro_cmap.h").read_text(), flags=re.S)
CRATES = TOP / "crates"
# the crates with calls of the header
WITH_CALLS = ["cmap_c", "cmap_c_writer"]
VERSION = (TOP / "VERSION").read_text().strip()

# how a type of the crates is written in the header
VALUES = {
    "u8": "uint8_t",
    "u16": "uint16_t",
    "u32": "uint32_t",
    "u64": "uint64_t",
    "i32": "int32_t",
    "usize": "size_t",
    "bool": "bool",
}
class Prefixed:
    """The names of an enum of the crates, each with a prefix."""

    def __init__(self, prefix):
        self.prefix = prefix

    def get(self, name, _default):
        """The name with the prefix."""
        return self.prefix + name


NAMED = {
    "MapHandle": "hayro_cmap",
    "BundleHandle": "hayro_cmap_bundle",
    "EncoderHandle": "hayro_cmap_encoder",
    "LoaderHandle": "hayro_cmap_loader",
    "BaseFile<'a>": "hayro_cmap_file",
    "BaseFile<'_>": "hayro_cmap_file",
    "Code": "hayro_cmap_code",
    "ExtractedCharacter": "hayro_cmap_character",
    "Extracted": "hayro_cmap_extracted",
    "CodespaceRange": "hayro_cmap_codespace",
    "DeclaredCids": "hayro_cmap_cid_range",
    "DeclaredTexts": "hayro_cmap_text_range",
    "CodeRange": "hayro_cmap_code_range",
    "FaultNumbers": "hayro_cmap_fault",
    "FindingNumbers": "hayro_cmap_finding",
    "Facts<'_>": "hayro_cmap_facts",
    "Declaration<'_>": "hayro_cmap_declaration",
    "ChosenCodes": "hayro_cmap_codes",
    "EncodedPiece": "hayro_cmap_piece",
}
RESULTS = {
    "u32": {"hayro_cmap_status", "hayro_cmap_mode", "hayro_cmap_reading"},
    "usize": {"size_t"},
    "bool": {"bool"},
    "": {"void"},
}
# structs of the header, with their files and their names in the crates
STRUCTS = [
    ("hayro_cmap_file", "cmap_c/src/files.rt", "BaseFile"),
    ("hayro_cmap_code", "cmap_c/src/decode.rt", "Code"),
    ("hayro_cmap_character", "cmap_c/src/extract.rt", "ExtractedCharacter"),
    ("hayro_cmap_extracted", "cmap_c/src/extract.rt", "Extracted"),
    ("hayro_cmap_codespace", "cmap_handles/src/ranges.rt", "CodespaceRange"),
    ("hayro_cmap_cid_range", "cmap_handles/src/ranges.rt", "DeclaredCids"),
    ("hayro_cmap_text_range", "cmap_handles/src/ranges.rt", "DeclaredTexts"),
    ("hayro_cmap_code_range", "cmap_handles/src/ranges.rt", "CodeRange"),
    ("hayro_cmap_fault", "cmap_c/src/fault.rt", "FaultNumbers"),
    ("hayro_cmap_finding", "cmap_c/src/lint.rt", "FindingNumbers"),
    ("hayro_cmap_facts", "cmap_c_writer/src/facts.rt", "Facts"),
    ("hayro_cmap_declaration", "cmap_c_writer/src/declaration.rt", "Declaration"),
    ("hayro_cmap_codes", "cmap_c_writer/src/chosen.rt", "ChosenCodes"),
    ("hayro_cmap_piece", "cmap_c_writer/src/pieces.rt", "EncodedPiece"),
]
# handles of the header, with their files, the files of their slots, and their names in the crates
HANDLES = [
    ("hayro_cmap", "cmap_handles/src/handle.rt", "cmap_handles/src/slot.rt", "Map"),
    ("hayro_cmap_bundle", "cmap_handles/src/bundle.rt", "cmap_handles/src/slot.rt", "Bundle"),
    ("hayro_cmap_encoder", "cmap_c_writer/src/handle.rt", "cmap_c_writer/src/slot.rt", "Encoder"),
    ("hayro_cmap_loader", "cmap_c/src/loader_handle.rt", "cmap_c/src/loader_slot.rt", "Loader"),
]
PLACES = {name: f"AT_{name}" for name in ["CODE", "RANGE", "NAME", "OFFSET"]}
NUMBERED = r"(?P<number>\d+)(?:, [\w()]+\))? => Some\({}::(?P<name>\w+)"
# enums of the header, each with the numbers without a variant in the crates, the pattern and the file of the variants
# and their numbers, and the names that differ in the header, since another enum has the name
STATUSES, MODES, FAULTS = "cmap_handles/src/status.rt", "cmap_c/src/metadata.rt", "cmap_c/src/fault.rt"
KINDS, LINT, LINTED = "cmap_c_writer/src/declaration.rt", "cmap_lint/src/warning.rt", "cmap_c/src/lint.rt"
GRADES, READINGS = "cmap_c_writer/src/pieces.rt", "cmap_lint/src/read_as.rt"
ENUMS = [
    ("hayro_cmap_status", {}, r"Status::(?P<name>\w+) => (?P<number>\d+),", STATUSES, {"DONE": "OK"}),
    ("hayro_cmap_mode", {"NO_MODE": "2"}, r"WritingMode::(?P<name>\w+)\) => (?P<number>\d+),", MODES, {}),
    ("hayro_cmap_kind", {}, NUMBERED.format("Kind"), KINDS, {}),
    ("hayro_cmap_cause", {}, NUMBERED.format("Cause"), FAULTS, {"OVER_BUDGET": "PAST_BUDGET"}),
    ("hayro_cmap_reason", {"NO_REASON": "0"}, NUMBERED.format("Reason"), FAULTS, {}),
    ("hayro_cmap_segment", {"NO_SEGMENT": "0"}, NUMBERED.format("Segment"), FAULTS, {"WRITING_MODE": "MODE"}),
    ("hayro_cmap_reading", {"READ_AS_NOTHING": "0"}, r"ReadAs::(?P<name>\w+) => (?P<number>\d+),", READINGS, Prefixed("READ_AS_")),
    ("hayro_cmap_warning", {}, r"Warning::(?P<name>\w+) => (?P<number>\d+),", LINT, Prefixed("WARNING_")),
    ("hayro_cmap_grade", {}, r"Grade::(?P<name>\w+) => (?P<number>\d+),", GRADES, Prefixed("GRADE_")),
    ("hayro_cmap_place", {}, r"Place::(?P<name>\w+).* => (?P<number>\d+),", LINTED, {"FILE": "IN_FILE", **PLACES}),
]
EXPORT = re.compile(
    r"#\[unsafe\(no_mangle\)\]\s(?:#\[.*\]\s)?pub extern \"C\" fn (\w+)(?:<'a>)?"
    r"\((.*?)\)(?: -> (\w+))?\s*(?:ensures|\{)",
    re.S,
)
# functions of the system's C library that the libraries call, and names that a linker adds to a shared library
CALLED = {"free", "malloc", "memcpy", "memmove", "memset", "realloc"}
# functions that the library of plain Rust calls beside these
CALLED_BY_PLAIN = {"abort", "bcmp", "memcmp"}
ADDED = {"_ITM_deregisterTMCloneTable", "_ITM_registerTMCloneTable", "__cxa_finalize", "__gmon_start__"}


def source(name):
    """A file of the crates."""
    return (CRATES / name).read_text()


def as_in_c(name, kind):
    """The declarations in the header for a parameter or a field of the crates."""
    if kind == "Global":
        return []
    if pointed := re.fullmatch(r"&(mut )?(\w+(?:<'_>)?)", kind):
        return [f"{'' if pointed[1] else 'const '}{NAMED.get(pointed[2], VALUES.get(pointed[2]))} *{name}"]
    if array := re.fullmatch(r"\[(\w+); (\w+)\]", kind):
        return [f"{VALUES[array[1]]} {name}[HAYRO_CMAP_{array[2]}]"]
    if items := re.fullmatch(r"&(?:'a )?(mut )?\[(.*)\]", kind):
        item = NAMED.get(items[2], VALUES.get(items[2]))
        return [f"{'' if items[1] else 'const '}{item} *{name}", f"size_t {name}_len"]
    return [f"{NAMED.get(kind, VALUES.get(kind))} {name}"]


def exports():
    """The exports of the crates: the possible results in the header, and the parameters of each."""
    found = {}
    for path in [path for crate in WITH_CALLS for path in (CRATES / crate / "src").glob("*.rt")]:
        for name, parameters, result in EXPORT.findall(path.read_text()):
            parts = [part.strip().split(": ", 1) for part in parameters.split(",") if part.strip()]
            found[name] = RESULTS[result], [c for part in parts for c in as_in_c(*part)]
    return found


def declarations():
    """The calls of the header: the result and the parameters of each."""
    found = re.findall(r"^(\w+) (hayro_cmap_\w+)\((.*?)\);", HEADER, re.M | re.S)
    return {
        name: (result, [" ".join(part.split()) for part in parameters.split(",")]) for result, name, parameters in found
    }


def fields_of_crates(file, struct):
    """The fields of a struct of the crates, each with its type."""
    body = re.search(rf"struct {struct}\b.*?\{{(.*?)\n\}}", source(file), re.S)[1]
    return re.findall(r"^ +(?:pub(?:\(crate\))? )?(\w+): (.*),$", body, re.M)


def fields_of_header(struct):
    """The fields of a struct of the header."""
    body = re.search(rf"typedef struct {struct} \{{(.*?)\}}", HEADER, re.S)[1]
    return [field.strip() for field in body.split(";") if field.strip()]


def numbers_of_header(enum):
    """The names of an enum of the header, with their numbers."""
    body = re.search(rf"enum {enum} \{{(.*?)\}}", HEADER, re.S)[1]
    return dict(re.findall(r"HAYRO_CMAP_(\w+) = (\d+)", body))


def numbers_of_crates(absent, variant, file, others):
    """The names of an enum of the crates in the spelling of the header, with their numbers."""
    numbers = dict(absent)
    for found in re.finditer(variant, source(file)):
        snake = re.sub(r"(?<!^)([A-Z])", r"_\1", found["name"]).upper()
        numbers[others.get(snake, snake)] = found["number"]
    return numbers


def public_names(library, *flags):
    """The names that a library exports."""
    return set(re.findall(r" T (\w+)", run("nm", "--defined-only", *flags, library).out))


def test_calls_are_those_of_the_crates(checks, _setting):
    """The names, results and parameters of the calls are the same in the header and in the crates."""
    declared, exported = declarations(), exports()
    checks.same("the calls of the header", sorted(declared), sorted(exported))
    for name in sorted(set(declared) & set(exported)):
        results, parameters = exported[name]
        checks.holds(f"the result of {name}", declared[name][0] in results, f"{declared[name][0]}, not of {results}")
        checks.same(f"the parameters of {name}", declared[name][1], parameters)


def test_calls_are_tested_from_c(checks, _setting):
    """The tests in C contain each call."""
    tests = C_TESTS.read_text()
    checks.same("the calls without a test in C", [name for name in sorted(declarations()) if f"{name}(" not in tests], [])


def test_structs_are_those_of_the_crates(checks, _setting):
    """Their fields, in order."""
    for name, file, struct in STRUCTS:
        fields = [c for field, kind in fields_of_crates(file, struct) for c in as_in_c(field, kind)]
        checks.same(f"the fields of {name}", fields_of_header(name), fields)
    most = re.search(r"MOST_NAMES: usize = (\d+);", source(FAULTS))[1]
    checks.same("HAYRO_CMAP_MOST_NAMES", re.search(r"#define HAYRO_CMAP_MOST_NAMES (.*)", HEADER)[1], most)


def test_handles_are_those_of_the_crates(checks, _setting):
    """A handle is a flag and a pointer."""
    for name, file, slots, kind in HANDLES:
        crate = fields_of_crates(file, f"{kind}Handle") + fields_of_crates(slots, f"{kind}Slot")
        expected = [("full", "bool"), ("slot", f"{kind}Slot"), ("at", "*mut u8"), ("alloc", "Global")]
        checks.same(f"the fields of {kind}Handle", crate, expected)
        checks.same(f"the fields of {name}", fields_of_header(name), ["bool full", f"void *{kind.lower()}"])


def test_numbers_are_those_of_the_crates(checks, _setting):
    """Each enum has the same names and numbers in the header and in the crates."""
    for enum, *of_crate in ENUMS:
        checks.same(f"the numbers of {enum}", numbers_of_header(enum), numbers_of_crates(*of_crate))


def test_versions_are_one(checks, setting):
    """The header, the crate cmap_c and the library have the version of the project."""
    checks.same("HAYRO_CMAP_VERSION", re.search(r'HAYRO_CMAP_VERSION "(.*)"', HEADER)[1], VERSION)
    numbers = [re.search(rf"HAYRO_CMAP_VERSION_{part} (\d+)", HEADER)[1] for part in ("MAJOR", "MINOR", "PATCH")]
    checks.same("HAYRO_CMAP_VERSION_MAJOR and the others", ".".join(numbers), VERSION)
    checks.same("the version of the crate", re.search(r'put\(b"(.*?)"', source("cmap_c/src/version.rt"))[1], VERSION)
    expected = PLAIN_VERSION if setting.library.is_plain else VERSION
    room, needed = ctypes.create_string_buffer(64), ctypes.c_size_t()
    version = ctypes.CDLL(str(setting.library.shared)).hayro_cmap_version
    status = version(room, ctypes.c_size_t(len(room)), ctypes.byref(needed))
    checks.same("the version of the library", (status, room.raw[: needed.value].decode()), (0, expected))


def test_installed_headers_are_those_of_the_project(checks, setting):
    """The headers are the same, byte by byte."""
    for name in ["hayro_cmap.h", "hayro_cmap.hpp"]:
        is_same = (setting.library.include / name).read_bytes() == (TOP / "include" / name).read_bytes()
        checks.holds(f"the header {name} that is installed", is_same, "it isn't that of the project")


def test_installed_pages_link_what_is_installed(checks, setting):
    """The installed pages have no dead links to files or headings."""
    folder = setting.library.prefix / "share" / "doc"
    checks.holds("a page is installed", any(folder.rglob("*.md")), f"there is none under {folder}")
    checks.same("dead links", dead_links_under(folder), [])


def test_licences_are_those_of_what_is_contained(checks, setting):
    """Each crate of the bill of materials is listed, and only these crates have folders of licences."""
    documents = setting.library.prefix / "share" / "doc" / "hayro_cmap"
    contained = materials.names_of((documents / "hayro_cmap.spdx.json").read_text())
    checks.holds("the crates of the bill of materials", contained, "there are none")
    folder = documents / ("crates" if setting.library.is_plain else "kit")
    listed = set(re.findall(r"[\w-]+", (folder / "README").read_text()))
    checks.same("crates that aren't listed", [name for name in contained if name not in listed], [])
    others = [path.name for path in folder.iterdir() if path.is_dir() and path.name not in contained]
    checks.same("licences of what isn't contained", others, [])


def test_what_is_installed_is_taken_away(checks, setting):
    """`--uninstall` removes from a copy the files of the manifest, and no other file."""
    prefix, copy = setting.library.prefix, setting.work / "uninstalled"
    lines = (prefix / "share" / "hayro_cmap" / "manifest").read_text().splitlines()
    checks.same("what is listed and missing", [line for line in lines if not (prefix / line).exists()], [])
    for line in lines:
        (copy / line).parent.mkdir(parents=True, exist_ok=True)
        if not line.endswith("/"):
            shutil.copy2(prefix / line, copy / line, follow_symlinks=False)
    (copy / "include" / "other.h").write_text("")
    ran = run(TOP / "scripts" / "install", "--uninstall", copy)
    checks.ended("scripts/install --uninstall", ran, f"hayro_cmap isn't in {copy} any more\n")
    stay = [str(path.relative_to(copy)) for path in copy.rglob("*") if not path.is_dir()]
    checks.same("the files that stay", stay, ["include/other.h"])
    ran = run(TOP / "scripts" / "install", "--uninstall", copy)
    checks.holds("without a manifest", ran.status == 1 and "there is no manifest" in ran.err, ran)


@needs("gcc", "g++")
def test_headers_compile_alone(checks, setting):
    """The headers compile as C and as C++, with no other header before them."""
    for header, suffix in [("hayro_cmap.h", ".c"), ("hayro_cmap.h", ".cc"), ("hayro_cmap.hpp", ".cc")]:
        path = setting.work / f"alone{suffix}"
        path.write_text(f"#include <{header}>\nint main() {{ return 0; }}\n")
        flags = ["-Wconversion", f"-I{setting.library.include}", "-fsyntax-only"]
        checks.ended(f"{header} as {suffix}", run(*COMPILERS[suffix], *WARNINGS, *flags, path), "")


@needs("clang++")
def test_headers_compile_with_clang(checks, setting):
    """The headers compile with clang, also if C++ refuses the casts of C."""
    path = setting.work / "clang.cc"
    path.write_text("#include <hayro_cmap.h>\n#include <hayro_cmap.hpp>\nint main() { return 0; }\n")
    flags = ["-std=c++17", "-Wconversion", "-Wold-style-cast", f"-I{setting.library.include}", "-fsyntax-only"]
    checks.ended("the headers as C++ with clang++", run("clang++", *WARNINGS, *flags, path), "")


WITHOUT_EXCEPTIONS = """\
#include <hayro_cmap.hpp>
#include <cstdio>

int main() {
    auto map = hayro::Map::parse("begincidchar <41> 7 endcidchar");
    std::printf("%d\\n", map ? static_cast<int>(map->decode(std::string_view("A"))[0].cid) : -1);
}
"""


@needs("g++")
def test_the_header_for_cpp_needs_no_exceptions(checks, setting):
    """The header also needs no type information at run time."""
    path, program = setting.work / "without_exceptions.cc", setting.work / "without_exceptions"
    path.write_text(WITHOUT_EXCEPTIONS)
    flags = ["-fno-exceptions", "-fno-rtti", f"-I{setting.library.include}"]
    built = run(*COMPILERS[".cc"], *WARNINGS, *flags, "-o", program, path, setting.library.archive)
    checks.ended("a program without exceptions is built", built, "")
    checks.ended("a program without exceptions", run(program), "7\n")


LAYERS_AS_A_RANGE = """\
#include <hayro_cmap.hpp>
#include <ranges>

static_assert(std::ranges::input_range<hayro::Layers>);

auto names(const hayro::Layers &layers) {
    return layers | std::views::transform([](const hayro::Layer &layer) { return layer.metadata().name; });
}

int main() { return 0; }
"""


@needs("g++")
def test_layers_are_a_range_of_cpp_20(checks, setting):
    """The views of C++20 accept layers."""
    path = setting.work / "range.cc"
    path.write_text(LAYERS_AS_A_RANGE)
    flags = ["-std=c++20", f"-I{setting.library.include}", "-fsyntax-only"]
    checks.ended("layers as a range", run("g++", *WARNINGS, *flags, path), "")


@needs("nm")
def test_libraries_show_the_calls_alone(checks, setting):
    """The libraries export only the calls, and need few functions of the system's C library."""
    names = sorted(declarations())
    checks.same("the names of the archive", sorted(public_names(setting.library.archive)), names)
    checks.same("the names of the shared library", sorted(public_names(setting.library.shared, "-D")), names)
    needed = run("nm", "-D", "--undefined-only", "--just-symbols", setting.library.shared).out.split()
    called = CALLED | (CALLED_BY_PLAIN if setting.library.is_plain else set())
    beyond = {name.partition("@")[0] for name in needed} - called - ADDED
    checks.same("what the shared library calls beyond the C library's memory", sorted(beyond), [])
