"""Checks of the calls and the structs that Rust and Python declare, against the header."""

import ctypes
import importlib.util
import re

from .header import VALUES, declarations, fields_of_header
from .library import TOP

RUST = TOP / "bindings" / "rust" / "src"
PYTHON = TOP / "bindings" / "python" / "hayro_cmap" / "_library.py"

# the types of Rust, also behind pointers, and the types of the header
OF_RUST = VALUES | {
    "Cid": "uint32_t",
    "c_void": "void",
    "RawMap": "hayro_cmap",
    "RawBundle": "hayro_cmap_bundle",
    "RawEncoder": "hayro_cmap_encoder",
    "RawLoader": "hayro_cmap_loader",
    "File<'_>": "hayro_cmap_file",
    "RawCode": "hayro_cmap_code",
    "RawCharacter": "hayro_cmap_character",
    "RawExtracted": "hayro_cmap_extracted",
    "RawPiece": "hayro_cmap_piece",
    "RawFault": "hayro_cmap_fault",
    "RawFinding": "hayro_cmap_finding",
    "Codespace": "hayro_cmap_codespace",
    "CidRange": "hayro_cmap_cid_range",
    "RawTextRange": "hayro_cmap_text_range",
    "RawCodeRange": "hayro_cmap_code_range",
    "RawCodes": "hayro_cmap_codes",
    "RawDeclaration<'_>": "hayro_cmap_declaration",
    "RawFacts<'_>": "hayro_cmap_facts",
}
# the structs of Rust and of Python, with their names in the header
RUST_STRUCTS = {name.replace("'_", "'a"): given for name, given in OF_RUST.items() if given.startswith("hayro_cmap")}
PYTHON_STRUCTS = {
    "File": "hayro_cmap_file",
    "CodeInString": "hayro_cmap_code",
    "CharacterInString": "hayro_cmap_character",
    "Extracted": "hayro_cmap_extracted",
    "EncodedPiece": "hayro_cmap_piece",
    "Fault": "hayro_cmap_fault",
    "Found": "hayro_cmap_finding",
    "CodespaceRange": "hayro_cmap_codespace",
    "DeclaredCids": "hayro_cmap_cid_range",
    "DeclaredTexts": "hayro_cmap_text_range",
    "CodesInRow": "hayro_cmap_code_range",
    "ChosenCodes": "hayro_cmap_codes",
    "Declaration": "hayro_cmap_declaration",
    "Facts": "hayro_cmap_facts",
}
ENUMS = {"hayro_cmap_status", "hayro_cmap_mode", "hayro_cmap_reading"}


def rust_in_c(name, kind):
    """The declaration in the header for a parameter or a field of Rust."""
    if array := re.fullmatch(r"\[(\w+); (\w+)\]", kind):
        return f"{OF_RUST[array[1]]} {name}[HAYRO_CMAP_{array[2]}]"
    if pointed := re.fullmatch(r"\*(const|mut) (.*)", kind):
        return f"{'const ' if pointed[1] == 'const' else ''}{OF_RUST[pointed[2]]} *{name}"
    return f"{OF_RUST[kind]} {name}"


def pairs(text):
    """The names of parameters or fields of Rust, each with its type; fields without bytes are left out."""
    found = re.findall(r"(?:pub(?:\(crate\))? )?(\w+): ([^,]+?)(?:,|$)", re.sub(r"///.*", "", text).strip())
    return [(name, kind.strip()) for name, kind in found if not kind.startswith("PhantomData")]


def rust_calls():
    """The calls that Rust declares: the result and the parameters of each."""
    block = re.search(r'^unsafe extern "C" \{\n(.*?)^\}', (RUST / "ffi.rs").read_text(), re.M | re.S)[1]
    found = re.findall(r"fn (hayro_cmap_\w+)\((.*?)\)(?: -> (\w+))?;", block, re.S)
    return {name: (result, [rust_in_c(*pair) for pair in pairs(text)]) for name, text, result in found}


def rust_fields(struct):
    """The fields of a struct of Rust with the layout of C."""
    text = "\n".join(path.read_text() for path in sorted(RUST.glob("*.rs")))
    head = rf"#\[repr\(C\)\]\n(?:#\[[^\n]*\]\n)*(?:pub(?:\(crate\))? )?struct {re.escape(struct)} \{{\n(.*?)^\}}"
    return [rust_in_c(*pair) for pair in pairs(re.search(head, text, re.M | re.S)[1])]


def python_library():
    """The module of the package that declares the calls, without the library."""
    spec = importlib.util.spec_from_file_location("declared_in_python", PYTHON)
    module = importlib.util.module_from_spec(spec)
    spec.loader.exec_module(module)
    return module


def python_in_c(module):
    """How the types of Python are written in C. ctypes has one type for size_t and uint64_t, and one for handles."""
    sized = {getattr(ctypes, f"c_{name}"): f"{name}_t" for name in ["uint8", "uint16", "uint32", "uint64", "int32"]}
    structs = {getattr(module, name): struct for name, struct in PYTHON_STRUCTS.items()}
    kinds = {ctypes.c_bool: "bool", module.Handle: "handle", **sized, **structs}
    pointers = {ctypes.POINTER(kind): f"{name} *" for kind, name in kinds.items()}
    return {None: "void", ctypes.c_char_p: "uint8_t *", **kinds, **pointers}


def as_ctypes(declared):
    """The type of a parameter or a field of the header, as far as ctypes distinguishes types."""
    kind = re.sub(r"\w+(\[\w+\])?$", "", declared.removeprefix("const ")).strip()
    kind = re.sub(r"^hayro_cmap(_bundle|_encoder|_loader)? \*$", "handle *", kind)
    return "int32_t" if kind in ENUMS else kind.replace("size_t", "uint64_t")


def field_as_ctypes(declared, most):
    """The name, the type and the number of items of a field of the header."""
    name, _, length = re.search(r"(\w+)(\[(\w+)\])?$", declared).groups()
    return name, as_ctypes(declared), {None: 1, "HAYRO_CMAP_MOST_NAMES": most}[length]


def field_of_python(kinds, name, kind):
    """The name, the type and the number of items of a field of Python."""
    items = getattr(kind, "_length_", 1)
    return name, kinds[kind._type_ if hasattr(kind, "_length_") else kind], items


def test_rust_declares_the_calls(checks, _setting):
    """The calls that the crate declares have the names, results and parameters of the header."""
    header = declarations()
    for name, (result, parameters) in rust_calls().items():
        expected = header.get(name, ("no call", []))
        kind = "enum" if expected[0] in ENUMS and result == "u32" else OF_RUST.get(result, "void")
        checks.same(f"the result of {name} in Rust", kind, "enum" if expected[0] in ENUMS else expected[0])
        checks.same(f"the parameters of {name} in Rust", parameters, expected[1])


def test_rust_declares_the_structs(checks, _setting):
    """Their fields, in order."""
    for struct, name in RUST_STRUCTS.items():
        checks.same(f"the fields of {struct} in Rust", rust_fields(struct), fields_of_header(name))


def test_python_declares_the_calls(checks, _setting):
    """The calls that the package declares have the results and parameters of the header."""
    module, header = python_library(), declarations()
    kinds = python_in_c(module)
    for name, (result, parameters) in module.CALLS.items():
        expected = header.get(name, ("no call", []))
        checks.same(f"the result of {name} in Python", kinds[result], as_ctypes(f"{expected[0]} result"))
        found = [kinds[kind] for kind in parameters]
        checks.same(f"the parameters of {name} in Python", found, [as_ctypes(it) for it in expected[1]])


def test_python_declares_the_structs(checks, _setting):
    """Their fields, in order."""
    module = python_library()
    kinds = python_in_c(module)
    for struct, name in PYTHON_STRUCTS.items():
        found = [field_of_python(kinds, *field) for field in getattr(module, struct)._fields_]
        expected = [field_as_ctypes(field, module.MOST_NAMES) for field in fields_of_header(name)]
        checks.same(f"the fields of {struct} in Python", found, expected)
