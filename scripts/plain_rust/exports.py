"""The calls for C of the crates: functions that take C's pointers, and call the functions of the erased sources."""

import re

from common.programs import CRATES

from .erasing import EXPORTED, LAYOUT
from .source import Source, Unknown

# the result of a call if a pointer is null that must not be; for some calls the number isn't a status
NOTHING = {"u32": "ABSENT", "usize": "0", "bool": "false", "": ""}
NOTHING_OF = {"hayro_cmap_writing_mode": "NO_MODE", "hayro_cmap_layer_writing_mode": "NO_MODE", "hayro_cmap_read_as": "0"}
# lookups of one code, which are made inline only in the usual case
LOOKUPS = {"hayro_cmap_cid", "hayro_cmap_cid_strict"}
LOOKED_UP = """\
    if !lookup::is_usual(map, byte_len) {{
        return lookup::{name}(map, code, byte_len, cid);
    }}"""
# the types that C passes as they are
VALUES = ["bool", "i32", "u16", "u32", "u64", "u8", "usize"]
HEAD = """\
//! The calls of `include/hayro_cmap.h`. Each checks for null, and calls the function of the same name.
//!
//! What is unsafe in them are the rules of the header, which nothing checks.

use crate::fallible::alloc::Global;
use crate::given::{ABSENT, NO_MODE, items, items_mut, one, one_mut};
use crate::lookup;
use crate::reader::*;
"""


def path_of(file):
    """The module of a source file, below `reader`."""
    inner = file.relative_to(CRATES).with_suffix("")
    return "::".join(part for part in inner.parts if part not in ("src", "lib"))


def structs_of(source, path):
    """The structs of a file that C knows, with their modules."""
    found = (source.find(at, "struct") for at in source.indices("#") if source.words(at, *LAYOUT))
    return {source.word(at + 1): path for at in found}


def parameters_of(source, at):
    """The parameters of a function between the brackets at an index: their names and their types."""
    end, found = source.closing(at), []
    at += 1
    while at < end:
        comma = source.find(at + 2, ",", ")")
        kind = "".join(token.lead.replace("\n", "") + token.text for token in source.tokens[at + 2:comma]).strip()
        found.append((source.word(at), kind))
        at = comma + 1
    return found


def in_place(kind, structs):
    """The type with the module of its struct; stops at a type that C doesn't know."""
    name = kind.partition("<")[0]
    if name not in structs and kind not in VALUES:
        raise Unknown(f"an unknown type of a call for C: {kind}")
    return f"{structs[name]}::{kind}" if name in structs else kind


class Parameter:
    """A parameter of a call: the parameters of C, the check that makes a reference from them, and the argument."""

    def __init__(self, name, kind, structs):
        self.name, self.given, self.made = name, [], None
        kind = kind.replace("<'a>", "<'_>")
        if found := re.fullmatch(r"&(?:'\w+ )?(mut )?\[(.+)\]", kind):
            self.given = [f"{name}: *{found[1] or 'const '}{in_place(found[2], structs)}", f"{name}_len: usize"]
            self.made = f"items{'_mut' if found[1] else ''}({name}, {name}_len)"
        elif found := re.fullmatch(r"&(mut )?(\w+(?:<'_>)?)", kind):
            self.given = [f"{name}: *{found[1] or 'const '}{in_place(found[2], structs)}"]
            self.made = f"one{'_mut' if found[1] else ''}({name})"
        elif kind != "Global":
            self.given = [f"{name}: {in_place(kind, {})}"]
        self.passed = "Global" if kind == "Global" else name


def export_of(source, at, path, structs):
    """The text of the function that C calls, for the function whose attribute is at an index."""
    name = source.word(at + 11)
    first = source.find(at + 7, "(")
    end = source.closing(first)
    result = source.word(end + 2) if source.word(end + 1) == "->" else ""
    if result not in NOTHING:
        source.refuse(end + 2, f"an unknown result of a call for C: {result}")
    parameters = [Parameter(*one, structs) for one in parameters_of(source, first)]
    checked = [one for one in parameters if one.made]
    given = ",\n    ".join(part for one in parameters for part in one.given)
    nothing = NOTHING_OF.get(name, NOTHING[result])
    arrow = f" -> {result}" if result else ""
    lines = [
        "",
        "#[unsafe(no_mangle)]",
        f"pub unsafe extern \"C\" fn {name}(\n    {given},\n){arrow} {{",
        f"    let ({', '.join(f'Some({one.name})' for one in checked)},) =",
        f"        (unsafe {{ ({', '.join(one.made for one in checked)},) }})",
        f"    else {{\n        return {nothing};\n    }};".replace("return ;", "return;"),
        *([LOOKED_UP.format(name=name)] if name in LOOKUPS else []),
        f"    {path}::{name}({', '.join(one.passed for one in parameters)})",
        "}",
    ]
    return "\n".join(lines) + "\n"


def exports_of(files):
    """The text of the module with the calls of these files."""
    sources = {path_of(file): Source(file, file.read_text()) for file in files}
    structs = {name: at for path, source in sources.items() for name, at in structs_of(source, path).items()}
    return HEAD + "".join(exports_in(source, path, structs) for path, source in sources.items())


def exports_in(source, path, structs):
    """The text of the calls of a file, whose module is at this path."""
    exported = [at for at in reversed(source.indices("#")) if source.words(at, *EXPORTED)]
    return "".join(export_of(source, at, path, structs) for at in exported)
