"""The glyph data of a font in a PDF file: glyph names, the embedded program, and the glyphs of CIDs."""

import re
from typing import Any, Dict, List, Optional, Union

import pikepdf

from .._budget import Budget
from .._glyphs import (
    SYMBOLIC,
    Names,
    built_in_names,
    names_of_codes,
    names_of_differences,
    of_font_file,
    of_type1,
)
from .._programs import Program
from ._objects import (
    MALFORMED,
    Streams,
    TooLarge,
    Undecodable,
    dictionary_at,
    integer_at,
    name_at,
    stream_at,
    text_of,
    unescaped,
)

#: A direct entry of Differences: a name or a code.
DIRECT = re.compile(rb"/|[0-9]{1,9}\Z")


def glyph_names(font: pikepdf.Dictionary, streams: Streams) -> Names:
    """The glyph names of a simple font: its Differences replace names of the base encoding (ISO 32000-1, 9.6.6)."""
    encoding = font.get("/Encoding")
    if isinstance(encoding, pikepdf.Name):
        return names_of_codes(text_of(encoding), {}, lambda: built_in(font, streams))
    if not isinstance(encoding, pikepdf.Dictionary):
        return built_in(font, streams)
    base = name_at(encoding, "/BaseEncoding")
    return names_of_codes(base, differences_of(font), lambda: built_in(font, streams))


def differences_of(font: pikepdf.Dictionary) -> Dict[int, str]:
    """The glyph names of the codes in Differences (ISO 32000-1, 9.6.6.1)."""
    return names_of_differences(entries_of(dictionary_at(font, "/Encoding").get("/Differences")))


def entries_of(differences: Any) -> List[Union[int, str, None]]:
    """The codes and the names in an array Differences, with None for any other entry."""
    if not isinstance(differences, pikepdf.Array):
        return []
    # an object for each entry would take longer
    words = differences.unparse(resolved=True).split()[1:-1]
    if all(DIRECT.match(it) for it in words):
        return [unescaped(it[1:]).decode("utf-8", "replace") if it[:1] == b"/" else int(it) for it in words]
    return [
        text_of(it) if isinstance(it, pikepdf.Name) else int(it) if isinstance(it, int) else None for it in differences
    ]


def is_symbolic(font: pikepdf.Dictionary) -> bool:
    """Whether the descriptor has the flag for glyphs outside the standard Latin character set (ISO 32000-1, 9.8.2)."""
    return bool(integer_at(dictionary_at(font, "/FontDescriptor"), "/Flags") & SYMBOLIC)


def built_in(font: pikepdf.Dictionary, streams: Streams) -> Names:
    """The built-in encoding of a font, from its program, or from the standard font with its name."""
    found = None
    descriptor = font.get("/FontDescriptor")
    if isinstance(descriptor, pikepdf.Dictionary):
        try:
            found = of_program(stream_at(descriptor, "/FontFile"), stream_at(descriptor, "/FontFile3"), streams)
        except MALFORMED:
            pass
    has_own_glyphs = is_symbolic(font) or name_at(font, "/Subtype") == "Type3"
    return built_in_names(found, name_at(font, "/BaseFont") or "", has_own_glyphs)


def of_program(type1: Optional[pikepdf.Stream], cff: Optional[pikepdf.Stream], streams: Streams) -> Optional[Names]:
    """The encoding of an embedded font program; None if no encoding is found."""
    if type1 is not None:
        return of_type1(streams.decoded(type1))
    return None if cff is None else of_font_file(name_at(cff, "/Subtype"), lambda: streams.decoded(cff))


def program_of(font: pikepdf.Dictionary, streams: Streams, budget: Budget) -> Program:
    """The embedded TrueType, OpenType or CFF program of a simple font or a CIDFont (ISO 32000-1, 9.9)."""
    descriptor = dictionary_at(font, "/FontDescriptor")
    truetype, other = stream_at(descriptor, "/FontFile2"), stream_at(descriptor, "/FontFile3")
    try:
        if truetype is not None:
            return Program(streams.decoded(truetype), budget=budget)
        return Program() if other is None else Program(streams.decoded(other), is_cff=True, budget=budget)
    except (TooLarge, Undecodable, *MALFORMED):
        return Program()


def glyph_map(descendant: pikepdf.Dictionary, streams: Streams) -> Optional[bytes]:
    """The bytes of the CIDToGIDMap of a CIDFont, empty if it can't be decoded; None if it isn't a stream."""
    stream = stream_at(descendant, "/CIDToGIDMap")
    try:
        return None if stream is None else streams.decoded(stream)
    except (TooLarge, Undecodable):
        return b""
