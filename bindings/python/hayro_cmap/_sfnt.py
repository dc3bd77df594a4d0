"""The tables of TrueType and OpenType font programs (the OpenType Specification) that texts and widths need.

Programs may be hostile: reading has limits, and malformed parts are left out.
"""

import struct
from typing import Callable, Dict, Iterable, Iterator, List, Optional, Tuple

from ._budget import Budget

#: The first bytes of a program.
VERSIONS = (b"\x00\x01\x00\x00", b"true", b"OTTO")

#: The number of bytes before the table records, and a record: a tag, a checksum, an offset and a length.
HEADER = 12
RECORD = struct.Struct(">4sLLL")

#: The maximum number of table records, and the tables that are read.
MOST_TABLES = 64
TABLES = (b"cmap", b"post", b"head", b"hhea", b"hmtx", b"CFF ")

#: The maximum number of subtables of `cmap`, and of codes in a subtable.
MOST_SUBTABLES = 64
MOST_CODES = 1 << 18

#: Subtables of `cmap` by their platform and encoding: the Unicode subtables, the best first; the symbol subtable; and
#: the subtable of Mac Roman.
UNICODE = ((3, 10), (0, 6), (0, 4), (3, 1), (0, 3), (0, 2), (0, 1), (0, 0))
SYMBOL = (3, 0)
MAC_ROMAN = (1, 0)

#: The versions of the table `post` with glyph names: the standard names of the Macintosh alone, or more names.
POST_MAC, POST_NAMES = 0x00010000, 0x00020000

#: The exceptions for a table that ends early, or has impossible values.
MALFORMED_TABLE = (struct.error, IndexError, ValueError, OverflowError)

#: Glyphs by codes.
Glyphs = Dict[int, int]

#: Pairs of a code and its glyph.
Pairs = Iterable[Tuple[int, int]]


class Sfnt:
    """A TrueType or OpenType font program."""

    def __init__(self, program: bytes, budget: Optional[Budget] = None):
        self._budget = Budget() if budget is None else budget
        self._tables: Dict[bytes, bytes] = {}
        count = int.from_bytes(program[4:6], "big") if program[:4] in VERSIONS else 0
        count = min(count, MOST_TABLES, max(len(program) - HEADER, 0) // RECORD.size)
        left = len(program)
        for tag, _, offset, length in RECORD.iter_unpack(program[HEADER : HEADER + RECORD.size * count]):
            # tables of a sound program don't overlap: together they are no longer than the program
            if tag in TABLES and tag not in self._tables and left > 0:
                self._tables[tag] = program[offset : offset + min(length, left)]
                left -= len(self._tables[tag])

    def __bool__(self) -> bool:
        """Whether it has tables."""
        return bool(self._tables)

    def table(self, tag: bytes) -> bytes:
        """The bytes of a table in `TABLES`; empty if the program doesn't have it."""
        return self._tables.get(tag, b"")

    def glyphs(self, *encodings: Tuple[int, int]) -> Glyphs:
        """The glyphs of codes in the first subtable, in the order of these platforms and encodings, that has glyphs."""
        data = self.table(b"cmap")
        try:
            places = subtables(data)
        except MALFORMED_TABLE:
            return {}
        found = (glyphs_of(data[places[it] :], self._budget) for it in encodings if it in places)
        return next((glyphs for glyphs in found if glyphs), {})

    def advances(self) -> List[float]:
        """The advance widths of the glyphs from 0 on, in thousandths of the font size. All later glyphs have the last
        width."""
        head, hhea, hmtx = self.table(b"head"), self.table(b"hhea"), self.table(b"hmtx")
        try:
            [units] = struct.unpack_from(">H", head, 18)
            [count] = struct.unpack_from(">H", hhea, 34)
            count = min(count, len(hmtx) // 4)
            return [1000 * width / units for width in struct.unpack_from(f">{2 * count}H", hmtx)[::2]]
        except (*MALFORMED_TABLE, ZeroDivisionError):
            return []

    def names(self) -> List[str]:
        """The names of the glyphs from 0 on, from the table `post`; none without fontTools."""
        try:
            return names_of(self.table(b"post"))
        except (*MALFORMED_TABLE, ImportError):
            return []


def subtables(cmap: bytes) -> Dict[Tuple[int, int], int]:
    """The offsets of subtables in the table `cmap`, by their platform and encoding."""
    [count] = struct.unpack_from(">H", cmap, 2)
    places: Dict[Tuple[int, int], int] = {}
    for at in range(4, 4 + 8 * min(count, MOST_SUBTABLES), 8):
        platform, encoding, offset = struct.unpack_from(">HHL", cmap, at)
        places.setdefault((platform, encoding), offset)
    return places


def glyphs_of(data: bytes, budget: Budget) -> Glyphs:
    """The glyphs of codes in a subtable, up to its first malformed part. Glyph 0 means no glyph."""
    read = FORMATS.get(int.from_bytes(data[:2], "big"))
    glyphs: Glyphs = {}
    try:
        for code, glyph in budget.take(() if read is None else read(data), MOST_CODES):
            if glyph != 0:
                glyphs.setdefault(code, glyph)
    except MALFORMED_TABLE:
        pass
    return glyphs


def bytes_to_glyphs(data: bytes) -> Pairs:
    """Format 0: a glyph for each byte."""
    return enumerate(data[6 : 6 + 256])


def segments(data: bytes) -> Pairs:
    """Format 4: segments of codes of two bytes. Their glyphs are consecutive or listed."""
    count = min(struct.unpack_from(">H", data, 6)[0] // 2, (len(data) - 16) // 8)
    places = [14, 16 + 2 * count, 16 + 4 * count, 16 + 6 * count]
    columns = (struct.unpack_from(f">{count}H", data, place) for place in places)
    for row, (last, first, delta, offset) in enumerate(zip(*columns)):
        codes = range(first, min(last, 0xFFFE) + 1)
        if offset == 0:
            yield from ((code, code + delta & 0xFFFF) for code in codes)
        else:
            at = places[3] + 2 * row + offset
            listed = data[at : at + 2 * len(codes)]
            glyphs = struct.iter_unpack(">H", listed[: len(listed) // 2 * 2])
            yield from zip(codes, (glyph and glyph + delta & 0xFFFF for [glyph] in glyphs))


def trimmed(data: bytes) -> Pairs:
    """Format 6: a glyph for each code of a single range."""
    first, count = struct.unpack_from(">HH", data, 6)
    count = min(count, (len(data) - 10) // 2)
    return enumerate(struct.unpack_from(f">{count}H", data, 10), first)


def groups(data: bytes) -> Pairs:
    """Format 12: ranges of characters with consecutive glyphs."""
    [count] = struct.unpack_from(">L", data, 12)
    for at in range(16, 16 + 12 * min(count, (len(data) - 16) // 12), 12):
        first, last, glyph = struct.unpack_from(">LLL", data, at)
        yield from zip(range(first, min(last, 0x10FFFF) + 1), range(glyph, 0x10000))


#: The functions that read the formats of subtables.
FORMATS: Dict[int, Callable[[bytes], Pairs]] = {0: bytes_to_glyphs, 4: segments, 6: trimmed, 12: groups}


def names_of(post: bytes) -> List[str]:
    """The names of the glyphs from 0 on in a table `post`: standard names of the Macintosh, and names in the table."""
    [version] = struct.unpack_from(">L", post)
    if version not in (POST_MAC, POST_NAMES):
        return []
    from fontTools.ttLib.standardGlyphOrder import standardGlyphOrder

    if version == POST_MAC:
        return list(standardGlyphOrder)
    [count] = struct.unpack_from(">H", post, 32)
    numbers = struct.unpack_from(f">{count}H", post, 34)
    own, last = list(spelled(post[34 + 2 * count :])), len(standardGlyphOrder) - 1
    # font programs of Prawn lack the last standard name: their own names, all of them used, begin at its number
    is_short = last in numbers and max(numbers) == last + len(own) - 1
    names = [*standardGlyphOrder[: last if is_short else None], *own]
    return [names[it] if it < len(names) else ".notdef" for it in numbers]


def spelled(data: bytes) -> Iterator[str]:
    """The names in these bytes, each after a byte with its length."""
    at = 0
    while at < len(data):
        yield data[at + 1 : at + 1 + data[at]].decode("latin-1")
        at += 1 + data[at]
