"""Font programs that are embedded in PDF files: the glyphs of codes, and the texts of glyphs."""

import functools
import unicodedata
from typing import Dict, Iterable, List, Optional, Set, Tuple

from ._budget import Budget
from ._encodings import MAC_ROMAN
from ._glyphs import Names, cff_font, text_of_glyph
from ._sfnt import MAC_ROMAN as MAC_ROMAN_CODES
from ._sfnt import SYMBOL, UNICODE, VERSIONS, Sfnt

#: The offsets that are added to a code for its character in a symbolic font (ISO 32000-1, 9.6.6.4).
SYMBOL_ROWS = (0xF000, 0xF100, 0xF200, 0)

#: The length in bytes of a glyph in a CIDToGIDMap, and the number of CIDs (ISO 32000-1, 9.7.4.2 and C.2).
GLYPH_BYTES = 2
CIDS = 1 << 16

#: The radicals of ideographs: the blocks CJK Radicals Supplement and Kangxi Radicals (The Unicode Standard, 18.3).
RADICALS = range(0x2E80, 0x2FE0)


class Program:
    """The TrueType, OpenType or CFF program of a font. A malformed program has no texts and no widths."""

    def __init__(self, data: bytes = b"", is_cff: bool = False, budget: Optional[Budget] = None):
        #: The tables of a TrueType or OpenType program; empty for any other program.
        self.sfnt = Sfnt(data if data[:4] in VERSIONS else b"", budget)
        self._cff_data = data if is_cff and data[:4] not in VERSIONS else self.sfnt.table(b"CFF ")

    @functools.cached_property
    def _charset(self) -> Tuple[List[str], bool]:
        """The glyph names of a CFF font, and whether they are CIDs."""
        font = cff_font(self._cff_data) if self._cff_data else None
        return ([], False) if font is None else (list(font.charset), hasattr(font, "ROS"))

    @property
    def has_cids(self) -> bool:
        """Whether it is a CFF font with CIDs in place of glyph names."""
        return self._charset[1]

    @functools.cached_property
    def names(self) -> List[str]:
        """The names of the glyphs from 0 on; none if the glyphs have CIDs."""
        charset, has_cids = self._charset
        return [] if has_cids else charset or self.sfnt.names()

    @functools.cached_property
    def glyphs_of_cids(self) -> Dict[int, int]:
        """The glyphs of the CIDs of a CFF font."""
        charset, has_cids = self._charset
        names = charset if has_cids else []
        return {int(name[3:]): glyph for glyph, name in enumerate(names) if name[3:].isdigit()}

    @functools.cached_property
    def characters(self) -> Dict[int, str]:
        """The characters of the glyphs by the Unicode subtable of `cmap`; for several characters, the best
        character."""
        found: Dict[int, Set[str]] = {}
        for code, glyph in self._unicode.items():
            if is_text(code):
                found.setdefault(glyph, set()).add(chr(code))
        return {glyph: best_of(characters) for glyph, characters in found.items()}

    @functools.cached_property
    def glyphs_of_names(self) -> Dict[str, int]:
        """The glyphs by their names."""
        return {name: glyph for glyph, name in reversed(list(enumerate(self.names)))}

    def text(self, glyph: int) -> Optional[str]:
        """The text of a glyph: its character, or the text of its name."""
        if glyph in self.characters or glyph == 0:
            return self.characters.get(glyph)
        return text_of_glyph(self.names[glyph]) if glyph < len(self.names) else None

    def glyph_of_name(self, name: str) -> int:
        """The glyph with a name in a font that isn't symbolic (ISO 32000-1, 9.6.6.4); 0 if there is no such glyph."""
        text = text_of_glyph(name) or ""
        found = self._unicode.get(ord(text), 0) if len(text) == 1 else 0
        if found == 0 and name in MAC_CODES:
            found = self._mac.get(MAC_CODES[name], 0)
        return found or self.glyphs_of_names.get(name, 0)

    def glyph_of_code(self, code: int) -> int:
        """The glyph of a code without a name (ISO 32000-1, 9.6.6.4); 0 if there is no such glyph."""
        symbol = (self._symbol.get(row + code, 0) for row in SYMBOL_ROWS)
        return next(filter(None, symbol), 0) or self._mac.get(code, 0)

    @functools.cached_property
    def _unicode(self) -> Dict[int, int]:
        return self.sfnt.glyphs(*UNICODE)

    @functools.cached_property
    def _mac(self) -> Dict[int, int]:
        return self.sfnt.glyphs(MAC_ROMAN_CODES)

    @functools.cached_property
    def _symbol(self) -> Dict[int, int]:
        return self.sfnt.glyphs(SYMBOL)


#: The codes of names in MacRomanEncoding.
MAC_CODES = {name: code for code, name in reversed(list(enumerate(MAC_ROMAN))) if name is not None}


def is_text(code: int) -> bool:
    """Whether a number is the number of a character that is neither a control character nor a surrogate."""
    return code <= 0x10FFFF and unicodedata.category(chr(code)) not in ("Cc", "Cs")


def best_of(characters: Set[str]) -> str:
    """The best of the characters of a glyph, which becomes its text.

    Characters for private use are the worst, then radicals, then compatibility characters that represent another
    character of the glyph, such as the Ohm sign for omega, or a no-break space for a space (The Unicode Standard, 2.3).
    Of equally good characters, the least is the best.
    """

    def rank(it: str) -> Tuple[bool, bool, bool, str]:
        other = unicodedata.normalize("NFKC", it)
        return unicodedata.category(it) == "Co", ord(it) in RADICALS, other != it and other in characters, it

    return min(characters, key=rank)


class GlyphsOfCids:
    """The glyphs of the CIDs of a CIDFont (ISO 32000-1, 9.7.4.2)."""

    def __init__(self, program: Program, listed: Optional[bytes] = None):
        self._program = program
        #: The bytes of the CIDToGIDMap, if it is a stream.
        self._listed = listed

    def glyph(self, cid: int) -> int:
        """The glyph of a CID; 0 if it has no glyph."""
        if self._listed is not None:
            return int.from_bytes(self._listed[GLYPH_BYTES * cid : GLYPH_BYTES * (cid + 1)], "big")
        return self._program.glyphs_of_cids.get(cid, 0) if self._program.has_cids else cid

    def cids(self) -> Iterable[int]:
        """The CIDs that may have a glyph with a text."""
        if self._listed is not None:
            return range(min(len(self._listed) // GLYPH_BYTES, CIDS))
        if self._program.has_cids:
            return self._program.glyphs_of_cids
        return {*self._program.characters, *range(len(self._program.names))}

    def text(self, cid: int) -> Optional[str]:
        """The text that the program gives the glyph of a CID."""
        return self._program.text(self.glyph(cid))


def glyphs_of_codes(names: Optional[Names], program: Program) -> List[int]:
    """The glyphs of the codes 0 to 255 of a simple TrueType font, by these names, or without names by the codes."""
    if names is None:
        return [program.glyph_of_code(code) for code in range(256)]
    return [0 if name is None else program.glyph_of_name(name) for name in names]
