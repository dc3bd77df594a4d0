"""The glyphs of a font of a PDF file, and the texts that they give its codes (ISO 32000-1, 9.6.6 and 9.10.2).

This module reads no PDF file: its callers pass the font's entries as names and bytes.
"""

import functools
from typing import Callable, Dict, List, Optional, Tuple

from ._font_maps import FontMaps, Source
from ._glyphs import Names, guessed_texts, texts_of_names
from ._programs import GlyphsOfCids, Program, glyphs_of_codes
from ._room import Row

#: A text and its source.
Found = Tuple[Optional[str], Source]

NOT_FOUND: Found = (None, Source.NONE)


class FontGlyphs:
    """The glyphs of a font. Each table is read on first use. A subclass provides the font's entries."""

    #: Whether it is a composite font. The codes of a simple font are bytes.
    is_composite: bool
    #: "Type0", "Type1", "TrueType" and so on.
    subtype: Optional[str]
    base_font: Optional[str]
    #: Whether the font has an encoding.
    has_encoding: bool
    #: Whether its descriptor has the flag for glyphs outside the standard Latin character set.
    is_symbolic: bool
    #: The glyph names of the codes 0 to 255 of a simple font; None for each code of a composite font.
    glyph_names: Names
    #: The glyph names of the codes in the array Differences.
    differences: Dict[int, str]
    #: The embedded TrueType, OpenType or CFF program of the font, or of its CIDFont.
    program: Program
    #: The glyphs that the CIDs of a composite font have in its embedded program.
    glyphs_of_cids: Optional[GlyphsOfCids]

    @functools.cached_property
    def glyph_texts(self) -> List[Optional[str]]:
        """The texts of the codes 0 to 255 of a simple font, by their glyph names."""
        return texts_of_names(self.glyph_names, self.base_font or "")

    @property
    def names_in_program(self) -> Optional[Names]:
        """The glyph names that are looked up in the program of a simple font; None if codes are looked up instead (ISO
        32000-1, 9.6.6.4)."""
        is_by_code = not self.has_encoding or self.is_symbolic
        return None if self.subtype == "TrueType" and is_by_code else self.glyph_names

    @functools.cached_property
    def program_texts(self) -> List[Optional[str]]:
        """The texts of the codes 0 to 255 of a simple font, by its embedded TrueType or OpenType program."""
        if not self.program.sfnt:
            return [None] * 256
        return [self.program.text(glyph) for glyph in glyphs_of_codes(self.names_in_program, self.program)]

    @functools.cached_property
    def guessed_texts(self) -> Dict[int, str]:
        """The texts of codes of a simple font whose glyph names in Differences are numbers."""
        return guessed_texts(self.differences)

    def text_by_glyph(self, code: int, cid: Optional[int]) -> Found:
        """The text of the glyph of a code with this CID, and its source."""
        return self._text_of_glyph(cid) if self.is_composite else self._text_of_simple(code)

    def _text_of_glyph(self, cid: Optional[int]) -> Found:
        """The text that the program gives the glyph of a CID of a composite font."""
        text = None if cid is None or self.glyphs_of_cids is None else self.glyphs_of_cids.text(cid)
        return text, Source.NONE if text is None else Source.FONT_PROGRAM

    def _text_of_simple(self, code: int) -> Found:
        """The text of a code of a simple font to which the ToUnicode CMap gives no text."""
        found = ((text_of(self, code), source) for source, text_of in self._ways)
        return next(((text, source) for text, source in found if text is not None), NOT_FOUND)

    @functools.cached_property
    def _ways(self) -> List[Tuple[Source, Callable[["FontGlyphs", int], Optional[str]]]]:
        """The sources of texts of a simple font after its ToUnicode CMap, the best source first, each with a
        function."""
        by_name = (Source.GLYPH_NAME, FontGlyphs._text_of_name)
        by_program = (Source.FONT_PROGRAM, FontGlyphs._text_of_program)
        by_number = (Source.GLYPH_NUMBER, FontGlyphs._text_of_number)
        is_by_code = self.subtype == "TrueType" and not self.has_encoding
        return [by_program, by_name, by_number] if is_by_code else [by_name, by_program, by_number]

    def _text_of_name(self, code: int) -> Optional[str]:
        """The text of the glyph name of a code."""
        return texts_of_names([self.glyph_names[code]], self.base_font or "")[0]

    def _text_of_program(self, code: int) -> Optional[str]:
        """The text of the glyph of a code in the embedded program."""
        return self.program_texts[code]

    def _text_of_number(self, code: int) -> Optional[str]:
        """The text of a code whose glyph name is a number, which is a guess."""
        return self.guessed_texts.get(code)


def text_and_source(
    maps: FontMaps, glyphs: FontGlyphs, row: Row, lenient: bool = True, guesses: bool = True
) -> Found:
    """The text of a code from the first source that has one, and this source. The row has the text that the ToUnicode
    CMap gives the code."""
    found = maps.text_by_maps(row, lenient)
    if found[0] is None:
        found = glyphs.text_by_glyph(row[0], row[2])
    return found if guesses or not found[1].is_guess else NOT_FOUND
