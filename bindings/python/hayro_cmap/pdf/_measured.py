"""The texts and the widths of shown strings."""

import unicodedata
from typing import Dict, Iterable, List, NamedTuple, Optional, Sequence, Tuple

from ._fonts import Font

#: The text for a code without a text.
REPLACEMENT = "\ufffd"

#: The code to which word spacing applies, if it has one byte (ISO 32000-1, 9.3.3).
SPACE = 0x20

#: The first character that may be written from right to left, and the classes of such characters.
FIRST_RIGHT_TO_LEFT = "\u0590"
RIGHT_TO_LEFT = ("R", "AL")

#: The number of bytes and characters in the cache of a font.
MOST_KEPT = 1 << 20

#: A shown code: its text, its width, and whether it is a space of one byte.
Glyph = Tuple[str, float, bool]


class Measured(NamedTuple):
    """A string that a font shows."""

    #: The text of each code, with U+FFFD for a code without a text.
    texts: List[str]
    #: The width of all codes along the line, in thousandths of the font size.
    width: float
    #: The number of codes that are spaces of one byte.
    spaces: int
    #: Whether a text is written from right to left.
    is_right_to_left: bool


def is_right_to_left(text: str) -> bool:
    """Whether a text has a character that is written from right to left (Unicode Standard Annex 9, 3.2)."""
    # most texts have only characters before the first one
    return (
        not text.isascii()
        and max(text) >= FIRST_RIGHT_TO_LEFT
        and any(unicodedata.bidirectional(it) in RIGHT_TO_LEFT for it in text)
    )


class Measure:
    """Measures the strings of a font, with the texts from `Font.characters`. A cache with a limited size has the
    codes."""

    def __init__(self, font: Optional[Font], lenient: bool, guesses: bool):
        self._font, self._options = font, (lenient, guesses)
        self._widths = None if font is None else font.widths
        self._length = 1 if font is None else font.code_length
        self._known: Dict[bytes, Measured] = {}
        self._glyphs: Dict[bytes, Glyph] = {}
        self._kept = 0
        #: Whether the font is for vertical writing.
        self.is_vertical = self._widths is not None and self._widths.is_vertical

    def of(self, string: bytes) -> Measured:
        """The texts and the width of a string."""
        found = self._known.get(string)
        if found is None:
            found = measured(self._glyphs_of(string))
            self._kept += len(string) + sum(map(len, found.texts))
            if self._kept > MOST_KEPT:
                self._known.clear()
                self._glyphs.clear()
                self._kept = 0
            self._known[string] = found
        return found

    def look_up(self, strings: Iterable[bytes]) -> None:
        """Looks up the codes of strings that are likely to be shown. A single lookup takes less time."""
        length = self._length
        if length is not None:
            new = [it for it in dict.fromkeys(strings) if it not in self._known and len(it) % length == 0]
            self._learn([code for string in new for code in codes_of(string, length)])

    def _glyphs_of(self, string: bytes) -> List[Glyph]:
        """The codes of a string."""
        length = self._length
        if length is None or len(string) % length:
            # the font caches these characters
            characters = self._font.characters(string, *self._options)
            return [self._glyph(code.code, code.byte_len, code.cid, text) for _, code, text, _ in characters]
        codes = codes_of(string, length)
        try:
            return [self._glyphs[code] for code in codes]
        except KeyError:
            self._learn(codes)
            return [self._glyphs[code] for code in codes]

    def _learn(self, codes: Iterable[bytes]) -> None:
        """Adds unknown codes to the cache."""
        unknown = [code for code in dict.fromkeys(codes) if code not in self._glyphs]
        if unknown:
            found = self._looked_up(b"".join(unknown))
            self._kept += sum(len(code) + len(text) for code, (text, _, _) in zip(unknown, found))
            self._glyphs.update(zip(unknown, found))

    def _looked_up(self, string: bytes) -> List[Glyph]:
        """The codes of a string, looked up in the font. Without a font, each byte is a code."""
        if self._font is None:
            return [(REPLACEMENT, 0.0, False)] * len(string)
        return [self._glyph(*row) for row in self._font.rows(string, *self._options)]

    def _glyph(self, code: int, byte_len: int, cid: Optional[int], text: Optional[str]) -> Glyph:
        """The measured form of a code with this text."""
        width = self._widths.vertical(cid).advance if self.is_vertical else self._widths.advance(code, cid)
        return REPLACEMENT if text is None else text, width, code == SPACE and byte_len == 1


def codes_of(string: bytes, length: int) -> Sequence[bytes]:
    """The bytes of each code of a string, in which codes have this length."""
    return [string] if len(string) == length else [string[at : at + length] for at in range(0, len(string), length)]


def measured(glyphs: List[Glyph]) -> Measured:
    """The string with these codes."""
    if len(glyphs) == 1:
        [(text, width, is_space)] = glyphs
        return Measured([text], width, int(is_space), is_right_to_left(text))
    texts, widths, spaces = zip(*glyphs) if glyphs else ((), (), ())
    return Measured(list(texts), sum(widths), sum(spaces), is_right_to_left("".join(texts)))
