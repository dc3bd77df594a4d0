"""Buffers to which the library writes the characters of a string."""

import struct
from ctypes import byref, c_char, c_char_p, c_size_t
from typing import Dict, Iterator, List, Optional, Tuple

from ._library import CharacterInString, Extracted
from ._map import CMap
from ._owned import checked, library

#: A hayro_cmap_character: its code, whether it has a text, and the start and the length in bytes of this text.
CHARACTER = struct.Struct("@12sINN")

#: The same with the fields of its code, in the order of `CodeInString`.
FIELDS = struct.Struct("@IIBBBBINN")

#: The offsets of the lowest byte of its `has_text`, and of its `text_start` in words of 8 bytes.
HAS_TEXT, TEXT_START = 12, 2

#: The call without parameter types: ctypes would check them at each call, and a buffer makes its arguments once.
extract = library["hayro_cmap_extract"]

#: A code of a string: its bytes as a number, its length in bytes, its CID, and its text. A row takes much less time to
#: make than a `Character`.
Row = Tuple[int, int, Optional[int], Optional[str]]


class Room:
    """A buffer for the characters of strings of at most `most` bytes, and for their texts. It has its own handles, so
    that a call with the buffer waits for no other call."""

    def __init__(self, maps: List[CMap], most: int, text_len: Optional[int] = None):
        self._most, self._text_len = most, 4 * most if text_len is None else text_len
        self._maps = [cmap.share() for cmap in maps]
        self._string, self._string_len, self._extracted = c_char_p(), c_size_t(), Extracted()
        self._characters, self.texts = bytearray(most * CHARACTER.size), bytearray(self._text_len)
        self._arguments = [
            *(byref(cmap._handle) for cmap in self._maps),
            *(self._string, self._string_len),
            *(byref(CharacterInString.from_buffer(self._characters)), c_size_t(most)),
            *(byref(c_char.from_buffer(self.texts)), c_size_t(self._text_len)),
            byref(self._extracted),
        ]

    def fill(self, string: bytes) -> int:
        """Writes the first characters of a string to the buffer, as many as fit, and returns the status."""
        self._string.value, self._string_len.value = string, len(string)
        return checked(extract(*self._arguments))

    def larger(self) -> "Room":
        """Another buffer, for longer texts."""
        return Room(self._maps, self._most, 2 * self._text_len)

    @property
    def taken(self) -> int:
        """The number of bytes of the string that the characters stand for."""
        return self._extracted.taken

    def characters(self) -> Iterator[Tuple[bytes, int, int, int]]:
        """For each character: the bytes of its hayro_cmap_code, whether it has a text, and the start and the length of
        this text in `texts`."""
        return CHARACTER.iter_unpack(memoryview(self._characters)[: self._extracted.made * CHARACTER.size])

    def rows(self) -> List[Row]:
        """The characters as rows."""
        texts, made = self.texts, memoryview(self._characters)[: self._extracted.made * FIELDS.size]
        return [
            (code, byte_len, cid if has_cid else None, texts[start : start + text_len].decode() if has_text else None)
            for code, cid, byte_len, _, has_cid, _, has_text, start, text_len in FIELDS.iter_unpack(made)
        ]

    def texts_by_code(self) -> Dict[int, str]:
        """The texts of the codes with a text."""
        texts, made = self.texts, memoryview(self._characters)[: self._extracted.made * FIELDS.size]
        return {
            code: texts[start : start + text_len].decode()
            for code, _, _, _, _, _, has_text, start, text_len in FIELDS.iter_unpack(made)
            if has_text
        }

    def text(self, missing: str) -> str:
        """The concatenated texts, with `missing` for each character without a text."""
        end, used = self._extracted.made * CHARACTER.size, self._extracted.used
        has_text = self._characters[HAS_TEXT : end : CHARACTER.size]
        if 0 not in has_text:
            return self.texts[:used].decode()
        starts = memoryview(self._characters).cast("N")[TEXT_START :: CHARACTER.size // 8]
        cuts = [starts[index] for index, has in enumerate(has_text) if not has]
        return missing.join(self.texts[cut:next_].decode() for cut, next_ in zip([0, *cuts], [*cuts, used]))
