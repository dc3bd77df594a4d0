"""Encoding of texts as strings."""

import enum
from ctypes import c_size_t
from typing import List, NamedTuple, Optional

from ._faults import Unencodable
from ._library import NO_ROOM, OK, EncodedPiece, Handle
from ._map import CMap
from ._owned import Owned, checked, library, put

#: The initial size of the buffer of a string, for each byte of the text: most codes have one or two bytes.
ROOM_EACH = 2


class Grade(enum.IntEnum):
    """How well a code represents a piece of a text. The best grade is first."""

    STATED = 0
    """The ToUnicode CMap gives the code this text."""
    CANONICAL = 1
    """The code has the CID that the map from Unicode gives the character."""
    COLLECTION = 2
    """The collection's map to Unicode gives the code's CID this text."""
    ALIKE = 3
    """The code shows a text with the same look or meaning, or a variation selector gets no code."""
    NATIONAL = 4
    """The code is the byte of an ASCII character that a national version of ISO 646 replaces, such as a backslash,
    shown as U+00A5."""


class Piece(NamedTuple):
    """A piece of an encoded text."""

    #: Its characters.
    text: str
    #: The bytes of its code; empty for a variation selector without a code.
    code: bytes
    #: How well the code represents it.
    grade: Grade


class Encoder(Owned):
    """Encodes texts as strings of a font. It keeps no maps."""

    _what = "the extractor"
    _free = staticmethod(library.hayro_cmap_encoder_free)

    def __init__(self, encoding: CMap, to_unicode: CMap, collection: CMap, unicode: CMap, exact: bool):
        encoder = Handle()
        with encoding._held() as codes, to_unicode._held() as texts, collection._held() as texts_of_cids:
            with unicode._held() as cids_of_characters:
                maps = (codes, texts, texts_of_cids, cids_of_characters)
                checked(library.hayro_cmap_encoder_build_with(encoder, *maps, exact))
        super().__init__(encoder)

    def encode(self, text: str) -> bytes:
        """The string of a text."""
        data, offset = utf8_of(text), c_size_t()
        with self._held() as encoder:
            string = put(
                lambda *room: library.hayro_cmap_encode(encoder, data, len(data), *room, offset),
                room_len=ROOM_EACH * len(data),
            )
        if string is None:
            raise unencodable(text, data, offset)
        return string

    def encode_lossy(self, text: str, missing: bytes) -> bytes:
        """The same, with `missing` for each character that can't be encoded."""
        data = utf8_of(text)
        arguments = (data, len(data), missing, len(missing))
        with self._held() as encoder:
            string = put(library.hayro_cmap_encode_lossy, encoder, *arguments, room_len=ROOM_EACH * len(data))
        if string is None:
            raise ValueError(f"missing is {missing!r}, which isn't whole codes of the font")
        return string

    def pieces(self, text: str) -> List[Piece]:
        """The pieces of a text. The codes of the pieces make up the string that `encode` gives."""
        data, string, made, start, end = utf8_of(text), self.encode(text), [], 0, 0
        for piece in self._pieces(text, data):
            characters = data[start : start + piece.text_len].decode()
            made.append(Piece(characters, string[end : end + piece.code_len], Grade(piece.grade)))
            start, end = start + piece.text_len, end + piece.code_len
        return made

    def _pieces(self, text: str, data: bytes) -> List[EncodedPiece]:
        """The lengths of the pieces of a text, whose bytes are `data`."""
        needed, offset, status = c_size_t(len(text)), c_size_t(), NO_ROOM
        while status == NO_ROOM:
            room = (EncodedPiece * needed.value)()
            arguments = (data, len(data), room, len(room), needed, offset)
            status = checked(self._ask(library.hayro_cmap_encode_pieces, *arguments))
        if status != OK:
            raise unencodable(text, data, offset)
        return room[: needed.value]


def utf8_of(text: str) -> bytes:
    """The bytes of a text in UTF-8. Raises Unencodable for a lone surrogate."""
    try:
        return str.encode(text)
    except UnicodeEncodeError as fault:
        raise Unencodable(text, fault.start) from None


def unencodable(text: str, data: bytes, offset: c_size_t) -> Unencodable:
    """The exception for a text, whose bytes are `data`, that is refused at an offset of these bytes."""
    return Unencodable(text, len(data[: offset.value].decode()))
