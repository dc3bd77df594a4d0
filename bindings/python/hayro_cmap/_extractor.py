"""Conversion of strings to texts, and of texts to strings."""

import functools
import itertools
from typing import Any, Callable, Dict, Iterable, Iterator, List, NamedTuple, Optional, Tuple, Union

from ._bundle import Bundle
from ._candidates import candidates
from ._encoder import Encoder, Piece
from ._folding import fold
from ._library import NO_ROOM, Handle
from ._map import CODE, CMap, Code, code_of_fields
from ._reading import NO_FILES, Files
from ._room import Room, Row
from ._values import Buffer, bytes_of

#: The encoding of a simple font, whose codes are single bytes (ISO 32000-1, 9.6).
SINGLE_BYTES = b"1 begincodespacerange <00> <FF> endcodespacerange"

#: The maximum length in bytes of strings that share the kept buffers of an extractor. A longer string gets a new
#: buffer.
KEPT_ROOM = 256

#: The number of characters that an extractor caches: all characters of a font with codes of two bytes.
KEPT_CHARACTERS = 65536

#: The number of codes that are looked up together.
CHUNK = 1024


class Character(NamedTuple):
    """A code of a string of a font."""

    #: The code, with the CID that the font's CMap declares for it, or None.
    code: Code
    #: Its text, or None.
    text: Optional[str]


def with_folded_text(character: Character) -> Character:
    """The same code, with its text folded."""
    return character if character.text is None else character._replace(text=fold(character.text))


class Extractor:
    """The maps of a font, which convert its strings to texts (ISO 32000-1, 9.10.2), and texts to strings.

    `encoding` is the font's CMap, or None for a simple font, whose codes have one byte. `to_unicode` is its ToUnicode
    CMap. `collection` is a map from the CIDs of its character collection to Unicode, such as Adobe-Japan1-UCS2.
    `unicode` is a map from Unicode to CIDs, such as UniJIS-UTF16-H, from which `encode` takes the CIDs of characters.
    If the last two maps aren't given, they are looked up in `files` and the `bundle`, as by `CMap.collection` and
    `CMap.unicode` of the encoding; by default among the system's predefined CMaps, and nowhere with `files={}`. Instead
    of a map, `collection` may be the name of the collection, such as "Adobe-Japan1": Identity-H names none, and an
    embedded CMap and its font may name different collections.

    The maps are shared: the passed maps may be closed, or used elsewhere. The extractor's maps are freed by `close`, at
    the end of `with`, or with the last reference. Several threads may use one extractor at the same time.
    """

    def __init__(
        self,
        encoding: Optional[CMap],
        to_unicode: Optional[CMap] = None,
        collection: Union[CMap, str, None] = None,
        files: Optional[Files] = None,
        bundle: Optional[Bundle] = None,
        unicode: Optional[CMap] = None,
    ):
        name = collection if isinstance(collection, str) else None
        cids = None if isinstance(collection, str) else collection
        for cmap in (encoding, to_unicode, cids, unicode):
            if not isinstance(cmap, (CMap, type(None))):
                raise TypeError(f"an Extractor is made of CMaps, and not of {type(cmap).__name__}")
        if encoding is None:
            encoding = single_bytes()
        is_of_system = files is None and bundle is None
        if cids is None and files is not NO_FILES:
            cids = encoding.collection(files, bundle, name)
        if unicode is None and not is_of_system and files is not NO_FILES:
            unicode = encoding.unicode(files, bundle, name)
        maps = (encoding, to_unicode, cids, unicode)
        self._maps = [CMap(Handle()) if cmap is None else cmap.share() for cmap in maps]
        #: Finds the map from Unicode when it is first needed: the map is large, and few programs encode strings.
        self._unicode_of: Optional[Callable[[], Optional[CMap]]] = None
        if unicode is None and is_of_system:
            self._unicode_of = functools.partial(self._maps[0].unicode, name=name)
        self._encoders: Dict[bool, Encoder] = {}
        self._rooms: List[Room] = []
        self._known: Dict[bytes, Character] = {}

    def __repr__(self) -> str:
        return f"<Extractor of {self._maps[0]!r}>"

    def characters(self, string: Buffer, folded: bool = False) -> List[Character]:
        """The codes of a string in order, each with its CID and its text.

        The text comes from the ToUnicode CMap. If the ToUnicode CMap has no text for the code, the text of the CID
        comes from the collection's map. Codes in no codespace range are looked up too. With `folded`, `fold` is applied
        to the texts.
        """
        found = itertools.chain.from_iterable(self._parts(string, self._characters_in))
        return [with_folded_text(it) for it in found] if folded else list(found)

    def text(self, string: Buffer, missing: str = "\N{REPLACEMENT CHARACTER}", folded: bool = False) -> str:
        """The text of a string, with `missing` for each code without a text. With `folded`, `fold` is applied to it."""
        if not isinstance(missing, str):
            raise TypeError(f"missing is a text, and not {type(missing).__name__}")
        text = "".join(self._parts(string, Room.text, missing))
        return fold(text) if folded else text

    def _rows(self, string: Buffer) -> List[Row]:
        """The same as `characters`, with fewer fields of each code and no cache, for codes that are looked up once."""
        parts = self._parts(string, Room.rows)
        return parts[0] if len(parts) == 1 else list(itertools.chain.from_iterable(parts))

    def _parts(self, string: Buffer, taken_from: Callable[..., Any], *options: Any) -> List[Any]:
        """The results of `taken_from` for each filling of a buffer, until the whole string has been processed."""
        string = bytes_of(string)
        # each call has its own buffer, also if threads call at the same time; the buffer of a long string isn't kept
        rooms = self._rooms if len(string) <= KEPT_ROOM else []
        try:
            room = rooms.pop()
        except IndexError:
            room = Room(self._maps[:3], max(len(string), KEPT_ROOM))
        try:
            status = room.fill(string)
            parts = [taken_from(room, *options)]
            while status == NO_ROOM:
                string, room = string[room.taken :], room.larger()
                status = room.fill(string)
                parts.append(taken_from(room, *options))
        finally:
            rooms.append(room)
        return parts

    def _characters_in(self, room):
        """The characters in a buffer. A cache holds known characters, by the bytes of their hayro_cmap_code."""
        known, texts = self._known, room.texts
        if len(known) > KEPT_CHARACTERS:
            known.clear()
        return [
            known.get(code) or known.setdefault(code, character_of(code, has_text, texts[start : start + text_len]))
            for code, has_text, start, text_len in room.characters()
        ]

    def encode(self, text: str, missing: Optional[Buffer] = None, exact: bool = False) -> bytes:
        """The string of a text: the codes of its pieces.

        A piece is a letter (a character and the marks after it), if the letter has a code and the rest can be encoded;
        otherwise a part of the letter, and as a last resort more than the letter. The code of a piece lies in a
        codespace range, is no notdef, and has the best `Grade`. Of several codes, the character itself in the form of
        the map from Unicode comes first, then the shortest code, then the least code; but the last code of the glyph is
        taken if the collection's map reads it as another character. With `exact`, the text of a code must be its piece,
        so that the string is read back as the text, and every variation selector needs a code.

        Raises Unencodable for a text without such pieces. With `missing`, such as b"\\x00\\x3f" for a question mark,
        these bytes replace the character after the longest prefix that can be encoded, and so on for the rest. Raises
        ValueError if these bytes aren't whole codes of the font: they would change the codes after them.

        The first call builds a table of all codes of the font, which the extractor keeps.
        """
        encoder = self._encoder(text, exact)
        return encoder.encode(text) if missing is None else encoder.encode_lossy(text, bytes_of(missing))

    def pieces(self, text: str, exact: bool = False) -> List[Piece]:
        """The pieces of a text, each with its code and its grade. Their codes make up the string of `encode`."""
        return self._encoder(text, exact).pieces(text)

    def _encoder(self, text, exact):
        """The encoder for a text, made on first use."""
        if not isinstance(text, str):
            raise TypeError(f"a text is encoded, and not {type(text).__name__}")
        exact = bool(exact)
        return self._encoders.get(exact) or self._encoders.setdefault(exact, self._made_encoder(exact))

    def _made_encoder(self, exact):
        """A new encoder. The map from Unicode is looked up if it isn't given."""
        found = None if self._unicode_of is None else self._unicode_of()
        return Encoder(*self._maps[:3], self._maps[3] if found is None else found, exact)

    def items(self) -> Iterator[Tuple[bytes, str]]:
        """Each code with a text that lies in a codespace range: its bytes, and the text that `characters` gives.
        `dict(font.items())` has all texts of a font.

        The codes come in the order of their lengths, then of their bytes. They are computed lazily: for a font with
        2^32 codes, `itertools.islice` takes some of them.
        """
        codes = candidates(*self._maps[:3])
        for chunk in iter(lambda: list(itertools.islice(codes, CHUNK)), []):
            for code, found in zip(chunk, self.characters_of(chunk)):
                # the bytes may begin with a shorter code
                if len(found) == 1 and found[0].code.in_codespace and found[0].text is not None:
                    yield code, found[0].text

    def characters_of(self, strings: Iterable[Buffer]) -> List[List[Character]]:
        """The `characters` of each string. A single call for many strings takes less time."""
        asked, length = [bytes_of(string) for string in strings], self._code_length
        # if all codes have one length, strings of whole codes can be joined
        together = [length is not None and len(string) % length == 0 for string in asked]
        joined = iter(self.characters(b"".join(itertools.compress(asked, together))))
        return [
            list(itertools.islice(joined, len(string) // length)) if is_joined else self.characters(string)
            for string, is_joined in zip(asked, together)
        ]

    @functools.cached_property
    def _code_length(self):
        """The length of each code in bytes; None if codes have several lengths."""
        lengths = {it.byte_len for it in self._maps[0]._all_codespaces()} or {1}
        return lengths.pop() if len(lengths) == 1 else None

    def close(self):
        """Frees the maps, unless other handles share them. Later use raises ValueError, except a second `close`."""
        for cmap in self._maps:
            cmap.close()
        # no more buffers are made, and those in use are freed when their calls end
        self._rooms = []
        encoders, self._encoders = self._encoders, {}
        for encoder in encoders.values():
            encoder.close()

    def __enter__(self) -> "Extractor":
        return self

    def __exit__(self, *_) -> None:
        self.close()

    def __reduce__(self):
        raise TypeError("the extractor can't be copied or pickled: another is made of the same maps")


@functools.lru_cache(maxsize=1)
def single_bytes() -> CMap:
    """The encoding of a simple font."""
    return CMap.parse(SINGLE_BYTES)


def character_of(code: bytes, has_text: int, text: bytes) -> Character:
    """The character for a hayro_cmap_code and a text in UTF-8."""
    return Character(code_of_fields(*CODE.unpack(code)), text.decode() if has_text else None)
