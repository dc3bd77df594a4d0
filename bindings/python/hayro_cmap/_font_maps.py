"""The CMaps of a font of a PDF file, and the texts that they give its codes (ISO 32000-1, 9.10.2).

This module reads no PDF file: its callers pass the font's entries as names and bytes.
"""

import bisect
import enum
import functools
import itertools
import re
from typing import Any, Dict, Iterator, List, NamedTuple, Optional, Tuple

from ._extractor import Extractor
from ._faults import Lines, NotWritable, ReadAs, Refused
from ._map import CMap, Code, Layer, WritingMode
from ._reading import NO_FILES
from ._room import Row
from ._source import IDENTITIES, CMapSource, opened

#: The maximum number of faults that are kept of a CMap: a small stream may have millions.
MOST_FAULTS = 1_000

#: The maximum number of files in a chain of CMaps.
MOST_IN_CHAIN = 16

#: The character collections whose CIDs have texts, if the system has the map (ISO 32000-1, 9.10.2).
COLLECTIONS = {b"Adobe-GB1", b"Adobe-CNS1", b"Adobe-Japan1", b"Adobe-Korea1", b"Adobe-KR"}

#: The maximum number of characters in the text of a code, and a string in which a longer text may be written.
MOST_OF_TEXT = 1 << 10
LONG_TEXT = re.compile(rb"<[0-9A-Fa-f\0\t\n\f\r ]{2048}|\([^()<>\[\]]{1024}")

#: A hexadecimal string of five digits, and any hexadecimal string.
FIVE_DIGITS = re.compile(rb"<[\0\t\n\f\r ]*[0-9A-Fa-f]{5}[\0\t\n\f\r ]*>")
HEXADECIMAL = re.compile(rb"<([0-9A-Fa-f\0\t\n\f\r ]*)>")

#: A hexadecimal string without its closing bracket.
UNCLOSED = re.compile(rb"<[0-9A-Fa-f]+(?=[\0\t\n\f\r ]*(?:[<\[\]]|end))")

#: The greatest code of four bytes.
LAST_CODE = (1 << 32) - 1

#: The length in bytes of codes that are characters.
UNICODE_BYTES = 2


class Source(enum.Enum):
    """The source of the text of a code."""

    TO_UNICODE = "ToUnicode"
    #: The code is the character, according to a ToUnicode entry without texts.
    UNICODE_CODES = "codes that are Unicode"
    COLLECTION = "collection"
    GLYPH_NAME = "glyph name"
    #: The characters or the glyph names of the embedded program.
    FONT_PROGRAM = "font program"
    #: The glyph name, which is a number.
    GLYPH_NUMBER = "glyph number"
    #: The replacement text of the marked content in which the code is shown (ISO 32000-1, 14.9.4).
    ACTUAL_TEXT = "ActualText"
    NONE = "none"

    @property
    def is_guess(self) -> bool:
        """Whether the file only suggests the text."""
        return self is Source.GLYPH_NUMBER


class Fault(NamedTuple):
    """The reason why a CMap of a font is refused."""

    #: The key of the CMap, "ToUnicode" or "Encoding".
    of: str
    #: The number of the object of its stream; 0 if it isn't a stream.
    number: int
    #: The place where reading stopped: its offset in the decoded stream and its line; None if the CMap isn't malformed.
    offset: Optional[int]
    line: Optional[int]
    #: The names by which `usecmap` leads to the CMap at fault.
    names: Tuple[bytes, ...]
    reason: str
    #: How the part at fault is read past the fault; None if it is lost, or if the stream doesn't determine it.
    read_as: Optional[ReadAs] = None

    def __str__(self) -> str:
        where = "" if self.offset is None else f"byte {self.offset}"
        where += "" if self.line is None else f" (line {self.line})"
        below = f", in /{self.names[-1].decode('latin-1')}" if self.names else ""
        what = f"{self.of} {self.number}" if self.number else self.of
        read_as = "" if self.read_as is None else f"; read as {self.read_as.words}"
        return f"{what}: {where}{': ' if where else ''}{self.reason}{below}{read_as}"


class Read(NamedTuple):
    """A CMap of a font after it is read."""

    #: The map; None if the CMap has faults, or there is no CMap.
    strict: Optional[CMap]
    #: The map that is read past the faults; None if it can't be read.
    lenient: Optional[CMap]
    faults: List[Fault]
    #: The decoded stream; empty for a predefined CMap.
    data: bytes = b""
    #: Whether `lenient` reads strings of five digits as numbers of characters.
    has_five_digits: bool = False


NOTHING = Read(None, None, [])


class FontMaps:
    """The CMaps of a font. Each is read on first use. A subclass provides the font's entries."""

    #: Whether it is a composite font. The codes of a simple font are bytes.
    is_composite: bool
    #: The entry Encoding of a composite font; None if it is neither a name nor a stream.
    encoding_source: Optional[CMapSource]
    #: The entry ToUnicode, or None.
    to_unicode_source: Optional[CMapSource]
    #: The character collection of the CIDFont of a composite font, such as b"Adobe-Japan1", or None.
    collection_of_cid_font: Optional[bytes]
    #: Whether the CIDToGIDMap of the CIDFont is a stream.
    has_glyph_stream: bool
    #: The entry WMode of the stream of an encoding, or 0.
    mode_of_stream: int

    def __init__(self) -> None:
        self._extractors: Dict[bool, Extractor] = {}

    @functools.cached_property
    def encoding(self) -> Read:
        """The CMap of a composite font, over the CMaps that it uses; `NOTHING` for a simple font."""
        if not self.is_composite:
            return NOTHING
        source = self.encoding_source
        if source is None:
            return Read(None, None, [Fault("Encoding", 0, None, None, (), "it is neither a name nor a stream")])
        return read(source, "Encoding")

    @functools.cached_property
    def encoding_layers(self) -> List[Layer]:
        """The layers of the CMap of a composite font; none for a simple font."""
        return [] if self.encoding.lenient is None else self.encoding.lenient.layers

    @functools.cached_property
    def to_unicode(self) -> Read:
        """The ToUnicode CMap; `NOTHING` if the font has none."""
        source = self.to_unicode_source
        # a name gives no texts: PDF writers put Identity-H here
        return NOTHING if source is None or source.name is not None else read(source, "ToUnicode")

    @functools.cached_property
    def collection(self) -> Optional[bytes]:
        """The character collection of a composite font, such as b"Adobe-Japan1" (ISO 32000-1, 9.7.3).

        A predefined CMap gives its own collection. Under Identity-H, Identity-V or a stream, the CIDFont gives the
        collection: its glyphs have these CIDs, and the CMap's own collection is mostly Adobe-Identity.
        """
        if not self.is_composite:
            return None
        of_font, name = self.collection_of_cid_font, self._encoding_name
        if of_font is not None and (self._is_stream or name in IDENTITIES):
            return of_font
        said = [layer.metadata for layer in self.encoding_layers]
        found = (
            b"%b-%b" % (it.registry, it.ordering) for it in said if it.registry is not None and it.ordering is not None
        )
        return next(found, of_font)

    @property
    def _encoding_name(self) -> Optional[bytes]:
        """The name of a predefined CMap."""
        return None if self.encoding_source is None else self.encoding_source.name

    @property
    def _is_stream(self) -> bool:
        """Whether the encoding is a stream."""
        return self.encoding_source is not None and self.encoding_source.name is None

    @functools.cached_property
    def texts_of_cids(self) -> Optional[CMap]:
        """The collection's map from CIDs to texts, such as Adobe-Japan1-UCS2; None if there is no such map."""
        if self.collection not in COLLECTIONS or self.encoding.lenient is None:
            return None
        try:
            return CMap.open(self.collection + b"-UCS2")
        except Refused:
            return None

    @functools.cached_property
    def has_unicode_codes(self) -> bool:
        """Whether the codes of two bytes of a composite font are characters.

        They are characters if ToUnicode is the name Identity-H or Identity-V, or has CIDs and no texts, and the CMap or
        the map from CIDs to glyphs is a stream of the file. Without such a stream, codes are numbers of glyphs.
        """
        if not self.is_composite or not (self._is_stream or self.has_glyph_stream):
            return False
        if self.to_unicode_source is not None and self.to_unicode_source.name in IDENTITIES:
            return True
        layers = [] if self.to_unicode.lenient is None else self.to_unicode.lenient.layers
        return any(layer.cids for layer in layers) and not any(layer.texts for layer in layers)

    @functools.cached_property
    def is_vertical(self) -> bool:
        """Whether the encoding of a composite font is for vertical writing (ISO 32000-1, 9.7.5)."""
        if self._is_stream and self.mode_of_stream == WritingMode.VERTICAL:
            return True
        encoding, name = self.encoding.lenient, self._encoding_name
        mode = None if encoding is None else encoding._first_writing_mode()
        if mode is None and name is not None:
            # the name of a predefined CMap that isn't found ends with its writing mode
            return name.endswith(b"V")
        return mode is WritingMode.VERTICAL

    def extractor(self, lenient: bool = False) -> Extractor:
        """An extractor with the CMaps of the font.

        A ToUnicode CMap with faults gives no texts; with `lenient`, it is read past its faults. If a composite font has
        no readable CMap, strings are split into codes by the codespace ranges of the ToUnicode CMap, and without such
        ranges into codes of two bytes. `encode` of the extractor uses the map from Unicode to the collection, if the
        system has that map.
        """
        to_unicode = self.to_unicode.lenient if lenient else self.to_unicode.strict
        extractor = Extractor(self._cutting, to_unicode=to_unicode, collection=self.texts_of_cids, files=NO_FILES)
        if self.encoding.lenient is not None:
            extractor._unicode_of = functools.partial(unicode_or_none, self.encoding.lenient, self.collection)
        return extractor

    @functools.cached_property
    def _cutting(self) -> Optional[CMap]:
        """The map that splits strings into codes and gives the codes CIDs; None for a simple font."""
        if not self.is_composite or self.encoding.lenient is not None:
            return self.encoding.lenient
        left = self.to_unicode.lenient
        has_ranges = left is not None and any(layer.codespaces for layer in left.layers)
        return left if has_ranges else CMap.identity()

    def _kept_extractor(self, lenient: bool) -> Extractor:
        """An extractor without the collection's map, made once: most codes have a text without that map."""
        if lenient not in self._extractors:
            to_unicode = self.to_unicode.lenient if lenient else self.to_unicode.strict
            self._extractors[lenient] = Extractor(self._cutting, to_unicode=to_unicode, files=NO_FILES)
        return self._extractors[lenient]

    @property
    def code_length(self) -> Optional[int]:
        """The length of each code in bytes; None if codes have several lengths."""
        return 1 if not self.is_composite else self._kept_extractor(True)._code_length

    def text_by_maps(self, row: Row, lenient: bool = True) -> Tuple[Optional[str], Source]:
        """The text that the CMaps give a code, and its source. The row has the text from the ToUnicode CMap."""
        code, byte_len, cid, text = row
        if text is not None:
            return text, Source.TO_UNICODE
        if lenient and self._has_empty_text(code):
            return "", Source.TO_UNICODE
        if lenient and byte_len == UNICODE_BYTES and self.has_unicode_codes and is_character(code):
            return chr(code), Source.UNICODE_CODES
        if cid is not None and self.texts_of_cids is not None:
            text = self.texts_of_cids.text(cid)
        return text, Source.NONE if text is None else Source.COLLECTION

    def _has_empty_text(self, code: int) -> bool:
        """Whether the ToUnicode CMap declares the empty text for a code."""
        index = bisect.bisect_right(self._empty_texts, (code, LAST_CODE)) - 1
        return index >= 0 and code <= self._empty_texts[index][1]

    @functools.cached_property
    def _empty_texts(self) -> List[Tuple[int, int]]:
        """The codes for which the ToUnicode CMap declares the empty text, which is a fault, as disjoint ranges."""
        read, found = self.to_unicode, []
        layers = read.lenient.layers if read.faults and read.lenient is not None else []
        for first, last in sorted((it.first, it.last) for layer in layers for it in layer.texts if not it.text):
            if found and first <= found[-1][1]:
                found[-1] = (found[-1][0], max(last, found[-1][1]))
            else:
                found.append((first, last))
        return found


class GivenMaps(FontMaps):
    """The CMaps of a font with the given entries. The object can be pickled."""

    def __init__(
        self,
        is_composite: bool,
        encoding_source: Optional[CMapSource] = None,
        to_unicode_source: Optional[CMapSource] = None,
        collection_of_cid_font: Optional[bytes] = None,
        has_glyph_stream: bool = False,
        mode_of_stream: int = 0,
    ):
        super().__init__()
        self._given = (
            *(is_composite, encoding_source, to_unicode_source),
            *(collection_of_cid_font, has_glyph_stream, mode_of_stream),
        )
        self.is_composite = is_composite
        self.encoding_source, self.to_unicode_source = encoding_source, to_unicode_source
        self.collection_of_cid_font = collection_of_cid_font
        self.has_glyph_stream, self.mode_of_stream = has_glyph_stream, mode_of_stream

    def __reduce__(self) -> Any:
        return type(self), self._given

    @property
    def is_identity(self) -> bool:
        """Whether the encoding is Identity-H or Identity-V: codes are CIDs."""
        return self._encoding_name in IDENTITIES

    @property
    def has_to_unicode(self) -> bool:
        """Whether the entry ToUnicode is a stream."""
        return self.to_unicode_source is not None and self.to_unicode_source.name is None

    def codes(self, string: bytes) -> Iterator[Tuple[Code, Optional[str]]]:
        """The whole codes of a string, each with its text in the ToUnicode CMap, which is read past its faults."""
        return (it for it in self._kept_extractor(True).characters(string) if not it[0].cut_short)

    def text_of_cid(self, cid: int) -> Optional[str]:
        """The text of a CID in the collection's map."""
        return None if self.texts_of_cids is None else self.texts_of_cids.text(cid)

    @functools.cached_property
    def texts(self) -> Dict[int, str]:
        """The texts that the ToUnicode CMap, read past its faults, gives codes: one byte in a simple font, otherwise
        two."""
        last, to_unicode = 0xFFFF if self.is_composite else 0xFF, self.to_unicode.lenient
        found = {} if to_unicode is None else to_unicode.texts_by_code(last)
        for first, end in self._empty_texts:
            for code in range(first, min(end, last) + 1):
                found.setdefault(code, "")
        return found


def is_character(code: int) -> bool:
    """Whether a code of two bytes can be a character: it is neither 0 nor a surrogate."""
    return code != 0 and not 0xD800 <= code <= 0xDFFF


def read(source: CMapSource, of: str) -> Read:
    """Reads the CMap at a key of a font."""
    return read_name(source.name, of) if source.name is not None else read_stream(source, of)


def read_name(name: bytes, of: str) -> Read:
    """Reads a predefined CMap."""
    try:
        cmap = opened(name)
    except Refused as fault:
        return Read(None, None, [fault_of(fault, of, 0, b"", Lines(b""))])
    return Read(cmap, cmap, [])


def read_stream(source: CMapSource, of: str) -> Read:
    """Reads a CMap in a stream, with its base (ISO 32000-1, 9.7.5.3)."""
    number, data = source.number, source.data
    if data is None:
        return Read(None, None, [Fault(of, number, None, None, (), source.unreadable or "it isn't a stream")])
    below = NOTHING if source.base is None else read(source.base, of)
    try:
        cmap, refusals = CMap.salvage(data, source.files, base=below.lenient, most_faults=MOST_FAULTS + 1)
        if has_long_texts(cmap, data):
            reason = f"a code has a text of more than {MOST_OF_TEXT:,} characters"
            return Read(None, None, [Fault(of, number, None, None, (), reason)])
        whole = with_whole_characters(data)
        read_as = with_closed_strings(whole) if refusals else whole
        past_faults = cmap
        if read_as != data:
            past_faults, _ = CMap.salvage(read_as, source.files, base=below.lenient, most_faults=0)
    except NotWritable as fault:
        return Read(None, None, [Fault(of, number, None, None, (), f"its base can't be used: {fault}")])
    lines = Lines(data)
    faults = [fault_of(it, of, number, data, lines) for it in itertools.islice(refusals, MOST_FAULTS)]
    if len(refusals) > MOST_FAULTS:
        faults.append(Fault(of, number, None, None, (), f"more than {MOST_FAULTS:,} faults"))
    faults += below.faults
    return Read(None if faults else cmap, past_faults, faults, data, whole != data)


def has_long_texts(cmap: CMap, data: bytes) -> bool:
    """Whether the text of a code is too long: a range of few bytes may give it to many codes."""
    if len(data) <= MOST_OF_TEXT or not LONG_TEXT.search(data):
        return False
    return any(len(row.start) >= MOST_OF_TEXT for row in cmap._text_rows())


def with_whole_characters(data: bytes) -> bytes:
    """The CMap with each string of five digits replaced by its character in UTF-16, if all other strings have an even
    number of digits.

    Some producers write the number of a character above U+FFFF in this way, such as `<20BB7>`, which stands for the
    bytes 20 BB 70.
    """
    if FIVE_DIGITS.search(data) is None:
        return data
    odd = [it for it in map(digits_of, HEXADECIMAL.findall(data)) if len(it) % 2]
    if not odd or any(len(it) != 5 or not 0x10000 <= int(it, 16) for it in odd):
        return data
    return HEXADECIMAL.sub(lambda found: in_utf_16(digits_of(found[1])) or found[0], data)


def with_closed_strings(data: bytes) -> bytes:
    """The CMap with the closing bracket added to each hexadecimal string that lacks it before another string, a bracket
    of an array, or the end of a section."""
    return UNCLOSED.sub(rb"\g<0>>", data)


def digits_of(written: bytes) -> bytes:
    """The digits of a hexadecimal string, without white space."""
    return b"".join(written.replace(b"\0", b"").split())


def in_utf_16(digits: bytes) -> Optional[bytes]:
    """The hexadecimal string in UTF-16 of the character with a number of five digits; None for other numbers."""
    return b"<%b>" % chr(int(digits, 16)).encode("utf-16-be").hex().encode() if len(digits) == 5 else None


def fault_of(refused: Refused, of: str, number: int, data: bytes, lines: Lines) -> Fault:
    """The fault for an exception about a CMap with these bytes and lines."""
    line = None if refused.names else lines.line(refused.offset)
    read_as = None if refused.names else refused.read_as(data)
    return Fault(of, number, refused.offset, line, refused.names, refused.words, read_as)


def unicode_or_none(encoding: CMap, collection: Optional[bytes]) -> Optional[CMap]:
    """The map from Unicode to the CIDs of a font's collection; None if there is no such map."""
    try:
        return encoding.unicode(name=collection)
    except Refused:
        return None
