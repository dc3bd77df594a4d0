"""A font of a PDF file that another library reads: its CMaps, its glyphs, and the texts that both give its codes."""

import functools
import zlib
from typing import Any, Callable, Dict, Optional, Union

from ._budget import Budget
from ._font_glyphs import NOT_FOUND, FontGlyphs, Found, text_and_source
from ._font_maps import GivenMaps
from ._glyphs import (
    SYMBOLIC,
    Names,
    built_in_names,
    names_of_codes,
    names_of_differences,
    of_font_file,
    of_type1,
)
from ._programs import GlyphsOfCids, Program
from ._room import Row

#: The maximum number of bytes of a font program, and the assumed ratio of decoded to raw bytes if the library decodes.
MOST_OF_PROGRAM = 1 << 26
MOST_TIMES = 16


class Objects:
    """Access to the objects of PDF files in another library. A call may raise the library's exceptions."""

    def object(self, value: Any) -> Any:
        """The object to which a reference leads, or the value itself."""
        raise NotImplementedError

    def at(self, holder: Any, key: str) -> Any:
        """The value at a key of a dictionary or a stream; None if there is no value, or the holder is neither."""
        raise NotImplementedError

    def name(self, value: Any) -> Optional[str]:
        """The text of a name; None for any other object."""
        raise NotImplementedError

    def decoded(self, value: Any) -> Optional[bytes]:
        """The bytes of a stream, empty if there are too many; None for any other object."""
        raise NotImplementedError


def bounded(raw: bytes, is_deflated: bool, decode: Callable[[], bytes]) -> bytes:
    """The decoded bytes of a stream with these raw bytes; empty if they exceed a limit."""
    if is_deflated:
        try:
            data = zlib.decompressobj().decompress(raw, MOST_OF_PROGRAM + 1)
            return data if len(data) <= MOST_OF_PROGRAM else b""
        except zlib.error:
            pass  # the library may be able to decode them
    return decode() if len(raw) <= MOST_OF_PROGRAM // MOST_TIMES else b""


class GivenGlyphs(FontGlyphs):
    """The glyphs of a font whose objects another library reads, on first use. Unreadable parts are left out, whatever
    exception the library raises."""

    def __init__(self, is_composite: bool, font: Callable[[], Any], objects: Objects, budget: Callable[[], Budget]):
        self.is_composite = is_composite
        self._font, self._objects, self._budget = font, objects, budget

    def text_by_glyph(self, code: int, cid: Optional[int]) -> Found:
        try:
            return super().text_by_glyph(code, cid)
        except Exception:
            return NOT_FOUND

    def __reduce__(self) -> Any:
        return KeptGlyphs, (self.is_composite, self._texts())

    def _texts(self) -> Dict[int, Found]:
        """The texts of all codes of a simple font, or of all CIDs of a composite font."""
        try:
            cids = self.glyphs_of_cids.cids() if self.is_composite and self.glyphs_of_cids is not None else ()
        except Exception:
            cids = ()
        numbers = cids if self.is_composite else range(256)
        found = ((number, self.text_by_glyph(number, number)) for number in numbers)
        return {number: it for number, it in found if it[0] is not None}

    def _at(self, *keys: str) -> Any:
        """The value in the font at a path of keys."""
        return functools.reduce(self._objects.at, keys, self._font())

    @functools.cached_property
    def subtype(self) -> Optional[str]:
        return self._objects.name(self._at("Subtype"))

    @functools.cached_property
    def base_font(self) -> Optional[str]:
        return self._objects.name(self._at("BaseFont")) or self._objects.name(self._at("Name"))

    @functools.cached_property
    def _encoding_name(self) -> Optional[str]:
        """The name of the encoding, or of the base encoding of Differences."""
        return self._objects.name(self._at("Encoding")) or self._objects.name(self._at("Encoding", "BaseEncoding"))

    @functools.cached_property
    def has_encoding(self) -> bool:
        encoding = self._at("Encoding")
        return encoding is not None and (self._encoding_name is not None or hasattr(encoding, "get"))

    @functools.cached_property
    def is_symbolic(self) -> bool:
        flags = self._at("FontDescriptor", "Flags")
        return isinstance(flags, int) and bool(flags & SYMBOLIC)

    @functools.cached_property
    def differences(self) -> Dict[int, str]:
        listed = self._at("Encoding", "Differences")
        return names_of_differences(map(self._entry, listed if isinstance(listed, list) else []))

    def _entry(self, value: Any) -> Union[int, str, None]:
        """An entry of Differences."""
        value = self._objects.object(value)
        return int(value) if isinstance(value, int) else self._objects.name(value)

    @functools.cached_property
    def glyph_names(self) -> Names:
        return names_of_codes(self._encoding_name, self.differences, self._built_in)

    def _built_in(self) -> Names:
        """The font's built-in encoding."""
        has_own_glyphs = self.is_symbolic or self.subtype == "Type3"
        return built_in_names(self._names_of_program(), self.base_font or "", has_own_glyphs)

    def _names_of_program(self) -> Optional[Names]:
        """The glyph names in the encoding of its Type 1 or CFF program."""
        try:
            type1 = self._decoded("FontDescriptor", "FontFile")
            if type1 is not None:
                return of_type1(type1)
            kind = self._objects.name(self._at("FontDescriptor", "FontFile3", "Subtype"))
            return of_font_file(kind, lambda: self._decoded("FontDescriptor", "FontFile3") or b"")
        except Exception:
            return None

    @functools.cached_property
    def program(self) -> Program:
        truetype = self._decoded("FontDescriptor", "FontFile2")
        if truetype is not None:
            return Program(truetype, budget=self._budget())
        other = self._decoded("FontDescriptor", "FontFile3")
        return Program(other or b"", is_cff=True, budget=self._budget())

    def _decoded(self, *keys: str) -> Optional[bytes]:
        """The bytes of a stream, empty if it can't be decoded; None if there is no stream."""
        try:
            return self._objects.decoded(self._at(*keys))
        except Exception:
            return b""

    @functools.cached_property
    def glyphs_of_cids(self) -> GlyphsOfCids:
        return GlyphsOfCids(self.program, self._decoded("CIDToGIDMap"))


class KeptGlyphs:
    """The texts that the glyphs give the codes of a simple font, or the CIDs of a composite font."""

    def __init__(self, is_composite: bool, texts: Dict[int, Found]):
        self._given = self._is_composite, self._texts = is_composite, texts

    def text_by_glyph(self, code: int, cid: Optional[int]) -> Found:
        number = cid if self._is_composite else code
        return NOT_FOUND if number is None else self._texts.get(number, NOT_FOUND)

    def __reduce__(self) -> Any:
        return type(self), self._given


class GivenFont:
    """The CMaps and the glyphs of a font. It can be pickled; pickling looks up the texts of all glyphs."""

    def __init__(self, maps: GivenMaps, glyphs: Union[GivenGlyphs, KeptGlyphs]):
        self.maps, self._glyphs = maps, glyphs

    def __reduce__(self) -> Any:
        return type(self), (self.maps, self._glyphs)

    def text(self, code: int, byte_len: int, cid: Optional[int]) -> Optional[str]:
        """The text of a code with this CID. CMaps are read past their faults."""
        to_unicode = self.maps.to_unicode.lenient
        own = None if to_unicode is None else to_unicode.text(code)
        return self.text_of((code, byte_len, cid, own))

    def text_of(self, row: Row) -> Optional[str]:
        """The text of a code. The row has the text from the ToUnicode CMap."""
        return text_and_source(self.maps, self._glyphs, row)[0]

    def text_of_glyph(self, cid: int) -> Optional[str]:
        """The text of a CID without a known code, from the collection's map or from its glyph."""
        text = self.maps.text_of_cid(cid)
        return self._glyphs.text_by_glyph(0, cid)[0] if text is None else text
