"""The fonts of a PDF file, with their CMaps."""

import functools
from typing import Any, Dict, Iterable, Iterator, List, NamedTuple, Optional, Tuple

import pikepdf

from .. import CMapSource, Code, Extractor
from .._budget import Budget
from .._font_glyphs import FontGlyphs, text_and_source
from .._font_maps import MOST_IN_CHAIN, Fault, FontMaps, Read, Source
from .._glyphs import Names
from .._programs import GlyphsOfCids, Program
from .._room import Row
from ._embedded import differences_of, glyph_map, glyph_names, is_symbolic, program_of
from ._objects import (
    MALFORMED,
    Streams,
    TooLarge,
    Undecodable,
    bytes_of,
    dictionary_at,
    integer_at,
    name_at,
    object_number,
    stream_at,
    text_of,
    values,
)
from ._widths import Widths

__all__ = ["Character", "Fault", "Font", "Fonts", "Read", "Source", "fonts"]

#: The maximum number of fonts of a file.
MOST_FONTS = 20_000

#: The maximum number of nodes of the page tree that are searched for the resources of a page.
MOST_NODES = 1 << 10


class Character(NamedTuple):
    """A shown code."""

    #: None if no font is chosen, or the chosen font doesn't exist.
    font: Optional["Font"]
    #: The code, with its CID under the encoding of a composite font.
    code: Code
    #: Its text, or None.
    text: Optional[str]
    source: Source


class Font(FontMaps, FontGlyphs):
    """A font of a PDF file. Its CMaps and its glyphs are read on first use, while the file is open."""

    def __init__(
        self, dictionary: pikepdf.Dictionary, streams: Optional[Streams] = None, budget: Optional[Budget] = None
    ):
        super().__init__()
        self.dictionary = dictionary
        self._streams = Streams() if streams is None else streams
        #: The budget for the programs and the widths of all fonts of the file.
        self.budget = Budget() if budget is None else budget
        self._characters: Dict[Tuple[bool, bool], Dict[Tuple[int, int], Character]] = {}
        #: The object number and the generation number of its dictionary; None if it is a direct object.
        self.objgen: Optional[Tuple[int, int]] = written_as(dictionary)
        #: "Type0", "Type1", "TrueType" and so on.
        self.subtype = name_at(dictionary, "/Subtype")
        self.is_composite = self.subtype == "Type0"
        listed = dictionary.get("/DescendantFonts") if self.is_composite else None
        below = list(listed)[:1] if isinstance(listed, pikepdf.Array) else []
        #: The CIDFont of a composite font.
        self.descendant: Optional[pikepdf.Dictionary] = next(
            (it for it in below if isinstance(it, pikepdf.Dictionary)), None
        )

    @functools.cached_property
    def base_font(self) -> Optional[str]:
        """The BaseFont of the font, or otherwise its Name."""
        return name_at(self.dictionary, "/BaseFont") or name_at(self.dictionary, "/Name")

    @property
    def number(self) -> int:
        """The number of its object; 0 for a direct object."""
        return self.objgen[0] if self.objgen else 0

    @functools.cached_property
    def _encoding_entry(self) -> Any:
        """The value of the font's entry Encoding, or None."""
        return self.dictionary.get("/Encoding")

    @functools.cached_property
    def encoding_name(self) -> Optional[str]:
        """The name of the encoding: for a stream the CMapName, for a dictionary the BaseEncoding."""
        encoding, kind = self._encoding_entry, self.encoding_kind
        if kind == "name":
            return text_of(encoding)
        keys = {"stream": "/CMapName", "dictionary": "/BaseEncoding"}
        return name_at(encoding, keys[kind]) if kind in keys else None

    @functools.cached_property
    def encoding_kind(self) -> str:
        """The type of the encoding: "name", "stream", "dictionary" or "none"."""
        kinds = [(pikepdf.Name, "name"), (pikepdf.Dictionary, "dictionary"), (pikepdf.Stream, "stream")]
        return next((name for kind, name in kinds if isinstance(self._encoding_entry, kind)), "none")

    @functools.cached_property
    def encoding_source(self) -> Optional[CMapSource]:
        """The source of the CMap of a composite font; None if the encoding is neither a name nor a stream."""
        return source_of(self._encoding_entry, self._streams)

    @functools.cached_property
    def to_unicode_source(self) -> Optional[CMapSource]:
        """The source of the ToUnicode CMap; None if the font has no such entry."""
        value = self.dictionary.get("/ToUnicode")
        return None if value is None else source_of(value, self._streams) or CMapSource(unreadable="it isn't a stream")

    @functools.cached_property
    def collection_of_cid_font(self) -> Optional[bytes]:
        """The registry and the ordering of a composite font's CIDFont, joined by a hyphen, or None."""
        return None if self.descendant is None else collection_in(self.descendant.get("/CIDSystemInfo"))

    @property
    def has_glyph_stream(self) -> bool:
        """Whether the CIDToGIDMap of the CIDFont is a stream."""
        return self.descendant is not None and stream_at(self.descendant, "/CIDToGIDMap") is not None

    @property
    def mode_of_stream(self) -> int:
        """The entry WMode of the stream of the encoding, or 0."""
        return integer_at(self._encoding_entry, "/WMode") if self.encoding_kind == "stream" else 0

    @functools.cached_property
    def glyph_names(self) -> Names:
        """The glyph names of the codes 0 to 255 of a simple font; None for each code of a composite font."""
        try:
            return [None] * 256 if self.is_composite else glyph_names(self.dictionary, self._streams)
        except MALFORMED:
            return [None] * 256

    @functools.cached_property
    def differences(self) -> Dict[int, str]:
        """The glyph names of the codes in the array Differences."""
        try:
            return differences_of(self.dictionary)
        except MALFORMED:
            return {}

    @property
    def has_encoding(self) -> bool:
        """Whether the font has an encoding."""
        return self.encoding_kind != "none"

    @property
    def is_symbolic(self) -> bool:
        """Whether its descriptor has the flag for glyphs outside the standard Latin character set."""
        return is_symbolic(self.dictionary)

    @functools.cached_property
    def program(self) -> Program:
        """The embedded TrueType, OpenType or CFF program of the font, or of its CIDFont."""
        holder = self.dictionary if self.descendant is None else self.descendant
        return program_of(holder, self._streams, self.budget)

    @functools.cached_property
    def glyphs_of_cids(self) -> Optional[GlyphsOfCids]:
        """The glyphs that the CIDs of a composite font have in its embedded program."""
        it = self.descendant
        return None if it is None else GlyphsOfCids(self.program, glyph_map(it, self._streams))

    @functools.cached_property
    def widths(self) -> Widths:
        """The widths of its glyphs."""
        return Widths.of(self)

    def characters(self, string: bytes, lenient: bool = True, guesses: bool = True) -> List[Character]:
        """The codes of a string in this font, with their texts.

        With `lenient`, the ToUnicode CMap is read past its faults. Without `guesses`, a guessed text is None.
        """
        return self._found(self._kept_extractor(lenient).characters(string), lenient, guesses)

    def rows(self, string: bytes, lenient: bool, guesses: bool) -> List[Row]:
        """The same as `characters`, with fewer fields of each code and no cache, for codes that are looked up once."""
        rows = self._kept_extractor(lenient)._rows(string)
        return [
            row if row[3] is not None else (*row[:3], text_and_source(self, self, row, lenient, guesses)[0])
            for row in rows
        ]

    def characters_of(
        self, strings: Iterable[bytes], lenient: bool = True, guesses: bool = True
    ) -> List[List[Character]]:
        """The `characters` of each string. A single call for many strings takes less time."""
        rows = self._kept_extractor(lenient).characters_of(strings)
        return [self._found(row, lenient, guesses) for row in rows]

    def _found(self, characters: Iterable[Tuple[Code, Optional[str]]], lenient: bool, guesses: bool) -> List[Character]:
        """The characters of the font for the characters of its extractor. Each is made once."""
        known = self._characters.setdefault((lenient, guesses), {})
        found = []
        for code, text in characters:
            key = code[:2] if not code.cut_short else (code.code, -code.byte_len)
            character = known.get(key)
            if character is None:
                text, source = text_and_source(self, self, (*code[:3], text), lenient, guesses)
                character = known[key] = Character(self, code, text, source)
            found.append(character)
        return found

    @property
    def faults(self) -> List[Fault]:
        """The faults of its encoding, then the faults of its ToUnicode CMap."""
        return self.encoding.faults + self.to_unicode.faults

    def as_json(self) -> Dict[str, Any]:
        """The font's properties as values of JSON."""
        encoding, to_unicode = self._encoding_entry, self.dictionary.get("/ToUnicode")
        base = encoding.get("/UseCMap") if isinstance(encoding, pikepdf.Stream) else None
        return {
            "base_font": self.base_font,
            "collection": None if self.collection is None else self.collection.decode("latin-1"),
            "encoding": self.encoding_name,
            "encoding_kind": self.encoding_kind,
            "encoding_object": object_number(encoding),
            "font": self.number,
            "subtype": self.subtype if self.descendant is None else name_at(self.descendant, "/Subtype"),
            "to_unicode_object": object_number(to_unicode),
            "type0": self.is_composite,
            "use_cmap": text_of(base) if isinstance(base, pikepdf.Name) else None,
            "use_cmap_object": object_number(base),
        }

    def __repr__(self) -> str:
        return f"<{self}>"

    def __str__(self) -> str:
        words = [self.subtype or "no Subtype", self.encoding_name or self.encoding_kind]
        words += [] if self.collection is None else [self.collection.decode("latin-1")]
        stream = stream_at(self.dictionary, "/ToUnicode")
        words.append("no ToUnicode" if stream is None else f"ToUnicode {object_number(stream)}")
        return f"font {self.number} {self.base_font or '-'} ({', '.join(words)})"


def written_as(value: pikepdf.Object) -> Optional[Tuple[int, int]]:
    """The object number and the generation number of an indirect object; None for a direct object."""
    numbers = value.objgen
    return numbers if numbers[0] else None


def source_of(value: Any, streams: Streams, over: Tuple = ()) -> Optional[CMapSource]:
    """The source of a CMap in a stream or with a name; otherwise None. `over` has the streams that are based on it."""
    if not isinstance(value, pikepdf.Stream):
        return CMapSource(bytes_of(value)) if isinstance(value, pikepdf.Name) else None
    number = object_number(value)
    try:
        data = streams.decoded(value)
    except (TooLarge, Undecodable) as fault:
        return CMapSource(number=number, unreadable=str(fault))
    return CMapSource(data=data, base=base_of(value, streams, (*over, value.objgen)), number=number)


def base_of(stream: pikepdf.Stream, streams: Streams, over: Tuple) -> Optional[CMapSource]:
    """The source of a stream's base, from its entry UseCMap (ISO 32000-1, 9.7.5.3). None without such an entry, in a
    cycle, or in a chain that is too long."""
    base = stream["/UseCMap"] if "/UseCMap" in stream else None
    is_repeated = isinstance(base, pikepdf.Stream) and (base.objgen in over or len(over) >= MOST_IN_CHAIN)
    return None if base is None or is_repeated else source_of(base, streams, over)


def collection_in(info: Any) -> Optional[bytes]:
    """The registry and the ordering of a CIDSystemInfo, joined by a hyphen, or None."""
    if not isinstance(info, pikepdf.Dictionary):
        return None
    texts = [info.get(key) for key in ("/Registry", "/Ordering")]
    return b"-".join(map(bytes, texts)) if all(isinstance(it, pikepdf.String) for it in texts) else None


class Fonts:
    """The fonts of a file, each once. Indirect objects are identified by their numbers, direct objects by their
    contents."""

    def __init__(self, streams: Optional[Streams] = None):
        self.streams = Streams() if streams is None else streams
        self.budget = Budget()
        self.found: Dict[Any, Font] = {}

    def of(self, value: Any) -> Optional[Font]:
        """The font with a dictionary; None if the value isn't a dictionary."""
        if not isinstance(value, pikepdf.Dictionary):
            return None
        key = written_as(value) or value.unparse()
        if key not in self.found:
            if len(self.found) >= MOST_FONTS:
                raise TooLarge(f"the file has more than {MOST_FONTS:,} fonts")
            self.found[key] = Font(value, self.streams, self.budget)
        return self.found[key]

    def walk(self, holders: Iterable[pikepdf.Object]) -> List[Font]:
        """The fonts in the resources of pages, forms, patterns, soft masks and Type 3 fonts, each once."""
        found: Dict[Font, None] = {}
        seen, left = set(), list(holders)
        while left:
            holder = left.pop()
            if holder.is_indirect and holder.objgen in seen:
                continue
            if holder.is_indirect:
                seen.add(holder.objgen)
            resources = resources_of(holder)
            states = [it for it in values(dictionary_at(resources, "/ExtGState")) if isinstance(it, pikepdf.Dictionary)]
            listed = values(dictionary_at(resources, "/Font")) + [font_of_state(state) for state in states]
            fonts = [font for font in map(self.of, listed) if font is not None]
            found.update(dict.fromkeys(fonts))
            left += [font.dictionary for font in reversed(fonts) if font.subtype == "Type3"]
            groups = [dictionary_at(state, "/SMask").get("/G") for state in states]
            drawn = [it for kind in ("/XObject", "/Pattern") for it in values(dictionary_at(resources, kind))]
            left += [form for form in drawn + groups if isinstance(form, pikepdf.Stream)]
        return list(found)


def font_of_state(state: pikepdf.Dictionary) -> Optional[pikepdf.Object]:
    """The font that a graphics state chooses, or None."""
    pair = state.get("/Font")
    return pair[0] if isinstance(pair, pikepdf.Array) and len(pair) == 2 else None


def resources_of(holder: pikepdf.Object) -> pikepdf.Dictionary:
    """The resources of a page, a form or a Type 3 font. A page may inherit them from a node above it."""
    for _ in range(MOST_NODES):
        if not isinstance(holder, (pikepdf.Dictionary, pikepdf.Stream)):
            break
        found = holder.get("/Resources")
        if isinstance(found, pikepdf.Dictionary):
            return found
        if name_at(holder, "/Type") not in ("Page", "Pages"):
            break
        holder = holder.get("/Parent")
    return pikepdf.Dictionary()


def pages_of(pdf: pikepdf.Pdf) -> List[pikepdf.Page]:
    """The pages of a file. Objects in place of a page that aren't dictionaries are left out."""
    return [page for page in pdf.pages if isinstance(page.obj, pikepdf.Dictionary)]


def annotations_of(page: pikepdf.Object) -> List[pikepdf.Dictionary]:
    listed = page.get("/Annots")
    return (
        [it for it in list(listed) if isinstance(it, pikepdf.Dictionary)] if isinstance(listed, pikepdf.Array) else []
    )


def appearances_of(page: pikepdf.Object) -> Iterator[pikepdf.Stream]:
    """All appearance streams of the annotations of a page."""
    for annotation in annotations_of(page):
        for value in values(dictionary_at(annotation, "/AP")):
            states = values(value) if isinstance(value, pikepdf.Dictionary) else [value]
            yield from (it for it in states if isinstance(it, pikepdf.Stream))


def fonts_of(pdf: pikepdf.Pdf, found: Fonts) -> List[Font]:
    """The same as `fonts`, with the given cache."""
    holders = [form for page in pages_of(pdf) for form in (*appearances_of(page.obj), page.obj)]
    fields = dictionary_at(dictionary_at(pdf.Root, "/AcroForm"), "/DR")
    return found.walk([pikepdf.Dictionary(Resources=fields), *reversed(holders)])


def fonts(pdf: pikepdf.Pdf) -> List[Font]:
    """The fonts of pages, forms, patterns, soft masks, Type 3 fonts, annotations and form fields of a file, each
    once."""
    return fonts_of(pdf, Fonts())
