"""CMaps of fonts for pypdf, and for PyPDF2.

    import hayro_cmap.pypdf
    hayro_cmap.pypdf.install()

This module is experimental: pypdf has no public hooks, and its private functions may change.

After `install`, hayro_cmap reads the CMaps of fonts for pypdf's `extract_text`: the ToUnicode CMap, past its faults,
and for a composite font its predefined or embedded CMap and its collection's map. If the CMaps give a code no text, the
text comes from the glyph name or the embedded program. `uninstall` undoes this, and the context manager `installed`
does both.

pypdf decodes a string by the name of a Python codec, and looks up each decoded character. So each encoding has a codec
here, named after its content. The codec gives one character for each code: the character with the number of its CID,
from which pypdf gets the width, or a character from U+20000 on. A codec ends with the fonts that have it.
"""

import codecs
import collections
import contextlib
import functools
import hashlib
import importlib
import threading
import weakref
from typing import Any, Callable, Dict, Iterator, List, Optional, Set, Tuple

from . import CMapSource, Code
from ._budget import Budget
from ._font_maps import MOST_IN_CHAIN, GivenMaps
from ._given_font import GivenFont, GivenGlyphs, Objects, bounded

__all__ = ["install", "installed", "uninstall"]

#: The prefix of the names of codecs.
PREFIX = "hayro_cmap_"

#: The first character for codes without a CID, or with a CID that another code has.
FIRST_PRIVATE = 0x20000

#: The number of last encodings that are kept even without fonts, and the number of codecs that Python may cache.
KEPT, KEPT_NAMES = 32, 1024

#: The number of fonts whose CMaps are cached: pypdf reads a font again for each page.
KEPT_FONTS = 256

REPLACEMENT = "\N{REPLACEMENT CHARACTER}"


class Encoding:
    """The CMap of a composite font, as a codec."""

    def __init__(self, maps: GivenMaps):
        self._maps = maps
        self._chars: Dict[Tuple[int, int], str] = {}
        self._codes: Dict[str, Code] = {}
        self._lock = threading.Lock()

    def decode(self, data: Any, errors: str = "strict") -> Tuple[str, int]:
        chars, found = self._chars, []
        for code, _ in self._maps.codes(bytes(data)):
            char = chars.get(code[:2])
            found.append(self._char(code) if char is None else char)
        return "".join(found), len(data)

    def encode(self, text: str, errors: str = "strict") -> Tuple[bytes, int]:
        try:
            return b"".join(bytes(self._codes[char]) for char in text), len(text)
        except KeyError as fault:
            raise UnicodeEncodeError("hayro_cmap", text, 0, len(text), f"no code for {fault}") from None

    def code(self, char: str) -> Optional[Code]:
        """The code of a character that `decode` has given, or None."""
        return self._codes.get(char)

    def _char(self, code: Code) -> str:
        with self._lock:
            if code[:2] not in self._chars:
                char = chr(code.cid) if code.cid is not None and code.cid < FIRST_PRIVATE else None
                if char is None or char in self._codes:
                    number = FIRST_PRIVATE + len(self._codes)
                    if number > 0x10FFFF:
                        return REPLACEMENT
                    char = chr(number)
                self._chars[code[:2]], self._codes[char] = char, code
            return self._chars[code[:2]]


class Characters(dict):
    """The texts of characters that stand for the codes of a font. The dictionary has the characters looked up so
    far."""

    def __init__(self, font: GivenFont, missing: Optional[str] = None):
        super().__init__()
        self._font, self._missing = font, missing
        #: The characters without a text.
        self._without: Set[str] = set()

    @property
    def _of(self) -> Tuple[Any, ...]:
        """The arguments for another object of this kind."""
        return self._font, self._missing

    def _text(self, char: str) -> Optional[str]:
        """The text of a character whose number is the code."""
        return self._font.text(ord(char), 2, ord(char))

    def __missing__(self, char: Any) -> str:
        if not isinstance(char, str) or len(char) != 1 or char in self._without:
            raise KeyError(char)
        text = self._text(char)
        if text is None:
            text = self._missing
        if text is None:
            self._without.add(char)
            raise KeyError(char)
        self[char] = text
        return text

    def __contains__(self, char: Any) -> bool:
        return super().__contains__(char) or self.get(char) is not None

    def get(self, char: Any, default: Any = None) -> Any:
        try:
            return self[char]
        except KeyError:
            return default

    def copy(self) -> "Characters":
        other = type(self)(*self._of)
        other.update(self)
        return other

    def __reduce__(self) -> Any:
        return type(self), self._of, None, None, iter(list(self.items()))


class CharactersOfCodec(Characters):
    """The texts of the characters of a codec, or without a codec of characters whose numbers are the codes."""

    def __init__(self, font: GivenFont, codec: Optional[str], missing: Optional[str]):
        super().__init__(font, missing)
        self._codec = codec
        self._encoding = encoding_of(font.maps) if codec else None
        self._find_space()

    @property
    def _of(self) -> Tuple[Any, ...]:
        return self._font, self._codec, self._missing

    def _find_space(self) -> None:
        """Looks up codes of the space: pypdf searches for the character whose text is a space."""
        maps = self._font.maps
        for code in [code for code, text in maps.texts.items() if text == " "][:1]:
            self._seed(code)
        if maps.texts_of_cids is not None and " " not in self.values():
            self._seed(0x20 if self._encoding else 1)

    def _seed(self, code: int) -> None:
        if self._encoding is None:
            found = chr(code)
            self.get(found)
            return
        for length in (1, 2):
            if code < 256**length:
                char, _ = self._encoding.decode(code.to_bytes(length, "big"))
                found = self._encoding.code(char)
                if found is not None and found.in_codespace and self.get(char) == " ":
                    return

    def _text(self, char: str) -> Optional[str]:
        """The text of a character; the empty text if its code has neither a CID nor a text."""
        if self._encoding is None:
            return super()._text(char)
        found = self._encoding.code(char)
        if found is None:
            return None
        text = self._font.text(*found[:3])
        return "" if text is None and found.cid is None else text


class OwnTexts:
    """The texts that pypdf gives the codes of a simple font by its encoding, read on first use."""

    def __init__(self, read: Callable[[], Any]):
        self._read = read

    @functools.cached_property
    def found(self) -> Dict[int, str]:
        found = self._read()
        return dict(found) if isinstance(found, dict) else {}

    def __reduce__(self) -> Any:
        return OwnTexts, (functools.partial(dict, self.found),)


class CharactersOfBytes(Characters):
    """The texts of the characters whose numbers are the codes of a simple font, with pypdf's texts for the others."""

    def __init__(self, font: GivenFont, own: OwnTexts):
        super().__init__(font)
        self._own = own

    @property
    def _of(self) -> Tuple[Any, ...]:
        return self._font, self._own

    def _text(self, char: str) -> Optional[str]:
        code = ord(char)
        text = self._font.text(code, 1, None) if code < 256 else None
        return self._own.found.get(code) if text is None else text


_encodings: "weakref.WeakValueDictionary[str, Encoding]" = weakref.WeakValueDictionary()
_recent: "collections.OrderedDict[str, Encoding]" = collections.OrderedDict()
_names: Set[str] = set()
_lock = threading.RLock()


def codec_name(maps: GivenMaps) -> str:
    """The name of the codec of an encoding."""
    # without a readable encoding, the ToUnicode CMap splits strings into codes
    source = maps.to_unicode_source if maps.encoding.lenient is None else maps.encoding_source
    digest = hashlib.sha256(repr(source).encode()).hexdigest()[:32]
    return PREFIX + digest


def encoding_of(maps: GivenMaps) -> Encoding:
    """The encoding of a font. Fonts with the same encoding share it."""
    name = codec_name(maps)
    with _lock:
        found = _encodings.get(name)
        if found is None:
            found = _encodings[name] = Encoding(maps)
            if name not in _names and len(_names) >= KEPT_NAMES:
                forget()
            _names.add(name)
        _recent[name] = found
        _recent.move_to_end(name)
        while len(_recent) > KEPT:
            _recent.popitem(last=False)
        return found


def search(name: str) -> Optional[codecs.CodecInfo]:
    """The codec with a name. Python caches the codec, so the codec holds no reference to the encoding."""
    if not name.startswith(PREFIX):
        return None

    def of(call: str) -> Any:
        def coded(given: Any, errors: str = "strict") -> Any:
            encoding = _encodings.get(name)
            if encoding is None:
                raise LookupError(f"the fonts with the codec {name} are gone")
            return getattr(encoding, call)(given, errors)

        return coded

    return codecs.CodecInfo(name=name, encode=of("encode"), decode=of("decode"))


def forget() -> None:
    """Clears Python's cache of these codecs. Python finds codecs in use again."""
    if hasattr(codecs, "unregister"):
        codecs.unregister(search)
        codecs.register(search)
    _names.clear()
    _names.update(_encodings)


codecs.register(search)


@functools.lru_cache(maxsize=KEPT_FONTS)
def kept_maps(*given: Any) -> GivenMaps:
    """The CMaps of a font with these entries, from a cache."""
    return GivenMaps(*given)


def descendant_of(font: Any) -> Dict[str, Any]:
    """The CIDFont of a composite font; an empty dictionary if there is none."""
    below = object_of(font.get("/DescendantFonts"))
    descendant = object_of(below[0]) if isinstance(below, list) and below else None
    return descendant if isinstance(descendant, dict) else {}


def maps_of(font: Any) -> GivenMaps:
    """The CMaps of a font."""
    to_unicode = source_of(font.get("/ToUnicode"))
    if font.get("/Subtype") != "/Type0":
        return kept_maps(False, None, to_unicode)
    descendant, encoding = descendant_of(font), object_of(font.get("/Encoding"))
    info = object_of(descendant.get("/CIDSystemInfo"))
    names = [text_of(object_of(info.get(key))) for key in ("/Registry", "/Ordering")] if isinstance(info, dict) else []
    mode = object_of(encoding.get("/WMode")) if hasattr(encoding, "get_data") else 0
    return kept_maps(
        True,
        source_of(encoding),
        to_unicode,
        "-".join(names).encode("latin-1", "replace") if names and None not in names else None,
        hasattr(object_of(descendant.get("/CIDToGIDMap")), "get_data"),
        int(mode) if isinstance(mode, int) else 0,
    )


def text_of(value: Any) -> Optional[str]:
    if isinstance(value, bytes):
        return value.decode("latin-1")
    return str(value) if isinstance(value, str) else None


def object_of(value: Any) -> Any:
    return value.get_object() if hasattr(value, "get_object") else value


def source_of(value: Any, over: int = 0) -> Optional[CMapSource]:
    """The source of the CMap in an entry."""
    value = object_of(value)
    if hasattr(value, "get_data"):
        base = source_of(value.get("/UseCMap"), over + 1) if over < MOST_IN_CHAIN else None
        try:
            data = value.get_data()
        except Exception as fault:  # pypdf raises many kinds of exceptions for streams that it can't decode
            return CMapSource(unreadable=str(fault))
        return CMapSource(data=data.encode("latin-1") if isinstance(data, str) else bytes(data), base=base)
    return CMapSource(str(value)[1:].encode()) if isinstance(value, str) and value[:1] == "/" else None


class ObjectsOfPypdf(Objects):
    """Access to the objects of pypdf."""

    def object(self, value: Any) -> Any:
        return object_of(value)

    def at(self, holder: Any, key: str) -> Any:
        return object_of(holder.get("/" + key)) if isinstance(holder, dict) else None

    def name(self, value: Any) -> Optional[str]:
        return str(value)[1:] if isinstance(value, str) and value[:1] == "/" else None

    def decoded(self, value: Any) -> Optional[bytes]:
        if not hasattr(value, "get_data"):
            return None
        raw, filters = getattr(value, "_data", b""), self.at(value, "Filter")
        is_deflated = filters in ("/FlateDecode", ["/FlateDecode"]) and "/DecodeParms" not in value
        raw = raw if isinstance(raw, bytes) else b""
        return bounded(raw, is_deflated, lambda: bytes(value.get_data()))


OBJECTS = ObjectsOfPypdf()

#: The glyphs of existing fonts, by the `id` of their dictionaries: data that is read from a font program lives as long
#: as the font's dictionary.
_glyphs: Dict[int, Tuple["weakref.ref[Any]", GivenGlyphs]] = {}

#: The budgets of files, for the font programs of each.
_budgets: "weakref.WeakKeyDictionary[Any, Budget]" = weakref.WeakKeyDictionary()


def glyphs_of(font: Any) -> GivenGlyphs:
    """The glyphs of a font. They hold no strong reference to the font."""
    key = id(font)
    found = _glyphs.get(key)
    if found is not None and found[0]() is font:
        return found[1]
    is_composite = font.get("/Subtype") == "/Type0"
    of_font = weakref.ref(font, lambda _: _glyphs.pop(key, None))

    def holder() -> Any:
        there = of_font()
        return descendant_of(there) if is_composite and there is not None else there

    glyphs = GivenGlyphs(is_composite, holder, OBJECTS, lambda: budget_of(holder()))
    _glyphs[key] = of_font, glyphs
    return glyphs


def budget_of(holder: Any) -> Budget:
    """The budget of the file of a font. The descriptor's references have the file: a program is an indirect object."""
    descriptor = OBJECTS.at(holder, "FontDescriptor")
    files = (getattr(it, "pdf", None) for it in (descriptor.values() if isinstance(descriptor, dict) else ()))
    file = next((it for it in files if it is not None), None)
    return Budget() if file is None else _budgets.setdefault(file, Budget())


class Hook:
    """The functions of a library that read the CMaps of a font, and their replacements."""

    def __init__(self, module: Any, missing: Optional[str]):
        self.module, self.missing = module, missing
        # in pypdf 3 and PyPDF2, the code of the space is also an argument and a result
        self.is_old = hasattr(module, "parse_to_unicode")
        self.names = ("parse_encoding", "parse_to_unicode") if self.is_old else ("_parse_encoding", "_parse_to_unicode")
        self.originals = [getattr(module, name) for name in self.names]

    def put(self) -> None:
        for name, function in zip(self.names, (self.parse_encoding, self.parse_to_unicode)):
            setattr(self.module, name, function)

    def take(self) -> None:
        for name, function in zip(self.names, self.originals):
            setattr(self.module, name, function)

    def parse_encoding(self, font: Any, *rest: Any) -> Any:
        if font.get("/Subtype") == "/Type0":
            name = self.codec(maps_of(font))
            if name is not None:
                return (name, *rest) if self.is_old else name
        return self.originals[0](font, *rest)

    @staticmethod
    def codec(maps: GivenMaps) -> Optional[str]:
        """The name of the encoding's codec; None if pypdf's own codec is to be used."""
        if maps.is_identity or maps.encoding.lenient is None and not maps.has_to_unicode:
            return None
        encoding_of(maps)
        return codec_name(maps)

    def parse_to_unicode(self, font: Any, *rest: Any) -> Any:
        found = self.read(font)
        if found is None:
            return self.originals[1](font, *rest)
        characters, codes = found
        if not self.is_old:
            return characters, codes
        spaces = [char for char, text in characters.items() if text == " "]
        return (characters, spaces[-1] if spaces else rest[0], codes)

    def read(self, font: Any) -> Optional[Tuple[Dict[Any, Any], List[int]]]:
        """The texts of a font by characters, and the codes of a simple font; None if pypdf is to read them."""
        given = GivenFont(maps_of(font), glyphs_of(font))
        maps = given.maps
        if maps.to_unicode_source is not None and not maps.has_to_unicode:
            return None
        if not maps.is_composite:
            own = OwnTexts(functools.partial(self.own_encoding, font))
            return self.filled(CharactersOfBytes(given, own), 1), list(range(256))
        codec = self.codec(maps)
        missing = REPLACEMENT if self.missing is None and codec is not None else self.missing
        characters = CharactersOfCodec(given, codec, missing)
        if codec is None:
            return self.filled(characters, 2), []
        characters.update(self.length(2))
        return characters, []

    def own_encoding(self, font: Any) -> Any:
        """The encoding of a simple font, read by pypdf."""
        if not self.is_old:
            return self.originals[0](font)
        return self.originals[0](font, ord(" "))[0]

    def filled(self, characters: Characters, byte_len: int) -> Characters:
        """The same, with all texts of the ToUnicode CMap added. Its codes are the numbers of the characters."""
        texts = characters._font.maps.texts
        characters.update({**self.length(byte_len), **{chr(code): text for code, text in texts.items()}})
        return characters

    def length(self, byte_len: int) -> Dict[int, int]:
        """The key -1 with the length of codes, which pypdf has up to version 5."""
        return {-1: byte_len} if self.is_old or hasattr(self.module, "build_char_map") else {}


_hooks: List[Hook] = []


def install(missing: Optional[str] = None) -> None:
    """Lets hayro_cmap read the CMaps of fonts for pypdf and PyPDF2, if installed, from now on. Raises AttributeError if
    a library lacks a function to replace; then nothing changes. Raises ImportError if neither library is installed.

    `missing` is the text for a code of a composite font that has no text. By default, it is the same as in pypdf, the
    character with the code's number, and U+FFFD under encodings that pypdf doesn't read.
    """
    with _lock:
        if _hooks:
            return
        found = []
        for library in ("pypdf", "PyPDF2"):
            try:
                module = importlib.import_module(f"{library}._cmap")
            except ImportError:
                continue
            found.append(Hook(module, missing))
        if not found:
            raise ImportError("neither pypdf nor PyPDF2 is installed")
        for hook in found:
            hook.put()
        _hooks.extend(found)


def uninstall() -> None:
    """Undoes `install`."""
    with _lock:
        while _hooks:
            _hooks.pop().take()


@contextlib.contextmanager
def installed(missing: Optional[str] = None) -> Iterator[None]:
    """Installs for a block, in all threads. It has no effect if `install` was called before."""
    was = bool(_hooks)
    install(missing)
    try:
        yield
    finally:
        if not was:
            uninstall()
