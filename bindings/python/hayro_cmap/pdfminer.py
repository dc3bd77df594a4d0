"""CMaps of fonts for pdfminer.six, and for programs over it, such as pdfplumber.

    import hayro_cmap.pdfminer
    hayro_cmap.pdfminer.install()

After `install`, hayro_cmap reads the CMaps of each font that pdfminer makes: the ToUnicode CMap, past its faults, and
for a composite font its predefined or embedded CMap and its collection's map. If the CMaps give a code no text, the
text comes from the glyph name or the embedded program. `uninstall` undoes this, and the context manager `installed`
does both. Existing fonts don't change.

To leave pdfminer unchanged in the rest of a process, pass a `ResourceManager` in place of a PDFResourceManager.
"""

import contextlib
import threading
import weakref
from typing import Any, Callable, Dict, Iterator, List, Mapping, Optional, Tuple

from pdfminer import cmapdb, pdffont, pdfinterp
from pdfminer.pdftypes import LITERALS_FLATE_DECODE, PDFStream, resolve1

from . import CMapSource
from ._budget import Budget
from ._font_maps import COLLECTIONS, MOST_IN_CHAIN, GivenMaps
from ._given_font import GivenFont, GivenGlyphs, Objects, bounded

__all__ = ["ResourceManager", "install", "installed", "uninstall"]

#: Names that pdfminer gives the encodings Identity-H and Identity-V.
SAME = {"DLIdent-H": "Identity-H", "DLIdent-V": "Identity-V"}

#: Encodings that pdfminer reads itself, and that aren't predefined CMaps.
OF_PDFMINER = ("OneByteIdentityH", "OneByteIdentityV")

CID_FONTS = ("CIDFontType0", "CIDFontType2")


class Cid(int):
    """A CID, from which pdfminer gets the width, with the text of its code."""

    text: Optional[str] = None
    is_shown = True


class Texts(cmapdb.UnicodeMap):
    """The texts of codes that are CIDs or single bytes. Each is looked up on first use, then in the map that pdfminer
    has made."""

    def __init__(self, font: GivenFont, own: Optional[cmapdb.UnicodeMap] = None):
        super().__init__()
        self._font, self._own = font, own
        self._known: Dict[int, Optional[str]] = {}

    def get_unichr(self, cid: int) -> str:
        if cid not in self._known:
            self._known[cid] = self._text(cid)
        text = self._known[cid]
        if text is not None:
            return text
        if self._own is None:
            raise KeyError(cid)
        return self._own.get_unichr(cid)

    def _text(self, cid: int) -> Optional[str]:
        return self._font.text(cid, 2, cid) if self._font.maps.is_composite else self._font.text(cid, 1, None)

    def __reduce__(self) -> Any:
        return type(self), (self._font, self._own)


class TextsOfCodes(Texts):
    """The texts of codes whose CIDs come from an `Encoding`."""

    def get_unichr(self, cid: int) -> str:
        if not isinstance(cid, Cid):
            # a CID that doesn't come from a string: its text in the collection's map, or the text of its glyph
            return super().get_unichr(cid)
        if cid.text is None:
            raise KeyError(cid)
        return cid.text

    def _text(self, cid: int) -> Optional[str]:
        return self._font.text_of_glyph(cid)


class Identity(cmapdb.IdentityCMap):
    """Identity-H and Identity-V. A string may end within a code."""

    def decode(self, code: bytes) -> Tuple[int, ...]:
        return super().decode(code if len(code) % 2 == 0 else code[:-1])


class Encoding(cmapdb.CMapBase):
    """The CMap of a composite font. It gives CIDs with texts."""

    def __init__(self, font: GivenFont):
        source = font.maps.encoding_source
        name = {} if source is None or source.name is None else {"CMapName": source.name.decode("latin-1")}
        super().__init__(WMode=int(font.maps.is_vertical), **name)
        self._font = font
        self._known: Dict[Tuple[int, int], Cid] = {}

    def __repr__(self) -> str:
        return f"<Encoding: {self.attrs.get('CMapName')}>"

    def decode(self, code: bytes) -> List[Cid]:
        found = []
        for it, own in self._font.maps.codes(code):
            cid = self._known.get(it[:2])
            if cid is None:
                cid = self._known[it[:2]] = Cid(it.cid or 0)
                cid.text = self._font.text_of((*it[:3], own))
                cid.is_shown = it.cid is not None or cid.text is not None
            # pdfminer skips codes to which the CMap gives no CID
            if cid.is_shown:
                found.append(cid)
        return found

    def __reduce__(self) -> Any:
        return type(self), (self._font,)


class PDFCIDFont(pdffont.PDFCIDFont):
    """A CIDFont of a composite font, whose CMaps and glyphs hayro_cmap reads."""

    def __init__(self, rsrcmgr: Any, spec: Mapping[str, Any], *arguments: Any, **options: Any):
        font = given(rsrcmgr, spec, maps_of(spec))
        maps = font.maps
        self._cmap = cmap_of(font, spec)
        # pdfminer itself reads a name at ToUnicode
        has_name = maps.to_unicode_source is not None and not maps.has_to_unicode
        # pdfminer knows texts of collections, but raises exceptions for some font programs
        is_own = maps.collection_of_cid_font in COLLECTIONS and maps.texts_of_cids is None and not maps.has_to_unicode
        is_ours = not has_name and not is_own
        super().__init__(rsrcmgr, without_texts(spec) if is_ours else spec, *arguments, **options)
        if not has_name:
            kind = TextsOfCodes if isinstance(self._cmap, Encoding) else Texts
            self.unicode_map = kind(font, None if is_ours else self.unicode_map)

    def get_cmap_from_spec(self, spec: Mapping[str, Any], strict: bool) -> Any:
        return super().get_cmap_from_spec(spec, strict) if self._cmap is None else self._cmap


class ObjectsOfPdfminer(Objects):
    """Access to the objects of pdfminer."""

    def object(self, value: Any) -> Any:
        return resolve1(value)

    def at(self, holder: Any, key: str) -> Any:
        return resolve1(holder.get(key)) if isinstance(holder, (Mapping, PDFStream)) else None

    def name(self, value: Any) -> Optional[str]:
        name = getattr(value, "name", None)
        return name if isinstance(name, str) else None

    def decoded(self, value: Any) -> Optional[bytes]:
        if not isinstance(value, PDFStream):
            return None
        raw = value.get_rawdata()
        if raw is None:
            return bytes(value.get_data())
        [(name, parameters)] = value.get_filters() if len(value.get_filters()) == 1 else [(None, None)]
        is_deflated = name in LITERALS_FLATE_DECODE and not parameters and value.decipher is None
        return bounded(raw, is_deflated, lambda: bytes(value.get_data()))


OBJECTS = ObjectsOfPdfminer()

#: The budgets of resource managers, for the font programs of each.
_budgets: "weakref.WeakKeyDictionary[Any, Budget]" = weakref.WeakKeyDictionary()


def given(manager: Any, spec: Mapping[str, Any], maps: GivenMaps) -> GivenFont:
    """The font of a resource manager, with these CMaps."""
    budget = _budgets.setdefault(manager, Budget())
    return GivenFont(maps, GivenGlyphs(maps.is_composite, lambda: spec, OBJECTS, lambda: budget))


def maps_of(spec: Mapping[str, Any]) -> GivenMaps:
    """The CMaps of a CIDFont whose dictionary also has the Encoding and the ToUnicode of its composite font."""
    info, encoding = resolve1(spec.get("CIDSystemInfo")), resolve1(spec.get("Encoding"))
    names = [resolve1(info.get(key)) for key in ("Registry", "Ordering")] if isinstance(info, dict) else []
    mode = resolve1(encoding.get("WMode")) if isinstance(encoding, PDFStream) else 0
    return GivenMaps(
        True,
        source_of(encoding),
        source_of(spec.get("ToUnicode")),
        b"-".join(names) if names and all(isinstance(it, bytes) for it in names) else None,
        isinstance(resolve1(spec.get("CIDToGIDMap")), PDFStream),
        mode if isinstance(mode, int) else 0,
    )


def source_of(value: Any, over: int = 0) -> Optional[CMapSource]:
    """The source of the CMap in an entry."""
    value = resolve1(value)
    if isinstance(value, PDFStream):
        base = source_of(value.get("UseCMap"), over + 1) if over < MOST_IN_CHAIN else None
        try:
            return CMapSource(data=bytes(value.get_data()), base=base)
        except Exception as fault:  # pdfminer raises many kinds of exceptions for streams that it can't decode
            return CMapSource(unreadable=str(fault))
    name = getattr(value, "name", None)
    return CMapSource(SAME.get(name, name).encode()) if isinstance(name, str) and name not in OF_PDFMINER else None


def cmap_of(font: GivenFont, spec: Mapping[str, Any]) -> Optional[cmapdb.CMapBase]:
    """The CMap in pdfminer's form; None if pdfminer's own CMap is to be used."""
    maps = font.maps
    if maps.encoding.lenient is None:
        name = getattr(resolve1(spec.get("Encoding")), "name", None)
        return Encoding(font) if maps.has_to_unicode and name not in OF_PDFMINER else None
    return Identity(WMode=int(maps.is_vertical)) if maps.is_identity else Encoding(font)


def without_texts(spec: Mapping[str, Any]) -> Dict[str, Any]:
    """The font's dictionary with an empty ToUnicode CMap, so that pdfminer reads no CMap and looks up no collection."""
    return {**spec, "ToUnicode": PDFStream({}, b"")}


def made(manager: Any, objid: Any, spec: Mapping[str, Any], get_font: Callable[..., Any]) -> Any:
    """The font that a resource manager makes; `get_font` is pdfminer's method."""
    if objid and objid in manager._cached_fonts:
        return get_font(manager, objid, spec)
    subtype = getattr(resolve1(spec.get("Subtype")), "name", None)
    if subtype in CID_FONTS:
        font = PDFCIDFont(manager, spec)
        if objid and manager.caching:
            manager._cached_fonts[objid] = font
        return font
    if subtype == "Type0":
        return get_font(manager, objid, spec)
    maps = GivenMaps(False, to_unicode_source=source_of(spec.get("ToUnicode")))
    font = get_font(manager, objid, without_texts(spec) if maps.has_to_unicode else spec)
    font.unicode_map = Texts(given(manager, spec, maps))
    return font


class ResourceManager(pdfinterp.PDFResourceManager):
    """A PDFResourceManager with fonts whose CMaps hayro_cmap reads."""

    def get_font(self, objid: Any, spec: Mapping[str, Any]) -> Any:
        return made(self, objid, spec, pdfinterp.PDFResourceManager.get_font)


_lock = threading.Lock()
#: PDFResourceManager's own `get_font` while it is replaced.
_original: Optional[Callable[..., Any]] = None


def _get_font(self: Any, objid: Any, spec: Mapping[str, Any]) -> Any:
    # a call may have begun before uninstall
    return made(self, objid, spec, _original or pdfinterp.PDFResourceManager.get_font)


def install() -> None:
    """Lets hayro_cmap read the CMaps of all fonts that pdfminer makes from now on."""
    global _original
    with _lock:
        if _original is None:
            _original = pdfinterp.PDFResourceManager.get_font
            pdfinterp.PDFResourceManager.get_font = _get_font


def uninstall() -> None:
    """Undoes `install`."""
    global _original
    with _lock:
        if _original is not None:
            pdfinterp.PDFResourceManager.get_font = _original
            _original = None


@contextlib.contextmanager
def installed() -> Iterator[None]:
    """Installs for a block, in all threads. It has no effect if `install` was called before."""
    was = _original is not None
    install()
    try:
        yield
    finally:
        if not was:
            uninstall()
