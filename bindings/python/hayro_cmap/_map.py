"""The map of a CMap file."""

import enum
import functools
import itertools
import os
import struct
from ctypes import c_int32, c_size_t, c_uint16, c_uint32, string_at
from typing import Dict, Iterable, Iterator, List, NamedTuple, Optional, Tuple, Union

from . import _based
from ._bundle import Bundle, held
from ._effective import TextRow, TextRun, effective, text_at, text_rows
from ._faults import Cause, NotWritable, Refused
from ._library import (
    ABSENT,
    NO_MODE,
    NO_ROOM,
    OK,
    ChosenCodes,
    CodeInString,
    CodesInRow,
    CodespaceRange,
    DeclaredCids,
    DeclaredTexts,
    File,
    Found,
    Handle,
)
from ._lint import Finding, finding_of, shown_codes
from ._owned import Shared, checked, library, put
from ._predefined import Kept, beside
from ._reading import (
    NO_FILES,
    AwaitedFiles,
    Files,
    Loader,
    SalvageLoader,
    budget_of,
    gathered,
    loaded,
    most_of,
    no_file,
    past_budget,
)
from ._reading import uses as uses_of
from ._values import (
    CODE_LENGTHS,
    Buffer,
    Name,
    bytes_of,
    cid_number,
    code_length,
    code_number,
    code_of_bytes,
    name_of,
    number,
)

#: A hayro_cmap_code. It has no padding.
CODE = struct.Struct("=IIBBBB")

#: A hayro_cmap_text_range.
DECLARED = struct.Struct("@IIN")

#: The number of codes in a cache: strings repeat codes, and a look-up takes less time than a new object.
KEPT_CODES = 4096

#: The default of the greatest code in `CMap.texts_by_code`.
MOST_BY_CODE = 0xFFFF

#: The initial size of the buffer of a written file, in bytes.
TEXT_ROOM = 65536


class WritingMode(enum.IntEnum):
    """The writing mode that a file gives."""

    HORIZONTAL = 0
    VERTICAL = 1


class Code(NamedTuple):
    """A code of a string."""

    #: Its bytes as a big-endian number.
    code: int
    #: Its length in bytes, 1 to 4.
    byte_len: int
    #: Its CID, or None. Codespace ranges are ignored.
    cid: Optional[int]
    #: Whether it lies in a codespace range.
    in_codespace: bool
    #: Whether the string ends before the code does.
    cut_short: bool

    def __bytes__(self) -> bytes:
        return self.code.to_bytes(self.byte_len, "big")


class Codespace(NamedTuple):
    """A codespace range: codes of `byte_len` bytes. Each byte lies between the bytes of `low` and `high` at its
    place."""

    low: int
    high: int
    byte_len: int


class Metadata(NamedTuple):
    """The metadata of a file. A missing entry is None."""

    #: The CMapName.
    name: Optional[bytes]
    #: The registry of its character collection, such as b"Adobe".
    registry: Optional[bytes]
    #: The ordering of its character collection, such as b"Japan1".
    ordering: Optional[bytes]
    #: The supplement of its character collection.
    supplement: Optional[int]
    writing_mode: Optional[WritingMode]


class CidRange(NamedTuple):
    """A declaration of CIDs for the codes of `byte_len` bytes from `first` to `last`. It is empty if `first` is greater
    than `last`."""

    first: int
    last: int
    #: The CID of `first`. It counts on from code to code. All codes of a notdef have the same CID.
    cid: int
    byte_len: int


class TextRange(NamedTuple):
    """A declaration of texts for the codes from `first` to `last`. It is empty if `first` is greater than `last`."""

    first: int
    last: int
    #: The text of `first`, as the file has it: a surrogate may stand alone. Its last unit of UTF-16 counts on from code
    #: to code.
    text: str


class CodeRange(NamedTuple):
    """The codes from `first` to `last`."""

    first: int
    last: int


class Layer:
    """The declarations of one file of a map. They are read on first use, while the map is open."""

    def __init__(self, cmap: "CMap", index: int):
        self._cmap, self._index = cmap, index
        #: Its metadata.
        self.metadata: Metadata = cmap._metadata(index)
        #: Its codespace ranges, in order.
        self.codespaces: List[Codespace] = cmap._codespaces(index)

    def __repr__(self) -> str:
        return f"Layer(metadata={self.metadata!r}, codespaces={self.codespaces!r})"

    @functools.cached_property
    def cids(self) -> Tuple[CidRange, ...]:
        """Its declarations of CIDs: first for codes of one byte, then of two, and so on, each in the order of the
        file."""
        return self._cid_ranges(library.hayro_cmap_cid_ranges)

    @functools.cached_property
    def notdefs(self) -> Tuple[CidRange, ...]:
        """Its declarations of notdefs, in the same order."""
        return self._cid_ranges(library.hayro_cmap_notdef_ranges)

    @functools.cached_property
    def texts(self) -> Tuple[TextRange, ...]:
        """Its declarations of texts, in the order of the file."""
        declared = self._declared_texts()
        texts = self._texts_of(len(declared), max((it.units for it in declared), default=0))
        return tuple(TextRange(it.first, it.last, text) for it, text in zip(declared, texts))

    def _declared_texts(self):
        """Its declarations of texts, with the lengths of the texts only."""
        return self._cmap._listed(library.hayro_cmap_text_ranges, DeclaredTexts, self._index)

    def _cid_ranges(self, call):
        return tuple(
            CidRange(it.first, it.last, it.cid, byte_len)
            for byte_len in CODE_LENGTHS
            for it in self._cmap._listed(call, DeclaredCids, self._index, byte_len)
        )

    def _texts_of(self, count, most):
        """The texts of the first `count` declarations, each of at most `most` units."""
        room, needed, texts = (c_uint16 * (most + 1))(), c_size_t(), []
        with self._cmap._held() as handle:
            for index in range(count):
                checked(library.hayro_cmap_text_units(handle, self._index, index, room, len(room), needed))
                texts.append(string_at(room, 2 * needed.value).decode("utf-16-le", "surrogatepass"))
        return texts


class CMap(Shared):
    """The map of a CMap file and the files that it uses. It is freed by `close`, at the end of `with`, or with the last
    reference.

    Several threads may use one map, one at a time. With `share`, each thread has its own handle, so that lookups run at
    the same time. Names are bytes; a call that takes a name also takes a str, which is encoded as UTF-8.
    """

    _what = "the map"
    _made_by = "CMap.parse, CMap.open or CMap.identity"
    _free = staticmethod(library.hayro_cmap_free)
    _share = staticmethod(library.hayro_cmap_share)
    _kept = Kept()

    uses = staticmethod(uses_of)

    @classmethod
    def parse(
        cls,
        data: Buffer,
        files: Optional[Files] = NO_FILES,
        bundle: Optional[Bundle] = None,
        budget: Optional[int] = None,
        base: Union["CMap", Buffer, None] = None,
    ) -> "CMap":
        """Reads a CMap file: a text or, with a bundle, also a binary file.

        Used files are looked up by name in `files`, then in the bundle. `files` is a mapping, or a callable that
        returns the file with a name, or None. It is called once for each name, in the order in which files are opened,
        and not after a fault. All files that are opened may have at most `budget` bytes together, each as often as it
        is used; at most one file beyond the budget is requested from a callable. Files of the bundle count if they are
        used; the bundle itself doesn't.

        `base` is the base of the file, for example from the entry UseCMap of a stream in a PDF file. It replaces the
        base that the file names, and is used even if the file names none. It is a map, or the bytes of a file, which
        may use files of `files`. In a fault, the base has the name that the file uses, or UseCMap.

        Raises Refused if the file, or a file that it uses, is malformed or missing, or exceeds a limit. Raises
        NotWritable if no single file can express the base, as in `write`.
        """
        if base is not None:
            return _based.parsed(cls, data, base, files, bundle, budget)
        return cls(loaded(data, files, bundle, budget))

    @classmethod
    async def load(
        cls, data: Buffer, files: AwaitedFiles, bundle: Optional[Bundle] = None, budget: Optional[int] = None
    ) -> "CMap":
        """Reads a CMap file as `parse` does, over files that are awaited, for example from a network. `files` is an
        asynchronous function that returns the file with a name, or None.

        Files are awaited one after another, since only a file that was read shows which files it uses.
        """
        with Loader(data, bundle, budget) as loader:
            await loader._await(files)
            return cls(loader._finished())

    @classmethod
    def salvage(
        cls,
        data: Buffer,
        files: Optional[Files] = NO_FILES,
        bundle: Optional[Bundle] = None,
        budget: Optional[int] = None,
        base: Union["CMap", Buffer, None] = None,
        most_faults: Optional[int] = None,
    ) -> "Salvaged":
        """Reads a CMap file and the files that it uses past their faults. The result has the map of everything else,
        and each fault.

        The faults of a file are listed once, however often the file is used. For a file that `parse` accepts, the map
        is the same and there is no fault. For any other file, the first fault is the fault for which `parse` refuses
        the file, or in a text in rows an earlier fault. The parameters are the same as for `parse`, but a callable is
        called after a fault, too, whatever the budget is, and not after a chain of more than 16 files. The faults of a
        `base` come last.
        `most_faults` limits the number of faults of the file with the files that it uses, and of a `base`: a file of a
        megabyte may have a million faults.
        """
        if base is not None:
            return Salvaged(*_based.salvaged(cls, data, base, files, bundle, budget, most_faults))
        most = most_of(most_faults)
        with SalvageLoader(data, bundle, budget) as loader:
            loader._supply_from(files)
            cmap, faults = loader._salvaged(most)
            return Salvaged(cls(cmap), faults)

    @classmethod
    async def load_past_faults(
        cls,
        data: Buffer,
        files: AwaitedFiles,
        bundle: Optional[Bundle] = None,
        budget: Optional[int] = None,
        most_faults: Optional[int] = None,
    ) -> "Salvaged":
        """Reads a CMap file past its faults as `salvage` does, over files that are awaited as by `load`."""
        most = most_of(most_faults)
        with SalvageLoader(data, bundle, budget) as loader:
            await loader._await(files)
            cmap, faults = loader._salvaged(most)
            return Salvaged(cls(cmap), faults)

    @classmethod
    def open(
        cls,
        name: Union[Name, "os.PathLike"],
        files: Optional[Files] = None,
        bundle: Optional[Bundle] = None,
        budget: Optional[int] = None,
    ) -> "CMap":
        """Reads the file with a name, from `files` or otherwise from the bundle, as `parse` does.

        If neither has the file, Identity-H and Identity-V need none, and any other name is Refused. Without `files`,
        names that the bundle doesn't have are looked up among the system's predefined CMaps, as by `predefined`. If
        only a name is given, a cache has the last maps, each while its files stay unchanged.

        A path, such as a pathlib.Path, names a file directly. Raises OSError if this file can't be read.
        """
        if isinstance(name, os.PathLike):
            with open(name, "rb") as opened:
                return cls.parse(opened.read(), beside(bundle) if files is None else files, bundle, budget)
        name, most = name_of(name), budget_of(budget)
        if files is bundle is budget is None:
            return cls._kept.of(name, lambda files: cls.open(name, files))
        files = beside(bundle) if files is None else files
        files = functools.lru_cache(maxsize=None)(files) if callable(files) else gathered(files)
        file = files(name) if callable(files) else files.get(name)
        if file is None and bundle is not None:
            file = bundle.file(name)
        if file is not None:
            return cls(loaded(file, files, bundle, most, opened=name))
        handle = Handle()
        with held(None) as over:
            status = checked(library.hayro_cmap_open(handle, name, len(name), over, File(), 0, most))
        if status != OK:
            raise no_file(name) if status == ABSENT else past_budget(name)
        return cls(handle)

    @classmethod
    def identity(cls, vertical: bool = False) -> "CMap":
        """The predefined CMap Identity-H, or Identity-V if `vertical` is true: codes of two bytes are CIDs."""
        handle = Handle()
        checked(library.hayro_cmap_identity(handle, bool(vertical)))
        return cls(handle)

    def decode(self, text: Buffer) -> List[Code]:
        """The codes of a string, in order (ISO 32000-1, 9.7.6.2)."""
        text = bytes_of(text)
        codes, made, taken = (CodeInString * (len(text) + 1))(), c_size_t(), c_size_t()
        self._ask(library.hayro_cmap_decode, text, len(text), codes, len(codes), made, taken)
        found = string_at(codes, made.value * CODE.size)
        return list(itertools.starmap(code_of_fields, CODE.iter_unpack(found)))

    def cid(self, code: int, byte_len: int) -> Optional[int]:
        """The CID of a code of `byte_len` bytes, or None. Codespace ranges are ignored."""
        return self._cid(library.hayro_cmap_cid, code, byte_len)

    def cid_strict(self, code: int, byte_len: int) -> Optional[int]:
        """The CID of a code of `byte_len` bytes that lies in a codespace range of this length, or None."""
        return self._cid(library.hayro_cmap_cid_strict, code, byte_len)

    def _cid(self, call, code, byte_len):
        cid = c_uint32()
        has_cid = self._ask(call, code_number(code), code_length(byte_len), cid)
        return cid.value if has_cid else None

    def cids(self, first: int, count: int, byte_len: int) -> List[Optional[int]]:
        """The results of `cid` for `count` consecutive codes from `first` on."""
        first, byte_len = code_number(first), code_length(byte_len)
        count = number(count, 0, 2**32 - first, "the number of codes")
        one, other = (self._row(first, count, byte_len, absent) for absent in (0, 1))
        return [cid if cid == same else None for cid, same in zip(one, other)]

    def _row(self, first, count, byte_len, absent):
        """The CIDs of consecutive codes, with `absent` for a code without a CID."""
        row = (c_uint32 * (count + 1))()
        self._ask(library.hayro_cmap_cids, first, byte_len, absent, row, count)
        return row[:count]

    def text(self, code: int) -> Optional[str]:
        """The Unicode text of a code, or None."""
        text = self._put(library.hayro_cmap_text, code_number(code))
        return None if text is None else text.decode()

    def codes_of_cid(self, cid: int, byte_len: int) -> List[CodeRange]:
        """All codes to which `cid` gives this CID for `byte_len` bytes, as ranges in order, each as long as possible.
        They include declared codes that don't fit in `byte_len` bytes."""
        codes = self._listed(library.hayro_cmap_codes_of_cid, CodesInRow, cid_number(cid), code_length(byte_len))
        return [CodeRange(it.first, it.last) for it in codes]

    def lint(self, text: Buffer = b"", to_unicode: bool = False, shown: Iterable[int] = ()) -> List[Finding]:
        """The warnings of `cmap check --lint` about the file of the map, in the same order, each at most once, except
        the warning about the name of the file.

        `text` is the file, if it is a text. Without it, there are no warnings about the spelling of a text.
        `to_unicode` declares that the map is a ToUnicode CMap. `shown` has the numbers of the codes that are shown with
        the font; a finding counts the shown codes that it concerns. A declaration concerns the codes between its ends
        (`no-text` only the codes without a text), a string the codes of its entry.
        """
        text, (codes, count) = bytes_of(text), shown_codes(shown)
        found = self._listed(library.hayro_cmap_lint, Found, text, len(text), bool(to_unicode), codes, count)
        return [finding_of(it) for it in found]

    def write(self, codes: Optional[Iterable[Union[Buffer, Code]]] = None) -> bytes:
        """The text of a single CMap file, which uses no other file and has the answers of the map for each code.

        With `codes`, it has answers for these codes only, each a bytes object of one to four bytes or a code of
        `decode`: `cmap.write(cmap.decode(string))` is for the codes of a string. Codespace ranges stay.

        Raises NotWritable if no single file has these answers, for example if a code has a text but no CID in one
        layer, and a CID in a lower layer.
        """
        table = chosen(() if codes is None else codes)
        count = 0 if codes is None else len(table)
        text = self._put(library.hayro_cmap_write, table, count, room_len=TEXT_ROOM)
        if text is None:
            raise NotWritable("no single CMap file has the answers of the map")
        return text

    def collection(
        self, files: Optional[Files] = None, bundle: Optional[Bundle] = None, name: Optional[Name] = None
    ) -> Optional["CMap"]:
        """The map from the CIDs of the character collection to Unicode, such as Adobe-Japan1-UCS2 (ISO 32000-1,
        9.10.2).

        `name` is the collection, such as Adobe-Japan1; by default, the first layer with a collection gives it. None if
        no layer has a collection, or no file has the name of the map. `files` and `bundle` are the same as for `open`.
        """
        named = self._collection_name(name)
        return None if named is None else opened_or_none(named + b"-UCS2", files, bundle)

    def unicode(
        self, files: Optional[Files] = None, bundle: Optional[Bundle] = None, name: Optional[Name] = None
    ) -> Optional["CMap"]:
        """The map from Unicode to the CIDs of the character collection, such as UniJIS-UTF16-H, or UniJIS-UTF16-V if
        the file gives vertical writing. If the file's own name begins with Uni, another handle of this map.

        None if the collection has no such map: only Adobe's collections Japan1, GB1, CNS1, Korea1, KR and Japan2 have
        one. The parameters are the same as for `collection`.
        """
        it = self.metadata
        if it.name is not None and it.name.startswith(b"Uni"):
            return self.share()
        named = self._collection_name(name)
        asked = None if named is None else unicode_name(named, it.writing_mode or WritingMode.HORIZONTAL)
        return None if asked is None else opened_or_none(asked, files, bundle)

    def _collection_name(self, name: Optional[Name]) -> Optional[bytes]:
        """The name of the character collection, such as Adobe-Japan1: `name` if it is given."""
        if name is not None:
            return name_of(name)
        said = (layer.metadata for layer in self.layers)
        found = ((it.registry, it.ordering) for it in said if it.registry is not None and it.ordering is not None)
        return next((b"%b-%b" % it for it in found), None)

    @property
    def metadata(self) -> Metadata:
        """The metadata of the file, which is layer 0."""
        return self._metadata(0)

    @property
    def effective_writing_mode(self) -> WritingMode:
        """The writing mode of a font's strings, from the first layer that gives it; otherwise horizontal."""
        return self._first_writing_mode() or WritingMode.HORIZONTAL

    def __repr__(self) -> str:
        if self._handle is None:
            return "<CMap, closed>"
        return f"<CMap {self.metadata.name!r}, layers: {self._ask(library.hayro_cmap_layers)}>"

    @property
    def layers(self) -> List[Layer]:
        """The layers, 1 to 16: the file itself, then the file that it is based on, and so on."""
        count = self._ask(library.hayro_cmap_layers)
        return [Layer(self, index) for index in range(count)]

    def texts(self, codespaces: Optional[Iterable[Codespace]] = None) -> List[TextRun]:
        """The texts of all codes, over all layers, with the results of `text`, as runs in the order of the codes.

        The runs are disjoint. A text belongs to the number of a code. `codespaces`, by default all codespace ranges of
        the map, give the length of the code: it is the length of the shortest range that contains the code, otherwise
        the fewest bytes in which the code fits, but at least the length of the shortest codes.
        """
        return list(self._text_runs(codespaces))

    def items(self, codespaces: Optional[Iterable[Codespace]] = None) -> Iterator[Tuple[bytes, str]]:
        """Each code with a text: its bytes, with the length that `texts` gives it, and the text. `dict(cmap.items())`
        has all texts of a map."""
        return (
            (code.to_bytes(run.byte_len, "big"), text_at(run.text, code - run.first))
            for run in self.texts(codespaces)
            for code in range(run.first, run.last + 1)
        )

    def texts_by_code(self, last: int = MOST_BY_CODE) -> Dict[int, str]:
        """The texts of the codes up to `last`, by the numbers of the codes, with the results of `text`.

        At most `last` + 1 codes are looked up, by default all codes of two bytes: a file of a few bytes may give each
        of 2^32 codes a text.
        """
        from ._by_code import texts_by_code

        return texts_by_code(self, code_number(last))

    def _text_runs(self, codespaces: Optional[Iterable[Codespace]]) -> Iterator[TextRun]:
        """The runs of `texts`, computed lazily."""
        given = None if codespaces is None else [codespace_of(it) for it in codespaces]
        return effective(self._deciding_texts(), self._all_codespaces() if given is None else given)

    def _text_rows(self) -> Iterator[TextRow]:
        """The texts of all codes, without the lengths of the codes."""
        return text_rows(self._deciding_texts())

    def _deciding_texts(self) -> List[TextRange]:
        """The declarations of texts of all layers. The first declaration that contains a code decides."""
        return [it for layer in self.layers for it in reversed(layer.texts)]

    def _put(self, call, *arguments, **options):
        """The bytes that a call on the map writes to a buffer, or None."""
        with self._held() as handle:
            return put(call, handle, *arguments, **options)

    def _metadata(self, layer):
        supplement = c_int32()
        has_supplement = self._ask(library.hayro_cmap_layer_supplement, layer, supplement)
        return Metadata(
            name=self._put(library.hayro_cmap_layer_name, layer),
            registry=self._put(library.hayro_cmap_layer_registry, layer),
            ordering=self._put(library.hayro_cmap_layer_ordering, layer),
            supplement=supplement.value if has_supplement else None,
            writing_mode=self._writing_mode(layer),
        )

    def _writing_mode(self, layer):
        mode = self._ask(library.hayro_cmap_layer_writing_mode, layer)
        return None if mode == NO_MODE else WritingMode(mode)

    def _first_writing_mode(self) -> Optional[WritingMode]:
        """The writing mode of the first layer that gives it."""
        modes = map(self._writing_mode, range(self._ask(library.hayro_cmap_layers)))
        return next((it for it in modes if it is not None), None)

    def _all_codespaces(self) -> List[Codespace]:
        """The codespace ranges of all layers."""
        return [it for layer in range(self._ask(library.hayro_cmap_layers)) for it in self._codespaces(layer)]

    def _codespaces(self, layer):
        ranges = self._listed(library.hayro_cmap_codespaces, CodespaceRange, layer)
        return [Codespace(it.low, it.high, it.byte_len) for it in ranges]

    def _declared_codes(self) -> List[Tuple[int, int]]:
        """The first and the last code of each declaration of texts, layer by layer."""
        found: List[Tuple[int, int]] = []
        for layer in range(self._ask(library.hayro_cmap_layers)):
            room, count = self._filled(library.hayro_cmap_text_ranges, DeclaredTexts, layer)
            rows = DECLARED.iter_unpack(string_at(room, count * DECLARED.size))
            found += [(first, last) for first, last, _ in rows]
        return found

    def _listed(self, call, kind, *arguments):
        """The values of this type that a call on the map writes to a buffer; none if it has no answer."""
        room, count = self._filled(call, kind, *arguments)
        return room[:count]

    def _filled(self, call, kind, *arguments):
        """The buffer, and the number of values in it."""
        needed, status = c_size_t(16), NO_ROOM
        while status == NO_ROOM:
            room = (kind * needed.value)()
            status = checked(self._ask(call, *arguments, room, len(room), needed))
        return room, needed.value if status == OK else 0


@functools.lru_cache(maxsize=KEPT_CODES)
def code_of_fields(code, cid, byte_len, in_codespace, has_cid, cut_short):
    """The code with the fields of a hayro_cmap_code."""
    return Code(code, byte_len, cid if has_cid else None, bool(in_codespace), bool(cut_short))


def codespace_of(given):
    """A codespace range from three integers."""
    low, high, byte_len = given
    most = 256 ** code_length(byte_len) - 1
    return Codespace(number(low, 0, most, "the low code"), number(high, 0, most, "the high code"), byte_len)


def unicode_name(collection: bytes, mode: WritingMode) -> Optional[bytes]:
    """The name of the CMap from Unicode to the CIDs of a character collection, such as Adobe-Japan1, or None."""
    return put(library.hayro_cmap_unicode_name, collection, len(collection), mode)


def opened_or_none(name, files, bundle):
    """The map of the file with a name; None if there is no such file."""
    try:
        return CMap.open(name, files, bundle)
    except Refused as refused:
        if refused.cause == Cause.NO_FILE and refused.names == (name,):
            return None
        raise


def chosen(codes):
    """The codes as an array. For the library, an empty array means all codes, so the first entry is an empty range."""
    numbers = [code_of_bytes(bytes(code) if isinstance(code, Code) else bytes_of(code)) for code in codes]
    entries = (ChosenCodes(code, code, byte_len) for code, byte_len in numbers)
    return (ChosenCodes * (len(numbers) + 1))(ChosenCodes(1, 0, 1), *entries)


class Salvaged(NamedTuple):
    """The map of a file that is read past its faults, and these faults."""

    cmap: CMap
    #: The faults of a file, in the order of their offsets, precede the faults of the files that it uses.
    faults: List[Refused]
