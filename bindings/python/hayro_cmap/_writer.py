"""Writing of CMap files from declarations."""

from typing import Iterable, List, Mapping, Optional, Tuple, Union

from ._effective import LOW_SURROGATES, SINGLE_UNITS
from ._faults import NotWritable
from ._library import CID_RANGE, CODESPACE_RANGE, NO_MODE, NOTDEF_RANGE, TEXT_RANGE, Declaration, Facts
from ._map import WritingMode
from ._owned import library, put
from ._values import Buffer, Name, cid_number, code_length, code_of, name_of, number

#: A code: its one to four bytes, or the number of these bytes.
CodeOf = Union[int, Buffer]

#: The registry, the ordering and the supplement of a character collection.
Collection = Tuple[Name, Name, int]

#: The initial size of the buffer of a file in bytes, and the addition for each declaration.
ROOM, ROOM_EACH = 1024, 32


class CMapWriter:
    """Makes a CMap file from declarations.

        writer = CMapWriter("Sample-H", collection=("Adobe", "Japan1", 6), writing_mode=WritingMode.HORIZONTAL)
        writer.codespace(b"\\x00", b"\\x80")
        writer.cid(b"\\x20", b"\\x7e", 1)
        data = writer.write()

    A declaration covers the codes from a first to a last code. A code is a bytes object of one to four bytes, or a
    number for a code of `code_len` bytes. If several declarations of a kind contain a code, the last declaration
    decides. Raises ValueError if the two codes have unequal lengths, or the last code precedes the first.

    The name, the registry and the ordering are bytes, or a str, which is encoded as UTF-8. None isn't written.
    """

    def __init__(
        self,
        name: Optional[Name] = None,
        collection: Optional[Collection] = None,
        writing_mode: Optional[WritingMode] = None,
        code_len: int = 2,
    ):
        self._name = name
        self._facts = facts_of(name, collection, writing_mode)
        self._code_len = code_length(code_len)
        self._declarations: List[Declaration] = []

    def __repr__(self) -> str:
        return f"<CMapWriter {self._name!r}, declarations: {len(self._declarations)}>"

    def codespace(self, first: CodeOf, last: CodeOf) -> None:
        """Adds a codespace range: codes of this length. Each byte lies between the bytes of both codes at its place."""
        self._declare(CODESPACE_RANGE, first, last)

    def cid(self, first: CodeOf, last: CodeOf, cid: int) -> None:
        """Adds CIDs: the first code has `cid`, and the CIDs count on from code to code."""
        self._declare(CID_RANGE, first, last, cid=cid)

    def notdef(self, first: CodeOf, last: CodeOf, cid: int) -> None:
        """Adds a notdef: `cid` is the CID of each code that has no other CID."""
        self._declare(NOTDEF_RANGE, first, last, cid=cid)

    def text(self, first: CodeOf, last: CodeOf, text: str) -> None:
        """Adds texts: the first code has `text`. Its last unit of UTF-16 counts on from code to code.

        Raises ValueError if the text is empty or has a lone surrogate, or if the last text isn't valid Unicode.
        """
        data = str.encode(text)
        if not data:
            raise ValueError("the text is empty")
        (low, _), (high, _) = (code_of(code, self._code_len) for code in (first, last))
        if high >= low and not counts_on(text, high - low):
            raise ValueError("the text of the last code isn't Unicode")
        self._declare(TEXT_RANGE, first, last, text=data)

    def __reduce__(self):
        raise TypeError("the writer can't be copied or pickled")

    def write(self) -> bytes:
        """The text of the file, with the fewest declarations that have the same effect.

        Raises NotWritable if the name has a byte that can't be part of a name, such as a blank.
        """
        table, count = (Declaration * (len(self._declarations) + 1))(*self._declarations), len(self._declarations)
        data = put(library.hayro_cmap_make, self._facts, table, count, room_len=ROOM + count * ROOM_EACH)
        if data is None:
            raise NotWritable("the name can't be written in a CMap file")
        return data

    def _declare(self, kind, first, last, cid=0, text=b""):
        (low, byte_len), (high, length) = (code_of(code, self._code_len) for code in (first, last))
        if byte_len != length:
            raise ValueError("the first and the last code have unequal lengths")
        if high < low:
            raise ValueError("the last code comes before the first")
        self._declarations.append(Declaration(kind, byte_len, low, high, cid_number(cid), text, len(text)))


def counts_on(text: str, further: int) -> bool:
    """Whether the last unit of a text in UTF-16 can increase by `further`: it stays a low surrogate, or on its side of
    the surrogates."""
    unit = int.from_bytes(text[-1].encode("utf-16-be")[-2:], "big")
    most = next(last for first, last in [*SINGLE_UNITS, *LOW_SURROGATES] if first <= unit <= last)
    return unit + further <= most


def facts_of(name, collection, writing_mode):
    """The metadata of a file in the library's form."""
    data = b"" if name is None else name_of(name)
    registry, ordering, supplement = ("", "", 0) if collection is None else collection
    registry, ordering = name_of(registry), name_of(ordering)
    return Facts(
        *(data, len(data), registry, len(registry), ordering, len(ordering)),
        supplement=number(supplement, -(2**31), 2**31 - 1, "the supplement"),
        has_name=name is not None,
        has_collection=collection is not None,
        writing_mode=NO_MODE if writing_mode is None else WritingMode(writing_mode),
    )


def to_unicode(
    texts: Union[Mapping[int, str], Mapping[bytes, str], Mapping[CodeOf, str]],
    code_len: int = 2,
    name: Optional[Name] = "Adobe-Identity-UCS",
    collection: Optional[Collection] = ("Adobe", "UCS", 0),
    codespaces: Optional[Iterable[Tuple[CodeOf, CodeOf]]] = None,
) -> bytes:
    """A ToUnicode CMap, which gives texts to the codes of a font in a PDF file (ISO 32000-1, 9.10.3).

        to_unicode({1: "A", 2: "ffi"})

    A code is a number for a code of `code_len` bytes, or a bytes object of one to four bytes. `codespaces` are pairs of
    the first and the last code of a range; by default, a single range has all codes of the length. Raises ValueError if
    codes have several lengths without `codespaces`, if a code lies in no range, or if two codes have the same number,
    since a text belongs to the number. CMapWriter raises more exceptions.
    """
    writer, codes = CMapWriter(name, collection, code_len=code_len), {}
    for code, text in texts.items():
        value, length = code_of(code, code_len)
        if value in codes:
            raise ValueError(f"the code {value:#x} has two texts")
        codes[value] = length
        writer.text(code, code, text)
    ranges = whole(set(codes.values()) or {code_len}) if codespaces is None else list(codespaces)
    for first, last in ranges:
        writer.codespace(first, last)
    if codespaces is not None:
        check_codes(codes, [(code_of(first, code_len), code_of(last, code_len)) for first, last in ranges])
    return writer.write()


def check_codes(codes: Mapping[int, int], ranges: List[Tuple[Tuple[int, int], Tuple[int, int]]]) -> None:
    """Raises ValueError if a code, a number with its length, lies in no codespace range."""
    bounds = [(low.to_bytes(length, "big"), high.to_bytes(length, "big")) for (low, length), (high, _) in ranges]
    for code, length in codes.items():
        data = code.to_bytes(length, "big")
        if not any(lies_in(data, low, high) for low, high in bounds):
            raise ValueError(f"the code {data.hex()} lies in no codespace range")


def lies_in(code: bytes, low: bytes, high: bytes) -> bool:
    """Whether a code lies in a codespace range: each byte lies between the bytes at its place (ISO 32000-1,
    9.7.6.2)."""
    return len(code) == len(low) and all(least <= it <= most for least, it, most in zip(low, code, high))


def whole(lengths):
    """The codespace range with all codes of the given length. Raises ValueError for several lengths."""
    if len(lengths) > 1:
        raise ValueError("codes have several lengths, and there are no codespace ranges")
    [length] = lengths
    return [(bytes(length), b"\xff" * length)]
