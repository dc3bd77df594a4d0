"""The codes of a font that may have texts."""

import bisect
from typing import Iterable, Iterator, List, Tuple

from ._codespaces import Codespaces

#: The first and the last number of a range.
Range = Tuple[int, int]


def candidates(encoding, to_unicode, collection) -> Iterator[bytes]:
    """Codes in codespace ranges of the encoding, in the order of their lengths, then of their bytes. They include all
    codes to which the maps give a text. Others may be among them: a later declaration may replace the one found here,
    and the bytes may begin with a shorter code."""
    layers = encoding.layers
    codespaces = [it for layer in layers for it in layer.codespaces]
    of_codes, of_cids = with_texts(to_unicode), with_texts(collection)
    for byte_len in sorted({it.byte_len for it in codespaces}):
        cids = [it for layer in layers for it in layer.cids if it.byte_len == byte_len]
        notdefs = [it for layer in layers for it in layer.notdefs if it.byte_len == byte_len]
        declared = [*counted(cids, of_cids), *same(notdefs, of_cids)]
        lying_in = Codespaces(it for it in codespaces if it.byte_len == byte_len)
        for first, last in union([*of_codes, *declared]):
            for code in codes_in(first, min(last, 256**byte_len - 1), lying_in):
                yield code.to_bytes(byte_len, "big")


def with_texts(cmap) -> List[Range]:
    """The codes in declarations of texts. The last unit of a text counts on over at most 65,536 codes."""
    return union((first, min(last, first + 0xFFFF)) for first, last in cmap._declared_codes())


def union(ranges: Iterable[Range]) -> List[Range]:
    """The same numbers in order, in the fewest ranges."""
    found: List[Range] = []
    for first, last in sorted(ranges):
        if found and first <= found[-1][1] + 1:
            found[-1] = (found[-1][0], max(found[-1][1], last))
        elif first <= last:
            found.append((first, last))
    return found


def counted(cids, with_text: List[Range]) -> Iterator[Range]:
    """The codes to which declarations of CIDs give one of these CIDs."""
    lasts = [last for _, last in with_text]
    for it in cids:
        most = it.cid + it.last - it.first
        for first, last in with_text[bisect.bisect_left(lasts, it.cid) :]:
            if first > most:
                break
            yield it.first + max(first - it.cid, 0), it.first + min(last, most) - it.cid


def same(notdefs, with_text: List[Range]) -> Iterator[Range]:
    """The codes of notdefs with one of these CIDs."""
    firsts = [first for first, _ in with_text]
    for it in notdefs:
        before = bisect.bisect_right(firsts, it.cid)
        if before and it.cid <= with_text[before - 1][1]:
            yield it.first, it.last


def codes_in(first: int, last: int, codespaces: Codespaces) -> Iterator[int]:
    """The codes from `first` to `last` that lie in a codespace range."""
    for start, end, byte_len in codespaces.parts(first, last):
        if byte_len:
            yield from range(start, end + 1)
