"""The text of each code of a map, from the declarations of all layers."""

import contextlib
import heapq
from typing import Dict, Iterable, Iterator, List, NamedTuple, Sequence, Tuple

from ._codespaces import PLACES, Codespaces

#: The ranges of the last unit of a text: without a high surrogate before the unit, and after a high surrogate.
SINGLE_UNITS = [(0x0000, 0xD7FF), (0xE000, 0xFFFF)]
LOW_SURROGATES = [(0xDC00, 0xDFFF)]


class TextRun(NamedTuple):
    """The consecutive codes from `first` to `last`, of `byte_len` bytes, which have texts."""

    first: int
    last: int
    #: The text of `first`. Its last unit of UTF-16 counts on from code to code.
    text: str
    byte_len: int


class TextRow(NamedTuple):
    """Consecutive codes of any length, which have texts. Each text is `start` and one more character. This character is
    `character` for the code `first`, and counts on from code to code."""

    first: int
    last: int
    start: str
    character: int


def effective(declared, codespaces) -> Iterator[TextRun]:
    """The texts of codes, in the order of the codes. The first declaration that contains a code decides."""
    lengths = Codespaces(codespaces)
    for row in text_rows(declared):
        for first, last, byte_len in by_length(row.first, row.last, lengths):
            yield TextRun(first, last, row.start + chr(row.character + first - row.first), byte_len)


def text_rows(declared) -> Iterator[TextRow]:
    """The same as rows. The rows of a declaration share the string `start`."""
    given = [it for it in declared if it.first <= it.last]
    made: Dict[int, List[TextRow]] = {}
    for start, end, index in decided(given):
        if index not in made:
            made[index] = rows_of(given[index])
        for row in made[index]:
            first, last = max(start, row.first), min(end, row.last)
            if first <= last:
                yield TextRow(first, last, row.start, row.character + first - row.first)


def decided(declared: Sequence) -> List[Tuple[int, int, int]]:
    """Ranges of codes: the first code, the last code, and the index of the declaration that decides for all of them."""
    order = iter(sorted(range(len(declared)), key=lambda index: declared[index].first))
    bounds = sorted({it.first for it in declared} | {it.last + 1 for it in declared})
    open_: List[int] = []
    rows: List[Tuple[int, int, int]] = []
    upcoming = next(order, None)
    for low, high in zip(bounds, bounds[1:]):
        while upcoming is not None and declared[upcoming].first == low:
            heapq.heappush(open_, upcoming)
            upcoming = next(order, None)
        while open_ and declared[open_[0]].last < low:
            heapq.heappop(open_)
        if open_:
            rows.append((low, high - 1, open_[0]))
    return joined(rows)


def joined(rows: Iterable[Tuple[int, int, int]]) -> List[Tuple[int, int, int]]:
    """Merges adjacent rows with the same third number."""
    found: List[Tuple[int, int, int]] = []
    for first, last, number in rows:
        if found and found[-1][2] == number and found[-1][1] + 1 == first:
            found[-1] = (found[-1][0], last, number)
        else:
            found.append((first, last, number))
    return found


def rows_of(declaration) -> List[TextRow]:
    """The rows of the codes to which a declaration gives texts."""
    units = declaration.text.encode("utf-16-be", "surrogatepass")
    if not units:
        return []
    unit = int.from_bytes(units[-2:], "big")
    start, ranges, character = last_units(units[:-2])
    # the sum of a unit and this is the code whose text ends with the unit
    further = declaration.first - unit
    found = [(max(declaration.first, low + further), min(declaration.last, high + further)) for low, high in ranges]
    return [TextRow(first, last, start, character + first - further) for first, last in found if first <= last]


def last_units(before: bytes) -> Tuple[str, List[Tuple[int, int]], int]:
    """How a text ends that has these units before its last unit: the characters before its last character, the ranges
    of possible last units, and the number to which the unit is added for the last character. There are no ranges if a
    surrogate stands alone."""
    with contextlib.suppress(UnicodeDecodeError):
        return before.decode("utf-16-be"), SINGLE_UNITS, 0
    high = int.from_bytes(before[-2:], "big")
    if 0xD800 <= high <= 0xDBFF:
        with contextlib.suppress(UnicodeDecodeError):
            return before[:-2].decode("utf-16-be"), LOW_SURROGATES, 0x10000 + (high - 0xD800 << 10) - 0xDC00
    return "", [], 0


def text_at(text: str, offset: int) -> str:
    """The text with the last unit increased by an offset."""
    units = text.encode("utf-16-be")
    return (units[:-2] + (int.from_bytes(units[-2:], "big") + offset).to_bytes(2, "big")).decode("utf-16-be")


def by_length(first: int, last: int, codespaces: Codespaces) -> List[Tuple[int, int, int]]:
    """The codes from `first` to `last` in parts, each with one length. A code has the length of the shortest codespace
    range that contains it, otherwise the fewest bytes in which it fits, but at least as many as the shortest codes."""
    lengths = codespaces.lengths or [1]
    if len(lengths) == 1 and last < 256 ** lengths[0]:
        return [(first, last, lengths[0])]
    return joined(
        part
        for start, end, byte_len in codespaces.parts(first, last)
        for part in ([(start, end, byte_len)] if byte_len else by_size(start, end, lengths[0]))
    )


def by_size(first: int, last: int, fewest: int) -> Iterator[Tuple[int, int, int]]:
    """The codes from `first` to `last` in parts, each with the fewest bytes in which its codes fit, at least
    `fewest`."""
    for byte_len in range(fewest, PLACES + 1):
        start, end = max(first, 256 ** (byte_len - 1) if byte_len > fewest else 0), min(last, 256**byte_len - 1)
        if start <= end:
            yield start, end, byte_len
