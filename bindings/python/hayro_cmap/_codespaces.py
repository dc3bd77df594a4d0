"""The lengths of codes in bytes, by codespace ranges."""

import functools
from typing import Iterable, Iterator, List, Optional, Tuple

#: The maximum length of a code in bytes. Here, zeros precede shorter codes.
PLACES = 4

#: Consecutive codes: the first code, the last code, and the length of each in bytes.
Part = Tuple[int, int, int]


class Codespaces:
    """Codespace ranges. A code has the length of the shortest range that contains it (ISO 32000-1, 9.7.6.2).

    A set of ranges is an integer with a bit for each range. The shortest range has the lowest bit.
    """

    def __init__(self, codespaces: Iterable):
        self._given = {(it.byte_len, padded(it.low), padded(it.high)) for it in codespaces}
        #: The lengths of the ranges, also of empty ranges.
        self.lengths = sorted({byte_len for byte_len, _, _ in self._given})

    @functools.cached_property
    def _ranges(self) -> List[Tuple[int, bytes, bytes]]:
        """The ranges that aren't empty: the length, and the least and the greatest byte at each place."""
        return sorted(it for it in self._given if all(low <= high for low, high in zip(it[1], it[2])))

    @functools.cached_property
    def _allowing(self) -> List[List[Tuple[int, int]]]:
        """For each place and each byte: the ranges that allow the byte, and the last byte with the same ranges."""
        return [allowing([(low[place], high[place]) for _, low, high in self._ranges]) for place in range(PLACES)]

    @functools.cached_property
    def _whole(self) -> List[int]:
        """For each place, and for the end: the ranges that allow every byte from this place on."""
        rests = [(place, bytes(PLACES - place), b"\xff" * (PLACES - place)) for place in range(PLACES + 1)]
        return [
            set_of([low[place:] == least and high[place:] == most for _, low, high in self._ranges])
            for place, least, most in rests
        ]

    def parts(self, first: int, last: int) -> Iterator[Part]:
        """The codes from `first` to `last` in parts, each with one length. The length is 0 if no range contains
        them."""
        return self._parts(0, (1 << len(self._ranges)) - 1, first, last)

    def _parts(self, place: int, ranges: int, first: int, last: int) -> Iterator[Part]:
        """The same for codes with equal bytes before a place. Only these ranges allow these bytes."""
        shift = 8 * (PLACES - 1 - place)
        while first <= last:
            byte, row_end = first >> shift & 0xFF, first | (1 << shift) - 1
            allowed, same_to = self._allowing[place][byte]
            found = ranges & allowed
            length = self._length(found, place + 1)
            if length is None:
                end = min(last, row_end)
                yield from self._parts(place + 1, found, first, end)
            else:
                end = min(last, row_end + (same_to - byte << shift))
                yield first, end, length
            first = end + 1

    def _length(self, ranges: int, place: int) -> Optional[int]:
        """The length of the shortest of these ranges; 0 without ranges. None if the length depends on the bytes from
        this place on."""
        if not ranges:
            return 0
        shortest = self._ranges[lowest(ranges)][0]
        whole = ranges & self._whole[place]
        return shortest if whole and self._ranges[lowest(whole)][0] == shortest else None


def padded(code: int) -> bytes:
    """The bytes of a code, after leading zeros."""
    return code.to_bytes(PLACES, "big")


def lowest(bits: int) -> int:
    """The index of the lowest bit that is set."""
    return (bits & -bits).bit_length() - 1


def set_of(members: List[bool]) -> int:
    """The set of the indices whose value is true."""
    return int("".join("1" if it else "0" for it in reversed(members)) or "0", 2)


def allowing(pairs: List[Tuple[int, int]]) -> List[Tuple[int, int]]:
    """For each byte: the set of the pairs that enclose it, and the last byte with the same set."""
    changing: List[List[int]] = [[] for _ in range(0x101)]
    for index, (low, high) in enumerate(pairs):
        changing[low].append(index)
        changing[high + 1].append(index)
    edges = [byte for byte in range(0x100) if changing[byte] or byte == 0]
    bits, found = bytearray(len(pairs) // 8 + 1), []
    for edge, after in zip(edges, [*edges[1:], 0x100]):
        for index in changing[edge]:
            bits[index >> 3] ^= 1 << (index & 7)
        found += [(int.from_bytes(bits, "little"), after - 1)] * (after - edge)
    return found
