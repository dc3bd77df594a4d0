"""All texts of a map, by the numbers of their codes."""

import array
import functools
import itertools
import sys
from typing import Dict, Iterator

from ._candidates import with_texts
from ._extractor import Extractor
from ._map import CMap
from ._reading import NO_FILES
from ._room import Room

#: A map in which all codes have four bytes.
NUMBERS = b"1 begincodespacerange <00000000> <FFFFFFFF> endcodespacerange"

#: The number of codes that are looked up together.
CHUNK = 4096


def texts_by_code(cmap: CMap, last: int) -> Dict[int, str]:
    """The texts of the codes up to `last`."""
    found: Dict[int, str] = {}
    codes = codes_up_to(cmap, last)
    with Extractor(numbers(), to_unicode=cmap, files=NO_FILES) as font:
        for chunk in iter(lambda: array.array("I", itertools.islice(codes, CHUNK)), array.array("I")):
            if sys.byteorder == "little":
                chunk.byteswap()
            for texts in font._parts(chunk.tobytes(), Room.texts_by_code):
                found.update(texts)
    return found


def codes_up_to(cmap: CMap, last: int) -> Iterator[int]:
    """The codes up to `last` in declarations of texts."""
    return itertools.chain.from_iterable(range(first, min(end, last) + 1) for first, end in with_texts(cmap))


@functools.lru_cache(maxsize=1)
def numbers() -> CMap:
    return CMap.parse(NUMBERS)
