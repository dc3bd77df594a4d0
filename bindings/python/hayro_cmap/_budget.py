"""A limit on entries that fonts declare in few bytes: glyphs of ranges of codes, and widths of ranges of CIDs."""

import itertools
from typing import Iterable, Iterator, TypeVar

T = TypeVar("T")

#: The maximum number of entries that all fonts of a file have together.
MOST_OF_FONTS = 1 << 24


class Budget:
    """The number of entries that may still be read from the fonts of a file."""

    def __init__(self, left: int = MOST_OF_FONTS):
        self._left = left

    def allow(self, count: int) -> int:
        """How many of `count` entries may be read: at most the rest of the budget, which is reduced by them."""
        allowed = min(count, self._left)
        self._left -= allowed
        return allowed

    def take(self, entries: Iterable[T], most: int) -> Iterator[T]:
        """The first entries, at most `most`, until the budget is used up."""
        for it in itertools.islice(entries, most):
            if self._left == 0:
                return
            self._left -= 1
            yield it
