"""Limits on the time and the memory for a file."""

import math
import time
from typing import Iterable, Iterator, Optional, TypeVar

#: The default limit of the processor time for a file, in seconds.
SECONDS = 120

#: The limit of the memory of a process, in bytes.
MEMORY = 4 << 30

#: The message about a file that exceeds the memory limit.
NO_MEMORY = "it takes too much memory"

#: The C++ name of a failed allocation, which pikepdf may report with an exception other than MemoryError.
FAILED_ALLOCATION = "std::bad_alloc"

Item = TypeVar("Item")


class TooLong(Exception):
    """A file exceeds the time limit. It isn't a ValueError, so that code that skips malformed objects stops here."""


class Deadline:
    """A limit on the processor time of the thread that makes this object, in seconds; None for no limit."""

    def __init__(self, seconds: Optional[float] = SECONDS):
        self._seconds = seconds
        self._end = math.inf if seconds is None else time.thread_time() + seconds
        # processor time passes no faster than wall time, so the deadline isn't over before this
        self._soonest = time.monotonic() + (self._end - time.thread_time())

    def check(self) -> None:
        """Raises TooLong if the time is over. The check is cheap enough for each step of a loop."""
        if time.monotonic() < self._soonest:
            return
        left = self._end - time.thread_time()
        if left <= 0:
            raise TooLong(no_time(self._seconds))
        self._soonest = time.monotonic() + left

    def over(self, items: Iterable[Item]) -> Iterator[Item]:
        """The same items, with a check before each."""
        for item in items:
            self.check()
            yield item


def no_time(seconds: Optional[float]) -> str:
    """The message about a file that exceeds this time limit."""
    return f"it takes more than {seconds:g} seconds of processor time"


def is_memory(fault: BaseException) -> bool:
    """Whether an exception means that memory ran out."""
    return isinstance(fault, MemoryError) or FAILED_ALLOCATION in str(fault)
