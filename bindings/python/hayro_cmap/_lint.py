"""Warnings about an accepted file."""

import functools
from ctypes import c_uint32
from typing import Iterable, NamedTuple, Optional

from ._library import AT_CODE, AT_OFFSET, AT_RANGE, Found
from ._owned import library, put
from ._values import code_number


class Finding(NamedTuple):
    """A warning about a file, with the parts that it concerns."""

    #: The name of the warning, as `cmap check --lint` reports it.
    warning: str
    #: The number of codes, declarations, sections or strings that it concerns; 1 if it concerns the file.
    count: int
    #: The first code, or the first code of the first declaration; None for a warning about something else.
    first: Optional[int] = None
    #: The same code, or the last code of the first declaration.
    last: Optional[int] = None
    #: The length of these codes in bytes.
    byte_len: Optional[int] = None
    #: The offset of the first section or string, in bytes; None for a warning about something else.
    offset: Optional[int] = None
    #: The number of shown codes that it concerns, and the lowest of them.
    shown: int = 0
    first_shown: Optional[int] = None


def finding_of(found: Found) -> Finding:
    """The finding of a hayro_cmap_finding."""
    has_codes = found.place in (AT_CODE, AT_RANGE)
    return Finding(
        warning_name(found.warning),
        found.count,
        found.first if has_codes else None,
        found.last if has_codes else None,
        found.byte_len if has_codes else None,
        found.offset if found.place == AT_OFFSET else None,
        found.shown,
        found.first_shown if found.shown else None,
    )


@functools.lru_cache(maxsize=None)
def warning_name(warning: int) -> str:
    """The name of a warning, which is a hayro_cmap_warning."""
    return put(library.hayro_cmap_warning_name, warning).decode()


def shown_codes(codes: Iterable[int]):
    """The numbers of codes as an array, in ascending order, without duplicates. An extra item keeps it from being
    empty."""
    ordered = sorted({code_number(code) for code in codes})
    return (c_uint32 * (len(ordered) + 1))(*ordered), len(ordered)
