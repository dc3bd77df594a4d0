"""The widths of the glyphs of a font (ISO 32000-1, 9.2.4, 9.6.2, 9.7.4.3).

Widths are in thousandths of a unit of text space, before scaling by the font size. A malformed array gives defaults.
"""

import functools
import itertools
import re
from decimal import Decimal
from typing import TYPE_CHECKING, Any, Callable, Dict, Iterator, List, NamedTuple, Optional, Sequence, Tuple, Union

import pikepdf

from .._budget import Budget
from .._glyphs import Names
from .._programs import CIDS, glyphs_of_codes
from ._metrics import (
    COURIERS,
    HELVETICA,
    HELVETICA_BOLD,
    SYMBOL,
    TIMES,
    TIMES_BOLD,
    TIMES_BOLD_ITALIC,
    TIMES_ITALIC,
    ZAPF_DINGBATS,
)
from ._objects import MALFORMED, dictionary_at, integer_at

if TYPE_CHECKING:
    from ._fonts import Font

#: The width of a CID that isn't in the arrays of a font.
DEFAULT_OF_CID = 1000.0

#: The widths in a simple font without other information: with the flag for a fixed pitch, and without it.
DEFAULT_OF_FIXED_PITCH = 600.0
DEFAULT_OF_CODE = 500.0

#: The flag of a font descriptor for glyphs with equal widths (ISO 32000-1, 9.8.2).
FIXED_PITCH = 1 << 0

#: The scale of the glyphs of a Type 3 font without a matrix.
THOUSANDTH = 0.001

#: The maximum number of widths from an array of a CIDFont. A repeated width counts each time.
MOST_WIDTHS = 1 << 18

#: The largest number that is accepted as a width.
LARGEST = 1e6

#: The value in place of an invalid CID.
NO_CID = -1

#: An element of an array: a number, an array, or None for anything else.
Value = Union[None, float, List[Any]]

#: The written form of an array of direct numbers; of an array that also has arrays of direct numbers; and of a part of
#: it, which is an array, or the numbers between arrays.
NUMBERS = re.compile(rb"\[[-+.0-9 ]*\]")
PLAIN = re.compile(rb"\[[-+.0-9 ]*(?:\[[-+.0-9 ]*\][-+.0-9 ]*)*\]")
RUN = re.compile(rb"\[([^\[\]]*)\]|([^\[\]]+)")

#: The widths of standard fonts. A font has the widths of the first row with words that are all in its name.
STANDARD_FONTS: List[Tuple[Tuple[str, ...], Dict[str, int]]] = [
    (("Courier",), COURIERS),
    (("Symbol",), SYMBOL),
    (("Dingbats",), ZAPF_DINGBATS),
    (("Times", "Bold", "Italic"), TIMES_BOLD_ITALIC),
    (("Times", "Bold"), TIMES_BOLD),
    (("Times", "Italic"), TIMES_ITALIC),
    (("Times",), TIMES),
    (("Helvetica", "Bold"), HELVETICA_BOLD),
    (("Helvetica",), HELVETICA),
    (("Arial", "Bold"), HELVETICA_BOLD),
    (("Arial",), HELVETICA),
]


class Vertical(NamedTuple):
    """The position of a glyph in vertical writing (ISO 32000-1, 9.7.4.3), in thousandths of a unit of text space."""

    #: The displacement of the next glyph. A negative number is down.
    advance: float
    #: The origin for vertical writing, relative to the origin for horizontal writing.
    x: float
    y: float


#: The default of the entry DW2: y of the origin, and the advance.
DEFAULT_VERTICAL = (880.0, -1000.0)


class Widths:
    """The widths of the glyphs of a font. `missing` gives the width of codes with None in the table. It is called at
    most once, while the file is open."""

    def __init__(
        self,
        table: Sequence[Optional[float]],
        by_cid: Dict[int, float],
        default: float,
        verticals: Optional[Dict[int, Vertical]] = None,
        vertical_default: Tuple[float, float] = DEFAULT_VERTICAL,
        missing: Callable[[], float] = float,
    ):
        self._table, self._missing_of = table, missing
        #: The widths of CIDs of a composite font, and the width of all other CIDs.
        self.by_cid = by_cid
        self.default = default
        #: Whether strings are written from the top down.
        self.is_vertical = verticals is not None
        self._verticals = verticals or {}
        self._vertical_default = vertical_default

    @classmethod
    def of(cls, font: "Font") -> "Widths":
        """The widths of a font."""
        if not font.is_composite:
            scale = scale_of(font)
            # this holds no reference to the font, which would be a cycle
            missing = functools.partial(missing_width, font.dictionary, scale)
            return cls(simple_widths(font, scale), {}, DEFAULT_OF_CODE, missing=missing)
        descendant = pikepdf.Dictionary() if font.descendant is None else font.descendant
        default = number_at(descendant, "/DW", DEFAULT_OF_CID)
        by_cid = widths_of_cids(descendant, font.budget)
        if not font.is_vertical:
            return cls([], by_cid, default)
        verticals = verticals_of_cids(descendant, font.budget)
        return cls([], by_cid, default, verticals, pair_of(descendant.get("/DW2"), DEFAULT_VERTICAL))

    @functools.cached_property
    def _missing(self) -> float:
        """The width of a code with None in the table. Few fonts show such a code."""
        return self._missing_of()

    @property
    def table(self) -> List[float]:
        """The widths of the codes 0 to 255 of a simple font; empty for a composite font."""
        return [self._missing if it is None else it for it in self._table]

    def advance(self, code: int, cid: Optional[int] = None) -> float:
        """The width of the glyph of a code, or of a CID in a composite font, for horizontal writing. A code without a
        CID has CID 0."""
        if self._table:
            width = self._table[code] if code < len(self._table) else self.default
            return self._missing if width is None else width
        return self.by_cid.get(cid or 0, self.default)

    def vertical(self, cid: Optional[int]) -> Vertical:
        """The position of the glyph of a CID of a composite font in vertical writing."""
        found = self._verticals.get(cid or 0)
        if found is not None:
            return found
        y, advance = self._vertical_default
        return Vertical(advance, self.by_cid.get(cid or 0, self.default) / 2, y)


def simple_widths(font: "Font", scale: float) -> Sequence[Optional[float]]:
    """The widths of the codes 0 to 255 of a simple font, from its array Widths, otherwise from its program, otherwise
    from the standard font with its name. None stands for the missing width."""
    return given_widths(font, scale) or program_widths(font) or standard_widths(font)


def given_widths(font: "Font", scale: float) -> List[Optional[float]]:
    """The widths of the codes 0 to 255 from the array Widths of a simple font, with None for a code that isn't in the
    array; empty if the array has no number."""
    given = numbers(font.dictionary.get("/Widths"))
    if given.count(None) == len(given):
        return []
    first = integer_at(font.dictionary, "/FirstChar")
    row = given[max(-first, 0) : max(256 - first, 0)]
    if scale != 1:
        row = [None if it is None else scale * it for it in row]
    table: List[Optional[float]] = [None] * 256
    table[max(first, 0) : max(first, 0) + len(row)] = row
    return table


def missing_width(font: pikepdf.Dictionary, scale: float) -> float:
    """The width of the codes of a simple font that aren't in its array Widths (ISO 32000-1, 9.8.1)."""
    return scale * number_at(dictionary_at(font, "/FontDescriptor"), "/MissingWidth", 0.0)


def program_widths(font: "Font") -> List[float]:
    """The widths of the codes 0 to 255 from the embedded TrueType or OpenType program of a font; empty without one."""
    advances = font.program.sfnt.advances()
    if not advances:
        return []
    glyphs = glyphs_of_codes(font.names_in_program, font.program)
    return [advances[min(glyph, len(advances) - 1)] for glyph in glyphs]


def standard_widths(font: "Font") -> List[float]:
    """The widths of the codes 0 to 255 by their glyph names, if the name of the font is the name of a standard font, or
    of a font with the same widths; otherwise a default for all codes."""
    base_font = font.base_font or ""
    is_fixed = integer_at(dictionary_at(font.dictionary, "/FontDescriptor"), "/Flags") & FIXED_PITCH
    default = DEFAULT_OF_FIXED_PITCH if is_fixed else DEFAULT_OF_CODE
    base_font = base_font.replace("Oblique", "Italic")
    of_names = next((widths for words, widths in STANDARD_FONTS if all(it in base_font for it in words)), {})
    names: Names = font.glyph_names
    return [default if name is None else float(of_names.get(name, default)) for name in names]


def scale_of(font: "Font") -> float:
    """The unit of widths, in thousandths of a unit of text space. The matrix of a Type 3 font gives it (ISO 32000-1,
    9.6.5)."""
    if font.subtype != "Type3":
        return 1.0
    matrix = numbers(font.dictionary.get("/FontMatrix"))
    return 1000 * (matrix[0] if matrix and matrix[0] is not None else THOUSANDTH)


def widths_of_cids(descendant: pikepdf.Dictionary, budget: Budget) -> Dict[int, float]:
    """The widths of the CIDs in the array W of a CIDFont."""
    found: Dict[int, float] = {}
    for first, row in runs_of(descendant.get("/W"), 1, budget):
        widths = zip(range(first, CIDS), row)
        if first < 0 or not are_widths(row):
            widths = ((cid, width) for cid, width in widths if cid >= 0 and is_width(width))
        found.update(widths)
    return found


def verticals_of_cids(descendant: pikepdf.Dictionary, budget: Budget) -> Dict[int, Vertical]:
    """The positions of the CIDs in the array W2 of a CIDFont, for vertical writing."""
    found: Dict[int, Vertical] = {}
    size = len(Vertical._fields)
    for first, row in runs_of(descendant.get("/W2"), size, budget):
        for cid, at in enumerate(range(0, len(row), size), first):
            if 0 <= cid < CIDS and all(map(is_width, row[at : at + size])):
                found[cid] = Vertical(*row[at : at + size])
    return found


def runs_of(listed: Any, size: int, budget: Budget) -> Iterator[Tuple[int, List[Value]]]:
    """The first CID of each run of CIDs in an array W or W2, and the numbers of the run, `size` numbers for each CID.

    A first CID is followed by an array with the numbers of consecutive CIDs, or by the last CID and numbers that apply
    to each CID.
    """
    values, left = iter(values_of(listed)), MOST_WIDTHS
    for first in values:
        cid, second = cid_of(first), next(values, None)
        if isinstance(second, list):
            count = budget.allow(min(len(second) // size, left))
            yield cid, second[: count * size]
        else:
            row, cid = list(itertools.islice(values, size)), max(cid, 0)
            count = budget.allow(min(max(min(cid_of(second), CIDS - 1) + 1 - cid, 0), left))
            yield cid, row * count if len(row) == size else []
        left -= count


def cid_of(value: Value) -> int:
    """The CID with a number; `NO_CID` for any other value."""
    return int(min(value, CIDS)) if isinstance(value, float) else NO_CID


def values_of(listed: Any) -> List[Value]:
    """The elements of an array, with None for an element that is neither a number nor an array; empty for any other
    object."""
    try:
        if not isinstance(listed, pikepdf.Array):
            return []
        written = listed.unparse(resolved=True)
        if NUMBERS.fullmatch(written):
            return list(map(float, written[1:-1].split()))
        if PLAIN.fullmatch(written):
            return values_in(written[1:-1])
        return [values_of(it) if isinstance(it, pikepdf.Array) else number(it) for it in list(listed)]
    except MALFORMED:
        return []


def values_in(written: bytes) -> List[Value]:
    """The numbers and arrays of numbers in these bytes. An object for each number would take longer."""
    found: List[Value] = []
    for array, row in RUN.findall(written):
        if row:
            found += map(float, row.split())
        else:
            found.append(list(map(float, array.split())))
    return found


def numbers(listed: Any) -> List[Optional[float]]:
    """The numbers of an array, with None for an element that isn't a number, or is too large."""
    found = values_of(listed)
    return found if are_widths(found) else [it if is_width(it) else None for it in found]


def is_width(value: Value) -> bool:
    """Whether a value is a number that isn't too large."""
    return isinstance(value, float) and abs(value) <= LARGEST


def are_widths(values: List[Value]) -> bool:
    """Whether all values are such numbers; False for an empty list. This is faster than a call for each value."""
    return set(map(type, values)) == {float} and -LARGEST <= min(values) and max(values) <= LARGEST


def pair_of(listed: Any, usual: Tuple[float, float]) -> Tuple[float, float]:
    """The two numbers of an array, with the usual number in place of an invalid number; the usual numbers for any other
    object."""
    found = numbers(listed)
    if len(found) != len(usual):
        return usual
    first, second = (other if it is None else it for it, other in zip(found, usual))
    return first, second


def number_at(dictionary: pikepdf.Object, key: str, default: float) -> float:
    """The number at a key; the default if there is no number, or it is too large."""
    found = number(dictionary.get(key))
    return found if is_width(found) else default


def number(value: Any) -> Optional[float]:
    """A number of a PDF file; None for anything else."""
    return float(value) if isinstance(value, (int, Decimal)) and not isinstance(value, bool) else None
