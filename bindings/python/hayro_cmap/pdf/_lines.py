"""Lines and words from the places of the strings that a page shows.

Strings stay in the order of the content. A string continues the line if it begins near the line of the previous string.
A gap between two strings that is wide for their size becomes a space. Text from right to left that is shown from left
to right is reversed.
"""

import enum
import unicodedata
from typing import Iterable, Iterator, List, NamedTuple, Optional, Sequence, Tuple

from ._interpreter import BLANK, WIDE, Piece, Place
from ._measured import is_right_to_left

#: The maximum distance from the line for a string on the line, such as a raised string, in sizes of the smaller font.
RAISED = 0.7

#: The maximum distance back for a string that continues the line, such as an accent, in sizes of the larger font.
BACK = 0.5

#: The maximum gap between consecutive strings from right to left, in sizes of the larger font.
FAR = 3.0

#: Directions count as equal if the cosine of the angle between them is at least this.
SAME_DIRECTION = 0.95

#: The distance between characters of vertical text in a font for horizontal text, in sizes of the larger font.
BELOW = (0.9, 1.15)

#: The distance between the end of an accent or a letter and the start of its counterpart, in sizes of the smaller font.
OVER = (0.15, 1.0)

#: Spacing accents, and the combining marks that replace them.
COMBINING = {
    "`": "\u0300",
    "\u00b4": "\u0301",
    "\u02c6": "\u0302",
    "^": "\u0302",
    "\u02dc": "\u0303",
    "~": "\u0303",
    "\u00af": "\u0304",
    "\u02d8": "\u0306",
    "\u02d9": "\u0307",
    "\u00a8": "\u0308",
    "\u02da": "\u030a",
    "\u02dd": "\u030b",
    "\u02c7": "\u030c",
    "\u00b8": "\u0327",
    "\u02db": "\u0328",
}

#: Dotless letters, which accents use, and the usual letters.
DOTLESS = {"\u0131": "i", "\u0237": "j"}

#: Punctuation at the end of a sentence or a clause.
ENDS = ".,:;!?\u060c\u061b\u061f\u06d4"

#: Separators between strings.
NOTHING, LINE_END = "", "\n"

#: The direction of a text: from right to left, from left to right, a number (from left to right also within text from
#: right to left), or the direction of the texts around it.
RIGHT, LEFT, NUMBER, NEUTRAL = "right", "left", "number", "neutral"


class Flow(enum.Enum):
    """The position of a string relative to the previous string on its line: after it, left of it, or elsewhere."""

    AFTER = "after"
    LEFT = "left"
    ELSEWHERE = "elsewhere"


class Gap(NamedTuple):
    """The gap between two strings."""

    separator: str
    flow: Flow = Flow.AFTER


#: The most frequent gaps.
NO_GAP, BLANK_GAP, END = Gap(NOTHING), Gap(BLANK), Gap(LINE_END)


def gap(before: Piece, piece: Piece, flow: Flow = Flow.AFTER) -> Gap:
    """The gap between a string and the next string. `flow` is the position of the first string."""
    first, second = before.place, piece.place
    if first is None or second is None:
        return NO_GAP
    size = max(first.size, second.size)
    along, across = distance(first, first.end_x, first.end_y, second.x, second.y)
    is_turned = first.along_x * second.along_x + first.along_y * second.along_y < SAME_DIRECTION
    if is_turned or abs(across) > RAISED * min(first.size, second.size):
        is_near = is_turned and max(abs(along), abs(across)) < BACK * size
        return NO_GAP if is_near or is_below(before, piece) else END
    if flow is Flow.LEFT or before.is_right_to_left or piece.is_right_to_left:
        left, _ = distance(first, second.end_x, second.end_y, first.x, first.y)
        if left < FAR * size and (abs(left) < abs(along) or flow is Flow.LEFT and left == along):
            return Gap(BLANK if left > WIDE * size else NOTHING, Flow.LEFT)
    if along < -BACK * size:
        return END
    if along < FAR * size:
        return BLANK_GAP if along > WIDE * size else NO_GAP
    return Gap(BLANK if along > WIDE * size else NOTHING, Flow.ELSEWHERE)


def distance(line: Place, x: float, y: float, other_x: float, other_y: float) -> Tuple[float, float]:
    """The distance of another point from a point, along a line and across it."""
    right, up = other_x - x, other_y - y
    return right * line.along_x + up * line.along_y, up * line.along_x - right * line.along_y


def is_mark_on(before: Piece, piece: Piece) -> bool:
    """Whether a string has only combining marks, and is shown near the previous string."""
    first, second, text = before.place, piece.place, text_of(piece)
    # no ASCII character is a combining mark
    if text.isascii() or first is None or second is None or not all(map(unicodedata.combining, text)):
        return False
    along, across = distance(first, first.end_x, first.end_y, second.x, second.y)
    return max(abs(along), abs(across)) < max(first.size, second.size)


def overlaps(before: Piece, piece: Piece) -> bool:
    """Whether a string begins above the last code of the previous string."""
    first, second = before.place, piece.place
    if first is None or second is None:
        return False
    along, across = distance(first, first.end_x, first.end_y, second.x, second.y)
    size = min(first.size, second.size)
    return -OVER[1] * size < along < -OVER[0] * size and abs(across) < size


def is_below(before: Piece, piece: Piece) -> bool:
    """Whether two wide characters are shown one below the other, as in vertical text."""
    first, second = before.place, piece.place
    if first is None or second is None or len(before.texts) != 1 or len(piece.texts) != 1:
        return False
    along, across = distance(first, first.x, first.y, second.x, second.y)
    size = max(first.size, second.size)
    return (
        BELOW[0] * size <= -across <= BELOW[1] * size
        and abs(along) < BACK * size
        and is_wide(text_of(before))
        and is_wide(text_of(piece))
    )


def is_wide(text: str) -> bool:
    """Whether a text begins with a wide or fullwidth character (Unicode Standard Annex 11)."""
    return unicodedata.east_asian_width(text[:1] or " ") in "WF"


def text_of(piece: Piece) -> str:
    """The text of a string."""
    return piece.span.text if piece.span is not None else "".join(piece.texts)


class Part(NamedTuple):
    """A string in a line: the gap before it, and its texts."""

    gap: Gap
    texts: Sequence[str]


class Lines:
    """Takes strings in order, and returns the lines that they form."""

    def __init__(self) -> None:
        self._before: Optional[Piece] = None
        self._parts: List[Part] = []
        self._has_right_to_left = False

    def add(self, piece: Piece) -> Optional[str]:
        """Takes a string. Returns the finished line if the string begins a new line."""
        before, line = self._before, None
        if not piece.texts:
            # a string without codes has no place
            return None
        if before is None:
            self._put(NO_GAP, piece)
        elif piece.span is not None and piece.span is before.span:
            # the line already has the replacement text
            self._before = piece
        else:
            found = gap(before, piece, self._parts[-1].gap.flow)
            if is_mark_on(before, piece):
                self._put(found._replace(separator=NOTHING), piece)
                # the next string continues the string before the mark
                self._before = before
            elif self._accents(before, piece):
                self._before = piece
            else:
                line = self.end() if found.separator == LINE_END else None
                self._put(found, piece)
        return line

    def _put(self, found: Gap, piece: Piece) -> None:
        """Appends a string to the line."""
        texts = piece.texts if piece.span is None else [piece.span.text]
        self._parts.append(Part(found, texts))
        self._has_right_to_left |= piece.is_right_to_left or piece.span is not None and is_right_to_left(texts[0])
        self._before = piece

    def _accents(self, before: Piece, piece: Piece) -> bool:
        """Appends a string that combines with the end of the line: an accent and a letter become the accented letter.
        False if they don't combine."""
        last = self._parts[-1]
        if piece.span is not None or not last.texts:
            return False
        if last.texts[-1] not in COMBINING and piece.texts[0] not in COMBINING:
            return False
        for accent, letter in [(last.texts[-1], piece.texts[0]), (piece.texts[0], last.texts[-1])]:
            if accent in COMBINING and letter.isalpha() and overlaps(before, piece):
                accented = unicodedata.normalize("NFC", DOTLESS.get(letter, letter) + COMBINING[accent])
                self._parts[-1] = last._replace(texts=[*last.texts[:-1], accented, *piece.texts[1:]])
                return True
        return False

    def end(self) -> Optional[str]:
        """Ends the line, and returns it; None if it is blank."""
        parts, self._parts, self._before = self._parts, [], None
        is_turned, self._has_right_to_left = self._has_right_to_left, False
        line = "".join(turned(parts) if is_turned else units_of(parts))
        return line if line.strip() else None


def units_of(parts: Iterable[Part]) -> Iterator[str]:
    """The texts of the codes of a line. A wide gap gives a blank, unless it is next to a blank."""
    last = BLANK
    for (separator, _), texts in parts:
        if separator == BLANK and last[-1:] != BLANK and next(iter(texts), "")[:1] != BLANK:
            yield BLANK
        yield from texts
        last = texts[-1] if texts else last


def turned(parts: List[Part]) -> Iterator[str]:
    """The texts of a line with text from right to left, in reading order.

    Strings that are shown from right to left already have this order. Strings that are shown from left to right are
    reversed.
    """
    starts = [index for index, part in enumerate(parts) if part.gap.flow is not Flow.AFTER]
    rows = [list(units_of(parts[start:end])) for start, end in zip([0, *starts], [*starts, len(parts)])]
    is_base = is_from_right_to_left([unit for row in rows for unit in row if not unit.isspace()])
    for index, row in enumerate(rows):
        if index > 0 and parts[starts[index - 1]].gap.separator == BLANK:
            yield BLANK
        if is_base:
            row = turned_round(row)
        else:
            for run in runs(row, (RIGHT,), LEFT):
                row[run] = turned_round(row[run])
        yield from row


def is_from_right_to_left(units: List[str]) -> bool:
    """Whether a line with these texts, as shown, is read from right to left. The more frequent direction decides,
    unless the punctuation at the end of a sentence shows the direction."""
    for end, is_base in [(units[:1], True), (units[-1:], False)]:
        if end and end[0] in ENDS:
            return is_base
    classes = [class_of(unit) for unit in units]
    return classes.count(RIGHT) > classes.count(LEFT)


def turned_round(units: List[str]) -> List[str]:
    """Texts in reading order that are shown from left to right and read from right to left: the last text comes first,
    but texts that are written from left to right keep their order."""
    found = units[::-1]
    for run in runs(found, (LEFT, NUMBER), RIGHT):
        found[run] = found[run][::-1]
    return found


def runs(units: Sequence[str], kinds: Sequence[str], other: str) -> List[slice]:
    """The slices with texts of these kinds, each as long as no text of the other kind interrupts it."""
    found: List[slice] = []
    is_open = False
    for index, kind in enumerate(map(class_of, units)):
        if kind in kinds:
            found.append(slice(found.pop().start if is_open else index, index + 1))
            is_open = True
        elif kind == other:
            is_open = False
    return found


def class_of(text: str) -> str:
    """The direction of a text (Unicode Standard Annex 9, 3.2)."""
    classes = set(map(unicodedata.bidirectional, text))
    if classes & {"R", "AL"}:
        return RIGHT
    return LEFT if "L" in classes else NUMBER if classes & {"EN", "AN"} else NEUTRAL
