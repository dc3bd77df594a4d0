"""An interpreter for the content of a page: it finds the shown strings, each with its font and its place."""

import collections
import math
from typing import (
    Any,
    Callable,
    DefaultDict,
    Dict,
    Iterable,
    Iterator,
    List,
    NamedTuple,
    Optional,
    Sequence,
    Tuple,
    Union,
)

import pikepdf

from ._fonts import Font, resources_of
from ._measured import Measure, Measured
from ._objects import dictionary_at, name_at, named, object_number
from ._scan import Operand, Operator, actual_text, elements_of, last_name, last_string, numbers_in, operators

#: The maximum number of operators of a page that text may depend on. The operators of a form count each time that the
#: form is drawn.
MOST_STEPS = 5_000_000

#: The number of operators between two checks of the time.
STEPS_OF_CHECK = 1 << 10

#: The number of operators and operands that are read ahead, so that the codes of a font are looked up together.
AHEAD = 1 << 8

#: The maximum number of saved graphics states.
MOST_SAVED = 1 << 12

#: The number of named resources in the cache of a content.
MOST_NAMES = 1 << 16

#: The maximum depth of forms that draw each other.
MOST_NESTED = 64

#: The six numbers of a matrix (ISO 32000-1, 8.3.4).
Matrix = Tuple[float, float, float, float, float, float]
IDENTITY: Matrix = (1.0, 0.0, 0.0, 1.0, 0.0, 0.0)

#: The minimum width of a gap between two codes that becomes a blank, in font sizes. Lines that TeX justifies have
#: blanks of 0.16.
WIDE = 0.16
BLANK = " "

#: The unit of widths and of numbers in TJ, in font sizes.
THOUSANDTH = 0.001


class Span(NamedTuple):
    """Marked content with a replacement text (ISO 32000-1, 14.9.4), and its nesting depth."""

    text: str
    depth: int


class Place(NamedTuple):
    """The place of a string on a page: from the origin of its first code to the end of its last code."""

    x: float
    y: float
    end_x: float
    end_y: float
    #: The direction of its line, as a vector of length 1.
    along_x: float
    along_y: float
    #: The size of its font.
    size: float


class Piece(NamedTuple):
    """A shown string."""

    #: None if no font is chosen, or the chosen font doesn't exist.
    font: Optional[Font]
    string: bytes
    #: The marked content with a replacement text that contains it, or None.
    span: Optional[Span]
    #: The texts of its codes, whether a text is written from right to left, and its place. They are set only if strings
    #: are measured. A string without an extent has no place.
    texts: Sequence[str] = ()
    is_right_to_left: bool = False
    place: Optional[Place] = None


class State:
    """The state that `q` saves and `Q` restores: the matrix of the user space, and the text state (ISO 32000-1,
    9.3)."""

    __slots__ = ("matrix", "font", "size", "char_space", "word_space", "scale", "leading", "rise")

    def __init__(self, matrix: Matrix, font: Optional[Font] = None, size: float = 0.0, *others: float):
        self.matrix, self.font, self.size = matrix, font, size
        self.char_space, self.word_space, self.scale, self.leading, self.rise = others or (0.0, 0.0, 1.0, 0.0, 0.0)

    def copy(self) -> "State":
        """An equal state."""
        spaces = self.char_space, self.word_space, self.scale, self.leading, self.rise
        return State(self.matrix, self.font, self.size, *spaces)


class Level:
    """A content in progress, of the page or of a form, and the state before it."""

    def __init__(self, data: bytes, resources: pikepdf.Dictionary, form: Optional[pikepdf.Stream], run: "Interpreter"):
        self.operators = operators(data)
        self.resources = resources
        self.form = None if form is None else form.objgen
        self.state, self.saved, self.unsaved = run.state, len(run.saved), run.unsaved
        self.text, self.span, self.marks = run.text, run.span, run.marks
        self._kinds: Dict[str, pikepdf.Dictionary] = {}
        self._found: Dict[Tuple[str, bytes], Any] = {}

    def named(self, kind: str, name: bytes, taken: Callable[[Any], Any] = lambda it: it) -> Any:
        """The result of `taken` for the resource with a name. A cache has one result for each kind and name."""
        if (kind, name) not in self._found:
            if kind not in self._kinds:
                self._kinds[kind] = dictionary_at(self.resources, kind)
            if len(self._found) == MOST_NAMES:
                self._found.clear()
            self._found[kind, name] = taken(named(self._kinds[kind], name))
        return self._found[kind, name]


class TextMatrix:
    """The place of the next code: the matrix of the line, and the distance from its origin (ISO 32000-1, 9.4.2)."""

    __slots__ = ("line", "along", "down")

    def __init__(self, line: Matrix = IDENTITY):
        self.line, self.along, self.down = line, 0.0, 0.0

    def moved(self, x: float, y: float) -> "TextMatrix":
        """The matrix of a line with a moved origin."""
        a, b, c, d, e, f = self.line
        return TextMatrix((a, b, c, d, x * a + y * c + e, x * b + y * d + f))


class Interpreter:
    """Runs the content of a page, or of an appearance of an annotation.

    `content` reads streams and fonts, and collects faults. With `measure`, strings are measured.
    """

    def __init__(self, content: Any, measure: Optional[Callable[[Optional[Font]], Measure]] = None):
        self._content, self._measure = content, measure
        self._steps_left = MOST_STEPS
        self._levels: List[Level] = []
        self.state = State(IDENTITY)
        self.saved: List[State] = []
        #: The number of states that weren't saved, since there were too many.
        self.unsaved = 0
        self.text = TextMatrix()
        self.span: Optional[Span] = None
        self.marks = 0

    def pieces(
        self, data: bytes, resources: pikepdf.Dictionary, form: Optional[pikepdf.Stream] = None
    ) -> Iterator[Piece]:
        """The strings that a content with these resources shows, in the order of the content."""
        self._enter(data, resources, form)
        while self._levels:
            level = self._levels[-1]
            for name, numbers, operands in level.operators:
                action = ACTIONS.get(name)
                if action is None:
                    continue
                self._steps_left -= 1
                if self._steps_left < 0:
                    self._content.fault(f"a page has more than {MOST_STEPS:,} operators")
                    return
                if self._steps_left % STEPS_OF_CHECK == 0:
                    self._content.check_time()
                shown = action(self, numbers, operands)
                if shown is not None:
                    yield from shown
                elif level is not self._levels[-1]:
                    break
            else:
                self._leave()

    def _enter(self, data: bytes, resources: pikepdf.Dictionary, form: Optional[pikepdf.Stream]) -> None:
        """Starts a content."""
        level = Level(data, resources, form, self)
        if self._measure is not None:
            level.operators = self._looked_ahead(level, level.operators)
        self._levels.append(level)
        self.state = self.state.copy()
        if form is not None:
            self.state.matrix = product(matrix_of(form), self.state.matrix)

    def _looked_ahead(self, level: Level, found: Iterator[Operator]) -> Iterator[Operator]:
        """The operators of a content. They are read ahead in batches, and the codes of a batch are looked up
        together."""
        for batch in batches(found):
            self._look_up(level, batch)
            yield from batch

    def _look_up(self, level: Level, batch: List[Operator]) -> None:
        """Looks up the codes that operators show. After `Q` or `gs`, the lookup may use the wrong font, to no
        effect."""
        font = self.state.font
        strings: DefaultDict[Optional[Font], List[bytes]] = collections.defaultdict(list)
        for name, _, operands in batch:
            if name == b"Tf":
                font = level.named("/Font", last_name(operands), self._content.font)
            elif name == b"TJ":
                strings[font] += [it for it in elements_of(operands) if isinstance(it, bytes)]
            elif name in SHOWN:
                strings[font].append(last_string(operands) or b"")
        for font, of_font in strings.items():
            self._measure(font).look_up(of_font)

    def _leave(self) -> None:
        """Returns to the content that drew a form."""
        level = self._levels.pop()
        self.state, self.text, self.span, self.marks = level.state, level.text, level.span, level.marks
        del self.saved[level.saved :]
        self.unsaved = level.unsaved

    def _save(self, *_: Any) -> None:
        if len(self.saved) < MOST_SAVED:
            self.saved.append(self.state.copy())
        else:
            self.unsaved += 1

    def _restore(self, *_: Any) -> None:
        if self.unsaved:
            self.unsaved -= 1
        elif len(self.saved) > self._levels[-1].saved:
            self.state = self.saved.pop()

    def _concatenate(self, numbers: bytes, _: Any) -> None:
        matrix = numbers_in(numbers)[-6:]
        if len(matrix) == 6:
            self.state.matrix = product(matrix, self.state.matrix)

    def _choose_state(self, _: bytes, operands: List[Operand]) -> None:
        """Sets the font that a graphics state chooses (ISO 32000-1, 8.4.5)."""
        chosen = self._levels[-1].named("/ExtGState", last_name(operands), self._font_of_state)
        if chosen is not None:
            self.state.font, self.state.size = chosen

    def _font_of_state(self, state: Any) -> Optional[Tuple[Optional[Font], float]]:
        """The font and the size that a graphics state chooses; None if it chooses no font."""
        pair = state.get("/Font") if isinstance(state, pikepdf.Dictionary) else None
        is_pair = isinstance(pair, pikepdf.Array) and len(pair) == 2
        return (self._content.font(pair[0]), number_of(pair[1])) if is_pair else None

    def _draw(self, _: bytes, operands: List[Operand]) -> None:
        """Starts a form. It inherits the chosen font. Without its own resources, it uses the resources of its
        parent."""
        level = self._levels[-1]
        form = level.named("/XObject", last_name(operands))
        if not isinstance(form, pikepdf.Stream) or name_at(form, "/Subtype") != "Form":
            return
        if len(self._levels) > MOST_NESTED or any(it.form == form.objgen for it in self._levels):
            self._content.fault(f"form {object_number(form)} is drawn within itself, or too deep")
            return
        self._enter(
            self._content.of_form(form),
            resources_of(form) if form.get("/Resources") is not None else level.resources,
            form,
        )

    def _begin_text(self, *_: Any) -> None:
        self.text = TextMatrix()

    def _set_text_matrix(self, numbers: bytes, _: Any) -> None:
        matrix = numbers_in(numbers)[-6:]
        if len(matrix) == 6:
            self.text = TextMatrix(tuple(matrix))

    def _move(self, numbers: bytes, _: Any) -> None:
        x, y = pair_in(numbers)
        self.text = self.text.moved(x, y)

    def _move_and_lead(self, numbers: bytes, _: Any) -> None:
        x, y = pair_in(numbers)
        self.state.leading = -y
        self.text = self.text.moved(x, y)

    def _next_line(self, *_: Any) -> None:
        self.text = self.text.moved(0.0, -self.state.leading)

    def _choose_font(self, numbers: bytes, operands: List[Operand]) -> None:
        self.state.font = self._levels[-1].named("/Font", last_name(operands), self._content.font)
        self.state.size = last_in(numbers)

    def _set_char_space(self, numbers: bytes, _: Any) -> None:
        self.state.char_space = last_in(numbers)

    def _set_word_space(self, numbers: bytes, _: Any) -> None:
        self.state.word_space = last_in(numbers)

    def _set_scale(self, numbers: bytes, _: Any) -> None:
        self.state.scale = last_in(numbers) / 100

    def _set_leading(self, numbers: bytes, _: Any) -> None:
        self.state.leading = last_in(numbers)

    def _set_rise(self, numbers: bytes, _: Any) -> None:
        self.state.rise = last_in(numbers)

    def _begin_mark(self, _: bytes, operands: List[Operand]) -> None:
        """Counts marked content, which may have a replacement text."""
        self.marks += 1
        if self.span is None and operands:
            text = self._text_of_mark(operands)
            self.span = None if text is None else Span(text, self.marks)

    def _text_of_mark(self, operands: List[Operand]) -> Optional[str]:
        """The replacement text of marked content, from a direct dictionary, or from a dictionary in the resources."""
        text = actual_text(operands)
        if text is not None or len(operands) != 2:
            return text
        properties = self._levels[-1].named("/Properties", last_name(operands))
        text = properties.get("/ActualText") if isinstance(properties, pikepdf.Dictionary) else None
        return str(text) if isinstance(text, pikepdf.String) else None

    def _end_mark(self, *_: Any) -> None:
        self.marks = max(self.marks - 1, 0)
        if self.span is not None and self.marks < self.span.depth:
            self.span = None

    def _show(self, _: bytes, operands: List[Operand]) -> List[Piece]:
        string = last_string(operands)
        return [] if string is None else self._shown([string])

    def _show_elements(self, _: bytes, operands: List[Operand]) -> List[Piece]:
        return self._shown(elements_of(operands))

    def _show_on_next_line(self, numbers: bytes, operands: List[Operand]) -> List[Piece]:
        self._next_line()
        return self._show(numbers, operands)

    def _show_with_spaces(self, numbers: bytes, operands: List[Operand]) -> List[Piece]:
        kind_and_numbers = operands[-2:-1]
        spaces = numbers_in(kind_and_numbers[0][1]) if kind_and_numbers else []
        if len(spaces) >= 2:
            self.state.word_space, self.state.char_space = spaces[-2:]
        return self._show_on_next_line(numbers, operands)

    def _shown(self, elements: List[Union[bytes, float]]) -> List[Piece]:
        """The strings of these elements. Numbers move the next string."""
        font, span = self.state.font, self.span
        if self._measure is None:
            return [Piece(font, it, span) for it in elements if isinstance(it, bytes)]
        measure = self._measure(font)
        frame = Frame(self.state, self.text, measure.is_vertical)
        pieces = []
        for it in elements:
            if isinstance(it, bytes):
                found = measure.of(it)
                place = frame.show(found)
                texts = found.texts
                if frame.is_wide and frame.is_spaced(found):
                    texts = [texts[0], BLANK, texts[1]]
                pieces.append(Piece(font, it, span, texts, found.is_right_to_left, place))
            else:
                frame.move(it)
        frame.leave(self.text)
        return pieces


class Frame:
    """The coordinate system in which an operator shows its strings."""

    def __init__(self, state: State, text: TextMatrix, is_vertical: bool):
        a, b, c, d, e, f = text.line if state.matrix is IDENTITY else product(text.line, state.matrix)
        rise = state.rise
        self._is_vertical = is_vertical
        if is_vertical:
            self._gone, unit, unit_x, unit_y = text.down, 1.0, c, d
            e, f = e + text.along * a, f + text.along * b
        else:
            self._gone, unit, unit_x, unit_y = text.along, state.scale, a, b
            e, f = e + text.down * c, f + text.down * d
        self._x, self._y, self._unit_x, self._unit_y = e + rise * c, f + rise * d, unit_x, unit_y
        self._em = state.size * THOUSANDTH * unit
        self._char_space, self._word_space = state.char_space * unit, state.word_space * unit
        #: Whether the character spacing is as wide as a blank.
        self.is_wide = state.char_space > WIDE * state.size
        length = math.hypot(unit_x, unit_y)
        sign = math.copysign(1.0, state.size * unit) * (-1.0 if is_vertical else 1.0)
        self._size = abs(state.size) * math.hypot(c, d)
        self._along = (sign * unit_x / length, sign * unit_y / length) if length > 0 else None

    def move(self, number: float) -> None:
        """Moves the next string back by thousandths of the font size."""
        self._gone -= number * self._em

    def show(self, string: Measured) -> Optional[Place]:
        """The place of a string."""
        start, codes = self._gone, len(string.texts)
        end = start + string.width * self._em + codes * self._char_space + string.spaces * self._word_space
        self._gone = end
        if self._along is None or self._size == 0.0:
            return None
        if self.is_wide and self.is_spaced(string):
            end -= self._char_space
        x, y, unit_x, unit_y = self._x, self._y, self._unit_x, self._unit_y
        return Place(
            x + start * unit_x,
            y + start * unit_y,
            x + end * unit_x,
            y + end * unit_y,
            self._along[0],
            self._along[1],
            self._size,
        )

    def is_spaced(self, string: Measured) -> bool:
        """Whether a string is the last letter of a word and the first letter of the next: two codes with wide spacing.
        In a longer string, the letters of a word are spaced out."""
        return self.is_wide and len(string.texts) == 2

    def leave(self, text: TextMatrix) -> None:
        """Moves the text position to the end of these strings."""
        if self._is_vertical:
            text.down = self._gone
        else:
            text.along = self._gone


#: The methods for the operators.
ACTIONS: Dict[bytes, Callable[[Interpreter, bytes, List[Operand]], Optional[List[Piece]]]] = {
    b"TJ": Interpreter._show_elements,
    b"Tj": Interpreter._show,
    b"'": Interpreter._show_on_next_line,
    b'"': Interpreter._show_with_spaces,
    b"Td": Interpreter._move,
    b"TD": Interpreter._move_and_lead,
    b"Tm": Interpreter._set_text_matrix,
    b"T*": Interpreter._next_line,
    b"BT": Interpreter._begin_text,
    b"Tf": Interpreter._choose_font,
    b"Tc": Interpreter._set_char_space,
    b"Tw": Interpreter._set_word_space,
    b"Tz": Interpreter._set_scale,
    b"TL": Interpreter._set_leading,
    b"Ts": Interpreter._set_rise,
    b"BMC": Interpreter._begin_mark,
    b"BDC": Interpreter._begin_mark,
    b"EMC": Interpreter._end_mark,
    b"q": Interpreter._save,
    b"Q": Interpreter._restore,
    b"cm": Interpreter._concatenate,
    b"gs": Interpreter._choose_state,
    b"Do": Interpreter._draw,
}


#: The operators that show a single string.
SHOWN = (b"Tj", b"'", b'"')


def batches(operators: Iterable[Operator]) -> Iterator[List[Operator]]:
    """The same operators in batches with a limited number of operands."""
    batch: List[Operator] = []
    size = 0
    for operator in operators:
        batch.append(operator)
        size += 1 + len(operator[2])
        if size >= AHEAD:
            yield batch
            batch, size = [], 0
    yield batch


def product(first: Sequence[float], second: Matrix) -> Matrix:
    """The matrix that applies the first matrix, then the second (ISO 32000-1, 8.3.4)."""
    a, b, c, d, e, f = first
    g, h, i, j, k, l = second
    return a * g + b * i, a * h + b * j, c * g + d * i, c * h + d * j, e * g + f * i + k, e * h + f * j + l


def matrix_of(form: pikepdf.Stream) -> Matrix:
    """The matrix of a form (ISO 32000-1, 8.10.2)."""
    listed = form.get("/Matrix")
    numbers = [number_of(it) for it in list(listed)[:6]] if isinstance(listed, pikepdf.Array) else []
    return tuple(numbers) if len(numbers) == 6 else IDENTITY


def number_of(value: Any) -> float:
    """A number of a PDF file; 0 for anything else."""
    try:
        return float(value)
    except (TypeError, ValueError):
        return 0.0


def pair_in(numbers: bytes) -> Tuple[float, float]:
    """The last two numbers, with 0 for a missing number."""
    found = numbers_in(numbers)
    if len(found) != 2:
        found = [0.0, 0.0, *found][-2:]
    return found[0], found[1]


def last_in(numbers: bytes) -> float:
    """The last number; 0 if there is no number."""
    found = numbers_in(numbers)
    return found[-1] if found else 0.0
