"""The strings that pages of a PDF file show, their fonts, and the lines of text that they form."""

import functools
import itertools
from typing import Any, Dict, Iterator, List, NamedTuple, Optional, Tuple

import pikepdf

from .. import Code, fold
from ._fonts import (
    Character,
    Font,
    Fonts,
    Source,
    annotations_of,
    fonts_of,
    pages_of,
    resources_of,
)
from ._interpreter import Interpreter, Piece, Span
from ._limits import Deadline
from ._lines import NOTHING, Lines, gap
from ._measured import Measure
from ._objects import Streams, TooLarge, Undecodable, bytes_of, dictionary_at, named, object_number

#: The maximum number of bytes of decoded forms in a cache, for forms that are drawn again.
MOST_KEPT = 1 << 24

#: The maximum number of characters in the lines of a page.
MOST_CHARACTERS = 1 << 24

#: The maximum number of listed faults in the contents of a file.
MOST_FAULTS = 100


class Shown(NamedTuple):
    """A shown string."""

    #: None if no font is chosen, or the chosen font doesn't exist.
    font: Optional[Font]
    string: bytes
    #: The separator between it and the previous string, by their places: empty, a space or a line end.
    separator: str


class Content:
    """The content of pages. Each font is read once.

    ToUnicode CMaps are read past their faults. With `lenient=False`, a malformed ToUnicode CMap gives no texts. With
    `guesses=False`, no text is a guess. Raises TooLong if the deadline is over while a page is read. `places` has no
    effect: the places of strings are computed when needed.
    """

    def __init__(
        self,
        fonts: Optional[Fonts] = None,
        places: bool = False,
        lenient: bool = True,
        deadline: Optional[Deadline] = None,
        guesses: bool = True,
    ):
        self._found = Fonts() if fonts is None else fonts
        self._deadline = Deadline(None) if deadline is None else deadline
        self._options = lenient, guesses
        self._streams: Streams = self._found.streams
        #: Messages about contents that can't be read.
        self.faults: List[str] = []
        self._forms: Dict[Tuple[int, int], bytes] = {}
        self._kept = 0
        self._measures: Dict[Optional[Font], Measure] = {}

    def characters(self, page: pikepdf.Page, annotations: bool = True) -> Iterator[Character]:
        """The codes that a page shows, in the order of its content, then the codes of its annotations.

        Each byte of a string without a font is a code. In marked content with a replacement text, the first code has
        this text, and the others have an empty text.
        """
        before: Optional[Span] = None
        for piece in self.pieces(page, annotations):
            for character in self._characters_of(piece):
                if piece.span is not None:
                    text = "" if piece.span is before else piece.span.text
                    character = character._replace(text=text, source=Source.ACTUAL_TEXT)
                before = piece.span
                yield character

    def _characters_of(self, piece: Piece) -> List[Character]:
        """The codes of a string."""
        if piece.font is None:
            return [Character(None, Code(it, 1, None, False, False), None, Source.NONE) for it in piece.string]
        return piece.font.characters(piece.string, *self._options)

    def lines(self, page: pikepdf.Page, exact: bool = False) -> Iterator[str]:
        """The lines of text that a page shows, in the order of its content, with U+FFFD for a code without a text.

        A line continues as long as strings follow each other on it. A wide gap between two strings becomes a space.
        Text from right to left is put in reading order. Lines are folded by `hayro_cmap.fold`, unless `exact` is true.
        """
        left, lines = MOST_CHARACTERS, Lines()
        # most strings continue the line, and `add` returns None
        begun = map(lines.add, self.pieces(page, True, self._measure))
        for line in filter(None, itertools.chain(begun, map(Lines.end, [lines]))):
            left -= len(line)
            if left < 0:
                self.fault(f"a page has more than {MOST_CHARACTERS:,} characters")
                return
            yield line if exact else fold(line)

    def shown(self, page: pikepdf.Page, annotations: bool = True) -> Iterator[Shown]:
        """The strings that a page shows, in the order of its content, then the strings of its annotations."""
        before: Optional[Piece] = None
        for piece in self.pieces(page, annotations, self._measure):
            yield Shown(piece.font, piece.string, NOTHING if before is None else gap(before, piece).separator)
            before = piece

    def pieces(self, page: pikepdf.Page, annotations: bool = True, measure: Any = None) -> Iterator[Piece]:
        """The strings of a page. They are measured if `measure` is given."""
        yield from Interpreter(self, measure).pieces(self._of_page(page), resources_of(page.obj))
        for form in shown_appearances_of(page.obj) if annotations else ():
            yield from Interpreter(self, measure).pieces(self.of_form(form), resources_of(form), form)

    def _measure(self, font: Optional[Font]) -> Measure:
        """The object that measures the strings of a font."""
        if font not in self._measures:
            self._measures[font] = Measure(font, *self._options)
        return self._measures[font]

    def font(self, dictionary: Any) -> Optional[Font]:
        """The font of a dictionary, or None."""
        return self._found.of(dictionary)

    def check_time(self) -> None:
        """Raises TooLong if the deadline is over."""
        self._deadline.check()

    def fault(self, text: str) -> None:
        """Adds a message about contents that can't be read."""
        if len(self.faults) < MOST_FAULTS and text not in self.faults:
            self.faults.append(text)

    def of_form(self, form: pikepdf.Stream) -> bytes:
        """The content of a form."""
        if form.objgen in self._forms:
            return self._forms[form.objgen]
        data = self._decoded([form], form)
        if self._kept + len(data) <= MOST_KEPT:
            self._kept += len(data)
            self._forms[form.objgen] = data
        return data

    def _of_page(self, page: pikepdf.Page) -> bytes:
        contents = page.obj.get("/Contents")
        listed = list(contents) if isinstance(contents, pikepdf.Array) else [contents]
        return self._decoded([it for it in listed if isinstance(it, pikepdf.Stream)], page.obj)

    def _decoded(self, streams: List[pikepdf.Stream], holder: pikepdf.Object) -> bytes:
        """The content in one or several streams."""
        pieces = []
        for stream in streams:
            try:
                pieces.append(self._streams.decoded(stream))
            except (TooLarge, Undecodable) as fault:
                self.fault(f"content of object {object_number(holder)}: {fault}")
        return b"\n".join(pieces)


def shown_appearances_of(page: pikepdf.Object) -> Iterator[pikepdf.Stream]:
    """The appearance streams that a page shows: the normal appearance in the current state of each annotation."""
    for annotation in annotations_of(page):
        it = dictionary_at(annotation, "/AP").get("/N")
        state = annotation.get("/AS")
        if isinstance(it, pikepdf.Dictionary) and isinstance(state, pikepdf.Name):
            it = named(it, bytes_of(state))
        if isinstance(it, pikepdf.Stream):
            yield it


class Document(Content):
    """The fonts and the pages of a PDF file, and the contents of its pages."""

    def __init__(
        self,
        pdf: pikepdf.Pdf,
        places: bool = False,
        lenient: bool = True,
        deadline: Optional[Deadline] = None,
        guesses: bool = True,
    ):
        super().__init__(None, places, lenient, deadline, guesses)
        self._pdf = pdf
        #: The pages.
        self.pages: List[pikepdf.Page] = pages_of(pdf)

    @functools.cached_property
    def fonts(self) -> List[Font]:
        """The fonts of pages, forms, patterns, soft masks, Type 3 fonts, annotations and form fields, each once."""
        return fonts_of(self._pdf, self._found)


def characters(page: pikepdf.Page, lenient: bool = True, guesses: bool = True) -> Iterator[Character]:
    """The codes that a page shows, with their texts. The options are the same as for `Document`.

    For several pages of a file, use `Document`, which reads fonts only once.
    """
    return Content(lenient=lenient, guesses=guesses).characters(page)
