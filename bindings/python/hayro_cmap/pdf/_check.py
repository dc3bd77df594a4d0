"""The check of a PDF file: fonts that have CMaps with faults, and shown codes without a text."""

import collections
from typing import Any, Callable, Counter, Dict, Iterable, Iterator, List, NamedTuple, Optional

import pikepdf

from .. import Finding
from ._content import Document
from ._fonts import Character, Font, Read, Source
from ._limits import Deadline
from ._objects import object_number
from ._warning_names import FEW_TEXTS, LEFT_OUT, OF_FORM

#: Names of findings about shown codes, besides the warnings about CMaps.
OF_SHOWN_CODES = ("no-text", "no-cid", "outside-codespace")

#: A font has few texts if a smaller share of its shown codes has a text.
FEW = 0.1

#: The number of codes of a kind that are printed.
MOST_PRINTED = 8


class CMapWarning(NamedTuple):
    """A warning about an accepted CMap. The names are the same as in `cmap check --lint`, and `few-texts`, which
    concerns a font."""

    #: The key of the CMap, "ToUnicode" or "Encoding", and the object number of its stream; or "font" and the object
    #: number of the font.
    of: str
    number: int
    name: str
    #: The number of codes, declarations, sections or strings that it concerns, and the first code, or None.
    codes: int = 1
    first: Optional[int] = None
    #: The number of codes shown with the font that it concerns, and the lowest of them.
    shown: int = 0
    first_shown: Optional[int] = None


class ShownCode(NamedTuple):
    """A shown code, and how often it is shown."""

    character: Character
    times: int


class FontReport:
    """The check of a font, and of the codes that are shown with it."""

    def __init__(self, font: Font, codes: List[ShownCode], lenient: List[ShownCode], is_lenient: bool = True):
        self.font = font
        #: The faults of its CMaps. Without `is_lenient`, CMaps aren't read past their faults.
        self.faults = font.faults if is_lenient else [it._replace(read_as=None) for it in font.faults]
        #: The codes, in descending order of their frequency.
        self.codes = codes
        #: The number of shown codes.
        self.shown = total(codes)
        self.no_text = [it for it in codes if it.character.text is None]
        self.no_cid = [it for it in codes if it.character.code.cid is None] if font.is_composite else []
        self.outside_codespace = [it for it in codes if not it.character.code.in_codespace]
        #: The number of shown codes with a text, and the same number if the ToUnicode CMap is read past its faults.
        self.with_text = self.shown - total(self.no_text)
        self.with_text_past_faults = sum(it.times for it in lenient if it.character.text is not None)
        found = warnings_of(font, codes)
        #: The warnings that concern shown codes, and the other warnings.
        self.warnings = [it for it in found if it.shown and it.name not in OF_FORM] + self._few_texts()
        self.other_warnings = [it for it in found if not it.shown or it.name in OF_FORM]

    def _few_texts(self) -> List[CMapWarning]:
        """The warning that few shown codes have a text, if it applies."""
        if self.with_text >= FEW * self.shown:
            return []
        lowest = min(it.character.code.code for it in self.no_text)
        return [CMapWarning("font", self.font.number, FEW_TEXTS, 1, None, len(self.no_text), lowest)]

    def __repr__(self) -> str:
        return f"<FontReport of {self.font}>"

    @property
    def sources(self) -> Dict[str, int]:
        """The number of shown codes with a text from each source."""
        counts = Counter({source.value: 0 for source in Source})
        for it in self.codes:
            counts[it.character.source.value] += it.times
        return dict(counts)

    def lines(self) -> Iterator[str]:
        """A line about the font, then a line for each fault, warning, and kind of codes that lack something."""
        number = f"font {self.font.number}"
        yield f"{self.font}: {'refused' if self.font.faults else 'ok'}; {share(self.with_text, self.shown)}"
        for fault in self.faults:
            yield f"{number}: {fault}"
        if self.with_text_past_faults != self.with_text:
            yield f"{number}: if ToUnicode is read past its faults, {share(self.with_text_past_faults, self.shown)}"
        for it in self.warnings:
            codes = f"{it.shown:,} shown code{'' if it.shown == 1 else 's'}, first <{it.first_shown:02X}>"
            yield f"{number}: warning: {it.of} {it.number}: {it.name}: {codes}"
        if self.other_warnings:
            names = ", ".join(dict.fromkeys(it.name for it in self.other_warnings))
            count = len(self.other_warnings)
            words = "warning, which concerns" if count == 1 else "warnings, which concern"
            yield f"{number}: {count} other {words} no shown text: {names}"
        kinds = [("without a text", self.no_text), ("without a CID", self.no_cid)]
        for what, codes in [*kinds, ("in no codespace range", self.outside_codespace)]:
            if codes:
                count = f"{total(codes):,} code{'' if total(codes) == 1 else 's'}"
                yield f"{number}: {what}: {count}, {len(codes):,} different: {some(codes)}"

    def as_json(self) -> Dict[str, Any]:
        """The same as values of JSON."""
        return {
            **self.font.as_json(),
            "faults": [fault_json(it) for it in self.faults],
            "no_cid": counted(self.no_cid),
            "no_text": counted(self.no_text),
            "ok": not self.font.faults,
            "other_warnings": [warning_json(it) for it in self.other_warnings],
            "outside_codespace": counted(self.outside_codespace),
            "shown": self.shown,
            "shown_different": len(self.codes),
            "sources": self.sources,
            "warnings": [warning_json(it) for it in self.warnings],
            "with_text": self.with_text,
            "with_text_past_faults": self.with_text_past_faults,
        }


class Report(NamedTuple):
    """The check of a file."""

    fonts: List[FontReport]
    pages: int
    #: The number of bytes that are shown without a font.
    without_font: int
    #: Messages about contents that can't be read.
    faults: List[str]

    @property
    def shown(self) -> int:
        """The number of codes that are shown with a font."""
        return sum(it.shown for it in self.fonts)

    @property
    def with_text(self) -> int:
        """The number of these codes with a text."""
        return sum(it.with_text for it in self.fonts)

    @property
    def refused(self) -> int:
        """The number of fonts with a fault in a CMap."""
        return sum(bool(it.font.faults) for it in self.fonts)

    def summary(self) -> str:
        """The share of shown codes with a text, and the number of refused fonts."""
        refused = f"; {self.refused} of {len(self.fonts)} fonts refused" if self.refused else ""
        return share(self.with_text, self.shown) + refused

    def lines(self) -> Iterator[str]:
        """The lines of all fonts, then the messages about unreadable contents, then the summary."""
        for font in self.fonts:
            yield from font.lines()
        yield from self.faults
        yield self.summary()

    @property
    def has_warnings(self) -> bool:
        """Whether a font has a warning that concerns shown codes."""
        return any(font.warnings for font in self.fonts)

    def has_denied(self, names: Iterable[str]) -> bool:
        """Whether a font has a warning, or shown codes that lack something, with one of these names. "all" stands for
        each name that concerns shown codes."""
        found = {it.name for font in self.fonts for it in font.warnings}
        for name, kind in zip(OF_SHOWN_CODES, ("no_text", "no_cid", "outside_codespace")):
            if any(getattr(font, kind) for font in self.fonts):
                found.add(name)
        others = {it.name for font in self.fonts for it in font.other_warnings}
        return bool(found) and "all" in names or not (found | others).isdisjoint(names)

    def as_json(self) -> Dict[str, Any]:
        """The file as values of JSON, without its fonts."""
        return {
            "faults": self.faults,
            "fonts": len(self.fonts),
            "ok": not self.refused,
            "pages": self.pages,
            "refused": self.refused,
            "shown": self.shown,
            "with_text": self.with_text,
            "without_font": self.without_font,
        }


class Strings:
    """Counts of the strings that are shown with a font, in marked content with a replacement text and elsewhere."""

    def __init__(self, font: Font):
        self.font = font
        self._is_composite = font.is_composite
        # the keys are single bytes for a simple font, whole strings for a composite font
        self._counts: Counter = collections.Counter()
        self._replaced: Counter = collections.Counter()

    def add(self, string: bytes, is_replaced: bool) -> None:
        """Counts a string that is shown once more."""
        counts = self._replaced if is_replaced else self._counts
        if self._is_composite:
            counts[string] += 1
        else:
            counts.update(string)

    def codes(self, lenient: bool, guesses: bool) -> List[ShownCode]:
        """The codes, in descending order of their frequency. In marked content with a replacement text, no code lacks a
        text."""
        counts = self._counted(self._counts, lenient, guesses)
        for it, times in self._counted(self._replaced, lenient, guesses).items():
            counts[it._replace(text=it.text or "", source=Source.ACTUAL_TEXT)] += times
        return [ShownCode(*it) for it in counts.most_common()]

    def _counted(self, strings: Counter, lenient: bool, guesses: bool) -> Counter[Character]:
        """Counts of the codes of these strings."""
        counts: Counter[Character] = collections.Counter()
        of_strings = [it if self._is_composite else bytes([it]) for it in strings]
        for row, times in zip(self.font.characters_of(of_strings, lenient, guesses), strings.values()):
            for character in row:
                counts[character] += times
        return counts


def check(
    pdf: pikepdf.Pdf,
    progress: Callable[[Iterable[Any]], Iterable[Any]] = iter,
    lenient: bool = True,
    deadline: Optional[Deadline] = None,
    guesses: bool = True,
) -> Report:
    """Checks a file: fonts that have CMaps with faults, and shown codes without a text.

    `progress` takes the pages and returns an iterable of them, such as a progress bar. ToUnicode CMaps are read past
    their faults. With `lenient=False`, a malformed ToUnicode CMap gives no texts. With `guesses=False`, no text is a
    guess. Raises TooLong if the deadline is over.
    """
    document, without_font = Document(pdf, lenient=lenient, deadline=deadline), 0
    strings: Dict[Font, Strings] = {}
    for page in progress(document.pages):
        for it in document.pieces(page):
            if it.font is None:
                without_font += len(it.string)
                continue
            if it.font not in strings:
                strings[it.font] = Strings(it.font)
            strings[it.font].add(it.string, it.span is not None)
    reports = [report_of(strings.get(font) or Strings(font), lenient, guesses) for font in document.fonts]
    return Report(reports, len(document.pages), without_font, document.faults)


def report_of(strings: Strings, lenient: bool, guesses: bool) -> FontReport:
    """The check of the font with which these strings are shown."""
    codes = strings.codes(lenient, guesses)
    is_other = bool(strings.font.to_unicode.faults) and not lenient
    return FontReport(strings.font, codes, strings.codes(True, guesses) if is_other else codes, lenient)


def warnings_of(font: Font, codes: List[ShownCode]) -> List[CMapWarning]:
    """The warnings about the accepted CMaps of a font with these shown codes."""
    shown = {it.character.code.code for it in codes if it.character.source is not Source.ACTUAL_TEXT}
    found = []
    for of, read in [("Encoding", font.encoding), ("ToUnicode", font.to_unicode)]:
        stream = font.dictionary.get(f"/{of}")
        if isinstance(stream, pikepdf.Stream):
            found += [
                CMapWarning(of, object_number(stream), it.warning, it.count, it.first, it.shown, it.first_shown)
                for it in findings_of(read, of == "ToUnicode", shown)
                if it.warning not in LEFT_OUT
            ]
    return found


def findings_of(read: Read, is_to_unicode: bool, shown: Iterable[int]) -> List[Finding]:
    """The findings in a CMap; none if it is refused."""
    return [] if read.strict is None else read.strict.lint(read.data, to_unicode=is_to_unicode, shown=shown)


def fault_json(fault) -> Dict[str, Any]:
    """A fault in the form of `cmap check --json`, with the object."""
    return {
        "byte": fault.offset,
        "in": [name.decode("latin-1") for name in fault.names],
        "line": fault.line,
        "object": fault.number,
        "of": fault.of,
        "read_as": None if fault.read_as is None else fault.read_as.words,
        "reason": fault.reason,
    }


def warning_json(it: CMapWarning) -> Dict[str, Any]:
    """A warning in the form of `cmap check --lint --json`, with the object and the shown codes."""
    first = {} if it.first is None else {"first": f"{it.first:02X}"}
    shown = {} if it.first_shown is None else {"first_shown": f"{it.first_shown:02X}"}
    counts = {"count": it.codes, "shown": it.shown}
    return {**counts, **first, **shown, "object": it.number, "of": it.of, "warning": it.name}


def total(codes: List[ShownCode]) -> int:
    """The sum of how often these codes are shown."""
    return sum(it.times for it in codes)


def counted(codes: List[ShownCode]) -> Dict[str, int]:
    """How often each of these codes is shown, by its hexadecimal digits."""
    return {bytes(it.character.code).hex().upper(): it.times for it in codes}


def some(codes: List[ShownCode]) -> str:
    """The first of these codes, in printed form."""
    digits = " ".join(f"<{bytes(it.character.code).hex().upper()}>" for it in codes[:MOST_PRINTED])
    return digits + (" .." if len(codes) > MOST_PRINTED else "")


def share(some: int, of: int) -> str:
    """The share of shown codes with a text, in words."""
    if of == 0:
        return "no codes are shown"
    # never rounded up to 100 %
    percent = min(1000 * some // of, 999 if some < of else 1000) / 10
    return f"{percent:.1f} % of {of:,} shown codes have a text"
