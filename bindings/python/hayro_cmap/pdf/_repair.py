"""Rewriting of malformed ToUnicode CMaps in a PDF file, without their faults."""

import os
from typing import Any, Dict, Iterable, List, NamedTuple, Optional, Tuple, Union

import pikepdf

from .. import CMap, CMapWriter, Codespace, TextRun
from ._beside import written_beside
from ._fonts import Fault, Font, fonts
from ._objects import TooLarge, dictionary_at, integer_at, object_number, stream_at

#: The flag in an interactive form for a signed file (ISO 32000-1, 12.7.2).
SIGNATURES_EXIST = 1

#: The maximum number of codes with texts in a rewritten CMap, which exceeds the number of Unicode characters. A line of
#: a CMap may declare texts for 65,536 codes.
MOST_CODES = 1 << 21

#: The codespace range of a simple font, whose codes are single bytes, and of a composite font without known ranges.
SINGLE_BYTES = Codespace(0x00, 0xFF, 1)
TWO_BYTES = Codespace(0x0000, 0xFFFF, 2)


class Signed(ValueError):
    """The file is signed, and its signature would no longer hold."""


class Repaired(NamedTuple):
    """The repair of a ToUnicode CMap with faults."""

    #: The object number of its stream.
    number: int
    #: The fonts that use it.
    fonts: List[Font]
    #: The faults. Each tells whether the part at fault is lost, or how it is read.
    faults: List[Fault]
    #: The number of codes with a text in the new CMap. If it is 0, nothing is left, and the stream stays unchanged.
    kept: int

    def lines(self) -> List[str]:
        """A line about the new CMap, then a line for each fault."""
        codes = "1 code" if self.kept == 1 else f"{self.kept:,} codes"
        what = f"rewritten, with texts for {codes}" if self.kept else "nothing is left of it"
        lines = [f"ToUnicode {self.number}: {what}"]
        if self.fonts[0].to_unicode.has_five_digits:
            lines.append(f"ToUnicode {self.number}: strings of five digits are read as numbers of characters")
        return [*lines, *(f"{'lost' if it.read_as is None else 'mended'} at {it}" for it in self.faults)]

    def as_json(self) -> Dict[str, Any]:
        """The repair as values of JSON."""
        from ._check import fault_json

        return {
            "faults": [fault_json(fault) for fault in self.faults],
            "fonts": [font.number for font in self.fonts],
            "kept": self.kept,
            "to_unicode_object": self.number,
        }


def repair(pdf: pikepdf.Pdf, signed: bool = False) -> List[Repaired]:
    """Rewrites each malformed ToUnicode CMap with the texts that are read past its faults.

    The new CMap replaces the old CMap in its object, and no other object changes. `save` then writes the file. Raises
    Signed if there is such a CMap and the file is signed, unless `signed` is true. Raises TooLarge if a CMap has texts
    for more than 2,097,152 codes.
    """
    streams: Dict[Tuple[int, int], List[Font]] = {}
    for font in fonts(pdf):
        stream = stream_at(font.dictionary, "/ToUnicode")
        if stream is not None and font.to_unicode.faults:
            streams.setdefault(stream.objgen, []).append(font)
    if streams and is_signed(pdf) and not signed:
        raise Signed("the file is signed, and its signature would no longer hold")
    for sharing in streams.values():
        limit_codes(sharing[0].to_unicode.lenient)
    return [repaired(sharing) for sharing in streams.values()]


def limit_codes(cmap: Optional[CMap]) -> None:
    """Raises TooLarge if a CMap has texts for too many codes."""
    if cmap is not None and sum(row.last - row.first + 1 for row in cmap._text_rows()) > MOST_CODES:
        raise TooLarge(f"a ToUnicode CMap has texts for more than {MOST_CODES:,} codes")


def repaired(sharing: List[Font]) -> Repaired:
    """Rewrites the ToUnicode CMap of these fonts."""
    stream, read = sharing[0].dictionary["/ToUnicode"], sharing[0].to_unicode
    codespaces = codespaces_of(sharing)
    runs = [] if read.lenient is None else read.lenient.texts(codespaces)
    if runs:
        stream.write(written(runs, codespaces))
    return Repaired(object_number(stream), sharing, read.faults, sum(run.last - run.first + 1 for run in runs))


def written(runs, codespaces: List[Codespace]) -> bytes:
    """A ToUnicode CMap with these texts (ISO 32000-1, 9.10.3). It is read again and compared."""
    writer = CMapWriter("Adobe-Identity-UCS", collection=("Adobe", "UCS", 0))
    for it in codespaces:
        writer.codespace(it.low.to_bytes(it.byte_len, "big"), it.high.to_bytes(it.byte_len, "big"))
    for run in runs:
        writer.text(run.first.to_bytes(run.byte_len, "big"), run.last.to_bytes(run.byte_len, "big"), run.text)
    data = writer.write()
    with CMap.parse(data) as again:
        if joined(again.texts()) != joined(runs):
            raise AssertionError("the CMap that is written has other texts")
    return data


def joined(runs: Iterable[TextRun]) -> List[Tuple[int, int, str]]:
    """The runs in a canonical form, each as long as possible: the first code, the last code, and the text of the first
    code. Runs with the same texts for the same codes have equal canonical forms."""
    found: List[Tuple[int, int, str]] = []
    for it in runs:
        if found and goes_on(found[-1], it):
            found[-1] = (found[-1][0], it.last, found[-1][2])
        else:
            found.append((it.first, it.last, it.text))
    return found


def goes_on(before: Tuple[int, int, str], run: TextRun) -> bool:
    """Whether a run continues the previous run: its first code and its first text are the next ones."""
    first, last, text = before
    return (
        run.first == last + 1
        and run.text[:-1] == text[:-1]
        and ord(run.text[-1]) == ord(text[-1]) + run.first - first
    )


def codespaces_of(sharing: List[Font]) -> List[Codespace]:
    """The codespace ranges of the fonts that share a ToUnicode CMap: from their encodings, otherwise from the CMap."""
    found: Dict[Codespace, None] = {}
    for font in sharing:
        if not font.is_composite:
            of_font = [SINGLE_BYTES]
        else:
            given = font.encoding.lenient or font.to_unicode.lenient
            of_font = [it for layer in (given.layers if given is not None else []) for it in layer.codespaces]
        found.update(dict.fromkeys(of_font))
    return list(found) or [TWO_BYTES]


def is_signed(pdf: pikepdf.Pdf) -> bool:
    """Whether the file declares that it is signed."""
    form = dictionary_at(pdf.Root, "/AcroForm")
    return (
        bool(integer_at(form, "/SigFlags") & SIGNATURES_EXIST)
        or dictionary_at(pdf.Root, "/Perms").get("/DocMDP") is not None
    )


def save(pdf: pikepdf.Pdf, path: Union[str, "os.PathLike[str]"]) -> None:
    """Writes a file with all its objects, and their streams byte for byte. An encrypted file stays encrypted, and its
    decoded streams stay the same.

    A temporary file is written and renamed into place, with the permissions of an existing file. If an error occurs, an
    existing file stays unchanged. If `path` is a link, the file to which it leads is replaced. Raises OSError if `path`
    isn't a regular file.
    """
    with written_beside(path) as file:
        pdf.save(
            file,
            preserve_pdfa=False,
            fix_metadata_version=False,
            # pikepdf doesn't accept a level together with an encryption
            stream_decode_level=None if pdf.is_encrypted else pikepdf.StreamDecodeLevel.none,
            object_stream_mode=pikepdf.ObjectStreamMode.preserve,
            encryption=pdf.is_encrypted,
        )
