#!/usr/bin/env python3
"""Compares what `cmap text` gives for strings of composite fonts with what poppler's pdftotext gives.

    composite_font.py [--program FILE]     the strings of examples/strings.rows and to_unicode.rows, by the program
    composite_font.py --pdftotext          the same strings, by pdftotext, which has to give the rows' texts
    composite_font.py --rows               the rows of strings.rows anew, as pdftotext gives them

A row has the name of a CMap of the package poppler-data, a string in hexadecimal digits, and the text that pdftotext
gives for it in a PDF whose font has this CMap as its encoding and no glyphs of its own. A row of to_unicode.rows also
names the file of the font's ToUnicode CMap. The script prints `N passed, M failed`, and its status is 1 if M isn't 0.
pdftotext is in the package poppler-utils.
"""

import argparse
import os
import re
import subprocess
import sys
import tempfile
from functools import partial
from pathlib import Path

from .poppler import resources

TOP = Path(__file__).resolve().parents[2]
ROWS = TOP / "examples" / "strings.rows"
TO_UNICODE_ROWS = TOP / "examples" / "to_unicode.rows"
TO_UNICODE = TOP / "examples" / "to_unicode"
PROGRAM = TOP / "crates" / "cmap" / "out" / "cmap"
ORDERING = re.compile(rb"/Ordering\s*\((\w+)\)")


class Row:
    """A CMap, a string of codes in hexadecimal digits, perhaps a ToUnicode CMap, and the text of the string."""

    def __init__(self, line, has_file=False):
        self.name, self.string, *file, self.text = line.split(" ", 3 if has_file else 2)
        self.to_unicode = TO_UNICODE / file[0] if file else None

    def __str__(self):
        return f"{self.name} {self.string} {self.text}"


def rows():
    """The rows, and the lines between them as they are."""
    lines = ROWS.read_text().splitlines()
    return [Row(it) if it and not it.startswith("#") else it for it in lines]


def rows_with_files():
    """The rows with a ToUnicode CMap."""
    lines = TO_UNICODE_ROWS.read_text().splitlines()
    return [Row(it, has_file=True) for it in lines if it and not it.startswith("#")]


def resource(name):
    """The path of a resource."""
    return next(path for path in resources() if path.name == name)


def ordering(name):
    """The ordering of the character collection of a resource."""
    return ORDERING.search(resource(name).read_bytes()).group(1).decode()


def pdf(name, string, to_unicode=None):
    """A PDF of one page that shows a string in a font with this CMap, and with this ToUnicode CMap."""
    stream = to_unicode.read_text() if to_unicode else ""
    reference = "/ToUnicode 8 0 R" if to_unicode else ""
    content = f"BT /F 12 Tf 40 400 Td <{string}> Tj ET"
    objects = [
        "<< /Type /Catalog /Pages 2 0 R >>",
        "<< /Type /Pages /Kids [3 0 R] /Count 1 >>",
        "<< /Type /Page /Parent 2 0 R /MediaBox [0 0 4000 800] /Contents 4 0 R"
        " /Resources << /Font << /F 5 0 R >> >> >>",
        f"<< /Length {len(content)} >>\nstream\n{content}\nendstream",
        f"<< /Type /Font /Subtype /Type0 /BaseFont /None /Encoding /{name} {reference}"
        " /DescendantFonts [6 0 R] >>",
        "<< /Type /Font /Subtype /CIDFontType0 /BaseFont /None /FontDescriptor 7 0 R /CIDSystemInfo"
        f" << /Registry (Adobe) /Ordering ({ordering(name)}) /Supplement 0 >> >>",
        "<< /Type /FontDescriptor /FontName /None /Flags 4 /FontBBox [0 0 1000 1000] /ItalicAngle 0"
        " /Ascent 800 /Descent -200 /CapHeight 800 /StemV 80 >>",
        f"<< /Length {len(stream)} >>\nstream\n{stream}\nendstream",
    ]
    return with_table("%PDF-1.7\n", objects)


def with_table(text, objects):
    """The objects of a PDF with the table of their places."""
    places = []
    for number, it in enumerate(objects, 1):
        places.append(len(text))
        text += f"{number} 0 obj\n{it}\nendobj\n"
    table = "".join(f"{place:010} 00000 n \n" for place in places)
    size = len(objects) + 1
    return (
        f"{text}xref\n0 {size}\n0000000000 65535 f \n{table}"
        f"trailer\n<< /Size {size} /Root 1 0 R >>\nstartxref\n{len(text)}\n%%EOF\n"
    )


def text_by_pdftotext(row):
    """What pdftotext gives for the string of a row."""
    with tempfile.NamedTemporaryFile("w", suffix=".pdf", encoding="ascii") as file:
        file.write(pdf(row.name, row.string, row.to_unicode))
        file.flush()
        words = ["pdftotext", "-raw", "-enc", "UTF-8", "-nopgbrk", file.name, "-"]
        run = subprocess.run(words, capture_output=True, text=True, check=True)
    return run.stdout.rstrip("\n")


def text_by_program(program, row):
    """The text that the program gives for the string of a row. For a code without a text pdftotext gives nothing."""
    to_unicode = ["--to-unicode", str(row.to_unicode)] if row.to_unicode else []
    words = [str(program), "text", *to_unicode, row.name, row.string]
    environment = {it: value for it, value in os.environ.items() if it != "CMAP_PATH"}
    run = subprocess.run(words, capture_output=True, text=True, check=False, env=environment)
    return run.stdout.rstrip("\n").replace("\ufffd", "") + run.stderr


def failures_of(text_of):
    """The number of rows, and the rows with another text."""
    asked = [row for row in rows() if isinstance(row, Row)] + rows_with_files()
    failures = []
    for row in asked:
        text = text_of(row)
        if text != row.text:
            failures.append(f"{row.name} {row.string}: {text!a}, expected {row.text!a}")
    return len(asked), failures


def print_rows():
    """Prints the rows with the texts that pdftotext gives."""
    for row in rows():
        if isinstance(row, Row):
            row.text = text_by_pdftotext(row)
        print(row)


def main():
    parser = argparse.ArgumentParser(description=__doc__.split("\n", maxsplit=1)[0])
    parser.add_argument("--program", type=Path, default=PROGRAM)
    parser.add_argument("--pdftotext", action="store_true")
    parser.add_argument("--rows", action="store_true")
    words = parser.parse_args()
    if words.rows:
        print_rows()
        return 0
    by_program = partial(text_by_program, words.program.resolve())
    count, failures = failures_of(text_by_pdftotext if words.pdftotext else by_program)
    for failure in failures:
        print(failure)
    print(f"{count - len(failures)} passed, {len(failures)} failed")
    return 1 if failures else 0


if __name__ == "__main__":
    sys.exit(main())
