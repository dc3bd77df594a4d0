"""CMap files for the tests."""

import os
import shutil
import unittest
from pathlib import Path

#: Where Debian's package poppler-data has the predefined CMap files.
RESOURCES = Path("/usr/share/poppler/cMap/Adobe-Japan1")

needs_resources = unittest.skipUnless(RESOURCES.is_dir(), "Debian's package poppler-data isn't installed")
needs_pdftotext = unittest.skipUnless(shutil.which("pdftotext"), "Debian's package poppler-utils isn't installed")

#: Codes of one byte, 00 to 80, and of two, 8140 to 9FFC. 20 to 7E are the CIDs 1 to 95, 8140 to 817E are 633 to 695.
SMALL = b"""/CIDSystemInfo 3 dict dup begin
/Registry (Adobe) def /Ordering (Japan1) def /Supplement 1 def end def
/CMapName /Small-H def /WMode 0 def
2 begincodespacerange <00> <80> <8140> <9FFC> endcodespacerange
2 begincidrange <20> <7E> 1 <8140> <817E> 633 endcidrange
1 beginbfchar <41> <0041> endbfchar
"""

#: The same as vertical, but for one code.
SMALL_V = b"/Small-H usecmap /CMapName /Small-V def /WMode 1 def 1 begincidchar <8141> 7887 endcidchar"

#: The name `x` stands where a CID has to: the 27th byte, so that byte 27 is the one after it.
BROKEN = b"1 begincidrange <00> <FF> x endcidrange"

#: The name of the first file of a bundle.
FIRST = b"83pv-RKSJ-H"

#: The tables of a bundle: deltas of 0x20 and 0, whose code words are 0 and 1, and counts of one symbol, 4.
TABLES = bytes.fromhex("00000013 0002 01 0002 00000020 00000000 0001 01 0001 04")

#: A file in binary form: 0020 and 0021 are the CIDs 5 and 6.
BINARY = bytes.fromhex("62636D617001 0000001A 04 00000010 0002 00000001 40 00050000")

#: A bundle of this file.
BUNDLE = TABLES + BINARY


def bundle_of(text):
    """A bundle of one text. The length after the first six bytes is one that ends no comment."""
    while len(text) + 11 in (10, 12, 13):
        text += b" "
    return TABLES + b"% text" + (len(text) + 11).to_bytes(4, "big") + b"\n" + text


def uses(*names):
    """A file that uses these names."""
    return b" ".join(b"/%b usecmap" % name for name in names)


def predefined(name):
    """The bytes of a predefined CMap file."""
    return (RESOURCES / name).read_bytes()


def known_files():
    """The predefined files by their names, read when they are asked for, and the names that were asked for."""
    asked = []

    def files(name):
        asked.append(name)
        path = RESOURCES / os.fsdecode(name)
        return path.read_bytes() if path.name.encode() == name and path.is_file() else None

    return files, asked


def pdf_showing(string, encoding=b"Identity-H", ordering=b"Identity", to_unicode=b""):
    """A PDF file of one page that shows a string in a composite font without a font program (ISO 32000-1, 9.7)."""
    content = b"BT /F 12 Tf 40 400 Td <%b> Tj ET" % string.hex().encode()
    own = b"/ToUnicode 8 0 R" if to_unicode else b""
    objects = [
        b"<< /Type /Catalog /Pages 2 0 R >>",
        b"<< /Type /Pages /Kids [3 0 R] /Count 1 >>",
        b"<< /Type /Page /Parent 2 0 R /MediaBox [0 0 4000 800] /Contents 4 0 R"
        b" /Resources << /Font << /F 5 0 R >> >> >>",
        b"<< /Length %d >>\nstream\n%b\nendstream" % (len(content), content),
        b"<< /Type /Font /Subtype /Type0 /BaseFont /None /Encoding /%b %b /DescendantFonts [6 0 R] >>" % (encoding, own),
        b"<< /Type /Font /Subtype /CIDFontType0 /BaseFont /None /FontDescriptor 7 0 R"
        b" /CIDSystemInfo << /Registry (Adobe) /Ordering (%b) /Supplement 0 >> >>" % ordering,
        b"<< /Type /FontDescriptor /FontName /None /Flags 4 /FontBBox [0 0 1000 1000] /ItalicAngle 0"
        b" /Ascent 800 /Descent -200 /CapHeight 800 /StemV 80 >>",
        b"<< /Length %d >>\nstream\n%b\nendstream" % (len(to_unicode), to_unicode),
    ]
    made, places = b"%PDF-1.7\n", []
    for number, data in enumerate(objects, 1):
        places.append(len(made))
        made += b"%d 0 obj\n%b\nendobj\n" % (number, data)
    table = b"".join(b"%010d 00000 n \n" % place for place in places)
    size = len(objects) + 1
    trailer = b"trailer\n<< /Size %d /Root 1 0 R >>\nstartxref\n%d\n%%%%EOF\n" % (size, len(made))
    return b"%bxref\n0 %d\n0000000000 65535 f \n%b%b" % (made, size, table, trailer)
