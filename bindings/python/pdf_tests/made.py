"""PDF files that tests make."""

import io
import os
import unittest
from pathlib import Path

import pikepdf
from pikepdf import Array, Dictionary, Name, String

from hayro_cmap import pdf

#: Where Debian's package poppler-data has the predefined CMap files.
needs_resources = unittest.skipUnless(
    Path("/usr/share/poppler/cMap/Adobe-Japan1").is_dir(), "Debian's package poppler-data isn't installed"
)
needs_glyph_list = unittest.skipUnless(pdf.HAS_GLYPH_LIST, "Debian's package python3-fonttools isn't installed")

#: 41 is A, 42 is ffi.
GOOD = b"1 begincodespacerange <00> <FF> endcodespacerange 2 beginbfchar <41> <0041> <42> <006600660069> endbfchar"

#: The second entry has no text, as the byte after /x shows.
BAD = b"1 begincodespacerange <00> <FF> endcodespacerange 3 beginbfchar <41> <0041> <42> /x <43> <0043> endbfchar"
AT_FAULT = BAD.index(b"/x") + 2

#: Codes of two bytes: 0041 to 0043 are A to C.
WIDE = b"1 begincodespacerange <0000> <FFFF> endcodespacerange 1 beginbfrange <0041> <0043> <0041> endbfrange"


def with_many_codes(rows, text):
    """A ToUnicode CMap with rows of 65,536 codes each, of which the first one has a text."""
    declared = b" ".join(b"<%04X0000> <%04XFFFF> <%b>" % (row, row, text) for row in range(rows))
    return b"begincodespacerange <00000000> <FFFFFFFF> endcodespacerange beginbfrange %b endbfrange" % declared


class File:
    """A PDF file with one page."""

    def __init__(self):
        self.pdf = pikepdf.new()
        self.pdf.add_blank_page()
        self.page = self.pdf.pages[0].obj
        self.page.Resources = Dictionary(Font=Dictionary(), XObject=Dictionary(), ExtGState=Dictionary())

    def stream(self, data, **entries):
        """A stream with these entries."""
        stream = self.pdf.make_stream(data)
        for key, value in entries.items():
            stream[f"/{key}"] = value
        return stream

    def simple(self, to_unicode=None, subtype="TrueType", base_font="Simple", **entries):
        """A simple font."""
        font = Dictionary(Type=Name.Font, Subtype=Name(f"/{subtype}"), BaseFont=Name(f"/{base_font}"), **entries)
        return self.made(font, to_unicode)

    def composite(self, encoding, collection="Identity", to_unicode=None):
        """A composite font with a CIDFont of this collection."""
        info = Dictionary(Registry=String("Adobe"), Ordering=String(collection), Supplement=0)
        below = Dictionary(Type=Name.Font, Subtype=Name.CIDFontType2, BaseFont=Name("/Wide"), CIDSystemInfo=info)
        font = Dictionary(Type=Name.Font, Subtype=Name.Type0, BaseFont=Name("/Wide"), Encoding=encoding)
        font.DescendantFonts = Array([self.pdf.make_indirect(below)])
        return self.made(font, to_unicode)

    def made(self, font, to_unicode):
        if to_unicode is not None:
            font.ToUnicode = to_unicode if isinstance(to_unicode, pikepdf.Object) else self.stream(to_unicode)
        return self.pdf.make_indirect(font)

    def form(self, content, **fonts):
        """A form with these fonts."""
        resources = Dictionary(Font=Dictionary(**fonts))
        return self.stream(content, Type=Name.XObject, Subtype=Name.Form, BBox=Array([0, 0, 9, 9]), Resources=resources)

    def show(self, content, **fonts):
        """Gives the page this content, and these fonts."""
        self.page.Contents = self.stream(content)
        for name, font in fonts.items():
            self.page.Resources.Font[f"/{name}"] = font
        return self

    def font(self):
        """The only font."""
        [font] = pdf.fonts(self.pdf)
        return font

    def characters(self):
        """The codes of the page."""
        return list(pdf.characters(self.pdf.pages[0]))

    def text(self):
        """The texts of the page, with ? for a code that has none."""
        return "".join(it.text or "?" for it in self.characters())

    def shown(self):
        """The strings of the page, each with the name of its font."""
        document = pdf.Document(self.pdf)
        return [(it.font and it.font.base_font, it.string) for it in document.shown(document.pages[0])]

    def bytes(self, **options):
        """The file."""
        data = io.BytesIO()
        self.pdf.save(data, **options)
        return data.getvalue()

    def saved(self, path, **options):
        """Writes the file to a path, and gives the path."""
        self.pdf.save(os.fspath(path), **options)
        return os.fspath(path)


def showing(text, to_unicode, content=b"/F 9 Tf (%b) Tj"):
    """A file that shows a text with a simple font of this ToUnicode CMap."""
    file = File()
    return file.show(content % text, F=file.simple(to_unicode))


def truetype(names, *cmaps, widths=(), post=True):
    """A TrueType program of glyphs of these names, with subtables of `cmap`: each has a platform, an encoding, a format,
    and the names of the glyphs of codes."""
    from fontTools.fontBuilder import FontBuilder
    from fontTools.pens.ttGlyphPen import TTGlyphPen

    builder = FontBuilder(1000, isTTF=True)
    builder.setupGlyphOrder([".notdef", *names])
    builder.setupCharacterMap({})
    builder.setupGlyf({name: TTGlyphPen(None).glyph() for name in [".notdef", *names]})
    advances = {".notdef": (0, 0), **{name: (500, 0) for name in names}, **dict(widths)}
    builder.setupHorizontalMetrics(advances)
    builder.setupHorizontalHeader()
    builder.setupPost(keepGlyphNames=post)
    builder.font["cmap"].tables = [subtable(*cmap) for cmap in cmaps]
    data = io.BytesIO()
    builder.font.save(data)
    return data.getvalue()


def subtable(platform, encoding, number, glyphs):
    """A subtable of the table `cmap` in the format of this number."""
    from fontTools.ttLib.tables._c_m_a_p import CmapSubtable

    table = CmapSubtable.newSubtable(number)
    table.platformID, table.platEncID, table.language, table.cmap = platform, encoding, 0, glyphs
    return table
