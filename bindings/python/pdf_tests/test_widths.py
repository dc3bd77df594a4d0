"""The widths of glyphs."""

import time
import unittest
from decimal import Decimal

from pikepdf import Array, Dictionary, Name

from hayro_cmap.pdf import _metrics

from made import File, needs_glyph_list, needs_resources, truetype


def widths_of(font, file):
    return file.show(b"", F=font).font().widths


class Simple(unittest.TestCase):
    def widths(self, subtype="TrueType", base_font="Unknown", **entries):
        file = File()
        return widths_of(file.simple(subtype=subtype, base_font=base_font, **entries), file)

    def test_the_array(self):
        entries = {"FirstChar": 65, "LastChar": 67, "Widths": Array([500, Decimal("250.5"), Name.x])}
        found = self.widths(FontDescriptor=Dictionary(MissingWidth=300), **entries)
        self.assertEqual([found.advance(code) for code in (64, 65, 66, 67, 68)], [300, 500, 250.5, 300, 300])
        self.assertEqual(self.widths(**entries).advance(64), 0)

    def test_an_array_that_goes_on(self):
        found = self.widths(FirstChar=254, Widths=Array([1, 2, 3, 4]))
        self.assertEqual((found.table[254:], len(found.table)), ([1, 2], 256))
        self.assertEqual(self.widths(FirstChar=-1, Widths=Array([1, 2, 3])).table[:3], [2, 3, 0])

    def test_a_type3_font(self):
        """Its widths are in its own units, which its matrix scales."""
        entries = {"FirstChar": 65, "Widths": Array([12])}
        found = self.widths("Type3", FontMatrix=Array([Decimal("0.05"), 0, 0, Decimal("0.05"), 0, 0]), **entries)
        self.assertAlmostEqual(found.advance(65), 600)
        self.assertAlmostEqual(self.widths("Type3", **entries).advance(65), 12)

    def test_standard_fonts(self):
        """The entries WX of A, and of alpha and a1, in the AFM files."""
        for base_font, width in [
            ("Helvetica", 667),
            ("Helvetica-Oblique", 667),
            ("Helvetica-BoldOblique", 722),
            ("Times-Roman", 722),
            ("Times-Bold", 722),
            ("Times-Italic", 611),
            ("Times-BoldItalic", 667),
            ("Courier-Bold", 600),
            ("Arial,Bold", 722),
            ("ArialMT", 667),
            ("TimesNewRomanPS-ItalicMT", 611),
            ("ABCDEF+CourierNew", 600),
        ]:
            found = self.widths("Type1", base_font, Encoding=Name.WinAnsiEncoding)
            self.assertEqual((base_font, found.advance(0x41)), (base_font, width))
        self.assertEqual(self.widths("Type1", "Symbol").advance(0x61), 631)
        self.assertEqual(self.widths("Type1", "ZapfDingbats").advance(0x21), 974)

    def test_tables_of_standard_fonts(self):
        """Each Latin font has 315 glyphs, the others 190 and 202; the digits of each font have one width."""
        latin = ["HELVETICA", "HELVETICA_BOLD", "TIMES", "TIMES_BOLD", "TIMES_ITALIC", "TIMES_BOLD_ITALIC", "COURIERS"]
        digits = "zero one two three four five six seven eight nine".split()
        for name in latin:
            table = getattr(_metrics, name)
            self.assertEqual((len(table), len({table[it] for it in digits})), (315, 1))
        self.assertEqual((len(_metrics.SYMBOL), len(_metrics.ZAPF_DINGBATS)), (190, 202))
        self.assertEqual({_metrics.TIMES[it] for it in digits} | {_metrics.HELVETICA["space"]}, {500, 278})

    def test_arrays_without_numbers(self):
        for widths in (Array([]), Array([Name.x]), Name.x, 12):
            self.assertEqual(self.widths("Type1", "Courier", FirstChar=65, Widths=widths).advance(65), 600)

    def test_unknown_fonts(self):
        self.assertEqual(self.widths().advance(65), 500)
        self.assertEqual(self.widths(FontDescriptor=Dictionary(Flags=1)).advance(65), 600)

    @needs_glyph_list
    def test_an_embedded_program(self):
        """By the codes of a symbolic font, and by names; a code without a glyph has the width of glyph 0."""
        file = File()
        cmaps = [(3, 0, 4, {0xF041: "alpha"}), (3, 1, 4, {0x3B1: "alpha"})]
        program = truetype(["alpha"], *cmaps, widths={"alpha": (321, 0)})
        descriptor = Dictionary(Flags=4, FontFile2=file.stream(program))
        found = widths_of(file.simple(FontDescriptor=descriptor), file)
        self.assertEqual((found.advance(0x41), found.advance(0x42)), (321, 0))
        descriptor.Flags = 32
        encoding = Dictionary(Differences=Array([0x42, Name.alpha]))
        found = widths_of(file.simple(FontDescriptor=descriptor, Encoding=encoding), file)
        self.assertEqual((found.advance(0x42), found.advance(0x43)), (321, 0))


class Composite(unittest.TestCase):
    def widths(self, encoding="Identity-H", **entries):
        file = File()
        font = file.composite(Name(f"/{encoding}") if isinstance(encoding, str) else encoding(file))
        for name, value in entries.items():
            font.DescendantFonts[0][f"/{name}"] = value
        return widths_of(font, file)

    def test_the_arrays(self):
        """The example of ISO 32000-1, 9.7.4.3."""
        found = self.widths(W=Array([120, Array([400, 325, 500]), 7080, 8032, 1000]), DW=700)
        asked = (119, 120, 121, 122, 123, 7079, 7080, 8032, 8033)
        self.assertEqual([found.advance(0, cid) for cid in asked], [700, 400, 325, 500, 700, 700, 1000, 1000, 700])
        self.assertEqual(self.widths().advance(0, 5), 1000)
        # a code without a CID
        self.assertEqual(self.widths(W=Array([0, Array([250])])).advance(7, None), 250)

    def test_vertical_writing(self):
        """The example of ISO 32000-1, 9.7.4.3, and what it says of other CIDs."""
        values = Array([120, Array([-1000, 250, 772]), 7080, 8032, -1000, 500, 900])
        found = self.widths("Identity-V", W2=values, W=Array([5, Array([600])]))
        self.assertTrue(found.is_vertical)
        self.assertEqual([found.vertical(cid) for cid in (120, 8032)], [(-1000, 250, 772), (-1000, 500, 900)])
        self.assertEqual([found.vertical(cid) for cid in (5, 6)], [(-1000, 300, 880), (-1000, 500, 880)])
        found = self.widths("Identity-V", DW2=Array([800, -900]))
        self.assertEqual(found.vertical(6), (-900, 500, 800))

    @needs_resources
    def test_writing_modes(self):
        """By a name, by the text of a stream, by its dictionary, and by the name of a CMap that isn't at hand."""
        streams = [lambda it: it.stream(b"/WMode 1 def"), lambda it: it.stream(b"", WMode=1)]
        self.assertEqual([self.widths(it).is_vertical for it in streams], [True] * 2)
        self.assertEqual([self.widths(it).is_vertical for it in ("UniJIS-UCS2-V", "Nowhere-V", "V")], [True] * 3)
        encodings = ["UniJIS-UCS2-H", "Identity-H", lambda it: it.stream(b"/WMode 0 def"), "Nowhere-H"]
        self.assertEqual([self.widths(it).is_vertical for it in encodings], [False] * 4)

    def test_malformed(self):
        for listed in [
            Dictionary(),
            Array([]),
            Array([1]),
            Array([1, 2]),
            Array([Name.x, Name.y, Name.z]),
            Array([1, Array([Name.x])]),
            Array([9, 1, 500]),
            Array([-9, -1, 500]),
            Array([70000, Array([500])]),
            Array([2, 3, Name.x]),
        ]:
            found = self.widths("Identity-V", W=listed, W2=listed, DW=Name.x, DW2=Array([Name.x, Name.y]))
            self.assertEqual((found.by_cid, found.advance(0, 5), found.vertical(5)), ({}, 1000, (-1000, 500, 880)))

    def test_what_comes_after_a_malformed_entry(self):
        self.assertEqual(self.widths(W=Array([1, Name.x, 7, 5, 5, 400])).advance(0, 5), 400)

    def test_ranges_that_are_long(self):
        """CIDs have two bytes; what is given again and again is given up."""
        found = self.widths(W=Array([0, 4294967295, 400]))
        self.assertEqual((len(found.by_cid), found.advance(0, 65535), found.advance(0, 65536)), (65536, 400, 1000))
        start = time.monotonic()
        self.assertEqual(self.widths(W=Array([0, 65535, 400] * 3000)).advance(0, 9), 400)
        self.assertLess(time.monotonic() - start, 5)


if __name__ == "__main__":
    unittest.main()
