"""The texts that embedded font programs have, and those of codes that are characters or numbers of glyphs."""

import random
import struct
import time
import unittest
from unittest import mock

from pikepdf import Array, Dictionary, Name

from hayro_cmap import _encodings, _programs, _sfnt, pdf
from hayro_cmap._budget import Budget
from hayro_cmap.pdf import Source

from made import File, needs_glyph_list, needs_resources, truetype
from test_texts import cff_program

#: A CMap by which codes of two bytes are their CIDs.
CIDS = b"1 begincodespacerange <0000> <FFFF> endcodespacerange 1 begincidrange <0000> <FFFF> 0 endcidrange"

#: One of codes of two bytes, of which 0041 has the text x.
ONE = b"1 begincodespacerange <0000> <FFFF> endcodespacerange 1 beginbfchar <0041> <0078> endbfchar"


def sources(file):
    return [it.source for it in file.characters()]


def wide(file, program=None, to_unicode=None, encoding="Identity-H", collection="Identity", key="FontFile2", **entries):
    """A composite font with an embedded program, and these entries of its CIDFont."""
    encoding = Name(f"/{encoding}") if isinstance(encoding, str) else encoding
    font = file.composite(encoding, collection, to_unicode)
    [below] = font.DescendantFonts
    for name, value in entries.items():
        below[f"/{name}"] = value
    if program is not None:
        below.FontDescriptor = Dictionary({f"/{key}": file.stream(program)})
    return font


def lenient(file, string):
    """The texts of a string of the only font, with faults read past, and their sources."""
    found = file.font().characters(string, lenient=True)
    return "".join(it.text or "?" for it in found), {it.source for it in found}


class UnicodeCodes(unittest.TestCase):
    def shown(self, to_unicode, string=b"\0A\x20\xac", **options):
        file = File()
        options = {"encoding": file.stream(CIDS)} if options.pop("stream", False) else options
        if options.pop("mapped", False):
            options["CIDToGIDMap"] = file.stream(bytes(2))
        file.show(b"", F=wide(file, to_unicode=to_unicode, **options))
        return lenient(file, string)

    def test_a_name(self):
        for name in ("Identity-H", "Identity-V"):
            for options in ({"stream": True}, {"mapped": True}):
                self.assertEqual(self.shown(Name(f"/{name}"), **options), ("A€", {Source.UNICODE_CODES}))

    def test_a_stream_of_cids(self):
        for options in ({"stream": True}, {"mapped": True}):
            self.assertEqual(self.shown(CIDS, **options), ("A€", {Source.UNICODE_CODES}))

    def test_codes_that_are_glyphs(self):
        """Neither the encoding nor the map of glyphs is a stream."""
        for to_unicode in (Name("/Identity-H"), CIDS):
            self.assertEqual(self.shown(to_unicode), ("??", {Source.NONE}))
            self.assertEqual(self.shown(to_unicode, CIDToGIDMap=Name("/Identity")), ("??", {Source.NONE}))

    def test_other_names_and_streams(self):
        self.assertEqual(self.shown(Name("/UniJIS-UCS2-H"), mapped=True), ("??", {Source.NONE}))
        self.assertEqual(self.shown(ONE, mapped=True), ("x?", {Source.TO_UNICODE, Source.NONE}))
        self.assertEqual(self.shown(ONE + CIDS, mapped=True), ("x?", {Source.TO_UNICODE, Source.NONE}))
        self.assertEqual(self.shown(b"", mapped=True), ("??", {Source.NONE}))

    def test_codes_that_are_no_characters(self):
        self.assertEqual(self.shown(CIDS, b"\0\0\xd8\0\xdf\xff\xe0\0", mapped=True)[0], "???\ue000")

    def test_only_past_faults(self):
        file = File()
        file.show(b"/F 9 Tf <0041> Tj", F=wide(file, to_unicode=CIDS, CIDToGIDMap=file.stream(bytes(2))))
        self.assertEqual(file.text(), "A")
        [character] = pdf.characters(file.pdf.pages[0], lenient=False)
        self.assertEqual((character.text, character.source), (None, Source.NONE))

    @needs_resources
    def test_before_the_collection(self):
        file = File()
        font = wide(file, to_unicode=Name("/Identity-H"), collection="Japan1", CIDToGIDMap=file.stream(bytes(2)))
        file.show(b"", F=font)
        self.assertEqual(lenient(file, b"\0A"), ("A", {Source.UNICODE_CODES}))

    @needs_glyph_list
    def test_a_simple_font(self):
        file = File()
        file.show(b"", F=file.simple(Name("/Identity-H"), Encoding=Name.WinAnsiEncoding))
        self.assertEqual(lenient(file, b"A"), ("A", {Source.GLYPH_NAME}))


@needs_glyph_list
class Composite(unittest.TestCase):
    """Fonts of the codes that are glyph numbers: 1 is alpha, 2 has a name alone, 3 has neither."""

    def program(self, **options):
        return truetype(["alpha", "beta", "g3"], (3, 1, 4, {0x3B1: "alpha"}), **options)

    def test_characters_and_names(self):
        file = File()
        file.show(b"/F 9 Tf <00010002000300040000> Tj", F=wide(file, self.program()))
        self.assertEqual(file.text(), "αβ???")
        self.assertEqual(sources(file), [Source.FONT_PROGRAM] * 2 + [Source.NONE] * 3)

    def test_a_map_of_glyphs(self):
        file = File()
        file.show(
            b"/F 9 Tf <000000010002> Tj",
            F=wide(file, self.program(), CIDToGIDMap=file.stream(bytes([0, 2, 0, 1]))),
        )
        self.assertEqual(file.text(), "βα?")

    def test_after_the_to_unicode_cmap(self):
        file = File()
        to_unicode = b"1 begincodespacerange <0000> <FFFF> endcodespacerange 1 beginbfchar <0001> <0078> endbfchar"
        file.show(b"/F 9 Tf <00010002> Tj", F=wide(file, self.program(), to_unicode))
        self.assertEqual((file.text(), sources(file)), ("xβ", [Source.TO_UNICODE, Source.FONT_PROGRAM]))

    def test_formats(self):
        """Format 12 has characters of more than two bytes; 6 and 0 stand for codes in a row and for bytes."""
        for number, platform, encoding, char in [(12, 3, 10, "𝛼"), (4, 0, 3, "α"), (6, 0, 3, "α"), (0, 0, 0, "a")]:
            program = truetype(["x"], (platform, encoding, number, {ord(char): "x"}))
            self.assertEqual(_sfnt.Sfnt(program).glyphs(*_sfnt.UNICODE), {ord(char): 1})

    def test_segments_with_listed_glyphs(self):
        names = [f"n{it}" for it in range(9)]
        expected = {0x41 + at: names[7 * at % 9] for at in range(9)}
        glyphs = _sfnt.Sfnt(truetype(names, (3, 1, 4, expected))).glyphs((3, 1))
        self.assertEqual({code: names[glyph - 1] for code, glyph in glyphs.items()}, expected)

    def test_the_best_of_several_characters(self):
        """The least one, but one that stands for another of them comes after it, and after these those of no use."""
        rows = [
            ("\u03a9\u2126", "\u03a9"),
            ("\xa0 \t", " "),
            ("①➀", "①"),
            ("\u2ef0\u9f99", "\u9f99"),
            ("\u6587\u2f42", "\u6587"),
            ("\ue000\u2ef0", "\u2ef0"),
            ("\ue000", "\ue000"),
        ]
        for characters, best in rows:
            program = truetype(["x"], (3, 1, 4, {ord(it): "x" for it in characters}))
            self.assertEqual(_programs.Program(program).text(1), best)
        program = truetype(["x"], (3, 1, 4, {0x0D: "x"}), post=False)
        self.assertIsNone(_programs.Program(program).text(1))

    def test_names_of_a_cff_program(self):
        """Its glyphs have no CIDs, so that a CID is the number of a glyph."""
        file = File()
        file.show(b"/F 9 Tf <000200010003> Tj", F=wide(file, cff_program(), key="FontFile3"))
        self.assertEqual(file.text(), "AB?")

    def test_cids_of_a_cff_program(self):
        """Where its glyphs have CIDs, the CIDs of the font are these, and no names."""
        program = _programs.Program(truetype(["x", "y"], (3, 1, 4, {0x3B1: "x", 0x3B2: "y"})))
        program.__dict__["_charset"] = ([".notdef", "cid00907", "cid00005"], True)
        glyphs = _programs.GlyphsOfCids(program)
        self.assertEqual([glyphs.text(cid) for cid in (907, 5, 1, 2)], ["α", "β", None, None])
        self.assertEqual(program.names, [])

    def test_a_subtable_that_is_cut(self):
        """The codes before the cut stay, and one of no code has the next subtable looked at."""
        rows = b"".join(struct.pack(">LLL", code, code, 1) for code in (0x41, 0x42))
        data = struct.pack(">HHLLL", 12, 0, 40, 0, 2) + rows
        for size, codes in [(40, 2), (39, 1), (28, 1), (16, 0), (9, 0), (0, 0)]:
            self.assertEqual(len(_sfnt.glyphs_of(data[:size], Budget())), codes)

    def test_many_programs(self):
        """All fonts of a file together have a limit."""
        file = File()
        program = self.program(post=False)
        file.show(b"", A=wide(file, program), B=wide(file, program))
        with mock.patch.object(Budget.__init__, "__defaults__", (1,)):
            fonts = pdf.Document(file.pdf).fonts
        self.assertEqual([font.characters(b"\0\1")[0].text for font in fonts], ["α", None])

    def test_standard_names(self):
        """The spelled names begin at 258, the number after dcroat. They begin at 257 where that is used and each name
        has a number, as Prawn writes them."""
        for numbers, names in (
            ([0, 257, 258, 259], [".notdef", "dcroat", "alpha", "beta"]),
            ([0, 258, 259], [".notdef", "alpha", "beta"]),
            ([0, 257, 258], [".notdef", "alpha", "beta"]),
            ([0, 257], [".notdef", "dcroat"]),
        ):
            post = struct.pack(f">L28xH{len(numbers)}H", 0x20000, len(numbers), *numbers) + b"\5alpha\4beta"
            self.assertEqual(_sfnt.names_of(post), names)

    def test_many_characters_of_a_glyph(self):
        """No time that grows with the square of their number."""
        start = time.monotonic()
        self.assertEqual(_programs.best_of({chr(code) for code in range(0x20, 0xD800)}), " ")
        self.assertLess(time.monotonic() - start, 2)

    def test_tables_that_overlap(self):
        """All tables together are no longer than the program."""
        records = b"".join(struct.pack(">4sLLL", tag, 0, 0, 1 << 20) for tag in _sfnt.TABLES)
        it = _sfnt.Sfnt(b"OTTO" + struct.pack(">HHHH", len(_sfnt.TABLES), 0, 0, 0) + records + bytes(1 << 20))
        self.assertLess(sum(len(it.table(tag)) for tag in _sfnt.TABLES), 1.1 * (1 << 20))

    def test_hostile(self):
        """Programs that are cut and changed have no fault, and no time that grows with what they claim."""
        rows = b"".join(first.to_bytes(4, "big") + b"\0\x10\xff\xff\0\0\0\1" for first in range(1000))
        data = b"\0\x0c\0\0" + bytes(8) + (1000).to_bytes(4, "big") + rows
        self.assertLessEqual(len(_sfnt.glyphs_of(data, Budget())), _sfnt.MOST_CODES)
        program, chance = self.program(), random.Random(1)
        for _ in range(300):
            changed = bytearray(program[: chance.randrange(len(program) + 1)])
            for _ in range(chance.randrange(9)):
                if changed:
                    changed[chance.randrange(len(changed))] = chance.randrange(256)
            it = _programs.Program(bytes(changed))
            texts = {it.text(glyph) for glyph in range(9)}
            self.assertTrue(all(text is None or isinstance(text, str) for text in texts))
            it.sfnt.advances()


@needs_glyph_list
class Simple(unittest.TestCase):
    def text(self, codes, program, flags=4, subtype="TrueType", key="FontFile2", kind=None, **entries):
        file = File()
        stream = file.stream(program) if kind is None else file.stream(program, Subtype=Name(f"/{kind}"))
        descriptor = Dictionary({"/Flags": flags, f"/{key}": stream})
        font = file.simple(subtype=subtype, FontDescriptor=descriptor, **entries)
        file.show(b"/F 9 Tf <%b> Tj" % codes.hex().encode(), F=font)
        return file.text()

    def test_codes_of_symbols(self):
        """The characters F001, F101 and 3 of (3, 0) are the codes 1 to 3."""
        symbols = {0xF001: "alpha", 0xF102: "beta", 3: "x"}
        characters = {0x3B1: "alpha", 0x3B2: "beta", 0x3B3: "x"}
        for cmaps in [[(3, 0, 4, symbols), (3, 1, 4, characters)], [(3, 0, 4, symbols)]]:
            program = truetype(["alpha", "beta", "x"], *cmaps)
            self.assertEqual(self.text(b"\1\2\3\4", program), "αβγ?" if len(cmaps) == 2 else "αβx?")

    def test_codes_of_the_macintosh(self):
        program = truetype(["alpha"], (1, 0, 6, {1: "alpha"}))
        self.assertEqual(self.text(b"\1\2", program), "α?")
        # the program comes before StandardEncoding where the font has no encoding
        program = truetype(["alpha"], (1, 0, 0, {0x41: "alpha"}))
        self.assertEqual(self.text(b"AB", program, flags=32), "αB")

    def test_names(self):
        """Names that have no text are those of glyphs, by `post`."""
        program = truetype(["glyphx", "y"], (3, 1, 4, {0x3B1: "glyphx"}))
        encoding = Dictionary(Differences=Array([65, Name.glyphx, Name.alpha, Name.glyphy]))
        self.assertEqual(self.text(b"ABC", program, flags=32, Encoding=encoding), "αα?")

    def test_an_opentype_program_of_a_type1_font(self):
        program = opentype(cff_program())
        self.assertEqual(self.text(b"AB", program, subtype="Type1", key="FontFile3", kind="OpenType"), "BA")

    def test_the_expert_encoding(self):
        """Its names are those of the expert strings in their order, but for those of StandardEncoding."""
        from fontTools.cffLib import cffStandardStrings

        names = [it for it in _encodings.EXPERT if it is not None]
        # Technical Note 5176, Appendix A: the first string for small capitals, and the last one
        expert = cffStandardStrings[229:379]
        self.assertEqual([it for it in names if it in expert], expert)
        for code, name in [(0x30, "zerooldstyle"), (0x56, "ff"), (0x61, "Asmall"), (0xFF, "Ydieresissmall")]:
            self.assertEqual(_encodings.EXPERT[code], name)


def opentype(cff):
    """An OpenType program that has a CFF table alone."""
    head = b"OTTO" + b"\0\1" + bytes(6)
    return head + b"CFF " + bytes(4) + (28).to_bytes(4, "big") + len(cff).to_bytes(4, "big") + cff


@needs_glyph_list
class Numbers(unittest.TestCase):
    def texts(self, *differences, subtype="Type3"):
        names = [Name(f"/{it}") if isinstance(it, str) else it for it in differences]
        file = File()
        file.show(b"", F=file.simple(subtype=subtype, Encoding=Dictionary(Differences=Array(names))))
        font = file.font()
        return {it.code.code: (it.text, it.source) for it in font.characters(bytes(range(256))) if it.text is not None}

    def guesses(self, *differences):
        found = self.texts(*differences)
        self.assertEqual({source for _, source in found.values()} - {Source.GLYPH_NUMBER}, set())
        return "".join(text for text, _ in found.values())

    def test_decimal(self):
        for prefix in ("C", "a", "c", "g", "cid_", "", "G"):
            self.assertEqual(self.guesses(1, f"{prefix}72", f"{prefix}105", ".notdef", f"{prefix}33"), "Hi!")

    def test_hexadecimal(self):
        self.assertEqual(self.guesses(1, "G48", "G6F", "G20"), "Ho ")
        # 20 is no decimal number of a character that is printed
        self.assertEqual(self.guesses(1, "G48", "G20"), "H ")

    def test_the_form_by_which_numbers_are_codes(self):
        self.assertEqual(self.guesses(0x41, "G41", "G42"), "AB")
        self.assertEqual(self.guesses(41, "G41", "G42"), ")*")
        self.assertEqual(self.guesses(1, "G41", "G42"), ")*")

    def test_codes_of_no_character(self):
        """Bitmap fonts of TeX name each glyph by its code."""
        self.assertEqual(self.guesses(12, "a12", 65, "a65"), "A")
        self.assertEqual(self.guesses(1, "a12", "a65"), "")

    def test_other_forms(self):
        """One name of another form, or another prefix, and none is a number."""
        for names in [["a65", "b66"], ["a65", "x"], ["a65", "a66.alt"], ["glyph65"], ["a65", "a999"], ["a65", "A"]]:
            self.assertEqual([it for it, source in self.texts(1, *names).values() if source is Source.GLYPH_NUMBER], [])

    def test_names_of_a_program(self):
        """Only what the file says of a font is a number, and not how a program names its glyphs."""
        file = File()
        program = b"/Encoding 256 array dup 65 /a65 put readonly def currentfile eexec"
        descriptor = Dictionary(Flags=4, FontFile=file.stream(program))
        file.show(b"/F 9 Tf (A) Tj", F=file.simple(subtype="Type1", FontDescriptor=descriptor))
        self.assertEqual(file.text(), "?")

    def test_small_letters(self):
        found = self.texts(1, "uni20ac", "u1d6fc", "uni00410042", "uni20AC.alt", "university", subtype="Type1")
        expected = [(text, Source.GLYPH_NAME) for text in ("€", "𝛼", "AB", "€")]
        self.assertEqual([found[code] for code in (1, 2, 3, 4)], expected)
        self.assertNotIn(5, found)

    def test_guesses_are_left_out(self):
        file = File()
        file.show(b"", F=file.simple(subtype="Type3", Encoding=Dictionary(Differences=Array([65, Name.a65]))))
        [guess], [nothing] = (file.font().characters(b"A", guesses=guesses) for guesses in (True, False))
        self.assertEqual((guess.text, guess.source.is_guess), ("A", True))
        self.assertEqual((nothing.text, nothing.source), (None, Source.NONE))
        self.assertEqual([source for source in Source if source.is_guess], [Source.GLYPH_NUMBER])


if __name__ == "__main__":
    unittest.main()
