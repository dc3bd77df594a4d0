"""The texts of shown codes, and where they come from."""

import unittest
from unittest import mock

from pikepdf import Array, Dictionary, Name

from hayro_cmap import Code, Grade, _encodings, _glyphs, pdf
from hayro_cmap.pdf import Source, _fonts, _interpreter

from made import BAD, GOOD, WIDE, File, needs_glyph_list, needs_resources, showing

#: A part of a Type 1 font program, up to its encrypted part. 41 is alpha, 42 beta, by three ways to write numbers.
TYPE1 = b"""%!PS-AdobeFont-1.0: F
/Encoding 256 array
0 1 255 {1 index exch /.notdef put} for
dup 65 /alpha put
dup 8#102/beta put
dup 16#43 /gamma put
readonly def
currentfile eexec dup 68 /delta put"""


class Contents(unittest.TestCase):
    def test_strings_in_order(self):
        file = File()
        file.show(b"/F 9 Tf (A) Tj [(B) -100 (C)] TJ (D) ' 1 2 (E) \"", F=file.simple(GOOD))
        self.assertEqual(b"".join(string for _, string in file.shown()), b"ABCDE")

    def test_operands_that_are_none(self):
        """What isn't a string shows nothing; a string may begin with a slash, or be empty."""
        content = b"/F 9 Tf Tj () Tj /A Tj 12 Tj [(/a) /B 1.5 [(c)] << /D (d) >> true null (e)] TJ (f) TJ [(g)] Tj"
        content += b" (h) Tf gs (i) Tj"
        file = File()
        file.show(content, F=file.simple(GOOD))
        self.assertEqual(file.shown(), [("Simple", b""), ("Simple", b"/a"), ("Simple", b"e"), (None, b"i")])

    def test_the_font_that_is_chosen(self):
        file = File()
        one, two, three = (file.simple(GOOD, base_font=name) for name in "123")
        file.page.Resources.XObject.X = file.form(b"(c) Tj /F 9 Tf (d) Tj", F=two)
        file.page.Resources.ExtGState.G = Dictionary(Font=Array([three, 9]))
        file.show(b"(0) Tj /F 9 Tf q (a) Tj /X Do /G gs (e) Tj Q (f) Tj", F=one)
        expected = [(None, b"0"), ("1", b"a"), ("1", b"c"), ("2", b"d"), ("3", b"e"), ("1", b"f")]
        self.assertEqual(file.shown(), expected)

    def test_fonts_of_operators_that_are_read_ahead(self):
        """A font that Q brings back, or a graphics state chooses, has its own texts, however much is read ahead."""
        file = File()
        one, two, three = (file.simple(GOOD.replace(b"<0041>", b"<%b>" % it)) for it in (b"0031", b"0032", b"0033"))
        file.page.Resources.Font.T = two
        file.page.Resources.ExtGState.G = Dictionary(Font=Array([three, 9]))
        file.show(b"/F 9 Tf q /T 9 Tf (A) Tj q /G gs [(A) (BA)] TJ Q (A) ' Q (A) Tj " * 200, F=one)
        for ahead in [1, 3, _interpreter.AHEAD]:
            with mock.patch.object(_interpreter, "AHEAD", ahead):
                self.assertEqual("".join(file.text().split()), "23ffi321" * 200)

    def test_a_form_without_resources_has_those_of_the_page(self):
        file = File()
        form = file.form(b"/F 9 Tf (A) Tj")
        del form.Resources
        file.page.Resources.XObject.X = form
        file.show(b"/X Do", F=file.simple(GOOD))
        self.assertEqual(file.text(), "A")

    def test_the_state_of_an_annotation(self):
        file = File()
        font = file.simple(GOOD)
        states = Dictionary(On=file.form(b"/F 9 Tf (A) Tj", F=font), Off=file.form(b"/F 9 Tf (B) Tj", F=font))
        file.page.Annots = Array([Dictionary(Type=Name.Annot, AP=Dictionary(N=states), AS=Name.Off)])
        self.assertEqual(file.text(), "ffi")

    def test_several_streams(self):
        file = File()
        file.show(b"", F=file.simple(GOOD))
        file.page.Contents = Array([file.stream(b"/F 9 Tf (A)"), file.stream(b"Tj")])
        self.assertEqual(file.text(), "A")

    def test_an_inline_image(self):
        file = showing(b"A", GOOD, b"BI /W 1 /H 1 /CS /G /BPC 8 ID x EI /F 9 Tf (%b) Tj")
        self.assertEqual(file.shown(), [("Simple", b"A")])

    def test_too_much(self):
        file = showing(b"A", GOOD, b"/F 9 Tf (%b) Tj (A) Tj (A) Tj")
        with mock.patch.object(_interpreter, "MOST_STEPS", 2):
            report = pdf.check(file.pdf)
        self.assertEqual((report.shown, report.faults), (1, ["a page has more than 2 operators"]))

    def test_forms_that_draw_each_other_twice(self):
        """Each level doubles what is drawn; the page has a limit all the same."""
        file = File()
        form = file.form(b"/F 9 Tf (A) Tj", F=file.simple(GOOD))
        for _ in range(30):
            above = file.form(b"/X Do /X Do")
            above.Resources.XObject = Dictionary(X=form)
            form = above
        file.page.Resources.XObject.X = form
        file.show(b"/X Do")
        with mock.patch.object(_interpreter, "MOST_STEPS", 10_000):
            report = pdf.check(file.pdf)
        self.assertLess(report.shown, 10_000)
        self.assertEqual(report.faults, ["a page has more than 10,000 operators"])

    def test_lines(self):
        file = File()
        content = (
            b"/F 9 Tf BT (A) Tj 0 -9 Td (A) Tj 9 0 Td (A) Tj [(A) -50 (A) -300 (A)] TJ T* (A) Tj ET BT (A\\001) Tj ET"
        )
        file.show(content, F=file.simple(GOOD))
        document = pdf.Document(file.pdf)
        self.assertEqual(list(document.lines(document.pages[0])), ["A", "A A" + "AA A", "A", "A\ufffd"])


class Sources(unittest.TestCase):
    def test_to_unicode(self):
        file = showing(b"ABC", GOOD)
        self.assertEqual([it.source for it in file.characters()][:2], [Source.TO_UNICODE] * 2)
        self.assertEqual(file.text()[:4], "Affi")

    def test_nothing(self):
        file = File()
        file.show(b"/F 9 Tf <00410042> Tj (a) ' /G 9 Tf (b) Tj", F=file.composite(Name("/Identity-H"), "Identity"))
        found = file.characters()
        self.assertEqual({it.source for it in found}, {Source.NONE})
        self.assertEqual(
            [(bytes(it.code), it.font is None) for it in found],
            [(b"\0A", False), (b"\0B", False), (b"a", False), (b"b", True)],
        )

    def test_faults(self):
        """The faults of a CMap are read past, unless that isn't wanted: then it gives no text."""
        file = showing(b"ABC", BAD)
        strict = pdf.characters(file.pdf.pages[0], lenient=False)
        self.assertEqual([it.source is Source.TO_UNICODE for it in strict], [False, False, False])
        self.assertEqual([it.source is Source.TO_UNICODE for it in file.characters()], [True, False, True])

    @needs_resources
    def test_a_predefined_map(self):
        file = File()
        file.show(b"/F 9 Tf <93FA967B8CEA> Tj", F=file.composite(Name("/90ms-RKSJ-H"), "Japan1"))
        self.assertEqual((file.text(), {it.source for it in file.characters()}), ("日本語", {Source.COLLECTION}))

    @needs_resources
    def test_a_text_of_the_cid_where_the_to_unicode_cmap_has_none(self):
        file = File()
        to_unicode = b"1 begincodespacerange <0000> <FFFF> endcodespacerange 1 beginbfchar <0022> <0078> endbfchar"
        file.show(b"/F 9 Tf <00220023> Tj", F=file.composite(Name("/Identity-H"), "Japan1", to_unicode))
        self.assertEqual(file.text(), "xB")
        self.assertEqual([it.source for it in file.characters()], [Source.TO_UNICODE, Source.COLLECTION])

    @needs_resources
    def test_strings_by_the_map_from_unicode(self):
        file = File()
        file.show(b"", F=file.composite(Name("/Identity-H"), "Japan1"))
        # UniJIS-UTF16-H has <0020> <005b> 1, and Adobe-Japan1 also has an A of half the width
        [piece] = file.font().extractor().pieces("A")
        self.assertEqual((piece.code, piece.grade), (b"\0\x22", Grade.CANONICAL))

    @needs_resources
    def test_the_collection_of_a_predefined_encoding(self):
        """Whatever collection the font names."""
        for collection in ("Identity", "Japan1"):
            file = File()
            file.show(b"/F 9 Tf <4E2D6587> Tj", F=file.composite(Name("/UniGB-UCS2-H"), collection))
            self.assertEqual((file.text(), {it.source for it in file.characters()}), ("中文", {Source.COLLECTION}))

    def test_the_empty_text(self):
        """It is the text of a code, so that nothing else is asked."""
        simple, composite = File(), File()
        simple.show(b"", F=simple.simple(GOOD, Encoding=Name.WinAnsiEncoding))
        composite.show(b"", F=composite.composite(Name("/Identity-H"), "Japan1", WIDE))
        for file, string in [(simple, b"A"), (composite, b"\0A")]:
            font = file.font()
            font.__dict__["to_unicode"] = _fonts.Read(EmptyTexts(), EmptyTexts(), [])
            font.__dict__["_extractors"] = dict.fromkeys((True, False), EmptyTexts(len(string)))
            self.assertEqual([it[2:] for it in font.characters(string)], [("", Source.TO_UNICODE)])

    @needs_resources
    def test_cids_of_the_collection_of_the_font(self):
        for mode in "HV":
            file = File()
            file.show(b"/F 9 Tf <0E8C0E8D> Tj", F=file.composite(Name(f"/Identity-{mode}"), "Japan1"))
            self.assertEqual(pdf.check(file.pdf).with_text, 2)

    def test_strings_are_cut_by_the_to_unicode_cmap_where_the_encoding_is_missing(self):
        file = File()
        file.show(b"/F 9 Tf (AB) Tj", F=file.composite(Name("/Nowhere-H"), to_unicode=GOOD))
        self.assertEqual(file.text(), "Affi")
        file.show(
            b"/F 9 Tf <00410042> Tj",
            F=file.composite(Name("/Nowhere-H"), to_unicode=b"1 beginbfchar <0041> <0041> endbfchar"),
        )
        self.assertEqual(file.text(), "A?")


class EmptyTexts:
    """In the place of a ToUnicode CMap, and of an extractor over it: the text of each code is empty."""

    def __init__(self, length=1):
        self.length = length

    def text(self, code):
        return ""

    def characters(self, string):
        return [(Code(0x41, self.length, 34, True, False), "")]


@needs_glyph_list
class GlyphNames(unittest.TestCase):
    def text(self, codes, subtype="Type1", to_unicode=None, **entries):
        file = File()
        file.show(b"/F 9 Tf <%b> Tj" % codes.hex().encode(), F=file.simple(to_unicode, subtype, **entries))
        return file.text()

    def test_encodings(self):
        """The rows are those of ISO 32000-1, D.2, for the codes 27, 60, 80 and E1."""
        codes = b"\x27\x60\x80\xe1"
        for name, text in [("WinAnsiEncoding", "'`€á"), ("MacRomanEncoding", "'`Ä·"), ("StandardEncoding", "’‘?Æ")]:
            self.assertEqual(self.text(codes, Encoding=Name(f"/{name}")), text)
        self.assertEqual(self.text(codes), "’‘?Æ")
        # D.4
        self.assertEqual(self.text(b"\x30\x56", Encoding=Name.MacExpertEncoding), "\uf730ﬀ")

    def test_standard_fonts(self):
        self.assertEqual(self.text(b"ab\xb5", base_font="Symbol"), "αβ∝")
        self.assertEqual(self.text(b"ab\xb5", base_font="ABCDEF+Symbol"), "αβ∝")
        self.assertEqual(self.text(b"\x21\x33", base_font="ZapfDingbats"), "✁✓")

    def test_differences(self):
        encoding = Dictionary(
            BaseEncoding=Name.WinAnsiEncoding,
            Differences=Array([65, Name.B, Name.f_i, 70, Name("/uni65E5"), 300, Name.Z]),
        )
        self.assertEqual(self.text(b"ABCF", Encoding=encoding), "BfiC日")

    def test_names_that_have_no_text(self):
        encoding = Dictionary(
            Differences=Array([65, Name("/g12"), Name("/noteheads.s2"), Name("/.notdef"), Name("/angbracketleft")])
        )
        file = File()
        file.show(b"/F 9 Tf (ABCD) Tj", F=file.simple(subtype="Type1", Encoding=encoding))
        self.assertEqual(file.text(), "???⟨")
        self.assertEqual([it.source for it in file.characters()], [Source.NONE] * 3 + [Source.GLYPH_NAME])

    def test_the_to_unicode_cmap_comes_first(self):
        file = File()
        file.show(b"/F 9 Tf (ABC) Tj", F=file.simple(GOOD, Encoding=Name.WinAnsiEncoding))
        self.assertEqual(file.text(), "AffiC")
        self.assertEqual([it.source for it in file.characters()], [Source.TO_UNICODE] * 2 + [Source.GLYPH_NAME])

    def test_a_symbolic_font(self):
        """It has no encoding but its own."""
        file = File()
        file.show(b"/F 9 Tf (A) Tj", F=file.simple(subtype="Type1", FontDescriptor=Dictionary(Flags=4)))
        self.assertEqual(file.text(), "?")

    def test_a_type1_program(self):
        file = File()
        descriptor = Dictionary(Flags=4, FontFile=file.stream(TYPE1))
        file.show(b"/F 9 Tf (ABCD) Tj", F=file.simple(subtype="Type1", FontDescriptor=descriptor))
        self.assertEqual(file.text(), "αβγ?")
        descriptor.FontFile = file.stream(b"/Encoding StandardEncoding def currentfile eexec")
        file.show(b"/F 9 Tf (A') Tj", F=file.simple(subtype="Type1", FontDescriptor=descriptor))
        self.assertEqual(file.text(), "A’")

    def test_differences_over_a_type1_program(self):
        file = File()
        descriptor = Dictionary(Flags=4, FontFile=file.stream(TYPE1))
        encoding = Dictionary(Differences=Array([66, Name.one]))
        file.show(b"/F 9 Tf (AB) Tj", F=file.simple(subtype="Type1", FontDescriptor=descriptor, Encoding=encoding))
        self.assertEqual(file.text(), "α1")

    def test_encodings_of_cff_programs(self):
        """Format 0, format 1, and each with a supplement: codes for glyphs from 1 on, and for further names."""
        self.assertEqual(_glyphs.codes_of_cff(bytes([0, 2, 65, 70])), ([65, 70], []))
        self.assertEqual(_glyphs.codes_of_cff(bytes([1, 2, 65, 2, 80, 0])), ([65, 66, 67, 80], []))
        supplement = bytes([2, 90, 0, 34, 91, 1, 0])
        self.assertEqual(_glyphs.codes_of_cff(bytes([0x80, 1, 65]) + supplement), ([65], [(90, 34), (91, 256)]))
        self.assertEqual(_glyphs.codes_of_cff(bytes([0x81, 1, 65, 1]) + supplement), ([65, 66], [(90, 34), (91, 256)]))

    def test_a_cff_program(self):
        self.assertEqual(_glyphs.of_cff(cff_program())[0x41:0x43], ["B", "A"])

    def test_malformed_programs(self):
        for data in [
            b"",
            b"x" * 100,
            TYPE1[:30],
            cff_program()[:-30],
            b"/Encoding 256 array dup 99#1 /A put dup 999 /B put def eexec",
        ]:
            self.assertIn(_glyphs.of_cff(data), (None, [None] * 256))
            found = _glyphs.of_type1(data)
            self.assertTrue(found is None or found == [None] * 256, found)

    def test_encodings_agree_with_other_tables(self):
        """Those of fontTools, and Python's of the code pages."""
        from fontTools.encodings.StandardEncoding import StandardEncoding

        self.assertEqual([name or ".notdef" for name in _encodings.STANDARD], StandardEncoding)
        # what the standard has else: unused codes are bullets, and two codes are a space and a hyphen
        others = {0x7F, 0x81, 0x8D, 0x8F, 0x90, 0x9D, 0xA0, 0xAD}
        for code in set(range(0x20, 0x100)) - others:
            self.assertEqual(_glyphs.text_of_glyph(_encodings.WIN_ANSI[code]), bytes([code]).decode("cp1252"))
        for code, name in enumerate(_encodings.MAC_ROMAN):
            if name is not None and code not in (0xCA, 0xDB):
                self.assertEqual(_glyphs.text_of_glyph(name), bytes([code]).decode("mac_roman"))

    def test_every_name_of_the_encodings_has_a_text(self):
        for names in [*_encodings.BY_NAME.values(), _encodings.SYMBOL]:
            self.assertEqual([it for it in names if it is not None and _glyphs.text_of_glyph(it) is None], [])
        dingbats = [it for it in _encodings.ZAPF_DINGBATS if it is not None]
        self.assertEqual([it for it in dingbats if _glyphs.text_of_glyph(it, True) is None], [])

    def test_without_the_list(self):
        with mock.patch.object(_glyphs, "glyph_list", lambda: None):
            _glyphs.text_of_glyph.cache_clear()
            self.addCleanup(_glyphs.text_of_glyph.cache_clear)
            self.assertEqual(self.text(b"A", Encoding=Name.WinAnsiEncoding), "?")


def cff_program():
    """A CFF font program in which 41 is B and 42 is A, as fontTools makes it."""
    import io

    from fontTools.cffLib import CFFFontSet
    from fontTools.fontBuilder import FontBuilder
    from fontTools.misc.psCharStrings import T2CharString

    builder = FontBuilder(1000, isTTF=False)
    names = [".notdef", "B", "A"]
    builder.setupGlyphOrder(names)
    strings = {name: T2CharString(program=[500, "endchar"]) for name in names}
    builder.setupCFF("F", {}, strings, {})
    fonts: CFFFontSet = builder.font["CFF "].cff
    fonts[0].Encoding = [*[".notdef"] * 0x41, "B", "A", *[".notdef"] * (256 - 0x43)]
    data = io.BytesIO()
    fonts.compile(data, builder.font)
    return data.getvalue()


if __name__ == "__main__":
    unittest.main()
