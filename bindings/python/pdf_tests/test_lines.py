"""Lines and words, by where strings are shown."""

import unittest
from unittest import mock

from pikepdf import Array, Dictionary, Name, String

from hayro_cmap import pdf
from hayro_cmap.pdf import Source, _content, _interpreter

from made import GOOD, File, needs_glyph_list, needs_resources

#: The codes 41 to 5A are letters of Hebrew, 20 is a space, 2E a period, 30 to 39 are digits, 61 to 7A small letters, and
#: 21 is a point that is set over a letter.
HEBREW = b"""1 begincodespacerange <00> <FF> endcodespacerange 2 beginbfchar <20> <0020> <21> <05B8> endbfchar
4 beginbfrange <2E> <2E> <002E> <30> <39> <0030> <41> <5A> <05D0> <61> <7A> <0061> endbfrange"""


class Page:
    """A page on which glyphs are 500 wide; so a string of two codes of size 10 is 10 wide."""

    def __init__(self, to_unicode=None, **entries):
        self.file = File()
        entries = {"Encoding": Name.WinAnsiEncoding, "FirstChar": 0, "Widths": Array([500] * 256), **entries}
        self.fonts = {"F": self.file.simple(to_unicode, "Type1", **entries)}

    def lines(self, content):
        self.file.show(b"/F 10 Tf BT %b ET" % content, **self.fonts)
        document = pdf.Document(self.file.pdf)
        return list(document.lines(document.pages[0]))


@needs_glyph_list
class Words(unittest.TestCase):
    def lines(self, content):
        return Page().lines(content)

    def test_gaps(self):
        """The second string is 10 further than the first, and the others further than the width of that."""
        near, far = ((x, ["abcd"]) for x in (9, 10, 11, 11.5)), ((x, ["ab cd"]) for x in (11.7, 12, 40))
        expected = [*near, *far, (-30, ["ab", "cd"])]
        for x, lines in expected:
            self.assertEqual(self.lines(b"(ab) Tj %g 0 Td (cd) Tj" % x), lines, x)
            self.assertEqual(self.lines(b"[(ab) %g (cd)] TJ" % (-100 * (x - 10))), lines, x)
            self.assertEqual(self.lines(b"1 0 0 1 50 50 Tm (ab) Tj 1 0 0 1 %g 50 Tm (cd) Tj" % (50 + x)), lines, x)

    def test_blanks_are_not_doubled(self):
        self.assertEqual(self.lines(b"(ab ) Tj 20 0 Td (cd) Tj 20 0 Td ( ef) Tj"), ["ab cd ef"])

    def test_lines_are_folded(self):
        """Unless they are exact."""
        page = Page(b"beginbfchar <61> <FB01> <62> <2002> endbfchar")
        self.assertEqual(page.lines(b"(aba) Tj"), ["fi fi"])
        document = pdf.Document(page.file.pdf)
        self.assertEqual(list(document.lines(document.pages[0], exact=True)), ["\ufb01\u2002\ufb01"])

    def test_lines_of_blanks_are_left_out(self):
        self.assertEqual(self.lines(b"( ) Tj 0 -20 Td (ab) Tj 0 -20 Td (  ) Tj"), ["ab"])

    def test_the_baseline(self):
        """A string that is raised a little is on the line, one of the next line isn't."""
        self.assertEqual(self.lines(b"(ab) Tj 10 4 Td (c) Tj 5 -4 Td (d) Tj 0 -11 Td (e) Tj"), ["abcd", "e"])
        self.assertEqual(self.lines(b"(ab) Tj 4 Ts (c) Tj 0 Ts (d) Tj"), ["abcd"])
        self.assertEqual(self.lines(b"(ab) Tj T* (c) Tj 12 TL (d) ' 1 2 (e) \""), ["ab", "c", "d", "e"])

    def test_spaces_and_scales(self):
        """Character spacing, word spacing and horizontal scaling move what comes next (ISO 32000-1, 9.3)."""
        self.assertEqual(self.lines(b"5 Tc (abc) Tj 30 0 Td 0 Tc (d) Tj"), ["abcd"])
        self.assertEqual(self.lines(b"0 Tc (abc) Tj 30 0 Td (d) Tj"), ["abc d"])
        self.assertEqual(self.lines(b"15 Tw (a b) Tj 30 0 Td (c) Tj"), ["a bc"])
        self.assertEqual(self.lines(b"200 Tz (ab) Tj 20 0 Td (c) Tj"), ["abc"])
        self.assertEqual(self.lines(b"/F 20 Tf (ab) Tj 20 0 Td (c) Tj"), ["abc"])

    def test_a_space_between_two_codes(self):
        """Two codes far apart are two words; more are letters that are spaced out."""
        self.assertEqual(self.lines(b"[(ab)] TJ 10 0 Td 2.5 Tc (cd) Tj 0 Tc 12.5 0 Td (ef) Tj"), ["abc def"])
        self.assertEqual(self.lines(b"2.5 Tc (abcd) Tj"), ["abcd"])

    def test_matrices(self):
        """Text may be rotated, mirrored, or scaled by the user space, also within forms."""
        content = b"(ab) Tj 10 0 Td (cd) Tj 12 0 Td (e) Tj 0 -12 Td (f) Tj"
        self.assertEqual(self.lines(b"0 1 -1 0 9 9 Tm " + content), ["abcd e", "f"])
        self.assertEqual(self.lines(b"1 0 0 -1 9 9 Tm (ab) Tj 10 0 Td (cd) Tj 0 12 Td (e) Tj"), ["abcd", "e"])
        page = Page()
        form = page.file.form(b"/F 1 Tf BT (cd) Tj ET", **page.fonts)
        form.Matrix = Array([10, 0, 0, 10, 10, 0])
        page.file.page.Resources.XObject.X = form
        content = b"(ab) Tj ET /X Do BT 22 0 Td (e) Tj ET q 2 0 0 2 0 40 cm BT (f) Tj 5 0 Td (g) Tj"
        self.assertEqual(page.lines(content), ["abcd e", "fg"])

    def test_states_that_a_form_leaves_open(self):
        """They end with the form, also past the number that is kept."""
        page = Page()
        page.file.page.Resources.XObject.X = page.file.form(b"q " * (_interpreter.MOST_SAVED + 9))
        content = b"(ab) Tj ET q 1 0 0 1 0 90 cm /X Do Q BT 10 0 Td (cd) Tj"
        self.assertEqual(page.lines(content), ["abcd"])

    def test_fonts_past_the_number_that_is_kept(self):
        """They are looked up again."""
        file, other = File(), GOOD.replace(b"<0041>", b"<0078>")
        file.show(b"/F 9 Tf (A) Tj /G 9 Tf (A) Tj /F 9 Tf (A) Tj", F=file.simple(GOOD), G=file.simple(other))
        with mock.patch.object(_interpreter, "MOST_NAMES", 1):
            self.assertEqual(file.text(), "AxA")

    def test_another_direction(self):
        self.assertEqual(self.lines(b"(ab) Tj 0 1 -1 0 50 0 Tm (cd) Tj"), ["ab", "cd"])

    def test_fonts_without_a_size(self):
        self.assertEqual(self.lines(b"/F 0 Tf (ab) Tj (cd) Tj 0 0 0 0 0 0 Tm /F 9 Tf (e) Tj"), ["abcde"])

    def test_separators(self):
        page = Page()
        page.file.show(b"/F 10 Tf BT (a) Tj 5 0 Td (b) Tj 8 0 Td (c) Tj 0 -12 Td (d) Tj ET", **page.fonts)
        document = pdf.Document(page.file.pdf)
        self.assertEqual([it.separator for it in document.shown(document.pages[0])], ["", "", " ", "\n"])

    def test_too_many_characters(self):
        page = Page()
        page.file.show(b"/F 10 Tf BT (ab) Tj 0 -20 Td (cd) Tj 0 -20 Td (e) Tj ET", **page.fonts)
        document = pdf.Document(page.file.pdf)
        with mock.patch.object(_content, "MOST_CHARACTERS", 4):
            self.assertEqual(list(document.lines(document.pages[0])), ["ab", "cd"])
        self.assertEqual(document.faults, ["a page has more than 4 characters"])

    def test_guesses(self):
        """They are left out where that is wanted."""
        encoding = Dictionary(Differences=Array([1, Name.a65, Name.a66]))
        page = Page(Encoding=encoding)
        self.assertEqual(page.lines(b"(\\001\\002) Tj"), ["AB"])
        document = pdf.Document(page.file.pdf, guesses=False)
        self.assertEqual(list(document.lines(document.pages[0])), ["\ufffd\ufffd"])
        self.assertEqual(pdf.check(page.file.pdf, guesses=False).with_text, 0)


@needs_glyph_list
class Marks(unittest.TestCase):
    def test_accents_over_letters(self):
        """An accent that is shown over a letter, before it or behind it, is one with the letter."""
        accents = Array([1, Name.acute, Name.dieresis, Name.dotlessi, Name.cedilla])
        encoding = Dictionary(Type=Name.Encoding, BaseEncoding=Name.WinAnsiEncoding, Differences=accents)
        page = Page(Encoding=encoding)
        for content, text in [
            (b"[(se\\001) 500 (nor)] TJ", "seńor"),
            (b"[(a\\002) 450 (\\003)] TJ", "aï"),
            (b"[(C) 480 (\\004) -20 (a)] TJ", "Ça"),
            (b"[(\\001) -100 (n)] TJ", "´n"),
            (b"[(\\001) 500 (+)] TJ", "´+"),
        ]:
            self.assertEqual(page.lines(content), [text])

    def test_combining_marks(self):
        """They are near a letter; the next string goes on with the letter."""
        page = Page(b"1 beginbfchar <31> <0323> endbfchar")
        self.assertEqual(page.lines(b"(q) Tj -2 -2 Td (1) Tj 7 2 Td (r) Tj 8 0 Td (s) Tj"), ["q\u0323r s"])


class ActualText(unittest.TestCase):
    """Marked content with a text of its own (ISO 32000-1, 14.9.4)."""

    def test_spans(self):
        content = b"(A) Tj /Span <</ActualText (ck)>> BDC [(B) -400 (C)] TJ EMC /P BMC (A) Tj EMC"
        page = Page(GOOD)
        self.assertEqual(page.lines(content), ["AckA"])
        found = page.file.characters()
        self.assertEqual([it.text for it in found], ["A", "ck", "", "A"])
        sources = [Source.TO_UNICODE, Source.ACTUAL_TEXT, Source.ACTUAL_TEXT, Source.TO_UNICODE]
        self.assertEqual([it.source for it in found], sources)

    def test_spans_in_spans(self):
        """The outer text stands for all."""
        content = b"/a <</ActualText (x)>> BDC /b <</ActualText (y)>> BDC (A) Tj EMC (A) Tj EMC (A) Tj EMC EMC (A) Tj"
        self.assertEqual(Page(GOOD).lines(content), ["xAA"])

    def test_two_spans(self):
        span = b"/Span <</ActualText (x)>> BDC (A) Tj EMC "
        self.assertEqual(Page(GOOD).lines(span + span), ["xx"])

    def test_a_dictionary_of_the_resources(self):
        page = Page(GOOD)
        page.file.page.Resources.Properties = Dictionary(M=Dictionary(ActualText=String("é")))
        self.assertEqual(page.lines(b"/Span /M BDC (A) Tj EMC /Span /N BDC (A) Tj EMC"), ["éA"])

    def test_a_span_that_a_form_leaves_open(self):
        page = Page(GOOD)
        page.file.page.Resources.XObject.X = page.file.form(b"/Span <</ActualText (x)>> BDC (A) Tj", **page.fonts)
        self.assertEqual(page.lines(b"/F 9 Tf ET /X Do BT 4.5 0 Td (A) Tj"), ["xA"])


class RightToLeft(unittest.TestCase):
    def lines(self, content):
        return Page(HEBREW, Widths=Array([500] * 0x21 + [0] + [500] * 0xDE)).lines(content)

    def test_shown_from_left_to_right(self):
        """The last letter is shown first."""
        self.assertEqual(self.lines(b"(.CBA) Tj"), ["אבג."])
        self.assertEqual(self.lines(b"[(.C) -200 (B) 10 (A)] TJ"), ["אב ג."])

    def test_shown_from_right_to_left(self):
        """The first letter is shown first, and each next one left of it."""
        self.assertEqual(self.lines(b"50 0 Td (A) Tj -5 0 Td (B) Tj -7 0 Td (C) Tj -5 0 Td (.) Tj"), ["אב ג."])
        self.assertEqual(self.lines(b"50 0 Td [(A) 1000 (B) 1000 ( ) 1000 (C)] TJ"), ["אב ג"])
        self.assertEqual(self.lines(b"[()-8000 (A) 1000 () (B)] TJ"), ["אב"])

    def test_among_other_text(self):
        """Letters and numbers from left to right keep their order in it, and around it."""
        self.assertEqual(self.lines(b"(abc DCBA abc) Tj"), ["abc אבגד abc"])
        self.assertEqual(self.lines(b"(DC 12 BA) Tj"), ["אב 12 גד"])
        self.assertEqual(self.lines(b"(DC abc12 BA) Tj"), ["אב abc12 גד"])
        self.assertEqual(self.lines(b"(aa BA bb DC cc) Tj"), ["aa אב bb גד cc"])

    def test_the_end_of_a_sentence(self):
        """It is the end of the line, on whichever side it is shown."""
        self.assertEqual(self.lines(b"(.BA) Tj"), ["אב."])
        self.assertEqual(self.lines(b"(BA.) Tj"), ["אב."])

    def test_points(self):
        """They are shown before their letter from left to right, and behind it from right to left."""
        self.assertEqual(self.lines(b"(B!A) Tj"), ["א\u05b8ב"])
        self.assertEqual(self.lines(b"50 0 Td (A) Tj 0 0 Td (!) Tj -5 0 Td (B) Tj"), ["א\u05b8ב"])

    def test_actual_text(self):
        """It is in the order in which it is read."""
        content = b"/Span <</ActualText <FEFF05D005D1>>> BDC (a) Tj EMC"
        self.assertEqual(self.lines(b"(C) Tj %b" % content), ["אבג"])


class Vertical(unittest.TestCase):
    @needs_resources
    def test_fonts_for_vertical_text(self):
        """A column goes down, and the next one begins a line (ISO 32000-1, 9.7.4.3)."""
        file = File()
        content = b"/F 10 Tf BT 90 90 Td <93FA967B> Tj 0 -20 Td <8CEA> Tj 0 -13 Td <93FA> Tj -20 33 Td <967B> Tj ET"
        file.show(content, F=file.composite(Name("/90ms-RKSJ-V"), "Japan1"))
        document = pdf.Document(file.pdf)
        self.assertEqual(list(document.lines(document.pages[0])), ["日本語 日", "本"])

    def test_characters_below_each_other(self):
        """Ideographs are a column, letters are lines."""
        page = Page(b"2 beginbfchar <41> <65E5> <42> <672C> endbfchar", Widths=Array([1000] * 256))
        self.assertEqual(page.lines(b"(A) Tj 0 -10 Td (B) Tj 0 -10 Td (A) Tj"), ["日本日"])
        self.assertEqual(page.lines(b"(A) Tj 0 -14 Td (B) Tj"), ["日", "本"])
        self.assertEqual(Page(GOOD).lines(b"(A) Tj 0 -10 Td (A) Tj"), ["A", "A"])


if __name__ == "__main__":
    unittest.main()
