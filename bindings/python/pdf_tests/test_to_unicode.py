"""How the streams of ToUnicode CMaps are read."""

import unittest

from hayro_cmap import pdf
from hayro_cmap.pdf import Source

from made import needs_glyph_list, showing

RANGES = b"1 begincodespacerange <00> <FF> endcodespacerange "


class FiveDigits(unittest.TestCase):
    """Texts of five digits, which some producers write for characters past U+FFFF."""

    def text(self, entries, string=b"\1\2", **options):
        file = showing(string, RANGES + b"beginbfchar %b endbfchar" % entries)
        return "".join(it.text or "?" for it in pdf.characters(file.pdf.pages[0], **options))

    def test_they_are_the_number_of_a_character(self):
        self.assertEqual(self.text(b"<01> <20BB7> <02> <0062>"), "\U00020bb7b")

    def test_they_are_bytes_where_faults_are_not_read_past(self):
        """An odd digit is the high one of a byte: 20 BB 70, of which the first byte is a unit."""
        self.assertEqual(self.text(b"<01> <20BB7> <02> <0062>", lenient=False), " \ubb70b")

    def test_they_are_bytes_beside_other_odd_digits(self):
        self.assertEqual(self.text(b"<01> <20BB7> <02> <006>"), " \ubb70`")
        self.assertEqual(self.text(b"<01> <00BB7> <02> <20BB7>"), "\0\ubb70 \ubb70")

    def test_faults_stay_where_they_are(self):
        file = showing(b"\1\2", RANGES + b"beginbfchar <01> <20BB7> <02> /x endbfchar")
        [fault] = file.font().to_unicode.faults
        self.assertEqual(fault.offset, len(RANGES) + len(b"beginbfchar <01> <20BB7> <02> /x"))
        self.assertEqual(file.text(), "\U00020bb7?")
        [repaired] = pdf.repair(file.pdf)
        number = repaired.number
        said = f"ToUnicode {number}: strings of five digits are read as numbers of characters"
        self.assertEqual(repaired.lines()[:2], [f"ToUnicode {number}: rewritten, with texts for 1 code", said])
        [character, _] = pdf.characters(file.pdf.pages[0], lenient=False)
        self.assertEqual(character.text, "\U00020bb7")


class UnclosedStrings(unittest.TestCase):
    """Strings without a closing bracket end with their digits, where faults are read past."""

    def text(self, entries, **options):
        file = showing(b"\1\2\3", RANGES + entries)
        return "".join(it.text or "?" for it in pdf.characters(file.pdf.pages[0], **options))

    def test_texts(self):
        for entries in [
            b"beginbfchar <01> <0061 <02> <0062> <03> <0063> endbfchar",
            b"beginbfchar <01> <0061> <02 <0062> <03><0063 endbfchar",
            b"beginbfchar <01<0061><02><0062<03><0063> endbfchar",
            b"beginbfrange <01> <03> [<0061 <0062> <0063] endbfrange",
            b"beginbfrange <01> <03 [<0061> <0062> <0063>] endbfrange",
        ]:
            self.assertEqual(self.text(entries), "abc", entries)
            self.assertEqual(self.text(entries, lenient=False), "???", entries)

    def test_other_faults(self):
        """What stands in a string and is no digit isn't its end."""
        self.assertEqual(self.text(b"beginbfchar <01> <0061x <02> <0062> <03> <0063> endbfchar"), "?bc")


@needs_glyph_list
class EmptyTexts(unittest.TestCase):
    """An empty string is a fault, and the empty text: nothing else is asked for the text of the code."""

    def texts(self, entries, string=b"AB", **options):
        file = showing(string, RANGES + b"beginbfchar %b endbfchar" % entries)
        return [(it.text, it.source) for it in pdf.characters(file.pdf.pages[0], **options)]

    def test_the_empty_text(self):
        own, name = Source.TO_UNICODE, Source.GLYPH_NAME
        self.assertEqual(self.texts(b"<41> <> <42> <0062>"), [("", own), ("b", own)])
        self.assertEqual(self.texts(b"<41> <> <42> <0062>", lenient=False), [("A", name), ("B", name)])

    def test_the_last_declaration_decides(self):
        for entries, text in [(b"<41> <> <41> <0061>", "a"), (b"<41> <0061> <41> <>", "")]:
            self.assertEqual(self.texts(entries, b"A"), [(text, Source.TO_UNICODE)])

    def test_of_a_range(self):
        file = showing(b"@ABC", RANGES + b"beginbfrange <41> <42> <> <42> <42> <> endbfrange")
        self.assertEqual([it.text for it in file.characters()], ["@", "", "", "C"])

    def test_all_codes_have_a_text(self):
        report = pdf.check(showing(b"AB", RANGES + b"beginbfchar <41> <> <42> <> endbfchar").pdf)
        self.assertEqual((report.with_text, report.refused), (2, 1))


class LongTexts(unittest.TestCase):
    def test_a_text_of_many_characters(self):
        """A few bytes may give it to many codes; such a CMap is no use."""
        for count, is_read in [(1024, True), (1025, False)]:
            for text in [b"<%b>" % (b"0041" * count), b"(%b)" % (b"\0A" * count)]:
                file = showing(b"\1", RANGES + b"beginbfrange <00> <FF> %b endbfrange" % text)
                [character] = file.characters()
                self.assertEqual(character.text, "A" * (count - 1) + "B" if is_read else None)
                reasons = [] if is_read else ["a code has a text of more than 1,024 characters"]
                self.assertEqual([it.reason for it in character.font.to_unicode.faults], reasons)


if __name__ == "__main__":
    unittest.main()
