"""Texts in the characters that are usually written."""

import unicodedata
import unittest

from hayro_cmap import CMap, Extractor, fold

from .files import needs_resources

#: Blocks of presentation forms of letters, and that of Kangxi radicals.
FORMS = [range(0xFB00, 0xFE00), range(0xFE70, 0xFF00), range(0x2F00, 0x2FE0)]
SELECTORS = [range(0xFE00, 0xFE10), range(0xE0100, 0xE01F0)]
SPACES = [range(0xA0, 0xA1), range(0x2000, 0x200B), range(0x202F, 0x2030), range(0x205F, 0x2060)]
#: Punctuation for vertical writing, and the same for horizontal writing.
VERTICAL = dict(
    zip(
        [*range(0xFE10, 0xFE1A), *range(0xFE30, 0xFE45), 0xFE47, 0xFE48, 0xFFE8],
        "\uff0c\u3001\u3002\uff1a\uff1b\uff01\uff1f\u3016\u3017\u2026"
        "\u2025\u2014\u2013\uff3f\uff3f\uff08\uff09\uff5b\uff5d\u3014\u3015\u3010\u3011\u300a\u300b\u3008\u3009\u300c\u300d\u300e\u300f"
        "\uff3b\uff3d|",
    )
)


def is_in(blocks, number):
    return any(number in block for block in blocks)


def expected(character):
    """What stands for a character, by the Unicode Character Database of Python."""
    number = ord(character)
    if is_in(SELECTORS, number):
        return ""
    if is_in(FORMS, number):
        return unicodedata.normalize("NFKD", character)
    return " " if is_in(SPACES, number) else VERTICAL.get(number, character)


class Folding(unittest.TestCase):
    def test_all_characters(self):
        every = [chr(number) for number in range(0x110000) if not 0xD800 <= number < 0xE000]
        self.assertEqual(fold("".join(every)), "".join(map(expected, every)))

    def test_nothing_is_left_to_fold(self):
        folded = fold("".join(chr(number) for number in range(0xD800)) + "".join(map(chr, range(0xE000, 0x110000))))
        self.assertEqual(fold(folded), folded)

    def test_texts(self):
        self.assertEqual(fold(""), "")
        self.assertEqual(fold("o\ufb03ce \ufedf\ufe8e"), "office \u0644\u0627")
        with self.assertRaises(UnicodeEncodeError):
            fold("\ud800")

    def test_texts_of_fonts(self):
        with CMap.parse(b"beginbfchar <41> <FB01> <42> <2002> endbfchar") as texts:
            font = Extractor(None, texts)
        self.assertEqual((font.text(b"ABC"), font.text(b"ABC", "\ufb02", folded=True)), ("\ufb01\u2002\ufffd", "fi fl"))
        self.assertEqual([it.text for it in font.characters(b"ABC", folded=True)], ["fi", " ", None])

    @needs_resources
    def test_a_text_in_a_japanese_encoding(self):
        """A glyph with a variation selector, a space of one byte and a half-width bar."""
        with CMap.open("90ms-RKSJ-H") as cmap:
            text = Extractor(cmap).text("\u8fbb\u3055\u3093 A|B".encode("cp932"), folded=True)
        self.assertEqual(text, "\u8fbb\u3055\u3093 A|B")
