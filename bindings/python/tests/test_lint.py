"""What looks wrong in files that have a map."""

import unittest

from hayro_cmap import CMap, Finding
from hayro_cmap._lint import warning_name

ONE_BYTE = b"1 begincodespacerange <00> <FF> endcodespacerange "
TWO_BYTES = b"1 begincodespacerange <0000> <FFFF> endcodespacerange "

# the names of docs/COMMAND.md, in its order
NAMES = [
    "nothing-declared",
    "no-codespace",
    "outside-codespace",
    "overlap",
    "inverted-range",
    "crosses-row",
    "last-byte",
    "no-text",
    "private-use",
    "noncharacter",
    "replacement-character",
    "null-character",
    "no-mapping",
    "name-differs",
    "mode-differs",
    "count-differs",
    "long-section",
    "no-endcmap",
    "code-length",
    "odd-digits",
    "odd-text",
]


def lint(data, shown=(), **options):
    """What looks wrong in a text."""
    with CMap.parse(data) as cmap:
        return cmap.lint(data, shown=shown, **options)


class Warnings(unittest.TestCase):
    def test_names(self):
        self.assertEqual([warning_name(number) for number in range(len(NAMES))], NAMES)

    def test_nothing(self):
        self.assertEqual(lint(ONE_BYTE), [])
        self.assertEqual(lint(b""), [Finding("nothing-declared", 1), Finding("no-codespace", 1)])

    def test_how_a_text_is_written(self):
        data = ONE_BYTE + b"/CMapName /A-V def begincmap 2 begincidchar <41> 7 endcidchar"
        offset = data.index(b"begincidchar")
        mode = Finding("mode-differs", 1)
        self.assertEqual(lint(data), [mode, Finding("count-differs", 1, offset=offset), Finding("no-endcmap", 1)])
        with CMap.parse(data) as cmap:
            self.assertEqual(cmap.lint(), [mode])

    def test_maps_to_unicode(self):
        data = ONE_BYTE + b"3 beginbfchar <01> <E000> <02> <0000> <03> <0041> endbfchar"
        self.assertEqual(lint(data), [])
        found = [
            Finding("private-use", 1, 1, 1, 1),
            Finding("null-character", 1, 2, 2, 1),
            Finding("no-mapping", 253, 0, 0, 1),
        ]
        self.assertEqual(lint(data, to_unicode=True), found)

    def test_the_first_declaration_has_both_ends(self):
        data = TWO_BYTES + b"2 begincidrange <0100> <01FF> 1 <01F0> <0210> 241 endcidrange"
        self.assertEqual(lint(data), [Finding("crosses-row", 1, 0x1F0, 0x210, 2)])

    def test_a_closed_map(self):
        cmap = CMap.parse(ONE_BYTE)
        cmap.close()
        self.assertRaises(ValueError, cmap.lint)


class ShownCodes(unittest.TestCase):
    def shown(self, data, codes, **options):
        """How many of these codes the warnings concern that concern any, and the lowest of them."""
        found = lint(data, codes, **options)
        self.assertTrue(all(it.first_shown is None for it in found if it.shown == 0))
        return {it.warning: (it.shown, it.first_shown) for it in found if it.shown}

    def test_in_no_codespace_range(self):
        data = b"1 begincodespacerange <20> <7E> endcodespacerange 1 begincidrange <1F> <7F> 1 endcidrange"
        self.assertEqual(self.shown(data, [0x7F, 0x1F, 0x20, 0x7E, 0x80]), {"outside-codespace": (2, 0x1F)})

    def test_in_two_declarations_that_disagree(self):
        data = ONE_BYTE + b"2 begincidrange <20> <34> 1 <30> <40> 100 endcidrange"
        self.assertEqual(self.shown(data, [0x20, 0x30, 0x34, 0x35]), {"overlap": (2, 0x30)})

    def test_between_the_ends_of_an_inverted_range(self):
        data = TWO_BYTES + b"1 begincidrange <0030> <0020> 1 endcidrange"
        self.assertEqual(self.shown(data, [0x1F, 0x20, 0x25, 0x30, 0x31]), {"inverted-range": (3, 0x20)})

    def test_in_a_range_over_two_rows(self):
        data = TWO_BYTES + b"1 begincidrange <01F0> <0210> 5 endcidrange"
        self.assertEqual(self.shown(data, [0x1EF, 0x1F0, 0x210, 0x211]), {"crosses-row": (2, 0x1F0)})

    def test_in_several_declarations_counts_once(self):
        data = TWO_BYTES + b"1 begincidrange <01F0> <0210> 5 endcidrange 1 beginbfrange <01E0> <0200> <0041> endbfrange"
        self.assertEqual(self.shown(data, [0x1F5, 0x1F6, 0x1F5]), {"crosses-row": (2, 0x1F5)})

    def test_in_a_range_whose_last_byte_passes_255(self):
        data = ONE_BYTE + b"1 beginbfrange <10> <20> <00FA> endbfrange"
        self.assertEqual(self.shown(data, [0x0F, 0x10, 0x20]), {"last-byte": (2, 0x10)})

    def test_without_a_text_of_their_declaration(self):
        data = ONE_BYTE + b"1 beginbfrange <10> <13> <D7FE> endbfrange 1 beginbfrange <30> <32> <FFFE> endbfrange"
        self.assertEqual(self.shown(data, [0x11, 0x12, 0x31, 0x32]), {"last-byte": (4, 0x11), "no-text": (2, 0x12)})

    def test_with_a_doubtful_character(self):
        data = ONE_BYTE + b"1 beginbfrange <10> <20> <DFFA> endbfrange 1 beginbfchar <30> <FFFD0041> endbfchar"
        found = self.shown(data, [0x15, 0x16, 0x20, 0x30], to_unicode=True)
        expected = {
            "last-byte": (3, 0x15),
            "no-text": (1, 0x15),
            "private-use": (2, 0x16),
            "replacement-character": (1, 0x30),
            "no-mapping": (1, 0x15),
        }
        self.assertEqual(found, expected)

    def test_without_a_text_in_the_codespace(self):
        data = ONE_BYTE + b"1 beginbfchar <10> <0041> endbfchar"
        self.assertEqual(self.shown(data, [0x0F, 0x10, 0x100], to_unicode=True), {"no-mapping": (1, 0x0F)})

    def test_of_a_length_without_a_codespace_range(self):
        data = ONE_BYTE + b"2 begincidchar <0041> 7 <42> 8 endcidchar"
        self.assertEqual(self.shown(data, [0x41, 0x42]), {"outside-codespace": (1, 0x41), "code-length": (1, 0x41)})

    def test_with_a_text_of_five_digits(self):
        data = TWO_BYTES + b"2 beginbfchar <0001> <20BB7> <0002> <0041> endbfchar"
        offset = data.index(b"<20BB7>")
        found = [
            Finding("odd-digits", 1, offset=offset, shown=1, first_shown=1),
            Finding("odd-text", 1, offset=offset, shown=1, first_shown=1),
        ]
        self.assertEqual(lint(data, [1, 2]), found)

    def test_with_a_text_of_five_digits_in_a_range(self):
        data = TWO_BYTES + b"1 beginbfrange <0010> <0012> <20BB7> endbfrange"
        found = self.shown(data, [0x0F, 0x10, 0x12, 0x13])
        self.assertEqual(found, {"odd-digits": (2, 0x10), "odd-text": (2, 0x10)})

    def test_with_a_text_of_five_digits_in_a_list(self):
        data = TWO_BYTES + b"1 beginbfrange <0010> <0012> [<0041> <20BB7> <0042>] endbfrange"
        found = self.shown(data, [0x10, 0x11, 0x12])
        self.assertEqual(found, {"odd-digits": (1, 0x11), "odd-text": (1, 0x11)})

    def test_of_an_entry_with_an_odd_digit_in_a_code(self):
        data = TWO_BYTES + b"1 begincidrange <001> <0012> 7 endcidrange 1 begincidchar <002> 9 endcidchar"
        self.assertEqual(self.shown(data, [0x0F, 0x10, 0x12, 0x20]), {"odd-digits": (3, 0x10)})

    def test_numbers_that_are_no_codes(self):
        with CMap.parse(ONE_BYTE) as cmap:
            for code in [-1, 2**32]:
                self.assertRaises(ValueError, cmap.lint, shown=[code])
            self.assertEqual(cmap.lint(shown=[0, 2**32 - 1]), [])


if __name__ == "__main__":
    unittest.main()
