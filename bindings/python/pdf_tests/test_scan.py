"""The operators of content streams, with their operands."""

import random
import time
import unittest

from hayro_cmap.pdf import _scan
from hayro_cmap.pdf._scan import HEXADECIMAL, LITERAL, NAME


def names(content):
    return [name for name, _, _ in _scan.operators(content)]


class Operators(unittest.TestCase):
    def test_operands(self):
        [(name, numbers, operands)] = _scan.operators(b"/F1 12 Tf")
        self.assertEqual((name, _scan.numbers_in(numbers), operands), (b"Tf", [12.0], [(NAME, b"F1")]))
        [(name, numbers, _)] = _scan.operators(b"\r\n1 0\0 0 -1\t.5 +6.Tm%")
        self.assertEqual((name, _scan.numbers_in(numbers)), (b"Tm", [1, 0, 0, -1, 0.5, 6]))
        [(name, _, operands)] = _scan.operators(b"(a)<62>/c Do")
        self.assertEqual((name, operands), (b"Do", [(LITERAL, b"a"), (HEXADECIMAL, b"62"), (NAME, b"c")]))

    def test_paths_and_colours_are_passed_over(self):
        content = b"q 0 0 m 1 1 l S 0.5 g /Cs8 cs 1 0 0 scn [3 1] 0 d 0 0 1 1 re W* n/P <</MCID 0>> BDC BT T* ET EMC Q"
        self.assertEqual(names(content), [b"q", b"BDC", b"BT", b"T*", b"ET", b"EMC", b"Q"])
        [(_, numbers, operands)] = _scan.operators(b"1 2 re 3 4 l 5 6 Td")
        self.assertEqual((_scan.numbers_in(numbers), operands), ([5, 6], []))

    def test_operators_that_begin_as_others(self):
        self.assertEqual(names(b"BT scn1 Sx mm Tj'"), [b"BT", b"scn1", b"Sx", b"mm", b"Tj'"])

    def test_comments(self):
        self.assertEqual(names(b"q % (a) Tj\nQ %"), [b"q", b"Q"])

    def test_inline_images(self):
        """Their end has white space on both sides, and content behind it."""
        self.assertEqual(names(b"BI /W 1 ID x EI\0\1\2 EIx\nEI Q"), [b"BI", b"ID", b"Q"])
        self.assertEqual(names(b"BI ID EI"), [b"BI", b"ID"])
        self.assertEqual(names(b"BI ID (("), [b"BI", b"ID"])

    def test_numbers_that_are_malformed(self):
        self.assertEqual(_scan.numbers_in(b"1.2.3 --4 5-6 - ."), [1.2, -4, 5, 0, 0])


class Strings(unittest.TestCase):
    def strings(self, content):
        return [_scan.last_string(operands) for _, _, operands in _scan.operators(content)]

    def test_literal_strings(self):
        """The examples of ISO 32000-1, 7.3.4.2, and others."""
        for written, string in [
            (b"This is a string", b"This is a string"),
            (b"Strings may contain balanced parentheses ( ) and\nspecial (*!&}^% and so on).", None),
            (b"", b""),
            (b"These \\\ntwo strings \\\r\nare the same.", b"These two strings are the same."),
            (b"one\r\ntwo\rthree\n", b"one\ntwo\nthree\n"),
            (b"\\n\\r\\t\\b\\f\\(\\)\\\\\\x", b"\n\r\t\b\f()\\x"),
            (b"\\245\\307 \\0053 \\053 \\53 \\8 \\400", b"\xa5\xc7 \0053 + + 8 \0"),
            (b"((\\)))", b"(()))"),
        ]:
            self.assertEqual(self.strings(b"(%b) Tj" % written), [written if string is None else string])

    def test_strings_with_many_escapes_and_brackets(self):
        chosen = random.Random(3)
        for _ in range(300):
            string = bytes(chosen.choice(b"()\\ab\n") for _ in range(chosen.randrange(200)))
            written = b"".join(b"\\" + bytes([it]) if it in b"()\\" else bytes([it]) for it in string)
            self.assertEqual(self.strings(b"(%b)Tj /x(a)Tj" % written), [string, b"a"])

    def test_hexadecimal_strings(self):
        self.assertEqual(self.strings(b"<901FA3> Tj <90 1\nf\0a> Tj <> Tj"), [b"\x90\x1f\xa3", b"\x90\x1f\xa0", b""])

    def test_strings_that_are_not_closed(self):
        self.assertEqual(names(b"q (a\\) Tj Q"), [b"q"])
        self.assertEqual(names(b"q <41 Tj Q"), [b"q", b"Tj", b"Q"])

    def test_arrays(self):
        for content, elements in [
            (b"[(A) 120 (W)-1.5<41>]", [b"A", 120, b"W", -1.5, b"A"]),
            (b"[(a\\)b) (c(d)) 5 -6]", [b"a)b", b"c(d)", 5, -6]),
            (b"[(a) [(b) 1] << /C (c) >> true 2 (d)]", [b"a", 2, b"d"]),
            (b"[%b]" % (b"(a) 1 " * 1000), [b"a", 1] * 1000),
            (b"[(a)] (b)", []),
            (b"(a)]", []),
            (b"[]", []),
        ]:
            [(_, _, operands)] = _scan.operators(content + b" TJ")
            self.assertEqual(_scan.elements_of(operands), elements)

    def test_names(self):
        [(_, _, operands)] = _scan.operators(b"/A#20B#zz Do")
        self.assertEqual((_scan.last_name(operands), _scan.last_name([(LITERAL, b"a")])), (b"A B#zz", b""))

    def test_texts_of_marked_content(self):
        """A text string is in UTF-16 or UTF-8 after a mark, or in Latin letters (ISO 32000-1, 7.9.2.2)."""
        for written, text in [
            (b"<FEFF0066FB01D83DDE00>", "fﬁ😀"),
            (b"(\\377\\376f\\000)", "f"),
            (b"<EFBBBFC3A9>", "é"),
            (b"(a\\351)", "aé"),
            (b"/a", None),
        ]:
            [(_, _, operands)] = _scan.operators(b"/Span <</Lang (de) /ActualText %b>> BDC" % written)
            self.assertEqual(_scan.actual_text(operands), text)


class Limits(unittest.TestCase):
    def test_time_grows_with_the_length(self):
        numbers, strings = [b"1 ", b" ", b"1 0 m "], [b"(", b"(\\a", b"[(a)", b"<41", b"[(a(b)c)"]
        for piece in [*numbers, *strings, b"[[", b"<<", b")", b"/", b"%", b"I"]:
            start = time.process_time()
            for _ in _scan.operators(piece * (400_000 // len(piece))):
                pass
            self.assertLess(time.process_time() - start, 5, piece)

    def test_many_operands(self):
        """The elements of a long array come in several steps; of other operands not all are kept."""
        count = _scan.MOST_OPERANDS
        shown = [_scan.elements_of(operands) for _, _, operands in _scan.operators(b"[%b] TJ" % (b"(a) 1" * count))]
        self.assertEqual(([len(it) for it in shown], sum(shown, [])), ([count - 1] * 2 + [2], [b"a", 1] * count))
        [(_, _, kept)] = _scan.operators(b"/a" * (count + 2) + b" Tj")
        self.assertLess(len(kept), 5)


if __name__ == "__main__":
    unittest.main()
