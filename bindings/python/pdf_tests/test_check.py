"""What is said of the fonts of a file, and of the codes that it shows."""

import collections
import random
import time
import unittest

from pikepdf import Name

from hayro_cmap import CMap, pdf
from hayro_cmap.pdf import _check

from made import BAD, GOOD, File, needs_glyph_list, showing, with_many_codes
from tests.steps import limited

#: Two codes in a codespace range, of which one has a CID.
ENCODING = b"1 begincodespacerange <8140> <817E> endcodespacerange 1 begincidchar <8140> 7 endcidchar"


def digits(codes):
    return [bytes(it.character.code).hex() for it in codes]


def counts(font):
    """How many shown codes have a text of each source that there is."""
    return {source: times for source, times in font.sources.items() if times}


class Counts(unittest.TestCase):
    def test_codes(self):
        file = showing(b"AAB\1", GOOD, b"/F 9 Tf (%b) Tj (A) Tj")
        report = pdf.check(file.pdf)
        self.assertEqual(report.summary(), "80.0 % of 5 shown codes have a text")
        [font] = report.fonts
        self.assertEqual(
            [(bytes(it.character.code), it.times) for it in font.codes], [(b"A", 3), (b"B", 1), (b"\1", 1)]
        )
        self.assertEqual((digits(font.no_text), font.no_cid, font.outside_codespace), (["01"], [], []))
        self.assertEqual(list(font.sources), [it.value for it in pdf.Source])
        self.assertEqual(counts(font), {"ToUnicode": 4, "none": 1})

    @needs_glyph_list
    def test_glyph_names_count(self):
        file = showing(b"AC", GOOD)
        self.assertEqual(counts(pdf.check(file.pdf).fonts[0]), {"ToUnicode": 1, "glyph name": 1})

    def test_codes_without_a_cid_and_in_no_range(self):
        file = File()
        file.show(b"/F 9 Tf <814081418181> Tj", F=file.composite(file.stream(ENCODING)))
        [font] = pdf.check(file.pdf).fonts
        self.assertEqual((digits(font.no_cid), digits(font.outside_codespace)), (["8141", "8181"], ["8181"]))
        self.assertEqual(
            list(font.lines())[1:],
            [
                f"font {font.font.number}: warning: font {font.font.number}: few-texts: 3 shown codes, first <8140>",
                f"font {font.font.number}: without a text: 3 codes, 3 different: <8140> <8141> <8181>",
                f"font {font.font.number}: without a CID: 2 codes, 2 different: <8141> <8181>",
                f"font {font.font.number}: in no codespace range: 1 code, 1 different: <8181>",
            ],
        )

    def test_more_faults_than_are_kept(self):
        """A line for each, up to a number, and no time that grows with its square."""
        file = showing(b"A", GOOD + b" endbfchar" + b"\n)" * 50_000)
        start = time.monotonic()
        [font] = pdf.check(file.pdf).fonts
        self.assertLess(time.monotonic() - start, 20)
        self.assertEqual([it.line for it in font.font.faults[:3]], [2, 3, 4])
        self.assertEqual((len(font.font.faults), font.font.faults[-1].reason), (1001, "more than 1,000 faults"))

    def test_faults(self):
        file = showing(b"\1AC", BAD.replace(b"<41>", b"<01>").replace(b"<43>", b"<02>"))
        report = pdf.check(file.pdf)
        [font] = report.fonts
        self.assertEqual((repr(font), repr(font.font)), (f"<FontReport of {font.font}>", f"<{font.font}>"))
        self.assertEqual((report.refused, font.font.to_unicode.strict), (1, None))
        self.assertEqual(font.with_text_past_faults, font.with_text)
        [strict] = pdf.check(file.pdf, lenient=False).fonts
        self.assertEqual(strict.with_text_past_faults, strict.with_text + 1)
        self.assertIn("the text of a code was expected", list(font.lines())[1])
        self.assertTrue(report.summary().endswith("; 1 of 1 fonts refused"))

    def test_a_part_that_is_read_all_the_same(self):
        """It is told, unless the CMap isn't read past its faults."""
        data = BAD.replace(b"/x", b"<>")
        file = showing(b"ABC", data)
        [font] = pdf.check(file.pdf).fonts
        said = f"byte {data.index(b'<>') + 2} (line 1): the text of a code was expected"
        self.assertTrue(list(font.lines())[1].endswith(f": {said}; read as the empty text"), list(font.lines()))
        self.assertEqual([it["read_as"] for it in font.as_json()["faults"]], ["the empty text"])
        [strict] = pdf.check(file.pdf, lenient=False).fonts
        self.assertTrue(list(strict.lines())[1].endswith(f": {said}"), list(strict.lines()))
        self.assertEqual([it["read_as"] for it in strict.as_json()["faults"]], [None])

    def test_without_a_font(self):
        self.assertEqual(pdf.check(File().show(b"(abc) Tj").pdf).without_font, 3)

    def test_fonts_without_codes(self):
        file = File()
        file.show(b"", F=file.simple(GOOD))
        report = pdf.check(file.pdf)
        self.assertEqual((len(report.fonts), report.summary()), (1, "no codes are shown"))

    def test_shares_are_never_rounded_to_all(self):
        self.assertEqual(_check.share(99999, 100000), "99.9 % of 100,000 shown codes have a text")
        self.assertEqual(_check.share(12012, 12345), "97.3 % of 12,345 shown codes have a text")
        self.assertEqual(_check.share(3, 3), "100.0 % of 3 shown codes have a text")

    def test_content_that_is_malformed(self):
        file = File()
        file.page.Contents = file.stream(b"/F 9 Tf (A) Tj (unclosed")
        report = pdf.check(file.pdf)
        self.assertEqual(report.without_font, 1)

    def test_a_content_that_cannot_be_decoded(self):
        file = showing(b"A", GOOD)
        file.page.Contents.write(b"no data", filter=Name.FlateDecode)
        report = pdf.check(file.pdf)
        self.assertEqual((report.shown, len(report.faults)), (0, 1))


def kinds_of(text):
    """What is doubtful about the characters of a text, one after another."""
    kinds = set()
    for number in map(ord, text):
        if number == 0:
            kinds.add("null-character")
        elif number == 0xFFFD:
            kinds.add("replacement-character")
        elif 0xFDD0 <= number <= 0xFDEF or number & 0xFFFE == 0xFFFE:
            kinds.add("noncharacter")
        elif 0xE000 <= number <= 0xF8FF or number >= 0xF0000:
            kinds.add("private-use")
    return kinds


def of_characters(cmap):
    """The warnings about the characters of texts: the names, how many codes, and the first one."""
    names = ("null-character", "replacement-character", "noncharacter", "private-use")
    return sorted(it[:3] for it in cmap.lint(to_unicode=True) if it.warning in names)


class Warnings(unittest.TestCase):
    def report(self, to_unicode, string=b"A"):
        [font] = pdf.check(showing(string, to_unicode).pdf).fonts
        return font

    def test_of_shown_codes(self):
        """The first number is that of all codes, the second that of those that are shown."""
        texts = b"4 beginbfchar <10> <0000> <11> <0041E000> <12> <FFFD> <13> <FFFE> endbfchar"
        texts += b" 1 beginbfrange <20> <22> <F8FF> endbfrange"
        ranges = b"1 begincodespacerange <00> <FF> endcodespacerange "
        font = self.report(ranges + texts, b"\x10\x11\x20\x20\x12A")
        self.assertEqual(
            {(it.of, it.name, it.codes, it.first, it.shown, it.first_shown) for it in font.warnings},
            {
                ("ToUnicode", "null-character", 1, 0x10, 1, 0x10),
                ("ToUnicode", "private-use", 2, 0x11, 2, 0x11),
                ("ToUnicode", "replacement-character", 1, 0x12, 1, 0x12),
                ("ToUnicode", "last-byte", 1, 0x20, 1, 0x20),
            },
        )
        self.assertEqual([(it.name, it.codes, it.shown) for it in font.other_warnings], [("noncharacter", 1, 0)])
        lines = [line.partition(": ")[2] for line in font.lines()]
        [number] = {it.number for it in font.warnings}
        self.assertIn(f"warning: ToUnicode {number}: private-use: 2 shown codes, first <11>", lines)
        self.assertIn("1 other warning, which concerns no shown text: noncharacter", lines)

    def test_of_codes_that_are_not_shown(self):
        """They are no reason to refuse a file, unless they are named."""
        report = pdf.check(showing(b"A", GOOD.replace(b"<0041>", b"<0041> <10> <0000>")).pdf)
        self.assertEqual([it.name for it in report.fonts[0].other_warnings], ["count-differs", "null-character"][::-1])
        self.assertEqual((report.has_warnings, report.has_denied(["all"])), (False, False))
        self.assertTrue(report.has_denied(["null-character"]))

    def test_of_marked_content(self):
        """Codes that have a text of marked content are in no doubt."""
        content = b"/F 9 Tf /Span <</ActualText (f)>> BDC <01> Tj EMC (A) Tj"
        file = File()
        file.show(content, F=file.simple(GOOD.replace(b"<42>", b"<01>").replace(b"<006600660069>", b"<0000>")))
        report = pdf.check(file.pdf)
        self.assertEqual((report.has_warnings, report.summary()), (False, "100.0 % of 2 shown codes have a text"))
        self.assertEqual(counts(report.fonts[0]), {"ToUnicode": 1, "ActualText": 1})
        file.show(content + b"<01> Tj")
        self.assertTrue(pdf.check(file.pdf).has_warnings)

    def test_of_odd_digits(self):
        font = self.report(GOOD.replace(b"<0041>", b"<1F600>"))
        self.assertEqual([(it.name, it.shown, it.first_shown) for it in font.warnings[:1]], [("odd-digits", 1, 0x41)])

    def test_of_fonts_with_few_texts(self):
        """One of ten codes is enough."""
        few, enough = [b"\1" * 10, b"A" + b"\1" * 10], [b"A" + b"\1" * 9, b""]
        for string, is_found in [*((it, True) for it in few), *((it, False) for it in enough)]:
            found = [(it.of, it.name) for it in self.report(GOOD, string).warnings]
            self.assertEqual(found, [("font", "few-texts")] if is_found else [], string)

    def test_of_random_texts(self):
        """They are those of one code after another."""
        chosen = random.Random(5)
        doubtful = [0, 1, 0xDFFF, 0xE000, 0xF8FF, 0xFDD0, 0xFDEF, 0xFFFD, 0xFFFE, 0x1FFFE, 0xEFFFF, 0xF0000, 0x10FFFE]

        def units():
            characters = [0x41, *(chosen.choice(doubtful) for _ in range(chosen.choice([0, 0, 1, 2])))]
            last = min(max(0, chosen.choice(doubtful) - chosen.randrange(40)), 0x10FFFF)
            characters = [*characters[: chosen.randrange(3)], last]
            return "".join(map(chr, characters)).encode("utf-16-be", "surrogatepass").hex()

        for _ in range(200):
            rows = [(first, first + chosen.randrange(90)) for first in chosen.sample(range(500), 12)]
            declared = " ".join(f"<{first:04x}> <{last:04x}> <{units()}>" for first, last in rows)
            with CMap.parse(f"beginbfrange {declared} endbfrange".encode()) as cmap:
                found = collections.defaultdict(list)
                for code in range(600):
                    for name in kinds_of(cmap.text(code) or ""):
                        found[name].append(code)
                expected = [(name, len(codes), codes[0]) for name, codes in sorted(found.items())]
                self.assertEqual(of_characters(cmap), expected, declared)

    def test_of_many_codes(self):
        """No step is taken for each code, nor for each character that texts of one declaration share."""
        texts = with_many_codes(rows=2000, text=b"E000")
        with limited(1_000_000):
            [font] = pdf.check(showing(b"A", texts).pdf).fonts
        found = {it.name: (it.codes, it.first) for it in font.warnings + font.other_warnings}
        self.assertEqual(found["private-use"], (2000 * 0x1900, 0))
        self.assertEqual(found["noncharacter"], (2000 * 34, 0x1DD0))
        self.assertEqual(found["replacement-character"], (2000, 0x1FFD))

    def test_of_the_whole(self):
        declared = b"1 beginbfchar <41> <0041> endbfchar"
        for to_unicode, name in [(b"no CMap", "nothing-declared"), (declared, "no-codespace")]:
            font = self.report(to_unicode)
            self.assertIn(("ToUnicode", name, None), [(it.of, it.name, it.first) for it in font.other_warnings])
        self.assertEqual((self.report(GOOD).warnings, self.report(GOOD).other_warnings), ([], []))

    def test_denied(self):
        report = pdf.check(showing(b"A\1", b"1 beginbfchar <41> <0041> endbfchar").pdf)
        for name, is_found in [
            ("no-text", True),
            ("no-codespace", True),
            ("all", True),
            ("no-cid", False),
            ("outside-codespace", False),
        ]:
            self.assertEqual(report.has_denied([name]), is_found, name)
        self.assertFalse(report.has_denied([]))
        self.assertFalse(pdf.check(showing(b"A", GOOD).pdf).has_denied(["all"]))


if __name__ == "__main__":
    unittest.main()
