"""What maps answer."""

import tempfile
import unittest
from pathlib import Path

import hayro_cmap
from hayro_cmap import (
    CidRange,
    CMap,
    Code,
    CodeRange,
    Codespace,
    Extractor,
    Metadata,
    Refused,
    TextRange,
    TextRun,
    WritingMode,
)

from .files import BROKEN, RESOURCES, SMALL, SMALL_V, known_files, needs_resources, predefined, uses


class Lookups(unittest.TestCase):
    def setUp(self):
        self.cmap = CMap.parse(SMALL)
        self.addCleanup(self.cmap.close)

    def test_cid(self):
        self.assertEqual([self.cmap.cid(0x41, 1), self.cmap.cid(0x8140, 2), self.cmap.cid(0x817E, 2)], [34, 633, 695])
        self.assertIsNone(self.cmap.cid(0x42, 2))
        self.assertIsNone(self.cmap.cid(0x817F, 2))

    def test_cid_strict(self):
        self.assertEqual(self.cmap.cid_strict(0x41, 1), 34)
        with CMap.parse(b"1 begincodespacerange <00> <40> endcodespacerange 1 begincidchar <41> 7 endcidchar") as cmap:
            self.assertEqual(cmap.cid(0x41, 1), 7)
            self.assertIsNone(cmap.cid_strict(0x41, 1))

    def test_cids(self):
        self.assertEqual(self.cmap.cids(0x7D, 4, 1), [94, 95, None, None])
        self.assertEqual(self.cmap.cids(0x8140, 0, 2), [])
        self.assertEqual(self.cmap.cids(2**32 - 1, 1, 4), [None])

    def test_cids_of_the_greatest_numbers(self):
        with CMap.parse(b"3 begincidchar <00> 0 <01> 1 <02> 4294967295 endcidchar") as cmap:
            self.assertEqual(cmap.cids(0, 4, 1), [0, 1, 2**32 - 1, None])

    def test_text(self):
        self.assertEqual(self.cmap.text(0x41), "A")
        self.assertIsNone(self.cmap.text(0x42))

    def test_long_text(self):
        with CMap.parse(
            b"1 begincidchar <00> 1 endcidchar 1 beginbfchar <01> <" + b"65E5" * 500 + b"> endbfchar"
        ) as cmap:
            self.assertEqual(cmap.text(1), "日" * 500)

    def test_codes_of_cid(self):
        with CMap.parse(SMALL + b"1 begincidchar <41> 7 endcidchar") as cmap:
            self.assertEqual(cmap.codes_of_cid(7, 1), [CodeRange(0x26, 0x26), CodeRange(0x41, 0x41)])
            self.assertEqual(cmap.codes_of_cid(634, 2), [CodeRange(0x8141, 0x8141)])
            self.assertEqual(cmap.codes_of_cid(34, 1), [])
        with CMap.parse(b"1 beginnotdefrange <00000000> <FFFFFFFF> 1 endnotdefrange") as cmap:
            self.assertEqual(cmap.codes_of_cid(1, 4), [CodeRange(0, 2**32 - 1)])

    def test_decode(self):
        codes = [
            Code(0x41, 1, 34, True, False),
            Code(0x8140, 2, 633, True, False),
            Code(0xFF, 1, None, False, False),
            Code(0x81, 1, None, False, True),
        ]
        found = self.cmap.decode(bytes.fromhex("418140FF81"))
        self.assertEqual(found, codes)
        self.assertEqual(b"".join(map(bytes, found)), bytes.fromhex("418140FF81"))

    def test_decode_of_many(self):
        self.assertEqual(self.cmap.decode(b""), [])
        self.assertEqual([code.cid for code in self.cmap.decode(b"AB" * 50000)], [34, 35] * 50000)

    def test_texts(self):
        to_unicode = b"beginbfchar <41> <00660066> <42> <D800> endbfchar"
        collection = b"beginbfchar <0023> <65E5> <0043> <0078> endbfchar"
        with CMap.parse(to_unicode) as codes, CMap.parse(collection) as cids, Extractor(self.cmap, codes, cids) as font:
            found = font.characters(b"ABC\xFF")
            self.assertEqual([character.text for character in found], ["ff", "日", None, None])
            self.assertEqual([character.code.cid for character in found], [34, 35, 36, None])
            self.assertEqual(found[3].code, Code(0xFF, 1, None, False, False))
            self.assertEqual(font.characters(b""), [])
        self.assertRaises(ValueError, font.characters, b"A")

    def test_text(self):
        with CMap.parse(b"beginbfchar <41> <00660066> endbfchar") as codes, Extractor(self.cmap, codes, files={}) as font:
            self.assertEqual([font.text(b"AB"), font.text(b"AB", missing="?"), font.text(b"")], ["ff\uFFFD", "ff?", ""])

    def test_simple_font(self):
        """A font without a CMap has codes of one byte, whatever the ranges of its ToUnicode CMap are."""
        data = b"begincodespacerange <0000> <FFFF> endcodespacerange beginbfchar <41> <0061> <00FF> <0062> endbfchar"
        with CMap.parse(data) as codes:
            with Extractor(None, to_unicode=codes) as font:
                found = font.characters(b"A\xFF\x00")
        self.assertEqual([it.text for it in found], ["a", "b", None])
        self.assertEqual(found[1].code, Code(0xFF, 1, None, True, False))

    def test_collection(self):
        files = {"Adobe-Japan1-UCS2": b"beginbfchar <0022> <0041> endbfchar"}
        with self.cmap.collection(files) as texts:
            self.assertEqual(texts.text(34), "A")
        self.assertIsNone(self.cmap.collection({}))
        with CMap.parse(b"") as silent:
            self.assertIsNone(silent.collection(files))
        self.assertRaises(Refused, self.cmap.collection, {"Adobe-Japan1-UCS2": BROKEN})
        self.assertRaises(Refused, self.cmap.collection, {"Adobe-Japan1-UCS2": uses(b"Missing")})
        with CMap.identity() as identity, identity.collection(files, name="Adobe-Japan1") as texts:
            self.assertEqual(texts.text(34), "A")
        self.assertIsNone(self.cmap.collection(files, name=b"Adobe-GB1"))

    def test_map_from_unicode(self):
        names = {
            ("Adobe-Japan1", False): b"UniJIS-UTF16-H",
            ("Adobe-Japan1", True): b"UniJIS-UTF16-V",
            ("Adobe-GB1", True): b"UniGB-UTF16-V",
            ("Adobe-CNS1", False): b"UniCNS-UTF16-H",
            ("Adobe-Korea1", False): b"UniKS-UTF16-H",
            ("Adobe-KR", True): b"UniAKR-UTF16-H",
            ("Adobe-Japan2", False): b"UniHojo-UTF16-H",
        }
        files = {name: b"/CMapName /%b def" % name for name in names.values()}
        for (collection, vertical), name in names.items():
            with CMap.identity(vertical) as identity, identity.unicode(files, name=collection) as found:
                self.assertEqual(found.metadata.name, name)
                self.assertIsNone(identity.unicode({}, name=collection))
                with found.unicode({}) as own:
                    self.assertEqual(own.metadata.name, name)
        with self.cmap.unicode(files) as found:
            self.assertEqual(found.metadata.name, b"UniJIS-UTF16-H")
        with CMap.identity() as identity:
            for collection in [None, "Adobe-Identity", "Adobe-Japan", ""]:
                self.assertIsNone(identity.unicode(files, name=collection))
        self.assertRaises(Refused, self.cmap.unicode, {"UniJIS-UTF16-H": BROKEN})

    def test_open_path(self):
        with tempfile.TemporaryDirectory() as folder:
            path = Path(folder, "Small-V")
            path.write_bytes(SMALL_V)
            with CMap.open(path, {"Small-H": SMALL}) as cmap:
                self.assertEqual([cmap.cid(0x8141, 2), cmap.cid(0x41, 1)], [7887, 34])
            self.assertRaises(FileNotFoundError, CMap.open, Path(folder, "None"))

    def test_repr(self):
        with CMap.parse(SMALL_V, {"Small-H": SMALL}) as cmap:
            self.assertEqual(repr(cmap), "<CMap b'Small-V', layers: 2>")
        self.assertEqual(repr(cmap), "<CMap, closed>")

    def test_texts_of_many(self):
        long = b"0061" * 5000
        with CMap.parse(b"beginbfchar <41> <" + long + b"> <42> <0062> endbfchar") as codes:
            with Extractor(self.cmap, codes, files={}) as font:
                texts = [character.text for character in font.characters(b"B" * 5000 + b"ABC")]
                self.assertEqual(texts, ["b"] * 5000 + ["a" * 5000, "b", None])
            with Extractor(codes, codes, codes) as font:
                self.assertEqual(font.characters(b"B")[0], ((0x42, 1, None, False, False), "b"))

    def test_strings_together(self):
        """Each string is cut by itself: the last byte of one and the first byte of the next are no code."""
        strings = [b"A\x81", b"\x40B", b"", b"\x81\x40", b"\x81"]
        with CMap.parse(b"beginbfchar <41> <0061> <8140> <3000> endbfchar") as codes, Extractor(
            self.cmap, codes, files={}
        ) as font:
            found = font.characters_of(strings)
            self.assertEqual(
                [[bytes(it.code) for it in row] for row in found],
                [[b"A", b"\x81"], [b"@", b"B"], [], [b"\x81\x40"], [b"\x81"]],
            )
            self.assertEqual(
                [[it.text for it in row] for row in found], [["a", None], [None, None], [], ["\u3000"], [None]]
            )
            self.assertEqual(found, [font.characters(string) for string in strings])

    def test_strings_of_codes_of_one_length(self):
        with CMap.parse(b"beginbfchar <0041> <0061> endbfchar") as codes, CMap.identity() as identity:
            with Extractor(identity, codes) as font:
                found = font.characters_of([b"\0A\0", b"\0A\0B", b"A", b"\0A"])
                self.assertEqual(
                    [[it.code.code for it in row] for row in found], [[0x41, 0], [0x41, 0x42], [0x41], [0x41]]
                )
                self.assertEqual(
                    [[it.code.cut_short for it in row] for row in found], [[False, True], [False] * 2, [True], [False]]
                )
                self.assertEqual([[it.text for it in row] for row in found], [["a", None], ["a", None], ["a"], ["a"]])

    def test_identity(self):
        with CMap.identity() as horizontal, CMap.identity(vertical=True) as vertical:
            self.assertEqual(horizontal.cid(0x3042, 2), 0x3042)
            self.assertEqual(vertical.cid(0x3042, 2), 0x3042)
            self.assertEqual(horizontal.metadata.writing_mode, WritingMode.HORIZONTAL)
            self.assertEqual(vertical.metadata.writing_mode, WritingMode.VERTICAL)

    def test_effective_writing_mode(self):
        files = {"Vertical": b"/WMode 1 def", "Middle": b"/Vertical usecmap"}
        rows = [
            (b"", WritingMode.HORIZONTAL),
            (b"/WMode 1 def", WritingMode.VERTICAL),
            (b"/Middle usecmap", WritingMode.VERTICAL),
            (b"/Middle usecmap /WMode 0 def", WritingMode.HORIZONTAL),
        ]
        for data, mode in rows:
            with self.subTest(data), CMap.parse(data, files) as cmap:
                self.assertEqual(cmap.effective_writing_mode, mode)


class EffectiveTexts(unittest.TestCase):
    """The runs of `texts` are what `text` gives for each code."""

    def texts_of(self, data, codespaces=None, **over):
        with CMap.parse(data, **over) as cmap:
            runs = cmap.texts(codespaces)
            for run in runs:
                for code in range(run.first, run.last + 1):
                    counted = run.text[:-1] + chr(ord(run.text[-1]) + code - run.first)
                    self.assertEqual(cmap.text(code), counted, (run, code))
            for before, after in zip(runs, runs[1:]):
                self.assertLess(before.last, after.first)
            codes = sum(run.last - run.first + 1 for run in runs)
            last = max((declared.last for layer in cmap.layers for declared in layer.texts), default=0)
            if last < 0x20000:
                self.assertEqual(codes, sum(cmap.text(code) is not None for code in range(last + 1)))
            return runs

    def test_the_last_declaration_counts(self):
        data = b"1 beginbfrange <10> <1F> <0041> endbfrange 2 beginbfchar <12> <00660069> <1F> <0078> endbfchar"
        runs = [(0x10, 0x11, "A", 1), (0x12, 0x12, "fi", 1), (0x13, 0x1E, "D", 1), (0x1F, 0x1F, "x", 1)]
        self.assertEqual(self.texts_of(data), [TextRun(*run) for run in runs])

    def test_a_declaration_without_units_hides_others(self):
        data = b"1 beginbfrange <10> <13> <0061> endbfrange 1 beginbfchar <11> <> endbfchar"
        with CMap.salvage(data).cmap as cmap:
            self.assertEqual(cmap.texts(), [TextRun(0x10, 0x10, "a", 1), TextRun(0x12, 0x13, "c", 1)])
            self.assertIsNone(cmap.text(0x11))

    def test_layers(self):
        base = b"1 beginbfrange <10> <13> <0061> endbfrange"
        runs = self.texts_of(b"/A usecmap 1 beginbfchar <11> <0042> endbfchar", files={"A": base})
        self.assertEqual([(run.first, run.text) for run in runs], [(0x10, "a"), (0x11, "B"), (0x12, "c")])

    def test_codes_without_a_text(self):
        """Surrogates alone have none, and hide what is declared before; nor has what counts past FFFF."""
        data = b"""4 beginbfrange <10> <20> <0061> <12> <13> <D7FF> <15> <16> <D83DDFFF> <30> <33> <FFFE> endbfrange
            2 beginbfchar <18> <D800> <19> <DC00> endbfchar"""
        runs = self.texts_of(data)
        self.assertEqual([run.first for run in runs], [0x10, 0x12, 0x14, 0x15, 0x17, 0x1A, 0x30])
        self.assertEqual([run.last for run in runs], [0x11, 0x12, 0x14, 0x15, 0x17, 0x20, 0x31])

    def test_counting_over_surrogates(self):
        runs = self.texts_of(b"1 beginbfrange <0000> <FFFF> <0000> endbfrange")
        self.assertEqual([(run.first, run.last) for run in runs], [(0, 0xFF), (0x100, 0xD7FF), (0xE000, 0xFFFF)])
        runs = self.texts_of(b"1 beginbfrange <0000> <FFFF> <D83DDE00> endbfrange")
        self.assertEqual(
            [(run.first, run.last, run.text) for run in runs], [(0, 0xFF, "\U0001F600"), (0x100, 0x1FF, "\U0001F700")]
        )

    def test_lengths(self):
        """A code has as many bytes as the shortest range that has it; else as many as write it, and no fewer than the
        shortest codes have."""
        ranges = b"2 begincodespacerange <00> <80> <8140> <9FFC> endcodespacerange "
        declared = b"3 beginbfrange <7F> <81> <0061> <813F> <8141> <4E00> <010000> <010001> <5000> endbfrange"
        runs = [(0x7F, 0x81, 1), (0x813F, 0x8141, 2), (0x10000, 0x10001, 3)]
        self.assertEqual([(run.first, run.last, run.byte_len) for run in self.texts_of(ranges + declared)], runs)
        runs = self.texts_of(ranges + declared, [Codespace(0x0000, 0xFFFF, 2)])
        self.assertEqual([run.byte_len for run in runs], [2, 2, 3])
        both = [Codespace(0x0000, 0xFFFF, 2), Codespace(0x20, 0x7E, 1)]
        runs = self.texts_of(b"1 beginbfrange <00> <FF> <0100> endbfrange", both)
        self.assertEqual(
            [(run.first, run.last, run.byte_len) for run in runs], [(0, 0x1F, 2), (0x20, 0x7E, 1), (0x7F, 0xFF, 2)]
        )

    def test_none(self):
        self.assertEqual(self.texts_of(b""), [])
        self.assertEqual(self.texts_of(b"2 beginbfrange <20> <10> <0041> <FFFFFFFF> <FFFFFFFF> <D800> endbfrange"), [])
        self.assertEqual(
            self.texts_of(b"1 beginbfchar <FFFFFFFF> <0041> endbfchar"), [TextRun(2**32 - 1, 2**32 - 1, "A", 4)]
        )

    @needs_resources
    def test_predefined(self):
        data = predefined("Adobe-Japan1-UCS2")
        self.assertGreater(len(self.texts_of(data)), 1000)


class Values(unittest.TestCase):
    def test_wrong_codespaces(self):
        with CMap.parse(SMALL) as cmap:
            self.assertEqual(cmap.texts([(0, 0xFF, 1)]), cmap.texts([Codespace(0, 0xFF, 1)]))
            for wrong in [(0, 0xFF, 9), (-5, 0xFF, 1), (0, 0x100, 1)]:
                self.assertRaises(ValueError, cmap.texts, [wrong])

    """Integers out of range are refused, and bytes are taken in any form."""

    def setUp(self):
        self.cmap = CMap.parse(SMALL)
        self.addCleanup(self.cmap.close)

    def test_codes_out_of_range(self):
        for code in [-1, 2**32, 2**32 + 0x41, 2**64 + 0x41, -(2**32) + 0x41]:
            with self.subTest(code=code):
                for call in [lambda: self.cmap.cid(code, 1), lambda: self.cmap.cid_strict(code, 1)]:
                    self.assertRaises(ValueError, call)
                self.assertRaises(ValueError, self.cmap.text, code)
                self.assertRaises(ValueError, self.cmap.codes_of_cid, code, 1)
                self.assertRaises(ValueError, self.cmap.cids, code, 1, 1)

    def test_lengths_out_of_range(self):
        for byte_len in [-1, 0, 5, 257, 256 + 1, 2**64 + 1]:
            with self.subTest(byte_len=byte_len):
                self.assertRaises(ValueError, self.cmap.cid, 0x41, byte_len)
                self.assertRaises(ValueError, self.cmap.cid_strict, 0x41, byte_len)
                self.assertRaises(ValueError, self.cmap.cids, 0x41, 1, byte_len)
                self.assertRaises(ValueError, self.cmap.codes_of_cid, 1, byte_len)

    def test_counts_out_of_range(self):
        for first, count in [(0, -1), (0, 2**32 + 1), (2**32 - 1, 2), (0, 2**64)]:
            with self.subTest(first=first, count=count):
                self.assertRaises(ValueError, self.cmap.cids, first, count, 4)

    def test_extractor_without_a_map(self):
        with CMap.parse(b"beginbfchar <41> <0061> endbfchar") as codes:
            for font in [Extractor(None), Extractor(None, None, codes)]:
                with font:
                    self.assertEqual(font.characters(b"A"), [(Code(0x41, 1, None, True, False), None)])

    def test_budgets_out_of_range(self):
        for budget in [-1, 2**64, 2**64 + 10**6]:
            with self.subTest(budget=budget):
                self.assertRaises(ValueError, CMap.parse, SMALL, budget=budget)
                self.assertRaises(ValueError, CMap.open, "Identity-H", budget=budget)

    def test_other_types(self):
        for value in [1.0, "1", None, b"1"]:
            with self.subTest(value=value):
                self.assertRaises(TypeError, self.cmap.cid, value, 1)
                self.assertRaises(TypeError, self.cmap.cid, 1, value)
        for value in [5, "text", None, [65]]:
            with self.subTest(value=value):
                self.assertRaises(TypeError, self.cmap.decode, value)
                self.assertRaises(TypeError, CMap.parse, value)
        self.assertRaises(TypeError, CMap.parse, SMALL, bundle=b"")

    def test_bytes_in_any_form(self):
        forms = [bytes, bytearray, memoryview, lambda it: memoryview(b"".join(bytes([one, 0]) for one in it))[::2]]
        for form in forms:
            with CMap.parse(form(SMALL)) as cmap:
                self.assertEqual([code.cid for code in cmap.decode(form(b"\x81\x40"))], [633])

    def test_names_as_text(self):
        with CMap.parse(SMALL_V, {"Small-H": bytearray(SMALL)}) as cmap:
            self.assertEqual(cmap.cid(0x41, 1), 34)
        with CMap.parse(uses("あ".encode()), {"あ": SMALL}) as cmap:
            self.assertEqual(cmap.cid(0x41, 1), 34)


class WhatFilesSay(unittest.TestCase):
    def test_layers(self):
        with CMap.parse(SMALL_V, {b"Small-H": SMALL}) as cmap:
            own, below = cmap.layers
            self.assertEqual(own.metadata, Metadata(b"Small-V", None, None, None, WritingMode.VERTICAL))
            self.assertEqual(own.codespaces, [])
            self.assertEqual(below.metadata, Metadata(b"Small-H", b"Adobe", b"Japan1", 1, WritingMode.HORIZONTAL))
            self.assertEqual(below.codespaces, [Codespace(0, 0x80, 1), Codespace(0x8140, 0x9FFC, 2)])
            self.assertEqual(cmap.metadata, own.metadata)

    def test_declarations(self):
        text = b"/Small-H usecmap 1 beginnotdefrange <00> <1F> 99 endnotdefrange 1 begincidchar <41> 7 endcidchar"
        with CMap.parse(text, {"Small-H": SMALL}) as cmap:
            own, below = cmap.layers
            self.assertEqual(own.cids, (CidRange(0x41, 0x41, 7, 1),))
            self.assertEqual(own.notdefs, (CidRange(0, 0x1F, 99, 1),))
            self.assertEqual(own.texts, ())
            self.assertEqual(below.cids, (CidRange(0x20, 0x7E, 1, 1), CidRange(0x8140, 0x817E, 633, 2)))
            self.assertEqual(below.notdefs, ())
            self.assertEqual(below.texts, (TextRange(0x41, 0x41, "A"),))

    def test_declared_texts(self):
        text = b"beginbfrange <01> <03> <D83DDE00> <04> <04> <D83D> endbfrange beginbfchar <05> <00660069> endbfchar"
        with CMap.parse(text) as cmap:
            expected = [(1, 3, "\U0001F600"), (4, 4, "\ud83d"), (5, 5, "fi")]
            self.assertEqual(cmap.layers[0].texts, tuple(TextRange(*it) for it in expected))

    def test_many_declarations(self):
        cids, text = b"<20> 1 " * 99 + b"<20> 2", b"<20> <" + b"0061" * 99 + b">"
        with CMap.parse(b"begincidchar " + cids + b" endcidchar beginbfchar " + text + b" endbfchar") as cmap:
            self.assertEqual(cmap.layers[0].cids, (CidRange(0x20, 0x20, 1, 1),) * 99 + (CidRange(0x20, 0x20, 2, 1),))
            self.assertEqual(cmap.layers[0].texts, (TextRange(0x20, 0x20, "a" * 99),))

    def test_declarations_of_a_closed_map(self):
        with CMap.parse(SMALL) as cmap:
            [layer] = cmap.layers
            cids = layer.cids
        self.assertIs(layer.cids, cids)
        with self.assertRaises(ValueError):
            layer.texts

    def test_nothing_said(self):
        with CMap.parse(b"") as cmap:
            self.assertEqual(cmap.metadata, Metadata(None, None, None, None, None))
            self.assertEqual([layer.codespaces for layer in cmap.layers], [[]])

    def test_many_codespaces(self):
        ranges = [(code, code, 1) for code in range(100)]
        text = b" ".join(b"<%02X> <%02X>" % it[:2] for it in ranges)
        with CMap.parse(b"100 begincodespacerange " + text + b" endcodespacerange") as cmap:
            self.assertEqual(cmap.layers[0].codespaces, ranges)

    def test_long_name(self):
        with CMap.parse(b"/CMapName /" + b"x" * 1000 + b" def") as cmap:
            self.assertEqual(cmap.metadata.name, b"x" * 1000)

    def test_version(self):
        self.assertRegex(hayro_cmap.__version__, r"^\d+\.\d+\.\d+(\+plain)?$")


@needs_resources
class Predefined(unittest.TestCase):
    """Known answers of the files of poppler-data."""

    def test_texts(self):
        with CMap.parse(predefined("90ms-RKSJ-H")) as cmap, CMap.parse(predefined("Adobe-Japan1-UCS2")) as collection:
            with Extractor(cmap, collection=collection) as font:
                found = font.characters("日本語、PDF".encode("cp932"))
                self.assertEqual("".join(character.text for character in found), "日本語、PDF")

    def test_decode(self):
        with CMap.parse(predefined("90ms-RKSJ-H")) as cmap:
            codes = cmap.decode(bytes.fromhex("93FA967B8CEA"))
            self.assertEqual([code.cid for code in codes], [3284, 3722, 1952])
            self.assertEqual([bytes(code).hex() for code in codes], ["93fa", "967b", "8cea"])
            self.assertTrue(all(code.in_codespace and not code.cut_short for code in codes))

    def test_files_one_by_one(self):
        files, asked = known_files()
        with CMap.open("UniJIS-UTF16-V", files) as cmap:
            self.assertEqual([cmap.cid(0x3042, 2), cmap.cid(0xFF08, 2)], [843, 7899])
            self.assertEqual(cmap.metadata.writing_mode, WritingMode.VERTICAL)
        self.assertEqual(asked, [b"UniJIS-UTF16-V", b"UniJIS-UTF16-H"])

    def test_folder(self):
        with CMap.open("Adobe-Japan1-UCS2", hayro_cmap.folder(RESOURCES)) as cmap:
            self.assertEqual([cmap.text(0x34B), cmap.text(0xFFFFFFF)], ["あ", None])

    def test_all_codes(self):
        with CMap.parse(predefined("UniJIS-UTF16-H")) as cmap:
            self.assertEqual(sum(cid is not None for cid in cmap.cids(0, 65536, 2)), 15391)


if __name__ == "__main__":
    unittest.main()
