"""Sources of maps, and all texts of a map at once."""

import pickle
import time
import unittest
import unittest.mock

from hayro_cmap import CMap, CMapSource, Refused

from .files import BROKEN, SMALL, needs_resources

#: Texts of the codes 41 and 43, and of two codes of three bytes.
TEXTS = b"beginbfchar <41> <0061> <43> <006600660069> <010000> <D83DDE00> <010001> <0062> endbfchar"


class Sources(unittest.TestCase):
    def test_open(self):
        self.assertEqual(CMapSource(data=SMALL).open().cid(0x41, 1), 34)
        based = CMapSource(data=b"begincidchar <42> 7 endcidchar", base=CMapSource(data=SMALL))
        self.assertEqual([based.open().cid(code, 1) for code in (0x41, 0x42)], [34, 7])
        self.assertEqual([CMapSource(b"Identity-V").open().metadata.writing_mode], [1])

    @needs_resources
    def test_names(self):
        over = CMapSource(data=b"begincidchar <93FA> 843 endcidchar", base=CMapSource(b"90ms-RKSJ-H"))
        self.assertEqual([it.cid for it in over.open().decode(b"\x93\xfa\x96\x7b")], [843, 3722])

    def test_faults(self):
        source = CMapSource(data=BROKEN + b" 1 begincidchar <41> 5 endcidchar")
        self.assertRaises(Refused, source.open)
        cmap, faults = source.salvage()
        self.assertEqual((cmap.cid(0x41, 1), len(faults), source.salvage(0).faults), (5, 1, []))
        self.assertRaises(Refused, CMapSource(b"Nowhere-H").salvage)
        for source in [CMapSource(), CMapSource(unreadable="it is deflated wrongly")]:
            self.assertRaisesRegex(ValueError, source.unreadable or "neither", source.open)

    def test_pickles(self):
        source = CMapSource(data=b"", base=CMapSource(data=SMALL))
        same = pickle.loads(pickle.dumps(source))
        self.assertEqual((same, same.open().cid(0x41, 1), len({same, source})), (source, 34, 1))


class TextsByCode(unittest.TestCase):
    def test_texts(self):
        with CMap.parse(TEXTS) as cmap:
            self.assertEqual(cmap.texts_by_code(), {0x41: "a", 0x43: "ffi"})
            self.assertEqual(cmap.texts_by_code(0x42), {0x41: "a"})
            all_texts = cmap.texts_by_code(0xFFFFFFFF)
            self.assertEqual(all_texts, {0x41: "a", 0x43: "ffi", 0x10000: "\U0001F600", 0x10001: "b"})
            for wrong in (-1, 1 << 32):
                self.assertRaises(ValueError, cmap.texts_by_code, wrong)
        self.assertRaises(ValueError, cmap.texts_by_code)

    def test_layers(self):
        """A layer decides before that which it is based on, and in a file the last declaration."""
        over = b"beginbfchar <41> <0062> <41> <0063> endbfchar"
        with CMap.parse(over, base=TEXTS) as cmap:
            self.assertEqual(cmap.texts_by_code(), {0x41: "c", 0x43: "ffi"})

    def test_long_texts(self):
        """They pass the room of many codes."""
        with CMap.parse(b"beginbfrange <0000> <1FFF> <" + b"0061" * 100 + b"> endbfrange") as cmap:
            found = cmap.texts_by_code()
        self.assertEqual([found[0], found[1][-1], len(found)], ["a" * 100, "b", 0x2000])

    def test_each_is_that_of_the_code(self):
        with CMap.parse(b"beginbfrange <00> <FF> <0041> <D7FE> <E010> <D7FE> endbfrange") as cmap:
            expected = {code: cmap.text(code) for code in range(0x10000) if cmap.text(code) is not None}
            self.assertEqual(cmap.texts_by_code(), expected)

    def test_all_codes_take_no_time(self):
        start = time.process_time()
        with CMap.parse(b"beginbfrange <00000000> <FFFFFFFF> <0000> endbfrange") as cmap:
            self.assertEqual(len(cmap.texts_by_code()), 0x10000 - 0x800)
        self.assertLess(time.process_time() - start, 5)
