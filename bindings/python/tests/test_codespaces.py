"""How many bytes codes have, and which of them lie in codespace ranges."""

import itertools
import random
import unittest

from hayro_cmap import CMap, Codespace
from hayro_cmap._candidates import codes_in, same
from hayro_cmap._codespaces import Codespaces
from hayro_cmap._effective import by_length

from .steps import limited


def lies_in(code, codespace):
    """Whether a code lies in a codespace range, byte by byte."""
    if code >> 8 * codespace.byte_len:
        return False
    low, byte, high = (it.to_bytes(codespace.byte_len, "big") for it in (codespace.low, code, codespace.high))
    return all(least <= value <= most for least, value, most in zip(low, byte, high))


def code_length(code, codespaces):
    """How many bytes a code has, by one range after another."""
    found = [it.byte_len for it in codespaces if lies_in(code, it)]
    fewest = min((it.byte_len for it in codespaces), default=1)
    return min(found) if found else max((code.bit_length() + 7) // 8, fewest)


class Lengths(unittest.TestCase):
    def setUp(self):
        self.chosen = random.Random(11)

    def byte(self):
        """A byte, mostly one of a few, so that ranges meet."""
        return self.chosen.choice([0, 0, 1, 0x40, 0x41, 0x80, 0xFE, 0xFF, 0xFF, self.chosen.randrange(256)])

    def codespace(self):
        """A range of any length. Of some no code has the bytes."""
        byte_len = self.chosen.randint(1, 4)
        pairs = [(self.byte(), self.byte()) for _ in range(byte_len)]
        if self.chosen.random() < 0.9:
            pairs = [sorted(pair) for pair in pairs]
        low, high = (int.from_bytes(bytes(it), "big") for it in zip(*pairs))
        return Codespace(low, high, byte_len)

    def rows(self, codespaces):
        """Rows of codes at the edges of ranges, and before them."""
        edges = [edge for it in codespaces for edge in (it.low, it.high)] or [self.chosen.randrange(1 << 32)]
        for edge in self.chosen.choices(edges, k=6):
            first = max(0, edge - self.chosen.choice([0, 1, 300, 70_000]))
            yield first, min(first + self.chosen.choice([0, 1, 2, 300, 600]), 2**32 - 1)

    def test_random_ranges(self):
        """They are those of one code after another."""
        for count in [*range(6)] * 40:
            codespaces = [self.codespace() for _ in range(count)]
            made = Codespaces(codespaces)
            for first, last in self.rows(codespaces):
                with self.subTest(codespaces=codespaces, first=first, last=last):
                    lengths = [(code, code_length(code, codespaces)) for code in range(first, last + 1)]
                    rows = [list(row) for _, row in itertools.groupby(lengths, key=lambda it: it[1])]
                    expected = [(row[0][0], row[-1][0], row[0][1]) for row in rows]
                    self.assertEqual(by_length(first, last, made), expected)
                    inside = [code for code in range(first, last + 1) if any(lies_in(code, it) for it in codespaces)]
                    self.assertEqual(list(codes_in(first, last, made)), inside)

    def test_rows_of_all_codes(self):
        most = 2**32 - 1
        made = Codespaces([Codespace(0x20, 0x7E, 1), Codespace(0x8140, 0x9FFC, 2), Codespace(0x01000000, most, 4)])
        parts = by_length(0, most, made)
        self.assertEqual((parts[0], parts[1], parts[-1]), ((0, 0xFF, 1), (0x100, 0xFFFF, 2), (0x1000000, most, 4)))
        found = codes_in(0, most, made)
        self.assertEqual(list(itertools.islice(found, 94, 97)), [0x7E, 0x8140, 0x8141])
        far = Codespaces([Codespace(0, 0xFF000000, 4)])
        self.assertEqual(list(codes_in(0, most, far)), [first << 24 for first in range(256)])

    def test_notdefs(self):
        rows = [(2, 4), (9, 9), (20, 30)]
        with CMap.parse(b"".join(b"beginnotdefchar <%02X> %d endnotdefchar " % (it, it) for it in range(40))) as cmap:
            found = [first for first, _ in same(cmap.layers[0].notdefs, rows)]
        self.assertEqual(found, [it for it in range(40) if any(first <= it <= last for first, last in rows)])


class Steps(unittest.TestCase):
    """They don't grow with the codes times the ranges."""

    CODES, RANGES, MOST_STEPS = 4096, 1000, 1_000_000

    def setUp(self):
        chosen = random.Random(3)
        pairs = [[sorted(chosen.choices(range(256), k=2)) for _ in range(4)] for _ in range(self.RANGES)]
        rows = " ".join(f"<{bytes(it).hex()}>" for pair in pairs for it in zip(*pair))
        self.codespaces = f"begincodespacerange <00> <20> {rows} endcodespacerange"
        self.codes = sorted(chosen.sample(range(1 << 32), self.CODES))

    def test_texts(self):
        texts = " ".join(f"<{code:08x}> <0041>" for code in self.codes)
        with CMap.parse(f"{self.codespaces} beginbfchar {texts} endbfchar".encode()) as cmap:
            with limited(self.MOST_STEPS):
                found = cmap.texts()
        self.assertEqual(len(found), self.CODES)

    def test_codes_in_ranges(self):
        with CMap.parse(self.codespaces.encode()) as cmap:
            codespaces = cmap.layers[0].codespaces
        with limited(self.MOST_STEPS):
            made = Codespaces(it for it in codespaces if it.byte_len == 4)
            found = [code for it in self.codes for code in codes_in(it, it, made)]
        sample = self.codes[::64]
        self.assertEqual(
            [code for code in found if code in sample],
            [code for code in sample if any(lies_in(code, it) for it in codespaces)],
        )

    def test_notdefs(self):
        with CMap.parse(b"beginnotdefrange %s endnotdefrange" % (b"<00> <FF> 70000 " * 1000)) as cmap:
            notdefs = cmap.layers[0].notdefs
        rows = [(2 * it, 2 * it) for it in range(1000)]
        with limited(20_000):
            self.assertEqual(list(same(notdefs, rows)), [])


if __name__ == "__main__":
    unittest.main()
