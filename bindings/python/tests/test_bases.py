"""Bases that are handed in, and maps that `CMap.open` keeps."""

import os
import tempfile
import unittest
import unittest.mock
from pathlib import Path

from hayro_cmap import Bundle, Cause, CMap, NotWritable, Refused, predefined
from hayro_cmap import _predefined as looked_up

from .files import BINARY, BROKEN, BUNDLE, SMALL, uses

#: 41 is CID 7, above what a base says.
ABOVE = b"1 begincidchar <41> 7 endcidchar"


class Bases(unittest.TestCase):
    def cids(self, cmap):
        return [cmap.cid(code, 1) for code in (0x40, 0x41, 0x42)]

    def test_whatever_name_is_used(self):
        for data in [ABOVE, uses(b"Other") + b" " + ABOVE, ABOVE + b" /A usecmap /B usecmap"]:
            for base in [SMALL, bytearray(SMALL), CMap.parse(SMALL)]:
                with self.subTest(data=data, base=base), CMap.parse(data, base=base) as cmap:
                    self.assertEqual(self.cids(cmap), [33, 7, 35])
                    self.assertEqual(cmap.metadata.name, None)
                with CMap.salvage(data, base=base).cmap as cmap:
                    self.assertEqual(self.cids(cmap), [33, 7, 35])

    def test_the_base_uses_files(self):
        """Also one with the name that the file over it uses."""
        files = {b"Base": SMALL}
        for data in [ABOVE, uses(b"Base") + b" " + ABOVE]:
            base = uses(b"Base") + b" 1 begincidchar <42> 8 endcidchar"
            with CMap.parse(data, files, base=base) as cmap:
                self.assertEqual(self.cids(cmap), [33, 7, 8])
            self.assertEqual(self.cids(CMap.salvage(data, files.get, base=base).cmap), [33, 7, 8])
            with self.assertRaises(Refused) as found:
                CMap.parse(data, base=base)
            self.assertEqual(found.exception.cause, Cause.NO_FILE)

    def test_offsets_are_those_of_the_file(self):
        for data in [BROKEN, b"\n" + uses(b"A") + BROKEN]:
            with self.assertRaises(Refused) as found:
                CMap.parse(data, base=SMALL)
            self.assertEqual((found.exception.offset, found.exception.names), (data.index(b" x") + 2, ()))
            [fault] = CMap.salvage(data, base=SMALL).faults
            self.assertEqual((fault.offset, fault.names), (data.index(b" x") + 2, ()))

    def test_faults_of_the_base(self):
        for data, name in [(ABOVE, b"UseCMap"), (uses(b"A"), b"A")]:
            with self.assertRaises(Refused) as found:
                CMap.parse(data, base=BROKEN)
            self.assertEqual((found.exception.offset, found.exception.names), (27, (name,)))
        [fault] = CMap.salvage(uses(b"A"), base=BROKEN).faults
        self.assertEqual((fault.offset, fault.names), (27, (b"A",)))
        cmap, faults = CMap.salvage(BROKEN, base=BROKEN + b" 1 begincidchar <42> 8 endcidchar")
        self.assertEqual([(fault.offset, fault.names) for fault in faults], [(27, ()), (27, (b"UseCMap",))])
        self.assertEqual(self.cids(cmap), [None, None, 8])

    def test_of_a_binary_file(self):
        with Bundle.open(BUNDLE) as bundle:
            base = b"1 begincidchar <0030> 9 endcidchar"
            with CMap.parse(BINARY, bundle=bundle, base=base) as cmap:
                self.assertEqual([cmap.cid(code, 2) for code in (0x20, 0x21, 0x30)], [5, 6, 9])

    def test_a_base_that_no_one_file_has(self):
        """A code has a text alone above, and a CID below."""
        base = b"/A usecmap 1 beginbfchar <41> <0061> endbfchar"
        files = {b"A": b"1 begincidchar <41> 5 endcidchar"}
        with CMap.parse(base, files) as cmap:
            self.assertRaises(NotWritable, CMap.parse, ABOVE, base=cmap)
            self.assertRaises(NotWritable, CMap.salvage, ABOVE, base=cmap)
        self.assertRaises(NotWritable, CMap.parse, ABOVE, files, base=base)

    def test_budget(self):
        self.assertRaises(Refused, CMap.parse, ABOVE, base=SMALL, budget=len(ABOVE) + len(SMALL) - 1)
        CMap.parse(ABOVE, base=SMALL, budget=len(ABOVE) + len(SMALL)).close()


class Kept(unittest.TestCase):
    def setUp(self):
        folder = tempfile.TemporaryDirectory()
        self.addCleanup(folder.cleanup)
        self.folder = Path(folder.name)
        environment = unittest.mock.patch.dict(os.environ, {"CMAP_PATH": folder.name})
        environment.start()
        self.addCleanup(environment.stop)
        (self.folder / "Kept-H").write_bytes(uses(b"Kept-Base"))
        (self.folder / "Kept-Base").write_bytes(SMALL)

    def reads(self):
        """How many files are read while Kept-H is opened, and the CID of 41."""
        read = []
        with unittest.mock.patch.object(looked_up, "predefined", lambda name: read.append(name) or predefined(name)):
            with CMap.open("Kept-H") as cmap:
                return len(read), cmap.cid(0x41, 1)

    def test_read_once(self):
        self.assertEqual(self.reads(), (2, 34))
        self.assertEqual(self.reads(), (0, 34))

    def test_files_that_change(self):
        self.assertEqual(self.reads(), (2, 34))
        (self.folder / "Kept-Base").write_bytes(SMALL.replace(b"<7E> 1", b"<7E> 11"))
        self.assertEqual(self.reads(), (2, 44))
        (self.folder / "Kept-Base").unlink()
        self.assertRaises(Refused, CMap.open, "Kept-H")

    def test_other_folders(self):
        self.assertEqual(self.reads(), (2, 34))
        with unittest.mock.patch.dict(os.environ, {"CMAP_PATH": ""}):
            self.assertRaises(Refused, CMap.open, "Kept-H")

    def test_each_is_closed_by_itself(self):
        one, other = CMap.open("Kept-H"), CMap.open("Kept-H")
        one.close()
        self.assertEqual(other.cid(0x41, 1), 34)
        self.assertEqual(CMap.open("Kept-H").cid(0x41, 1), 34)

    def test_only_the_last_ones(self):
        kept = looked_up.Kept()
        kept.MOST = 2
        for index in range(4):
            kept.of(b"%d" % index, lambda files: CMap.parse(b""))
        self.assertEqual(list(kept._opened), [b"2", b"3"])


if __name__ == "__main__":
    unittest.main()
