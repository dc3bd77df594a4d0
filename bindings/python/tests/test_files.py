"""Files that others use, and bundles."""

import os
import tempfile
import unittest
import unittest.mock
from pathlib import Path

from hayro_cmap import Bundle, Cause, CMap, Refused, WritingMode, folder, predefined
from hayro_cmap import uses as uses_of

from .files import BINARY, BROKEN, BUNDLE, FIRST, SMALL, SMALL_V, bundle_of, needs_resources, uses


class Recorded:
    """Files by their names, and the names that were asked for."""

    def __init__(self, files):
        self.files, self.asked = files, []

    def __call__(self, name):
        self.asked.append(name)
        return self.files.get(name)


class Uses(unittest.TestCase):
    def test_in_order(self):
        self.assertEqual(uses_of(uses(b"B", b"A", b"B")), [b"B", b"A", b"B"])
        self.assertEqual(CMap.uses(SMALL), [])

    def test_many_and_long(self):
        names = [b"N%d" % number for number in range(100)] + [b"x" * 1000]
        self.assertEqual(uses_of(uses(*names)), names)

    def test_binary(self):
        name = bytes.fromhex("62636D617001 00000010 09 00000006 41")
        with Bundle.open(BUNDLE) as bundle:
            self.assertEqual(uses_of(name, bundle), [b"A"])
            self.assertEqual(uses_of(BINARY, bundle), [])


class Predefined(unittest.TestCase):
    def setUp(self):
        folder = tempfile.TemporaryDirectory()
        self.addCleanup(folder.cleanup)
        self.folder = folder.name
        below = Path(self.folder, "Small")
        below.mkdir()
        (below / "Small-H").write_bytes(SMALL)
        (below / "Small-V").write_bytes(SMALL_V)
        Path(self.folder, "Secret").write_bytes(SMALL)

    def path(self, *folders):
        return unittest.mock.patch.dict(os.environ, {"CMAP_PATH": os.pathsep.join(folders)})

    def test_path(self):
        with self.path("/nowhere", self.folder), CMap.open("Small-V") as cmap:
            self.assertEqual([cmap.cid(0x8140, 2), cmap.cid(0x8141, 2)], [633, 7887])

    def test_nothing_outside(self):
        with self.path(self.folder + "/Small"):
            self.assertEqual([predefined(name) for name in [b"../Secret", b"..", b"", b"Small-H\0", b"Else"]], [None] * 5)
            self.assertEqual((predefined(b"Small-H"), predefined("Small-H")), (SMALL, SMALL))
        with self.path(), self.assertRaises(Refused):
            CMap.open("Small-V")

    def test_nothing_hidden(self):
        """But a folder that is asked for may be hidden."""
        hidden = Path(self.folder, ".hidden")
        hidden.mkdir()
        (hidden / "Hidden-H").write_bytes(SMALL)
        (hidden / ".Hidden-H").write_bytes(SMALL)
        with self.path(self.folder):
            found = [predefined(name) for name in ["Hidden-H", ".Hidden-H", "Small-H"]]
            self.assertEqual(found, [None, None, SMALL])
        with self.path(str(hidden)):
            self.assertEqual([predefined("Hidden-H"), predefined(".Hidden-H")], [SMALL, None])

    def test_path_of_its_own(self):
        """CMAP_PATH has another meaning for other programs."""
        for own, found in [(self.folder, SMALL), ("", None), ("/nowhere", None)]:
            with self.path("/nowhere" if own == self.folder else self.folder):
                with unittest.mock.patch.dict(os.environ, {"HAYRO_CMAP_PATH": own}):
                    self.assertEqual(predefined("Small-H"), found)

    @needs_resources
    def test_system(self):
        with unittest.mock.patch.dict(os.environ):
            os.environ.pop("CMAP_PATH", None)
            os.environ.pop("HAYRO_CMAP_PATH", None)
            with CMap.open("90ms-RKSJ-V") as cmap:
                self.assertEqual([code.cid for code in cmap.decode(b"\x93\xfa")], [3284])


class NoFiles(unittest.TestCase):
    def test_none_is_no_file(self):
        with CMap.parse(SMALL, None) as cmap, CMap.salvage(SMALL, None).cmap as salvaged:
            self.assertEqual([cmap.cid(0x41, 1), salvaged.cid(0x41, 1)], [34, 34])
        self.assertRaises(Refused, CMap.parse, uses(b"A"), None)


class Callables(unittest.TestCase):
    def test_each_name_once(self):
        files = Recorded({b"A": uses(b"C", b"B"), b"B": uses(b"C"), b"C": SMALL})
        with CMap.parse(uses(b"A", b"B", b"A"), files) as cmap:
            self.assertEqual(cmap.cid(0x41, 1), 34)
        self.assertEqual(files.asked, [b"A", b"C", b"B"])

    def test_open(self):
        files = Recorded({b"Small-V": SMALL_V, b"Small-H": SMALL})
        with CMap.open("Small-V", files) as cmap:
            self.assertEqual([cmap.cid(0x8140, 2), cmap.cid(0x8141, 2)], [633, 7887])
            self.assertEqual(cmap.metadata.writing_mode, WritingMode.VERTICAL)
        self.assertEqual(files.asked, [b"Small-V", b"Small-H"])

    def test_identity(self):
        for files in [{}, Recorded({})]:
            with CMap.open("Identity-V", files) as cmap:
                self.assertEqual((cmap.cid(0x3042, 2), cmap.metadata.writing_mode), (0x3042, WritingMode.VERTICAL))
        with CMap.open("Identity-V", {"Identity-V": SMALL}) as cmap:
            self.assertEqual(cmap.cid(0x41, 1), 34)

    def test_use_of_an_identity(self):
        """A use of an identity needs no file. One that has the name goes before."""
        for files in [{}, Recorded({})]:
            with CMap.parse(uses(b"Identity-H"), files) as cmap:
                self.assertEqual(cmap.cid(0x3042, 2), 0x3042)
        for files in [{"Identity-H": SMALL}, Recorded({b"Identity-H": SMALL})]:
            with CMap.parse(uses(b"Identity-H"), files) as cmap:
                self.assertEqual((cmap.cid(0x41, 1), cmap.cid(0x3042, 2)), (34, None))

    def test_chain(self):
        """A chain of 16 files is read, and no file beyond a chain of 16 is asked for."""
        for length, call in [(15, CMap.parse), (16, CMap.open)]:
            files = {b"%d" % number: uses(b"%d" % (number + 1)) for number in range(1, 100)}
            first = uses(b"1") if call == CMap.parse else b"1"
            asked = Recorded(files)
            with self.assertRaises(Refused) as found:
                call(first, asked)
            self.assertEqual(found.exception.cause, Cause.CHAIN_LENGTH)
            self.assertEqual(asked.asked, [b"%d" % number for number in range(1, length + 1)])
            files[b"%d" % length] = SMALL
            with call(first, Recorded(files)) as cmap:
                self.assertEqual((cmap.cid(0x41, 1), len(cmap.layers)), (34, 16))

    def test_malformed(self):
        files = Recorded({b"A": uses(b"B") + b" )"})
        self.assertRaises(Refused, CMap.parse, uses(b"A"), files)
        self.assertEqual(files.asked, [b"A"])

    def test_what_it_raises(self):
        def files(name):
            raise KeyError(name)

        self.assertRaises(KeyError, CMap.parse, uses(b"A"), files)
        self.assertRaises(TypeError, CMap.parse, uses(b"A"), lambda name: 5)
        for call in [lambda: CMap.parse(b"", [b"A"]), lambda: CMap.open("A", "a text"), lambda: CMap.salvage(b"", 5)]:
            self.assertRaisesRegex(TypeError, "^files are a mapping from names or a callable, and not (list|str|int)$", call)

    def test_calls_within(self):
        """A callable may use the bundle and other maps."""
        with Bundle.open(BUNDLE) as bundle:
            with CMap.parse(uses(b"A"), lambda name: bundle.file(FIRST) if name == b"A" else None, bundle) as cmap:
                self.assertEqual(cmap.cid(0x20, 2), 5)


class Bundles(unittest.TestCase):
    def test_file(self):
        with Bundle.open(bytearray(BUNDLE)) as bundle:
            self.assertEqual(bundle.file(FIRST), BINARY)
            self.assertEqual(bundle.file(FIRST.decode()), BINARY)
            self.assertIsNone(bundle.file("90ms-RKSJ-H"))
            self.assertIsNone(bundle.file(b""))

    def test_maps(self):
        with Bundle.open(BUNDLE) as bundle:
            maps = [CMap.parse(BINARY, bundle=bundle), CMap.open(FIRST, bundle=bundle)]
            maps.append(CMap.parse(uses(FIRST), bundle=bundle))
        for cmap in maps:
            self.assertEqual([cmap.cid(code, 2) for code in (0x1F, 0x20, 0x21, 0x22)], [None, 5, 6, None])
            cmap.close()

    def test_files_before_the_bundle(self):
        with Bundle.open(BUNDLE) as bundle:
            for files in [{FIRST: SMALL}, Recorded({FIRST: SMALL})]:
                with CMap.open(FIRST, files, bundle) as cmap:
                    self.assertEqual((cmap.cid(0x41, 1), cmap.cid(0x20, 2)), (34, None))

    def test_uses_of_its_files(self):
        """What a file of the bundle uses is asked for too."""
        with Bundle.open(bundle_of(uses(b"Small-H"))) as bundle:
            files = Recorded({b"Small-H": SMALL})
            with CMap.parse(uses(FIRST), files, bundle) as cmap:
                self.assertEqual(cmap.cid(0x41, 1), 34)
            self.assertEqual(files.asked, [FIRST, b"Small-H"])

    def test_refused(self):
        with Bundle.open(bundle_of(BROKEN)) as bundle:
            with self.assertRaises(Refused) as found:
                CMap.open(FIRST, bundle=bundle)
            self.assertEqual(repr(bundle), "<Bundle>")
        self.assertEqual(repr(bundle), "<Bundle, closed>")
        self.assertEqual(str(found.exception).split(":")[0], "/83pv-RKSJ-H")


class Folders(unittest.TestCase):
    def test_folder(self):
        with tempfile.TemporaryDirectory() as name:
            top = Path(name)
            for path, data in {"a/Small-H": SMALL, "b/deep/Small-H": b"", "b/Small-V": SMALL_V, "Outside": b""}.items():
                (top / path).parent.mkdir(parents=True, exist_ok=True)
                (top / path).write_bytes(data)
            files = folder(top / "a", os.fsencode(top / "b").decode())
            self.assertEqual([files(b"Small-H"), files("Small-V")], [SMALL, SMALL_V])
            for outside in [b"../Outside", b"Outside", b"deep/Small-H", b"", b".", b"..", b"a\0"]:
                self.assertIsNone(files(outside))
            self.assertRaises(OSError, folder, top / "nowhere")

    def test_nothing_hidden(self):
        """But a folder that is given may be hidden."""
        with tempfile.TemporaryDirectory() as name:
            top = Path(name, ".top")
            for path in ["a/.hidden/A", "a/.hidden/deep/B", "a/.C", ".hidden/D", "a/b/E"]:
                (top / path).parent.mkdir(parents=True, exist_ok=True)
                (top / path).write_bytes(SMALL)
            files = folder(top)
            self.assertEqual([files(it) for it in ["A", "B", "C", ".C", "D", "E"]], [None] * 5 + [SMALL])
            files = folder(top / ".hidden", top / "a" / ".hidden")
            self.assertEqual([files(it) for it in ["A", "B", "D", "E"]], [SMALL] * 3 + [None])


if __name__ == "__main__":
    unittest.main()
