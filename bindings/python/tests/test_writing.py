"""Maps and declarations that are written, read again."""

import copy
import os
import subprocess
import sys
import tempfile
import unittest
from pathlib import Path

import hayro_cmap
from hayro_cmap import CidRange, CMap, CMapWriter, Codespace, Metadata, NotWritable, TextRange, WritingMode, to_unicode

from .files import SMALL, SMALL_V, needs_pdftotext, needs_resources, predefined

EXAMPLE = Path(__file__).resolve().parents[3] / "examples" / "to_unicode.py"


def layer_of(data):
    """The one layer of a file that is read, what it declares too."""
    with CMap.parse(data) as cmap:
        [layer] = cmap.layers
        return layer, (layer.cids, layer.notdefs, layer.texts)


class Declarations(unittest.TestCase):
    def test_a_file_says_what_is_declared(self):
        writer = CMapWriter("Sample-V", ("Adobe", "Japan1", 6), WritingMode.VERTICAL)
        writer.codespace(b"\x00", b"\x80")
        writer.codespace(0x8140, 0x9FFC)
        writer.cid(b"\x20", b"\x7e", 1)
        writer.cid(0x8140, bytearray(b"\x81\x7e"), 633)
        writer.notdef(b"\x00", b"\x1f", 231)
        writer.text(b"\x41", b"\x43", "a")
        writer.text(b"\x44", b"\x44", "ffi")
        layer, (cids, notdefs, texts) = layer_of(writer.write())
        self.assertEqual(layer.metadata, Metadata(b"Sample-V", b"Adobe", b"Japan1", 6, WritingMode.VERTICAL))
        self.assertEqual(layer.codespaces, [Codespace(0, 0x80, 1), Codespace(0x8140, 0x9FFC, 2)])
        self.assertEqual(cids, (CidRange(0x20, 0x7E, 1, 1), CidRange(0x8140, 0x817E, 633, 2)))
        self.assertEqual(notdefs, (CidRange(0, 0x1F, 231, 1),))
        self.assertEqual(texts, (TextRange(0x41, 0x43, "a"), TextRange(0x44, 0x44, "ffi")))

    def test_nothing_is_declared(self):
        layer, declared = layer_of(CMapWriter().write())
        self.assertEqual(layer.metadata, Metadata(None, None, None, None, None))
        self.assertEqual((layer.codespaces, declared), ([], ((), (), ())))

    def test_the_last_declaration_decides(self):
        writer = CMapWriter(code_len=1)
        writer.cid(0x20, 0x7E, 1)
        writer.cid(0x41, 0x41, 7)
        with CMap.parse(writer.write()) as cmap:
            self.assertEqual(cmap.cids(0x40, 3, 1), [33, 7, 35])

    def test_declarations_are_the_fewest(self):
        writer = CMapWriter()
        for code in range(0x100):
            writer.cid(code, code, code + 1)
        _, (cids, _, _) = layer_of(writer.write())
        self.assertEqual(cids, (CidRange(0, 0xFF, 1, 2),))

    def test_lengths_of_codes(self):
        for byte_len in range(1, 5):
            with self.subTest(byte_len=byte_len):
                code = b"\xff" * byte_len
                writer = CMapWriter(code_len=byte_len)
                writer.cid(code, 256**byte_len - 1, 7)
                writer.text(code, code, "x")
                data = writer.write()
                self.assertIn(b"<%b> <0078>" % code.hex().upper().encode(), data)
                with CMap.parse(data) as cmap:
                    self.assertEqual(cmap.cid(256**byte_len - 1, byte_len), 7)

    def test_long_texts(self):
        writer = CMapWriter()
        writer.text(1, 1, "日" * 100)
        writer.text(2, 2, "\U0001F600")
        with CMap.parse(writer.write()) as cmap:
            self.assertEqual([cmap.text(1), cmap.text(2)], ["日" * 100, "\U0001F600"])

    def test_wrong_codes(self):
        writer = CMapWriter()
        wrong = [(-1, 1), (0, 0x10000), (2, 1), (b"\x02", b"\x01"), (b"\x01", 1), (b"", b""), (b"\x00" * 5,) * 2]
        for first, last in wrong:
            with self.subTest(first=first, last=last):
                self.assertRaises(ValueError, writer.codespace, first, last)
                self.assertRaises(ValueError, writer.cid, first, last, 1)
                self.assertRaises(ValueError, writer.notdef, first, last, 1)
                self.assertRaises(ValueError, writer.text, first, last, "x")
        for code in ["A", None, 1.0]:
            self.assertRaises(TypeError, writer.cid, code, code, 1)

    def test_texts_that_count_on(self):
        for last, text in [(1, "\ud7ff"), (2, "\ud7fe"), (2, "\ufffe"), (0x41, "\U0001f3bf")]:
            writer = CMapWriter()
            writer.text(1, last, text)
            with CMap.parse(writer.write()) as cmap:
                self.assertEqual([ord(cmap.text(code)) - ord(text) for code in (1, last)], [0, last - 1])

    def test_wrong_values(self):
        writer = CMapWriter()
        for cid in [-1, 2**32]:
            self.assertRaises(ValueError, writer.cid, 1, 1, cid)
            self.assertRaises(ValueError, writer.notdef, 1, 1, cid)
        for text in ["", "\ud800"]:
            self.assertRaises(ValueError, writer.text, 1, 1, text)
        for last, text in [(2, "\ud7ff"), (0x10, "\ufff1"), (0x42, "\U0001f3bf"), (3, "\ud7fe")]:
            self.assertRaises(ValueError, writer.text, 1, last, text)
        self.assertRaises(TypeError, writer.text, 1, 1, b"x")
        self.assertRaises(TypeError, copy.copy, writer)
        self.assertEqual(repr(writer), "<CMapWriter None, declarations: 0>")
        self.assertRaises(ValueError, CMapWriter, code_len=5)
        self.assertRaises(ValueError, CMapWriter, writing_mode=2)
        self.assertRaises(ValueError, CMapWriter, collection=("Adobe", "Japan1", 2**31))
        self.assertEqual(layer_of(writer.write())[1], ((), (), ()))

    def test_a_name_that_is_no_name(self):
        self.assertRaises(NotWritable, CMapWriter("two words").write)


class ToUnicode(unittest.TestCase):
    def test_texts(self):
        data = to_unicode({1: "A", 2: "ffi", 0xFFFF: "\U0001F600", b"\x01\x00": "日"})
        with CMap.parse(data) as cmap:
            found = [cmap.text(code) for code in [1, 2, 3, 0x100, 0xFFFF]]
            self.assertEqual(found, ["A", "ffi", None, "日", "\U0001F600"])
            self.assertEqual(cmap.layers[0].codespaces, [Codespace(0, 0xFFFF, 2)])
            self.assertEqual(cmap.metadata, Metadata(b"Adobe-Identity-UCS", b"Adobe", b"UCS", 0, None))
        self.assertIn(b"/CMapType 2 def", data)

    def test_codes_of_one_byte(self):
        for texts in [{b"\x41": "a"}, {0x41: "a"}, {}]:
            layer, _ = layer_of(to_unicode(texts, code_len=1))
            self.assertEqual(layer.codespaces, [Codespace(0, 0xFF, 1)])

    def test_codes_of_several_lengths(self):
        texts = {b"\x41": "a", b"\x81\x40": "b"}
        self.assertRaises(ValueError, to_unicode, texts)
        data = to_unicode(texts, codespaces=[(b"\x00", b"\x80"), (b"\x81\x40", b"\x9f\xfc")])
        with CMap.parse(data) as cmap:
            self.assertEqual([cmap.text(code.code) for code in cmap.decode(b"A\x81\x40A")], ["a", "b", "a"])
        self.assertIn(b"<41> <0061>", data)

    def test_codes_outside_the_codespaces(self):
        ranges = [(b"\x00", b"\x7f"), (b"\x81\x40", b"\x9f\xfc")]
        for code in [b"\x80", b"\x00\x41", b"\x81\x3f", b"\xa0\x40", b"\x81\x40\x00", 0x41]:
            with self.subTest(code=code), self.assertRaisesRegex(ValueError, "lies in no codespace range"):
                to_unicode({b"\x42": "B", code: "x"}, codespaces=ranges)
        with CMap.parse(to_unicode({b"\x7f": "A", b"\x9f\xfc": "x"}, codespaces=iter(ranges))) as cmap:
            self.assertEqual((cmap.text(0x7F), cmap.text(0x9FFC)), ("A", "x"))
        self.assertRaises(ValueError, to_unicode, {1: "A"}, codespaces=[])

    def test_no_range_crosses_a_row(self):
        data = to_unicode({code: chr(code) for code in range(0x20, 0x220)})
        _, (_, _, texts) = layer_of(data)
        self.assertEqual([(it.first, it.last) for it in texts], [(0x20, 0xFF), (0x100, 0x1FF), (0x200, 0x21F)])

    def test_wrong_texts(self):
        for texts in [{1: ""}, {1: "\udc00"}, {0x10000: "x"}, {-1: "x"}, {1: "x", b"\0\1": "x"}, {b"": "x"}]:
            with self.subTest(texts=texts):
                self.assertRaises(ValueError, to_unicode, texts)
        self.assertRaises(ValueError, to_unicode, {}, code_len=0)
        self.assertRaises(TypeError, to_unicode, {1: b"x"})
        self.assertRaises(NotWritable, to_unicode, {}, name="a b")

    @needs_pdftotext
    def test_pdftotext_reads_the_example(self):
        with tempfile.TemporaryDirectory() as folder:
            path = os.path.join(folder, "out.pdf")
            command = [sys.executable, str(EXAMPLE), path, *["o", "ffi", "c", "e", "日", "\U0001F600", "é", "o"]]
            subprocess.run(command, check=True, env={**os.environ, "PYTHONPATH": package_path(), "PYTHONUTF8": "1"})
            ran = subprocess.run(["pdftotext", "-enc", "UTF-8", path, "-"], check=True, stdout=subprocess.PIPE)
        self.assertEqual(ran.stdout.decode().strip(), "office日\U0001F600éo")


def package_path():
    """Where Python finds the package that is tested."""
    return str(Path(hayro_cmap.__file__).parents[1])


class Maps(unittest.TestCase):
    def test_layers_become_one(self):
        with CMap.parse(SMALL_V, {"Small-H": SMALL}) as cmap, CMap.parse(cmap.write()) as alone:
            self.assertEqual(len(alone.layers), 1)
            self.assertEqual(alone.metadata, cmap.metadata)
            self.assertEqual(alone.cids(0, 0x10000, 2), cmap.cids(0, 0x10000, 2))
            self.assertEqual(alone.cids(0, 0x100, 1), cmap.cids(0, 0x100, 1))
            self.assertEqual([alone.text(code) for code in range(0x100)], [cmap.text(code) for code in range(0x100)])
            string = bytes.fromhex("418140FF8141")
            self.assertEqual(alone.decode(string), cmap.decode(string))

    def test_chosen_codes(self):
        with CMap.parse(SMALL) as cmap:
            given = [cmap.decode(b"A\x81\x40A"), [b"\x81\x40", bytearray(b"A")], iter([b"A", memoryview(b"\x81\x40")])]
            for codes in given:
                with CMap.parse(cmap.write(codes)) as chosen:
                    self.assertEqual([chosen.cid(0x41, 1), chosen.cid(0x42, 1), chosen.text(0x41)], [34, None, "A"])
                    self.assertEqual([chosen.cid(0x8140, 2), chosen.cid(0x8141, 2)], [633, None])
                    self.assertEqual(chosen.layers[0].codespaces, cmap.layers[0].codespaces)

    def test_no_codes(self):
        with CMap.parse(SMALL) as cmap:
            layer, declared = layer_of(cmap.write([]))
            self.assertEqual((layer.codespaces, declared), (cmap.layers[0].codespaces, ((), (), ())))

    def test_wrong_codes(self):
        with CMap.parse(SMALL) as cmap:
            for code in [b"", b"\x00" * 5]:
                self.assertRaises(ValueError, cmap.write, [code])
            for codes in [b"A", [0x41], ["A"], [None], 5]:
                self.assertRaises(TypeError, cmap.write, codes)
        self.assertRaises(ValueError, cmap.write)

    def test_layers_that_no_one_file_has(self):
        text = b"/Base usecmap beginbfchar <0041> <0061> endbfchar"
        with CMap.parse(text, {"Base": b"begincidchar <0041> 7 endcidchar"}) as cmap:
            self.assertEqual(cmap.cid(0x41, 2), 0x61)
            self.assertRaises(NotWritable, cmap.write)
            self.assertRaises(NotWritable, cmap.write, [b"\x00\x41"])
            with CMap.parse(cmap.write([b"\x00\x42"])) as chosen:
                self.assertIsNone(chosen.cid(0x41, 2))

    def test_identity(self):
        with CMap.identity(vertical=True) as cmap, CMap.parse(cmap.write()) as alone:
            self.assertEqual(alone.cids(0, 0x10000, 2), list(range(0x10000)))
            self.assertEqual(alone.metadata, cmap.metadata)

    @needs_resources
    def test_predefined_files(self):
        files = {"UniJIS-UTF16-H": predefined("UniJIS-UTF16-H")}
        with CMap.parse(predefined("UniJIS-UTF16-V"), files) as cmap, CMap.parse(cmap.write()) as alone:
            self.assertEqual(alone.metadata, cmap.metadata)
            self.assertEqual(alone.cids(0, 0x10000, 2), cmap.cids(0, 0x10000, 2))
            string = "日本語（".encode("utf-16-be")
            self.assertEqual(alone.decode(string), cmap.decode(string))


if __name__ == "__main__":
    unittest.main()
