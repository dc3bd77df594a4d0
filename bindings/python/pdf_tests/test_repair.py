"""Rewritten ToUnicode CMaps."""

import os
import shutil
import stat
import subprocess
import tempfile
import unittest
from pathlib import Path
from types import SimpleNamespace
from unittest import mock

import pikepdf
from pikepdf import Array, Dictionary, Name

from hayro_cmap import CMap, Codespace, pdf
from hayro_cmap.pdf import _repair

from made import BAD, GOOD, WIDE, File, needs_resources, showing, with_many_codes
from tests.steps import limited


def stream_of(file):
    return file.page.Resources.Font.F.ToUnicode


def differences(one, other):
    """The paths of objects that differ."""
    found, seen, left = [], set(), [("/Root", one.Root, other.Root)]
    while left:
        path, a, b = left.pop()
        if path.endswith("/Length"):
            continue
        if isinstance(a, pikepdf.Object) and a.is_indirect:
            if (a.objgen, b.objgen) in seen:
                continue
            seen.add((a.objgen, b.objgen))
        if isinstance(a, pikepdf.Stream) and a.read_raw_bytes() != b.read_raw_bytes():
            found.append(path)
        elif isinstance(a, (pikepdf.Dictionary, pikepdf.Stream)):
            found += [path] if set(a.keys()) != set(b.keys()) else []
            left += [(path + key, a[key], b[key]) for key in a.keys() if key in b]
        elif isinstance(a, pikepdf.Array):
            found += [path] if len(a) != len(b) else []
            left += [(f"{path}/{at}", *pair) for at, pair in enumerate(zip(list(a), list(b)))]
        elif a != b:
            found.append(path)
    return found


class Repairs(unittest.TestCase):
    def test_what_is_left_is_written(self):
        file = showing(b"ABC", BAD)
        [done] = pdf.repair(file.pdf)
        self.assertEqual((done.kept, len(done.faults), done.number), (2, 1, stream_of(file).objgen[0]))
        with CMap.parse(stream_of(file).read_bytes()) as cmap:
            self.assertEqual([cmap.text(code) for code in b"ABC"], ["A", None, "C"])
            self.assertEqual([len(bytes(it)) for it in cmap.decode(b"ABC")], [1, 1, 1])
        self.assertEqual((pdf.check(file.pdf).refused, pdf.repair(file.pdf)), (0, []))
        self.assertEqual(done.lines()[0], f"ToUnicode {done.number}: rewritten, with texts for 2 codes")
        self.assertIn("the text of a code was expected", done.lines()[1])

    def test_a_good_file_stays(self):
        file = showing(b"AB", GOOD)
        self.assertEqual(pdf.repair(file.pdf), [])
        self.assertEqual(stream_of(file).read_bytes(), GOOD)

    def test_nothing_is_left(self):
        data = b"1 beginbfchar <41> (x"
        file = showing(b"AB", data)
        [done] = pdf.repair(file.pdf)
        self.assertEqual((done.kept, stream_of(file).read_bytes()), (0, data))

    def test_codes_have_the_lengths_of_the_font(self):
        """Those of a simple font are bytes, though its ToUnicode CMap writes two."""
        two = b"1 begincodespacerange <0000> <FFFF> endcodespacerange 2 beginbfchar <0041> <0061> <0042> /x endbfchar"
        file = showing(b"A", two)
        pdf.repair(file.pdf)
        self.assertIn(b"<41>", stream_of(file).read_bytes())
        file = File()
        file.show(b"", F=file.composite(Name("/Identity-H"), to_unicode=two.replace(b"<0000> <FFFF>", b"<00> <FF>")))
        pdf.repair(file.pdf)
        self.assertIn(b"<0041>", stream_of(file).read_bytes())

    @needs_resources
    def test_codes_of_several_lengths(self):
        data = b"3 beginbfchar <20> <0020> <8140> <3000> <42> /x endbfchar"
        file = File()
        file.show(b"", F=file.composite(Name("/90ms-RKSJ-H"), "Japan1", data))
        [done] = pdf.repair(file.pdf)
        self.assertEqual(done.kept, 2)
        written = stream_of(file).read_bytes()
        self.assertIn(b"<20>", written)
        self.assertIn(b"<8140>", written)

    def test_a_shared_stream_is_written_once(self):
        file = File()
        stream = file.stream(BAD)
        file.show(b"", F=file.simple(stream), G=file.simple(stream))
        [done] = pdf.repair(file.pdf)
        self.assertEqual(len(done.fonts), 2)

    def test_texts_of_every_kind(self):
        data = (
            WIDE
            + b"3 beginbfchar <0100> <D83DDE00> <0101> <006600660069> <0102> <> endbfchar"
            + b"1 beginbfrange <0200> <02FF> <4E00> endbfrange"
        )
        file = File()
        file.show(b"", F=file.composite(Name("/Identity-H"), to_unicode=data))
        [done] = pdf.repair(file.pdf)
        self.assertEqual(done.kept, 3 + 2 + 256)
        said = f"byte {data.index(b'<>') + 2} (line 1): the text of a code was expected; read as the empty text"
        self.assertIn(f"mended at ToUnicode {done.number}: {said}", done.lines())
        with CMap.parse(stream_of(file).read_bytes()) as cmap:
            texts = [cmap.text(code) for code in (0x41, 0x100, 0x101, 0x102, 0x200, 0x2FF)]
        self.assertEqual(texts, ["A", "\U0001F600", "ffi", None, "\u4e00", "\u4eff"])

    def test_codespaces_of_fonts_that_share_a_stream(self):
        """Each is there once, and they aren't compared with each other."""

        class Counted(Codespace):
            compared = 0

            def __eq__(self, other):
                Counted.compared += 1
                return tuple.__eq__(self, other)

            __hash__ = tuple.__hash__

        def font(first):
            layer = SimpleNamespace(codespaces=[Counted(code, code, 2) for code in range(first, first + 1000)])
            return SimpleNamespace(is_composite=True, encoding=SimpleNamespace(lenient=SimpleNamespace(layers=[layer])))

        found = _repair.codespaces_of([font(0), font(500)])
        self.assertEqual([it.low for it in found], list(range(1500)))
        self.assertLess(Counted.compared, 10_000)

    def test_many_codes(self):
        """No step is taken for each code."""
        data = with_many_codes(rows=20, text=b"0000") + b" beginbfchar <00000041> /x endbfchar"
        file = showing(b"A", data)
        file.page.Resources.Font.F = file.composite(file.stream(data[: data.index(b"beginbfrange")]), to_unicode=data)
        with limited(1_000_000):
            [done] = pdf.repair(file.pdf)
        self.assertEqual(done.kept, 20 * (0x10000 - 0x800))
        with CMap.parse(stream_of(file).read_bytes()) as cmap:
            found = [cmap.text(code) for code in (0x13FFFF, 0x130041, 0x13D800, 0x140000)]
        self.assertEqual(found, ["\uffff", "A", None, None])

    def test_more_codes_than_are_written(self):
        """The file stays as it is."""
        data = with_many_codes(rows=34, text=b"0000") + b" beginbfchar <00000041> /x endbfchar"
        file = showing(b"A", BAD)
        file.page.Resources.Font.G = file.simple(data)
        with limited(1_000_000), self.assertRaisesRegex(pdf.TooLarge, "texts for more than 2,097,152 codes"):
            pdf.repair(file.pdf)
        fonts = file.page.Resources.Font
        self.assertEqual([fonts[name].ToUnicode.read_bytes() for name in ("/F", "/G")], [BAD, data])


class Saved(unittest.TestCase):
    def setUp(self):
        folder = tempfile.TemporaryDirectory()
        self.addCleanup(folder.cleanup)
        self.folder = Path(folder.name)

    def repaired(self, file, **options):
        """The paths of a file that is saved, and of the repaired one."""
        before, after = file.saved(self.folder / "a.pdf", **options), self.folder / "b.pdf"
        with pikepdf.open(before) as opened:
            pdf.repair(opened)
            pdf.save(opened, after)
        return before, str(after)

    def test_no_other_object_is_touched(self):
        file = showing(b"ABC", BAD)
        file.page.Resources.Font.G = file.simple(GOOD)
        for options in [{}, {"object_stream_mode": pikepdf.ObjectStreamMode.generate}, {"linearize": True}]:
            before, after = self.repaired(file, **options)
            with pikepdf.open(before) as one, pikepdf.open(after) as other:
                self.assertEqual(differences(one, other), ["/Root/Pages/Kids/0/Resources/Font/F/ToUnicode"])

    def test_an_encrypted_file_stays_encrypted(self):
        encryption = pikepdf.Encryption(owner="owner", user="")
        _, after = self.repaired(showing(b"ABC", BAD), encryption=encryption)
        with pikepdf.open(after) as read:
            self.assertTrue(read.is_encrypted)
            self.assertEqual(pdf.check(read).refused, 0)

    def test_a_signed_file(self):
        file = showing(b"A", BAD)
        file.pdf.Root.AcroForm = Dictionary(SigFlags=3, Fields=Array([]))
        self.assertRaises(pdf.Signed, pdf.repair, file.pdf)
        self.assertEqual(stream_of(file).read_bytes(), BAD)
        self.assertEqual(len(pdf.repair(file.pdf, signed=True)), 1)
        # nothing is left to write, so the signature holds
        self.assertEqual(pdf.repair(file.pdf), [])

    def test_a_folder_that_is_missing(self):
        file = showing(b"A", BAD)
        with self.assertRaises((OSError, RuntimeError)):
            pdf.save(file.pdf, self.folder / "none" / "b.pdf")
        self.assertEqual(list(self.folder.iterdir()), [])

    def names(self):
        """The names of all files there."""
        return sorted(it.name for it in self.folder.iterdir())

    def test_files_beside_it_stay(self):
        """Those too that have the names of the files which are written beside others."""
        names = ["b.pdf.new", "b.pdf.new-0", "b.pdf.new-1"]
        for name in names:
            (self.folder / name).write_bytes(name.encode())
        self.repaired(showing(b"A", BAD))
        self.assertEqual([(self.folder / name).read_bytes().decode() for name in names], names)
        self.assertEqual(self.names(), ["a.pdf", "b.pdf", *names])

    def test_what_breaks_off(self):
        """The file that was there stays, and no other one is left."""
        names = ["b.pdf", "b.pdf.new"]
        for name in names:
            (self.folder / name).write_bytes(name.encode())
        for fault in [RuntimeError, KeyboardInterrupt]:
            with mock.patch.object(pikepdf.Pdf, "save", side_effect=fault), self.assertRaises(fault):
                pdf.save(showing(b"A", BAD).pdf, self.folder / "b.pdf")
        self.assertEqual([(self.folder / name).read_bytes().decode() for name in names], names)
        self.assertEqual(self.names(), names)

    def test_permissions(self):
        """They are those of the file that is replaced, else those of any new file."""
        after = self.folder / "b.pdf"
        self.addCleanup(os.umask, os.umask(0o027))
        self.repaired(showing(b"A", BAD))
        self.assertEqual(stat.S_IMODE(after.stat().st_mode), 0o640)
        for permissions in [0o600, 0o664]:
            after.chmod(permissions)
            self.repaired(showing(b"A", BAD))
            self.assertEqual(stat.S_IMODE(after.stat().st_mode), permissions)

    def test_a_link(self):
        """It stays, and the file that it leads to is replaced or made, beside which the new one is written."""
        below, after = self.folder / "below", self.folder / "b.pdf"
        below.mkdir()
        after.symlink_to(below / "c.pdf")
        for _ in range(2):
            self.repaired(showing(b"A", BAD))
            self.assertTrue(after.is_symlink())
            self.assertEqual([it.name for it in below.iterdir()], ["c.pdf"])
            with pikepdf.open(below / "c.pdf") as read:
                self.assertEqual(pdf.check(read).refused, 0)

    def test_what_is_no_file(self):
        """It isn't replaced."""
        pipe, folder = self.folder / "pipe", self.folder / "folder"
        os.mkfifo(pipe)
        folder.mkdir()
        for place in [pipe, folder]:
            with self.assertRaisesRegex(OSError, "not a regular file"):
                pdf.save(showing(b"A", BAD).pdf, place)
        self.assertTrue(pipe.is_fifo() and folder.is_dir())
        self.assertEqual(self.names(), ["folder", "pipe"])

    @unittest.skipUnless(shutil.which("pdftotext"), "Debian's package poppler-utils isn't installed")
    def test_another_reader(self):
        """It gives each text that is left."""
        letters = "".join(f"<{code:04X}> <{ord(letter):04X}>\n" for code, letter in enumerate("Repaired-text", 1))
        data = b"13 beginbfchar\n" + letters.encode() + b"<0020> /x\nendbfchar"
        file = File()
        shown = "".join(f"{code:04X}" for code in range(1, 14)).encode()
        content = b"BT /F 12 Tf 50 500 Td <%b> Tj ET" % shown
        file.show(content, F=file.composite(Name("/Identity-H"), to_unicode=data))
        _, after = self.repaired(file)
        ran = subprocess.run(["pdftotext", after, "-"], capture_output=True, text=True, check=True)
        self.assertEqual(ran.stdout.split(), ["Repaired-text"])


if __name__ == "__main__":
    unittest.main()
