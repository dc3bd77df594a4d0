"""`python3 -m hayro_cmap`, and how the library is found."""

import os
import subprocess
import sys
import tempfile
import unittest
from pathlib import Path

import hayro_cmap
from hayro_cmap._escaped import escaped, quoted

from .files import BROKEN, FIRST, RESOURCES, SMALL, SMALL_V, bundle_of, needs_resources

PACKAGES = str(Path(hayro_cmap.__file__).parent.parent)


def run(*words, **environment):
    """Runs Python with the package that is tested."""
    environment = {**os.environ, "PYTHONPATH": PACKAGES, "PYTHONIOENCODING": "utf-8", **environment}
    return subprocess.run([sys.executable, *words], capture_output=True, text=True, encoding="utf-8", env=environment)


class Command(unittest.TestCase):
    def setUp(self):
        folder = tempfile.TemporaryDirectory()
        self.addCleanup(folder.cleanup)
        self.folder = Path(folder.name)
        for name, data in {"Small-H": SMALL, "Small-V": SMALL_V, "Broken": BROKEN, "bundle": bundle_of(SMALL)}.items():
            (self.folder / name).write_bytes(data)
        (self.folder / "Adobe-Japan1-UCS2").write_bytes(b"1 begincidchar <00> 1 endcidchar 1 beginbfchar <0279> <001B> endbfchar")

    def decode(self, *words):
        return run("-m", "hayro_cmap", *words)

    def test_decode(self):
        ran = self.decode("--base", str(self.folder), str(self.folder / "Small-V"), "418140", "FF81")
        self.assertEqual((ran.returncode, ran.stderr), (0, ""))
        lines = [
            '<41>                34  "A"',
            '<8140>             633  "\\u{1B}"',
            "<FF>                 -  -  in no codespace range",
            "<81>                 -  -  cut short",
        ]
        self.assertEqual(ran.stdout.splitlines(), lines)

    def test_names(self):
        ran = self.decode("--bundle", str(self.folder / "bundle"), FIRST.decode(), "8140")
        self.assertEqual((ran.returncode, ran.stdout.split()[:2]), (0, ["<8140>", "633"]))
        ran = self.decode("Identity-H", "0021")
        self.assertEqual((ran.returncode, ran.stdout.split()[:2]), (0, ["<0021>", "33"]))

    def test_refused(self):
        ran = self.decode(str(self.folder / "Broken"), "41")
        self.assertEqual((ran.returncode, ran.stdout), (1, ""))
        self.assertTrue(ran.stderr.endswith("Broken: byte 27: a CID was expected\n"), ran.stderr)

    def test_wrong_arguments(self):
        no_folder, folder = str(self.folder / "none"), str(self.folder)
        for words in [["Identity-H", "4"], ["Identity-H"], ["--base", no_folder, "Identity-H", "41"], [folder, "41"]]:
            ran = self.decode(*words)
            self.assertEqual((ran.returncode, ran.stdout), (2, ""), ran.stderr)
            self.assertNotIn("Traceback", ran.stderr)
            self.assertNotIn("b'", ran.stderr)
        self.assertIn("not two digits for each byte: '93F'", self.decode("Identity-H", "93F").stderr)

    @needs_resources
    def test_predefined(self):
        ran = self.decode("--base", str(RESOURCES), "90ms-RKSJ-H", "93FA967B8CEA")
        lines = ['<93FA>            3284  "日"', '<967B>            3722  "本"', '<8CEA>            1952  "語"']
        self.assertEqual((ran.returncode, ran.stdout.splitlines()), (0, lines), ran.stderr)


class Escapes(unittest.TestCase):
    def test_texts(self):
        texts = ["日é", 'a"b\\', "\x1b[31m", "\u2028\u202e\ue000\ud800", "\U0001F600\t"]
        shown = ["日é", 'a"b\\', "\\u{1B}[31m", "\\u{2028}\\u{202E}\\u{E000}\\u{D800}", "\U0001F600\\u{9}"]
        self.assertEqual([escaped(text) for text in texts], shown)
        quotes = ['"日é"', '"a\\"b\\\\"', *(f'"{text}"' for text in shown[2:])]
        self.assertEqual([quoted(text) for text in texts], quotes)


class Constructors(unittest.TestCase):
    """Maps and bundles are made by class methods, and a call of the class says by which."""

    def test_word(self):
        for made, word in [("CMap('x')", "CMap.parse, CMap.open"), ("CMap()", "CMap.parse"), ("Bundle(b'x')", "Bundle.open")]:
            ran = run("-c", f"import hayro_cmap; hayro_cmap.{made}")
            self.assertEqual(ran.returncode, 1)
            self.assertIn(f"is made by {word}", ran.stderr)
            self.assertNotIn("Exception ignored", ran.stderr)


class Library(unittest.TestCase):
    """The library that HAYRO_CMAP_LIBRARY names is taken, and no other."""

    def test_missing(self):
        ran = run("-c", "import hayro_cmap", HAYRO_CMAP_LIBRARY="/nowhere/libhayro_cmap.so")
        self.assertEqual(ran.returncode, 1)
        self.assertIn("ImportError: the C library of hayro_cmap isn't found: /nowhere/", ran.stderr)

    def test_another_library(self):
        ran = run("-c", "import hayro_cmap", HAYRO_CMAP_LIBRARY="libc.so.6")
        self.assertEqual(ran.returncode, 1)
        self.assertIn("ImportError", ran.stderr)


if __name__ == "__main__":
    unittest.main()
