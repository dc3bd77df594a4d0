"""The adapter for pypdf and PyPDF2."""

import copy
import gc
import importlib
import io
import itertools
import multiprocessing
import pickle
import sys
import threading
import time
import types
import unittest
import unittest.mock
import warnings

import cases

LIBRARIES = []
for name in ("pypdf", "PyPDF2"):
    try:
        LIBRARIES.append(importlib.import_module(name))
    except ImportError:
        pass
if not LIBRARIES:
    raise unittest.SkipTest("neither pypdf nor PyPDF2 is installed (Debian's python3-pypdf)")

from made import Name, Stream, composite, pdf, simple, to_unicode

import hayro_cmap
import hayro_cmap.pypdf as adapter
from hayro_cmap import _given_font
from hayro_cmap._budget import Budget
from hayro_cmap._given_font import KeptGlyphs

#: An encoding with the codes 41, 8140 to 8142, and 42 with the CID 0.
OWN = Stream(cases.EMBEDDED + b" 1 begincidchar <42> 0 endcidchar", Type=Name("CMap"), CMapName=Name("Own-H"))


def text(library, font, string):
    with warnings.catch_warnings():
        warnings.simplefilter("ignore")
        page = library.PdfReader(io.BytesIO(pdf({"F": font}, [("F", string)]))).pages[0]
        return "".join(page.extract_text().split())


def texts_of_process(name):
    """The texts that a library gives in another process, for which the adapter is installed there."""
    adapter.install()
    return [text(importlib.import_module(name), font, string) for _, font, string, _ in cases.RIGHT]


def hooked(library):
    """The functions of a library in whose places others are put."""
    module = importlib.import_module(library.__name__ + "._cmap")
    names = ("parse_encoding", "parse_to_unicode")
    return [it for name, it in sorted(vars(module).items()) if name.lstrip("_") in names]


def characters_of(name):
    """The texts of the characters of an encoding, and its codec."""
    maps = adapter.GivenMaps(True, adapter.CMapSource(name), None, b"Adobe-Japan1")
    codec = adapter.codec_name(maps)
    font = adapter.GivenFont(maps, KeptGlyphs(True, {}))
    return adapter.CharactersOfCodec(font, codec, None), codec


def live():
    gc.collect()
    return sum(isinstance(it, (hayro_cmap.CMap, adapter.Encoding)) for it in gc.get_objects())


class Texts(unittest.TestCase):
    def test_texts(self):
        for library in LIBRARIES:
            for name, font, string, expected in [*cases.RIGHT, *cases.BROKEN, *cases.COLLECTIONS, *cases.PROGRAMS]:
                with self.subTest(f"{library.__name__}: {name}"), adapter.installed():
                    self.assertEqual(text(library, font, string), expected)

    def test_right_files_are_as_without(self):
        for library in LIBRARIES:
            for name, font, string, expected in cases.RIGHT:
                before = text(library, font, string)
                with self.subTest(f"{library.__name__}: {name}"), adapter.installed():
                    self.assertEqual((text(library, font, string), before), (expected, expected))

    def test_missing(self):
        font = composite(Name("Identity-H"), to_unicode(b"1 beginbfchar <0041> <0042> endbfchar"))
        for library in LIBRARIES:
            with adapter.installed(missing="?"):
                self.assertEqual(text(library, font, b"\0A\0C"), "B?")
            with adapter.installed():
                self.assertEqual(text(library, font, b"\0A\0C"), "BC")
                # the CID 0 has no text, and 43 has no CID
                self.assertEqual(text(library, composite(OWN, ordering="Japan1"), b"ABC"), "あ\N{REPLACEMENT CHARACTER}")

    def test_a_range_of_all_codes_takes_no_time(self):
        start = time.process_time()
        with adapter.installed():
            for library in LIBRARIES:
                self.assertEqual(text(library, composite(Name("Identity-H"), cases.ENDLESS), b"\0A"), "A")
                self.assertEqual(text(library, simple(cases.ENDLESS), b"A"), "A")
                text(library, composite(Name("Identity-H"), cases.MANY), b"\0A")
        self.assertLess(time.process_time() - start, 5)

    def test_install_and_uninstall(self):
        for library in LIBRARIES:
            originals = hooked(library)
            self.assertEqual(len(originals), 2)
            adapter.install()
            adapter.install()
            with adapter.installed():
                pass
            self.assertFalse(set(hooked(library)) & set(originals))
            adapter.uninstall()
            adapter.uninstall()
            self.assertEqual(hooked(library), originals)

    def test_a_library_without_the_hooks(self):
        for library in LIBRARIES:
            empty = {f"{library.__name__}._cmap": types.ModuleType("_cmap")}
            with unittest.mock.patch.dict(sys.modules, empty):
                self.assertRaises(AttributeError, adapter.install)
            with adapter.installed():
                self.assertEqual(text(library, composite(OWN, ordering="Japan1"), b"A"), "あ")

    def test_hostile_programs(self):
        """None raises or takes long."""
        start = time.process_time()
        with adapter.installed(missing="?"):
            for font, library in itertools.product(cases.hostile(), LIBRARIES):
                text(library, font, b"\0\1\0\2")
        self.assertLess(time.process_time() - start, 30)

    def test_limits(self):
        """Of a program, and of all programs of a file."""
        for library in LIBRARIES:
            with adapter.installed(missing="?"):
                self.assertEqual(text(library, cases.LARGE, b"\0\1"), "α")
                with unittest.mock.patch.object(_given_font, "MOST_OF_PROGRAM", 1 << 19):
                    self.assertEqual(text(library, cases.LARGE, b"\0\1"), "?")
                with unittest.mock.patch.object(Budget.__init__, "__defaults__", (1,)):
                    data = pdf({"F": cases.glyphs(), "G": cases.glyphs()}, [("F", b"\0\1"), ("G", b"\0\1")])
                    page = library.PdfReader(io.BytesIO(data)).pages[0]
                    self.assertEqual(page.extract_text().split(), ["α", "?"])

    def test_a_program_is_read_when_it_is_asked_for(self):
        font = cases.glyphs(b"1 beginbfchar <0001> <0078> endbfchar")
        for library in LIBRARIES:
            with adapter.installed(), unittest.mock.patch.object(
                _given_font, "Program", wraps=_given_font.Program
            ) as read:
                self.assertEqual((text(library, font, b"\0\1\0\1"), read.call_count), ("xx", 0))
                self.assertEqual((text(library, font, b"\0\1\0\2"), read.call_count), ("xβ", 1))

    def test_a_program_is_read_once_for_all_pages(self):
        for library in LIBRARIES:
            reader = library.PdfReader(io.BytesIO(pdf({"F": cases.glyphs()}, [("F", b"\0\1")])))
            with adapter.installed(), unittest.mock.patch.object(
                _given_font, "Program", wraps=_given_font.Program
            ) as read:
                texts = [reader.pages[0].extract_text() for _ in range(3)]
            self.assertEqual((["".join(it.split()) for it in texts], read.call_count), (["α"] * 3, 1))

    def test_glyphs_end_with_their_font(self):
        with adapter.installed():
            for library in LIBRARIES:
                text(library, cases.glyphs(), b"\0\1")
                gc.collect()
                self.assertEqual(len(adapter._glyphs), 0)

    def test_threads(self):
        wrong = []

        def work(library):
            for name, font, string, expected in [*cases.RIGHT, *cases.COLLECTIONS[:5], *cases.PROGRAMS]:
                if text(library, font, string) != expected:
                    wrong.append(name)

        with adapter.installed():
            threads = [threading.Thread(target=work, args=[library]) for library in LIBRARIES for _ in range(4)]
            for it in threads:
                it.start()
            for it in threads:
                it.join()
        self.assertEqual(wrong, [])

    def test_processes(self):
        names, expected = [it.__name__ for it in LIBRARIES], [it for *_, it in cases.RIGHT]
        for start in cases.STARTS:
            with self.subTest(start), multiprocessing.get_context(start).Pool(2) as pool:
                self.assertEqual(pool.map(texts_of_process, names), [expected] * len(names))


class Codecs(unittest.TestCase):
    def test_both_ways(self):
        characters, codec = characters_of(b"90ms-RKSJ-H")
        shown = cases.WORD.decode(codec)
        self.assertEqual([characters[it] for it in shown], ["日", "本", "語"])
        self.assertEqual(shown.encode(codec), cases.WORD)
        self.assertRaises(UnicodeEncodeError, "\U0010ffff".encode, codec)

    def test_copies_and_pickles(self):
        characters, codec = characters_of(b"90ms-RKSJ-H")
        for other in (pickle.loads(pickle.dumps(characters)), copy.copy(characters), characters.copy()):
            self.assertEqual([other[it] for it in cases.WORD.decode(codec)], ["日", "本", "語"])
        self.assertNotIn(-1, characters)
        self.assertEqual(characters.get(-1, 5), 5)

    def test_texts_of_programs_are_pickled_without_the_programs(self):
        font = cases.glyphs(program=cases.truetype({0x3B1: 1, 0x3B2: 2}, size=1 << 20))
        for library in LIBRARIES:
            reader = library.PdfReader(io.BytesIO(pdf({"F": font}, [("F", b"\0\1")])))
            [made] = reader.pages[0]["/Resources"]["/Font"].values()
            with adapter.installed():
                characters, _ = adapter._hooks[LIBRARIES.index(library)].read(made.get_object())
            written = pickle.dumps(characters)
            self.assertLess(len(written), 1 << 10)
            other = pickle.loads(written)
            self.assertEqual((other["\1"], other["\2"], other.get("\3")), ("α", "β", None))

    def test_a_codec_ends_with_its_fonts(self):
        characters, codec = characters_of(b"EUC-H")
        self.assertTrue(b"\xc6\xfc".decode(codec))
        del characters
        adapter._recent.clear()
        gc.collect()
        self.assertRaises(LookupError, b"\xc6\xfc".decode, codec)

    def test_no_map_outlives_its_font(self):
        def show(number):
            own = Stream(cases.EMBEDDED + b"%%%d" % number, Type=Name("CMap"), CMapName=Name("Own-H"))
            self.assertEqual(text(LIBRARIES[0], composite(own, ordering="Japan1"), b"\x81\x40"), "日")

        with adapter.installed():
            for number in range(300):
                show(number)
            before = live()
            for number in range(300, 500):
                show(number)
            self.assertLessEqual(live(), before + 3)
        self.assertLessEqual(len(adapter._names), adapter.KEPT_NAMES)


if __name__ == "__main__":
    unittest.main()
