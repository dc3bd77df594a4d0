"""The adapter for pdfminer.six."""

import gc
import io
import multiprocessing
import pickle
import threading
import time
import unittest
from unittest import mock

import cases

try:
    import pdfminer  # noqa: F401
except ImportError:
    raise unittest.SkipTest("pdfminer isn't there (Debian's python3-pdfminer)") from None

from made import Name, composite, pdf, simple, to_unicode
from pdfminer import pdfinterp
from pdfminer.converter import PDFPageAggregator
from pdfminer.high_level import extract_pages, extract_text
from pdfminer.layout import LAParams
from pdfminer.pdfinterp import PDFPageInterpreter, PDFResourceManager
from pdfminer.pdfpage import PDFPage

import hayro_cmap
import hayro_cmap.pdfminer as adapter
from hayro_cmap import _given_font
from hayro_cmap._budget import Budget


def text(font, string):
    return "".join(extract_text(io.BytesIO(pdf({"F": font}, [("F", string)]))).split())


def first_page(font, *shown):
    return next(PDFPage.get_pages(io.BytesIO(pdf({"F": font}, [("F", it) for it in shown]))))


def font_of(spec):
    """The font that pdfminer makes."""
    manager = PDFResourceManager()
    interpreter = PDFPageInterpreter(manager, PDFPageAggregator(manager))
    interpreter.init_resources(first_page(spec).resources)
    return interpreter.fontmap["F"]


def texts_of_process(_number):
    """The texts of fonts in another process, for which the adapter is installed there."""
    adapter.install()
    return [text(font, string) for _, font, string, _ in cases.RIGHT]


def live_maps():
    gc.collect()
    return sum(isinstance(it, hayro_cmap.CMap) for it in gc.get_objects())


class Installed(unittest.TestCase):
    def setUp(self):
        adapter.install()
        self.addCleanup(adapter.uninstall)

    def test_texts(self):
        for name, font, string, expected in [*cases.RIGHT, *cases.BROKEN, *cases.COLLECTIONS, *cases.PROGRAMS]:
            with self.subTest(name):
                self.assertEqual(text(font, string), expected)

    def test_a_code_without_a_text_is_shown_as_pdfminer_does(self):
        self.assertEqual(text(composite(Name("Identity-H"), to_unicode(b"")), b"\0\7"), "(cid:7)")

    def test_codes_of_glyphs_are_no_characters(self):
        """CIDs in the place of texts, where no stream maps codes to glyphs."""
        font = composite(Name("Identity-H"), to_unicode(b"1 begincidrange <0000> <FFFF> 0 endcidrange"))
        self.assertEqual(text(font, b"\0A"), "(cid:65)")

    def test_a_string_that_ends_within_a_code(self):
        font = composite(Name("Identity-H"), to_unicode(b"1 beginbfchar <0041> <0042> endbfchar"))
        self.assertEqual(text(font, b"\0A\0"), "B")

    def test_a_stream_that_cannot_be_decoded(self):
        font = simple(Encoding=Name("WinAnsiEncoding"))
        broken = cases.Stream(b"no deflated data", Filter=Name("FlateDecode"))
        self.assertEqual(text({**font, "ToUnicode": broken}, b"A"), "A")

    def test_widths_are_those_of_cids(self):
        font = composite(Name("90ms-RKSJ-H"), ordering="Japan1", W=[3284, [123]])
        manager = PDFResourceManager()
        device = PDFPageAggregator(manager, laparams=None)
        PDFPageInterpreter(manager, device).process_page(first_page(font, cases.WORD))
        characters = list(device.get_result())
        self.assertEqual([it.get_text() for it in characters], ["日", "本", "語"])
        self.assertEqual([round(it.adv, 3) for it in characters], [1.476, 12, 12])

    def test_vertical_writing(self):
        for name, is_vertical in (("90ms-RKSJ-V", True), ("90ms-RKSJ-H", False), ("Identity-V", True)):
            self.assertIs(font_of(composite(Name(name), ordering="Japan1")).is_vertical(), is_vertical)

    def test_a_font_is_made_once(self):
        manager, spec = PDFResourceManager(), {"Subtype": None, "BaseFont": None}
        self.assertIs(manager.get_font(5, spec), manager.get_font(5, spec))

    def test_a_range_of_all_codes_takes_no_time(self):
        start = time.process_time()
        self.assertEqual(text(composite(Name("Identity-H"), cases.ENDLESS), b"\0A"), "A")
        self.assertEqual(text(simple(cases.ENDLESS), b"A"), "A")
        text(composite(Name("Identity-H"), cases.MANY), b"\0A")
        self.assertLess(time.process_time() - start, 5)

    def test_pages_and_fonts_are_pickled(self):
        font = composite(Name("90ms-RKSJ-H"), ordering="Japan1")
        pages = extract_pages(io.BytesIO(pdf({"F": font}, [("F", cases.WORD)])))
        page = pickle.loads(pickle.dumps(next(pages)))
        self.assertIn("日本語", "".join(it.get_text() for it in page))
        made = font_of(font)
        cmap, texts = pickle.loads(pickle.dumps((made.cmap, made.unicode_map)))
        cids = cmap.decode(cases.WORD)
        self.assertEqual([it.text for it in cids], ["日", "本", "語"])
        self.assertEqual([texts.get_unichr(it) for it in cids], ["日", "本", "語"])
        self.assertEqual(texts.get_unichr(3284), "日")

    def test_hostile_programs(self):
        """None raises or takes long."""
        start = time.process_time()
        for font in cases.hostile():
            text(font, b"\0\1\0\2")
        self.assertLess(time.process_time() - start, 30)

    def test_limits(self):
        """Of a program, and of all programs of a resource manager."""
        self.assertEqual(text(cases.LARGE, b"\0\1"), "α")
        with mock.patch.object(_given_font, "MOST_OF_PROGRAM", 1 << 19):
            self.assertEqual(text(cases.LARGE, b"\0\1"), "(cid:1)")
        with mock.patch.object(Budget.__init__, "__defaults__", (1,)):
            data = pdf({"F": cases.glyphs(), "G": cases.glyphs()}, [("F", b"\0\1"), ("G", b"\0\1")])
            self.assertEqual(extract_text(io.BytesIO(data)).split(), ["α", "(cid:1)"])

    def test_a_program_is_read_when_it_is_asked_for(self):
        font = cases.glyphs(b"1 beginbfchar <0001> <0078> endbfchar")
        with mock.patch.object(_given_font, "Program", wraps=_given_font.Program) as read:
            self.assertEqual((text(font, b"\0\1\0\1"), read.call_count), ("xx", 0))
            self.assertEqual((text(font, b"\0\1\0\2"), read.call_count), ("xβ", 1))

    def test_texts_of_programs_are_pickled_without_the_programs(self):
        font = cases.glyphs(program=cases.truetype({0x3B1: 1, 0x3B2: 2}, size=1 << 20))
        made = pickle.dumps(font_of(font).unicode_map)
        self.assertLess(len(made), 1 << 10)
        for texts in (pickle.loads(made), pickle.loads(pickle.dumps(pickle.loads(made)))):
            self.assertEqual((texts.get_unichr(1), texts.get_unichr(2)), ("α", "β"))
            self.assertRaises(KeyError, texts.get_unichr, 3)

    def test_threads(self):
        wrong = []

        def work():
            for name, font, string, expected in [*cases.RIGHT, *cases.COLLECTIONS[:5], *cases.PROGRAMS]:
                if text(font, string) != expected:
                    wrong.append(name)

        threads = [threading.Thread(target=work) for _ in range(8)]
        for it in threads:
            it.start()
        for it in threads:
            it.join()
        self.assertEqual(wrong, [])

    def test_processes(self):
        expected = [it for *_, it in cases.RIGHT]
        for start in cases.STARTS:
            with self.subTest(start), multiprocessing.get_context(start).Pool(2) as pool:
                self.assertEqual(pool.map(texts_of_process, range(2)), [expected, expected])

    def test_no_map_outlives_its_font(self):
        def show(number):
            own = to_unicode(b"1 beginbfchar <93FA> <%04X> endbfchar" % number, b"<8140> <9FFC>")
            self.assertEqual(text(composite(Name("90ms-RKSJ-H"), own, "Japan1"), cases.WORD[:2]), chr(number))

        for number in range(0x4E00, 0x4E00 + 20):
            show(number)
        before = live_maps()
        for number in range(0x5000, 0x5000 + 100):
            show(number)
        self.assertLessEqual(live_maps(), before + 3)


class NotInstalled(unittest.TestCase):
    def test_right_files_are_as_without(self):
        for name, font, string, expected in cases.RIGHT:
            before = text(font, string)
            with self.subTest(name), adapter.installed():
                self.assertEqual((text(font, string), before), (expected, expected))

    def test_a_name_as_to_unicode_is_read_by_pdfminer(self):
        font = {**composite(Name("Identity-H")), "ToUnicode": Name("Identity-H")}
        before = text(font, "日本".encode("utf-16-be"))
        with adapter.installed():
            self.assertEqual((text(font, "日本".encode("utf-16-be")), before), ("日本", "日本"))

    def test_a_resource_manager_alone(self):
        font, manager = composite(Name("90ms-RKSJ-H"), ordering="Japan1"), adapter.ResourceManager()
        device = PDFPageAggregator(manager, laparams=LAParams())
        PDFPageInterpreter(manager, device).process_page(first_page(font, cases.WORD))
        self.assertIn("日本語", "".join(it.get_text() for it in device.get_result()))

    def test_install_and_uninstall(self):
        original = pdfinterp.PDFResourceManager.get_font
        adapter.install()
        adapter.install()
        with adapter.installed():
            pass
        self.assertIsNot(pdfinterp.PDFResourceManager.get_font, original)
        adapter.uninstall()
        self.assertIs(pdfinterp.PDFResourceManager.get_font, original)
        adapter.uninstall()
        self.assertIs(pdfinterp.PDFResourceManager.get_font, original)


if __name__ == "__main__":
    unittest.main()
