"""The page for people that `check --html` writes, and what it may replace."""

import html.parser
import json
import os
import shutil
import stat
import subprocess
import unittest
from unittest import mock

import pikepdf

from hayro_cmap import pdf
from hayro_cmap.pdf import _beside, _commands, _report

from folder import Folder
from made import BAD, GOOD, File, showing, with_many_codes
from tests.steps import limited

#: Characters that turn the text around them, and that end a line.
TURNING = "Ab\u202efdp\u2066\u0085<b>"


class Page(html.parser.HTMLParser):
    """The data of a page, and how many of its elements there are by their names."""

    def __init__(self):
        super().__init__()
        self.data, self.counts, self._is_data = "", {}, False

    def handle_starttag(self, tag, attributes):
        self.counts[tag] = self.counts.get(tag, 0) + 1
        self._is_data = dict(attributes).get("id") == "data"

    def handle_data(self, data):
        if self._is_data:
            self.data, self._is_data = data, False


def bands(pictures, colour):
    """How many bands of rows with a pixel of this colour pictures in PPM have, one after another."""
    wanted, found = bytes.fromhex(colour[1:]), 0
    while pictures:
        _, size, _, rest = pictures.split(b"\n", 3)
        width, height = map(int, size.split())
        rows = [rest[3 * width * row : 3 * width * (row + 1)] for row in range(height)]
        has = [wanted in row for row in rows]
        found += sum(now and not before for before, now in zip([False, *has], has))
        pictures = rest[3 * width * height :]
    return found


class Report(Folder):
    def test_a_chart_for_each_font(self):
        texts = GOOD.replace(b"<0041>", b"<003C002F007300630072006900700074003E>")
        showing(b"AA\1", texts).saved(self.path("script.pdf"))
        report = self.path("report.html")
        self.command("check", "--html", str(report), "script.pdf", "none.pdf")
        page = Page()
        page.feed(report.read_text(encoding="utf-8"))
        self.assertEqual((page.counts["section"], page.counts["canvas"]), (2, 1))
        [cells] = json.loads(page.data)
        # the code, its length, what it has, its CID, its text, and how often it is shown
        of_none, of_map = map(_report.KINDS.index, ("none", "ToUnicode"))
        expected = [[1, 1, of_none, None, None, 1], [0x41, 1, of_map, None, "</script>", 2]]
        self.assertEqual(cells, [*expected, [0x42, 1, _report.UNSHOWN, None, "ffi", 0]])
        self.assertEqual(len(_report.LEGEND), _report.UNSHOWN + 1)

    def test_many_codes(self):
        """The chart has some of them, and no step is taken for each."""
        ranges = b" ".join(b"<0000%02X00> <FFFF%02XFF>" % (row, row) for row in range(0, 256, 2))
        encoding = b"begincodespacerange <20> <7E> %b endcodespacerange" % ranges
        file = File()
        to_unicode = with_many_codes(rows=40, text=b"0000")
        file.show(b"", F=file.composite(file.stream(encoding), to_unicode=to_unicode))
        with limited(4_000_000):
            [chart] = _report.charts_of(pdf.check(file.pdf))
        self.assertEqual(len(chart["cells"]), 1 << 16)

    def written(self, *words):
        """The page of a check."""
        report = self.path("report.html")
        self.command("check", "--html", str(report), *words)
        return report.read_text(encoding="utf-8")

    def test_names_are_escaped(self):
        """Those of fonts and of files, and what can't be read of them."""
        file = File()
        file.show(b"/F 9 Tf (A) Tj", F=file.simple(BAD, base_font=TURNING))
        shown = self.written(file.saved(self.path("x\u202egpj.pdf")))
        self.assertFalse(set(shown) & set(TURNING) - set("Abfdp<>"))
        self.assertNotIn("<b>", shown)
        self.assertIn("Ab\\u{202E}fdp\\u{2066}\\u{85}&lt;b&gt;", shown)
        self.assertIn("x\\u{202E}gpj.pdf</h2>", shown)
        fault = _report.section_of(_commands.unread("a", "\u202eb"))
        self.assertIn('<p class="bad">\\u{202E}b</p>', fault)

    @unittest.skipUnless(
        shutil.which("chromium") and shutil.which("pdftoppm"),
        "Debian's packages chromium and poppler-utils aren't installed",
    )
    def test_a_page_that_is_printed(self):
        """It has all charts, those too that no reader has come to."""
        file, count = File(), 40
        fonts = {f"F{number}": file.simple(None, Encoding=pikepdf.Name.WinAnsiEncoding) for number in range(count)}
        file.show(b" ".join(b"/F%d 9 Tf (A) Tj" % number for number in range(count)), **fonts)
        self.written(file.saved(self.path("fonts.pdf")))
        browser = ["chromium", "--headless", "--no-sandbox", "--disable-gpu", f"--user-data-dir={self.path('profile')}"]
        words = [*browser, f"--print-to-pdf={self.path('printed.pdf')}", self.path("report.html").as_uri()]
        subprocess.run(words, check=True, capture_output=True, timeout=120)
        words = ["pdftoppm", "-r", "144", self.path("printed.pdf")]
        drawn = subprocess.run(words, check=True, capture_output=True).stdout
        # the legend has the colour too
        colour = _report.LEGEND[_report.KINDS.index("glyph name")][1]
        self.assertEqual(bands(drawn, colour), count + 1)


class Replaced(Folder):
    """A file is replaced only where nothing is lost."""

    def refused(self, report, *words, why):
        """The page isn't written, before any file is read, and no file changes."""
        before = self.contents()
        status, out, fault = self.command("check", "--html", str(report), *words)
        self.assertEqual((status, out, len(fault.splitlines())), (2, "", 1))
        self.assertIn(why, fault)
        self.assertEqual(self.contents(), before)

    def contents(self):
        """The names of all files there, with their bytes."""
        return {it.name: it.read_bytes() if it.is_file() else None for it in self.folder.iterdir()}

    def test_a_file_to_check(self):
        good, why = self.path("good.pdf"), "good.pdf: it is a file to check"
        self.refused(good, "good.pdf", why=why)
        self.refused(good, "bad.pdf", "good.pdf", "--jobs", "2", why=why)
        self.path("list").write_text(f"{good}\n")
        self.refused(good, "bad.pdf", "--files-from", str(self.path("list")), why=why)
        self.path("link.pdf").symlink_to(good)
        os.link(good, self.path("hard.pdf"))
        self.refused(good, "link.pdf", why=why)
        for name in ["link.pdf", "hard.pdf"]:
            self.refused(self.path(name), "good.pdf", why=f"{name}: it is a file to check")

    def test_a_file_that_is_no_report(self):
        self.path("other.html").write_text("<!DOCTYPE html>\n<html>")
        self.path("list").write_text("bad.pdf\n")
        for name in ["good.pdf", "none.pdf", "other.html", "list"]:
            self.refused(self.path(name), "bad.pdf", why=f"{name}: it isn't a report of this command")
        self.path("link").symlink_to(self.path("good.pdf"))
        self.refused(self.path("link"), "bad.pdf", why="link: it isn't a report of this command")

    def test_a_place_that_cannot_be_written(self):
        os.mkfifo(self.path("pipe"))
        self.path("folder").mkdir()
        for name in ["pipe", "folder"]:
            self.refused(self.path(name), "good.pdf", why=f"{name}: it can't be written: not a regular file")
        self.refused(self.path("none") / "r.html", "good.pdf", why="r.html: it can't be written: No such file")
        self.refused("/dev/null", "good.pdf", why="/dev/null: it can't be written: not a regular file")

    def test_the_standard_output(self):
        """It takes no page, and no file of its name is made."""
        ran = self.program("check", "--html", "-", "good.pdf", text=True)
        self.assertEqual((ran.returncode, ran.stdout), (2, ""))
        self.assertIn("--html doesn't write to the standard output", ran.stderr)
        self.assertFalse(self.path("-").exists())

    def test_an_older_report(self):
        """It is replaced, through a link too, and its permissions stay. So is an empty file."""
        report, link = self.path("report.html"), self.path("link.html")
        report.touch(mode=0o640)
        link.symlink_to(report)
        for words, found in [("good.pdf", "good.pdf"), ("bad.pdf", "bad.pdf")]:
            self.assertEqual(self.command("check", "--html", str(link), words)[2].count("can't"), 0)
            self.assertIn(f"{found}</h2>", report.read_text(encoding="utf-8"))
            self.assertEqual((link.is_symlink(), stat.S_IMODE(report.stat().st_mode)), (True, 0o640))
        self.assertEqual(sorted(self.contents()), ["bad.pdf", "good.pdf", "link.html", "none.pdf", "report.html"])

    def test_a_report_that_breaks_off(self):
        """The older one stays, and no other file is left."""
        report = self.path("report.html")
        self.command("check", "--html", str(report), "good.pdf")
        before = self.contents()
        for fault, status in [(OSError(28, "No space left on device"), 2), (KeyboardInterrupt, 130), (MemoryError, 2)]:
            with mock.patch.object(_beside.os, "replace", side_effect=fault):
                found, _, said = self.command("check", "-q", "--html", str(report), "bad.pdf")
            self.assertEqual((found, self.contents()), (status, before))
            self.assertNotIn("Traceback", said)
        self.assertNotIn(b"bad.pdf", before["report.html"])

    def test_a_file_that_comes_there_meanwhile(self):
        """It stays."""
        report, data = self.path("report.html"), self.path("good.pdf").read_bytes()
        with mock.patch.object(_report, "page_of", lambda results: str(report.write_bytes(data))):
            status, _, fault = self.command("check", "--html", str(report), "bad.pdf")
        self.assertEqual((status, report.read_bytes()), (2, data))
        self.assertIn("report.html: it isn't a report of this command", fault)


if __name__ == "__main__":
    unittest.main()
