"""The PDF files that Debian packages of this machine bring."""

import collections
import itertools
import shutil
import subprocess
import unittest
from pathlib import Path

import pikepdf

from hayro_cmap import pdf

from made import needs_glyph_list

#: How many files, of how many bytes and pages each.
FILES, BYTES, PAGES = 6, 600_000, 5

FOUND = sorted(
    path for path in Path("/usr/share/doc").rglob("*.pdf") if path.is_file() and path.stat().st_size < BYTES
)[:FILES]

#: Letters that Poppler writes for the names of ligatures.
LIGATURES = {"\ufb00": "ff", "\ufb01": "fi", "\ufb02": "fl", "\ufb03": "ffi", "\ufb04": "ffl"}


def bag_of(text):
    """The characters of a text, without blanks."""
    return collections.Counter("".join(LIGATURES.get(it, it) for it in text if not it.isspace()))


@unittest.skipUnless(FOUND, "no PDF file is under /usr/share/doc")
class Files(unittest.TestCase):
    def test_counts_agree(self):
        """What is shown is the same, asked for page by page or for the whole file."""
        for path in FOUND:
            with self.subTest(path=path), pikepdf.open(path) as file:
                report, document = pdf.check(file), pdf.Document(file)
                every = itertools.chain.from_iterable(map(document.characters, document.pages))
                found = [it for it in every if it.font is not None]
                self.assertEqual(report.shown, len(found))
                self.assertEqual(report.with_text, sum(it.text is not None for it in found))

    @needs_glyph_list
    @unittest.skipUnless(shutil.which("pdftotext"), "Debian's package poppler-utils isn't installed")
    def test_beside_another_reader(self):
        """Of a hundred characters, at most one differs."""
        for path in FOUND:
            with self.subTest(path=path), pikepdf.open(path) as file:
                document = pdf.Document(file)
                texts = (it.text or "" for page in document.pages[:PAGES] for it in document.characters(page))
                words = ["pdftotext", "-raw", "-l", str(PAGES), path, "-"]
                others = subprocess.run(words, capture_output=True, text=True, check=True).stdout
                own, other = bag_of("".join(texts)), bag_of(others)
                differ = max(sum((own - other).values()), sum((other - own).values()))
                self.assertLessEqual(100 * differ, sum(other.values()))


if __name__ == "__main__":
    unittest.main()
