"""The commands of docs/TUTORIAL.md, with what they print."""

import re
import shlex
import shutil
import subprocess
import sys
import unittest
from pathlib import Path

from folder import Folder

TOP = Path(__file__).resolve().parents[3]
PAGE = TOP / "docs" / "TUTORIAL.md"


class Recipe(Folder):
    @unittest.skipUnless(PAGE.is_file(), "the pages aren't beside the tests")
    def test_from_a_garbled_file_to_a_repaired_one(self):
        shutil.copy(TOP / "examples" / "garbled.pdf", self.path("garbled.pdf"))
        page = PAGE.read_text(encoding="utf-8")
        commands = re.findall(r"^    \$ python3 (.*)\n((?:    (?!\$).*\n)*)", page, re.MULTILINE)
        self.assertEqual(len(commands), 5)
        for words, printed in commands:
            ran = subprocess.run(
                [sys.executable, *shlex.split(words)], cwd=self.folder, stdout=subprocess.PIPE, stderr=subprocess.STDOUT
            )
            self.assertEqual(ran.stdout.decode(), printed.replace("    ", "", 1).replace("\n    ", "\n"), words)


if __name__ == "__main__":
    unittest.main()
