"""The command over files of a folder."""

import contextlib
import io
import subprocess
import sys
import tempfile
import unittest
from pathlib import Path

from hayro_cmap.pdf import __main__ as command

from made import BAD, GOOD, showing

PROGRAM = [sys.executable, "-m", "hayro_cmap.pdf"]


class Folder(unittest.TestCase):
    def setUp(self):
        folder = tempfile.TemporaryDirectory()
        self.addCleanup(folder.cleanup)
        self.folder = Path(folder.name)
        showing(b"AB", GOOD).saved(self.path("good.pdf"))
        showing(b"A\1C", BAD).saved(self.path("bad.pdf"))
        self.path("none.pdf").write_bytes(b"no PDF file")

    def path(self, name):
        return self.folder / name

    def command(self, *words):
        """The status, the output and the errors of the command. Names of PDF files are those of the folder."""
        words = [str(self.path(word)) if word.endswith(".pdf") else word for word in words]
        out, fault = io.TextIOWrapper(io.BytesIO(), encoding="utf-8"), io.StringIO()
        with contextlib.redirect_stdout(out), contextlib.redirect_stderr(fault):
            try:
                status = command.main(words)
            except SystemExit as ended:
                status = ended.code
        out.flush()
        return status, out.buffer.getvalue().decode(), fault.getvalue()

    def program(self, *words, **options):
        """The command as a program of its own, in the folder."""
        return subprocess.run([*PROGRAM, *words], cwd=self.folder, timeout=60, **{"capture_output": True, **options})


