"""Paths of files: lists of them, those that aren't UTF-8, and what is no file."""

import errno
import json
import os
import subprocess
import unittest
from pathlib import Path
from unittest import mock

from hayro_cmap.pdf import _commands, _paths, check_files

from folder import PROGRAM, Folder
from made import GOOD, showing

#: A name with a byte that is no UTF-8, and how it is printed.
NAME, PRINTED = b"a\xff\x80.pdf", "a\\xFF\\x80.pdf"


class Lists(Folder):
    def listed(self, *words, given=None):
        """The status, the names of the files that the command reads by a list, and the standard error."""
        ran = self.program("fonts", "--json", *words, input=given)
        return ran.returncode, [json.loads(line)["file"] for line in ran.stdout.splitlines()], ran.stderr.decode()

    def test_a_list(self):
        """Its paths come after those of the command line; empty ones are passed over."""
        self.path("list").write_bytes(b"bad.pdf\n\n./good.pdf\nnone.pdf")
        names = ["bad.pdf", "./good.pdf", "none.pdf"]
        status, found, fault = self.listed("--files-from", "list")
        self.assertEqual((status, found), (2, names))
        self.assertIn("none.pdf: it can't be read", fault)
        self.assertEqual(self.listed("--files-from", "list", "good.pdf")[1], ["good.pdf", *names])
        self.assertEqual(self.listed("--jobs", "2", "--files-from", "list")[1], names)

    def test_the_standard_input(self):
        found = self.listed("--files-from", "-", given=b"good.pdf\nbad.pdf\n")
        self.assertEqual(found[:2], (0, ["good.pdf", "bad.pdf"]))
        self.assertEqual(self.listed("--files-from", "-", given=b"")[:2], (0, []))
        closed = ["sh", "-c", 'exec "$@" <&-', "sh", *PROGRAM, "fonts", "--files-from", "-"]
        ran = subprocess.run(closed, cwd=self.folder, capture_output=True, text=True)
        self.assertEqual((ran.returncode, ran.stderr), (2, "hayro_cmap: -: Bad file descriptor\n"))

    def test_paths_that_end_in_zero_bytes(self):
        """They may have line feeds."""
        showing(b"A", GOOD).saved(self.path("a\nb.pdf"))
        for word in ["-0", "--null"]:
            status, found, _ = self.listed("--files-from", "-", word, given=b"a\nb.pdf\0\0good.pdf\0")
            self.assertEqual((status, found), (0, ["a\nb.pdf", "good.pdf"]))

    def test_a_list_that_cannot_be_read(self):
        for name, why in [("absent", "No such file or directory"), (".", "Is a directory")]:
            status, found, fault = self.listed("--files-from", name, "good.pdf")
            self.assertEqual((status, found, fault), (2, [], f"hayro_cmap: {name}: {why}\n"))

    def test_a_path_with_a_zero_byte(self):
        status, found, fault = self.listed("--files-from", "-", given=b"a\0b.pdf\ngood.pdf\n")
        self.assertEqual((status, found), (2, ["a\0b.pdf", "good.pdf"]))
        self.assertIn("it can't be read: embedded null byte", fault)
        report = self.path("r.html")
        words = ["check", "--html", "r.html", "--files-from", "-"]
        for _ in range(2):
            self.assertEqual(self.program(*words, input=b"a\0b.pdf\n").returncode, 2)
            self.assertIn("</html>", report.read_text(encoding="utf-8"))

    def test_no_file_at_all(self):
        status, out, fault = self.command("check")
        self.assertEqual((status, out), (2, ""))
        self.assertIn("a FILE, or --files-from, is needed", fault)


class Folders(Folder):
    def setUp(self):
        super().setUp()
        for name in ["below/deep/B.PDF", "below/a.pdf", "below/.hidden.pdf", "below/.git/c.pdf", "below/notes.txt"]:
            self.path(name).parent.mkdir(parents=True, exist_ok=True)
            self.path(name).write_bytes(self.path("good.pdf").read_bytes())
        os.mkfifo(self.path("below/pipe.pdf"))
        self.path("below/link.pdf").symlink_to("../good.pdf")
        self.path("below/other").symlink_to("../below")

    def files(self, *words, **options):
        """The status, and the files that are read."""
        ran = self.program("fonts", "--json", *words, **options)
        return ran.returncode, [json.loads(line)["file"] for line in ran.stdout.splitlines()]

    def test_a_folder(self):
        """It stands for the PDF files below it; links to folders aren't followed."""
        found = ["below/a.pdf", "below/deep/B.PDF", "below/link.pdf"]
        self.assertEqual(self.files("below"), (0, found))
        self.assertEqual(self.files("good.pdf", "below", "bad.pdf"), (0, ["good.pdf", *found, "bad.pdf"]))
        self.assertEqual(self.files("--jobs", "2", "--files-from", "-", input=b"below\n"), (0, found))
        self.assertEqual(self.files("below/.git"), (0, ["below/.git/c.pdf"]))

    def test_a_folder_without_pdf_files(self):
        self.path("empty").mkdir()
        ran = self.program("check", "empty", text=True)
        self.assertEqual((ran.returncode, ran.stdout), (0, ""))
        self.assertIn("0 files checked, 0 refused", ran.stderr)

    def test_a_folder_that_cannot_be_read(self):
        """It stands for itself, so that it is reported, and the run goes on."""
        folder, scandir = os.fsencode(self.path("below")), os.scandir

        def failing(path):
            if path == os.path.join(folder, b"deep"):
                raise PermissionError(errno.EACCES, "Permission denied", path)
            return scandir(path)

        with mock.patch("os.scandir", failing):
            found = _paths.expanded([os.fsdecode(folder)])
        self.assertEqual(found, [str(self.path(name)) for name in ["below/a.pdf", "below/deep", "below/link.pdf"]])


class Odd(Folder):
    def test_a_path_that_is_not_utf_8(self):
        """It is opened by its bytes, and printed with them as hexadecimal digits, in JSON too."""
        place = os.path.join(os.fsencode(self.folder), NAME)
        Path(os.fsdecode(place)).write_bytes(self.path("bad.pdf").read_bytes())
        for words in [("fonts",), ("check", "--jobs", "2"), ("check",), ("check", "--html", "r.html")]:
            ran = self.program(*words, NAME, text=True)
            self.assertEqual(ran.returncode, 1 if words[0] == "check" else 0)
            self.assertTrue(ran.stdout.startswith(f"{PRINTED}: font "), ran.stdout)
        self.assertIn(f"{PRINTED}</h2>".encode(), self.path("r.html").read_bytes())
        self.assertEqual(self.program("text", NAME, text=True).stdout, "A\ufffdC\n")
        for line in self.program("check", "--json", NAME, "--files-from", "-", input=NAME).stdout.splitlines():
            self.assertEqual(json.loads(line)["file"], PRINTED)
        ran = self.program("repair", "--json", NAME, b"new" + NAME)
        self.assertEqual(json.loads(ran.stdout.splitlines()[-1])["output"], "new" + PRINTED)
        self.assertEqual(self.program("check", b"new" + NAME).returncode, 0)
        ran = self.program("fonts", "absent" + os.fsdecode(NAME), text=True)
        self.assertEqual(ran.stderr, f"hayro_cmap: absent{PRINTED}: it can't be read: No such file or directory\n")
        [line, *_] = check_files(os.fsdecode(place))
        self.assertEqual(json.loads(line)["file"], f"{self.folder}/{PRINTED}")

    def test_what_is_no_file(self):
        """It has a line, nothing waits for it, and the run goes on."""
        os.mkfifo(self.path("pipe"))
        self.path("loop").symlink_to(self.path("loop"))
        why = {
            "pipe": "not a regular file",
            "/dev/zero": "not a regular file",
            "loop": "Too many levels of symbolic links",
            "x" * 300: "File name too long",
            "good.pdf/x": "Not a directory",
        }
        for command in ["fonts", "check", "text"]:
            ran = self.program(command, *why, "good.pdf", text=True)
            self.assertEqual(ran.returncode, 2)
            for name, reason in why.items():
                self.assertIn(f"hayro_cmap: {name}: it can't be read: {reason}\n", ran.stderr)
        self.path("folder").mkdir()
        for name, reason in {**why, "folder": "Is a directory"}.items():
            ran = self.program("repair", name, "out.pdf", text=True)
            self.assertEqual((ran.returncode, ran.stdout), (2, ""))
            self.assertEqual(ran.stderr, f"hayro_cmap: {name}: it can't be read: {reason}\n")

    def test_a_file_without_permission(self):
        """Its line has the system's reason."""
        fault = PermissionError(13, "Permission denied", "x")
        self.assertEqual(_paths.reason_of(fault), "Permission denied")
        if os.geteuid() != 0:
            self.path("good.pdf").chmod(0)
            self.assertIn("good.pdf: it can't be read: Permission denied", self.command("fonts", "good.pdf")[2])

    def test_a_long_file(self):
        """It isn't read at once, and the same is said of it."""
        paths = [str(self.path(name)) for name in ("good.pdf", "none.pdf")]
        for most in [0, _paths.MOST_IN_MEMORY]:
            with mock.patch.object(_paths, "MOST_IN_MEMORY", most):
                good, none = _commands.results_of(paths, "text", {})
            self.assertEqual((good.status, good.lines, none.status), (0, ["Affi"], 2))
            self.assertRegex(none.fault, "^it can't be read: unable to find trailer dictionary")

    def test_names_that_control_a_terminal(self):
        """They are escaped, also where a report can't take them."""
        name = "a\x1b[31m\u202e.pdf"
        showing(b"A", GOOD).saved(self.path(name))
        for words in [("fonts", name), ("check", name), ("check", "--html", name, name), ("fonts", "none" + name)]:
            ran = self.program(*words)
            self.assertNotIn(b"\x1b", ran.stdout + ran.stderr)
            self.assertIn(b"a\\u{1B}[31m\\u{202E}.pdf: ", ran.stdout + ran.stderr)


if __name__ == "__main__":
    unittest.main()
