"""`python3 -m hayro_cmap.pdf`, over files and over many of them."""

import json
import os
import re
import signal
import subprocess
import sys
import unittest
from pathlib import Path
from unittest import mock

import pikepdf
from pikepdf import Array, Dictionary

import hayro_cmap
from hayro_cmap import pdf
from hayro_cmap.pdf import _commands, _many

from folder import PROGRAM, Folder
from made import AT_FAULT, BAD, GOOD, File, needs_glyph_list, showing, with_many_codes

#: Where the command `cmap` has the names of its warnings.
LINT = Path(__file__).resolve().parents[3] / "crates" / "cmap_lint" / "src" / "warning.rt"


def ends_its_process(path, *arguments, **options):
    """What a command does where a file makes the reader break off."""
    if Path(path).name == "kills.pdf":
        os.kill(os.getpid(), signal.SIGKILL)
    return _commands.run(path, *arguments, **options)


class Command(Folder):
    def test_statuses(self):
        self.assertEqual(self.command("check", "good.pdf")[0], 0)
        self.assertEqual(self.command("check", "bad.pdf", "good.pdf")[0], 1)
        self.assertEqual(self.command("check", "none.pdf", "bad.pdf")[0], 2)
        self.assertEqual(self.command("check", "absent.pdf")[0], 2)
        self.assertEqual(self.command("check", "--deny", "all", "good.pdf")[0], 0)
        self.assertEqual(self.command("fonts", "bad.pdf")[0], 0)
        self.assertEqual(
            [
                self.command(*words)[0]
                for words in [("check",), ("none", "good.pdf"), ("check", "--jobs", "0", "good.pdf")]
            ],
            [2] * 3,
        )

    def test_deny(self):
        showing(b"\1", GOOD).saved(self.path("textless.pdf"))
        self.assertEqual(self.command("check", "textless.pdf")[0], 0)
        self.assertEqual(self.command("check", "--deny", "no-text", "textless.pdf")[0], 1)

    def test_names_for_deny(self):
        """They are those of `cmap check --lint`, of shown codes, and all; any other is refused with a list of them."""
        source = LINT.read_text(encoding="utf-8")
        listed = re.findall(r'Warning::\w+ => "([a-z-]+)"', source)
        self.assertEqual(len(listed), 21)
        for name in [*listed, "no-text", "no-cid", "outside-codespace", "all"]:
            self.assertEqual(self.command("check", "--deny", name, "good.pdf")[0], 0)
        for name in ["no-txt", "ALL", ""]:
            status, out, fault = self.command("check", "--deny", "all", "--deny", name, "good.pdf")
            self.assertEqual((status, out), (2, ""))
            self.assertIn("'replacement-character'", fault)

    def test_lines(self):
        _, out, fault = self.command("check", "bad.pdf", "none.pdf")
        self.assertRegex(
            out, rf"bad.pdf: font \d+: ToUnicode \d+: byte {AT_FAULT} \(line 1\): the text of a code was expected"
        )
        self.assertRegex(out.splitlines()[-1], r"of 3 shown codes have a text; 1 of 1 fonts refused$")
        self.assertIn("none.pdf: it can't be read: unable to find trailer dictionary", fault)
        self.assertRegex(
            fault.splitlines()[-1],
            "^hayro_cmap: 1 file checked, 1 refused, 1 can't be read; .* of 3 shown codes have a text$",
        )

    @needs_glyph_list
    def test_quiet(self):
        status, out, fault = self.command("check", "-q", "good.pdf")
        self.assertEqual((status, out, fault), (0, "", ""))

    def test_json(self):
        _, out, _ = self.command("check", "--json", "bad.pdf", "none.pdf")
        font, file, unread = map(json.loads, out.splitlines())
        self.assertEqual(
            (font["ok"], font["shown"], font["to_unicode_object"]), (False, 3, font["faults"][0]["object"])
        )
        self.assertEqual(
            (font["faults"][0]["byte"], font["faults"][0]["line"], font["faults"][0]["of"]), (AT_FAULT, 1, "ToUnicode")
        )
        self.assertEqual((file["shown"], file["refused"], unread["ok"]), (3, 1, False))
        self.assertEqual(
            list(pdf.check_files([str(self.path("bad.pdf")), str(self.path("none.pdf"))])), out.splitlines()
        )
        self.assertEqual(list(pdf.check_files(str(self.path("none.pdf")))), out.splitlines()[2:])

    def test_fonts_and_text(self):
        self.assertRegex(
            self.command("fonts", "good.pdf")[1], r"good.pdf: font \d+ Simple \(TrueType, none, ToUnicode \d+\)"
        )
        self.assertEqual(self.command("text", "good.pdf")[1], "Affi\n")
        [page] = map(json.loads, self.command("text", "--json", "good.pdf")[1].splitlines())
        self.assertEqual((page["page"], page["text"]), (1, "Affi"))
        showing(b"\1\2", BAD.replace(b"<41>", b"<01>").replace(b"<43>", b"<02>")).saved(self.path("faults.pdf"))
        shown = [self.command("text", *words, "faults.pdf")[1] for words in [[], ["--lenient"], ["--strict"]]]
        self.assertEqual(shown, ["AC\n", "AC\n", "\ufffd\ufffd\n"])
        self.assertEqual(self.command("text", "--strict", "--lenient", "faults.pdf")[0], 2)
        showing(b"\1", b"beginbfchar <01> <FB03> endbfchar").saved(self.path("forms.pdf"))
        shown = [self.command("text", *words, "forms.pdf")[1] for words in [[], ["--exact"]]]
        self.assertEqual(shown, ["ffi\n", "\ufb03\n"])

    def test_fonts_by_the_numbers_of_their_objects(self):
        file, made = File(), {}
        for name in "ABCDEFGHIJKL":
            made[name] = file.simple(GOOD)
        # by their names the last one comes first
        file.show(b"", **{chr(ord("Z") - number): made[name] for number, name in enumerate(made)})
        file.saved(self.path("many.pdf"))
        for command, last in [("fonts", None), ("check", -1)]:
            lines = self.command(command, "many.pdf")[1].splitlines()[:last]
            numbers = [int(re.search(r": font (\d+)", line)[1]) for line in lines]
            self.assertEqual((len(numbers), numbers), (12, sorted(numbers)))
            self.assertGreater(numbers[-1], 9)

    def test_version(self):
        self.assertEqual(self.command("--version")[:2], (0, f"hayro_cmap {hayro_cmap.__version__}\n"))

    def test_help(self):
        """It says what each argument is."""
        for command, arguments in [("check", ["FILE"]), ("text", ["FILE"]), ("repair", ["IN", "OUT"])]:
            shown = self.command(command, "--help")[1]
            for argument in arguments:
                self.assertRegex(shown, rf"(?m)^  {argument} +[a-z]")
        self.assertIn("no-cid", self.command("check", "--help")[1])

    def test_password(self):
        locked = pikepdf.Encryption(owner="o", user="u")
        showing(b"A\1C", BAD).saved(self.path("locked.pdf"), encryption=locked)
        for words, status in [(["check"], 1), (["fonts"], 0), (["text"], 0), (["check", "--jobs", "2"], 1)]:
            self.assertEqual(self.command(*words, "locked.pdf")[0], 2)
            found, out, fault = self.command(*words, "--password", "x", "locked.pdf")
            self.assertEqual((found, out), (2, ""))
            self.assertIn("it can't be read by this password", fault)
            self.assertEqual(self.command(*words, "--password", "u", "locked.pdf", "good.pdf")[0], status)
        self.assertEqual(self.command("repair", "--password", "u", "locked.pdf", "out.pdf")[0], 0)
        self.assertEqual(self.command("check", "out.pdf")[0], 2)
        self.assertEqual(self.command("check", "--password", "u", "out.pdf")[0], 0)

    def test_what_controls_a_terminal_is_escaped(self):
        showing(b"A", GOOD.replace(b"<0041>", b"<001B>")).saved(self.path("escape.pdf"))
        self.assertEqual(self.command("text", "escape.pdf")[1], "\\u{1B}\n")

    def test_repair(self):
        status, out, _ = self.command("repair", "bad.pdf", "out.pdf")
        self.assertEqual(status, 0)
        self.assertRegex(out, r"rewritten, with texts for 2 codes")
        self.assertRegex(out, rf"lost at ToUnicode \d+: byte {AT_FAULT}")
        self.assertEqual(self.command("check", "out.pdf")[0], 0)

    def test_repair_with_nothing_to_do(self):
        """The file is copied byte for byte, but not onto itself."""
        good, new = self.path("good.pdf"), self.path("new.pdf")
        data, before = good.read_bytes(), good.stat()
        status, out, _ = self.command("repair", "good.pdf", "new.pdf")
        self.assertEqual((status, out), (0, f"{good}: nothing to repair, and {new} is a copy\n"))
        self.assertEqual(new.read_bytes(), data)
        [done] = map(json.loads, self.command("repair", "--json", "good.pdf", "new.pdf")[1].splitlines())
        self.assertEqual((done["output"], done["written"]), (str(new), 0))
        self.path("link.pdf").symlink_to(good)
        for output in ["good.pdf", "link.pdf"]:
            status, out, _ = self.command("repair", "good.pdf", output)
            self.assertEqual((status, out), (0, f"{good}: nothing to repair\n"))
        self.assertEqual((good.read_bytes(), good.stat()), (data, before))
        self.assertIn("can't be written", self.command("repair", "good.pdf", "none/new.pdf")[2])

    def test_repair_of_a_signed_file(self):
        file = showing(b"A", BAD)
        file.pdf.Root.AcroForm = Dictionary(SigFlags=1, Fields=Array([]))
        file.saved(self.path("signed.pdf"))
        status, _, fault = self.command("repair", "signed.pdf", "out.pdf")
        self.assertEqual((status, self.path("out.pdf").exists()), (2, False))
        self.assertIn("it is signed, and its signature would no longer hold", fault)
        self.assertEqual(self.command("repair", "--signed", "signed.pdf", "out.pdf")[0], 0)
        # with nothing to repair it is copied, and its signature holds
        self.assertEqual(self.command("repair", "out.pdf", "again.pdf")[0], 0)
        self.assertEqual(self.path("again.pdf").read_bytes(), self.path("out.pdf").read_bytes())

    def test_repair_of_more_codes_than_are_written(self):
        many = with_many_codes(rows=34, text=b"0000") + b" beginbfchar <41> /x endbfchar"
        showing(b"A", many).saved(self.path("many.pdf"))
        status, _, fault = self.command("repair", "many.pdf", "out.pdf")
        self.assertEqual((status, self.path("out.pdf").exists()), (2, False))
        self.assertIn("it can't be read: a ToUnicode CMap has texts for more than 2,097,152 codes", fault)

    def test_repair_of_a_file_that_cannot_be_written(self):
        status, _, fault = self.command("repair", "bad.pdf", "none/out.pdf")
        self.assertEqual(status, 2)
        self.assertIn("out.pdf can't be written: No such file or directory", fault)
        self.path("out.pdf").mkdir()
        status, _, fault = self.command("repair", "bad.pdf", "out.pdf")
        self.assertEqual((status, fault.split(": ")[-1]), (2, "not a regular file\n"))

    def test_repair_in_place(self):
        self.assertEqual(self.command("repair", "bad.pdf", "bad.pdf")[0], 0)
        self.assertEqual(self.command("check", "bad.pdf")[0], 0)

    def test_repair_where_nothing_is_left(self):
        showing(b"A", b"1 beginbfchar <41> (x").saved(self.path("lost.pdf"))
        status, out, _ = self.command("repair", "lost.pdf", "out.pdf")
        self.assertEqual(status, 1)
        self.assertRegex(out.splitlines()[-1], "0 of 1 ToUnicode CMaps with faults are rewritten, and .* is a copy$")
        self.assertEqual(self.path("out.pdf").read_bytes(), self.path("lost.pdf").read_bytes())

    def test_files_that_cannot_be_read(self):
        """The run goes on after each."""
        data = showing(b"AB", GOOD).bytes()
        self.path("cut.pdf").write_bytes(data[: len(data) // 3])
        self.path("empty.pdf").write_bytes(b"")
        showing(b"A", GOOD).saved(self.path("locked.pdf"), encryption=pikepdf.Encryption(owner="o", user="u"))
        status, out, fault = self.command("check", "empty.pdf", "cut.pdf", "locked.pdf", "good.pdf")
        self.assertEqual(status, 2)
        self.assertIn("locked.pdf: it can't be read without its password", fault)
        self.assertIn("good.pdf: 100.0 % of 2 shown codes have a text", out)

    def test_a_reader_that_goes_away(self):
        words = [sys.executable, "-m", "hayro_cmap.pdf", "fonts", *[self.path("good.pdf")] * 50]
        with subprocess.Popen(words, stdout=subprocess.PIPE, stderr=subprocess.PIPE) as ran:
            ran.stdout.close()
            self.assertEqual((ran.stderr.read(), ran.wait()), (b"", 141))

    @needs_glyph_list
    def test_a_progress_bar_on_a_terminal(self):
        """It stands on the standard error, and is removed at the end. Where that is no terminal there is none."""
        ours, theirs = os.openpty()
        self.addCleanup(os.close, ours)
        words = [sys.executable, "-m", "hayro_cmap.pdf", "check", "-q", *[self.path("good.pdf")] * 4]
        with open(theirs, "wb") as terminal:
            ran = subprocess.run(words, stdout=subprocess.PIPE, stderr=terminal)
        shown = os.read(ours, 1 << 16).decode()
        self.assertEqual((ran.returncode, ran.stdout), (0, b""))
        self.assertIn(f"\r[{'#' * 20}{' ' * 20}] 2 of 4 files", shown)
        self.assertTrue(shown.endswith("\r\033[K"), shown)
        self.assertEqual(subprocess.run(words, capture_output=True).stderr, b"")

    def test_where_something_is_missing(self):
        """A line says what, and a program that imports the package gets an exception."""
        none = Path(self.folder, "pikepdf.py")
        none.write_text("raise ImportError")
        places = os.pathsep.join([str(self.folder), os.environ.get("PYTHONPATH", "")])
        without_pikepdf, words = {**os.environ, "PYTHONPATH": places}, "pip install pikepdf"
        without_library = {**os.environ, "HAYRO_CMAP_LIBRARY": str(self.folder / "none.so")}
        for environment, said in [(without_pikepdf, words), (without_library, "the C library of hayro_cmap isn't")]:
            ran = self.program("check", "good.pdf", env=environment, text=True)
            self.assertEqual((ran.returncode, ran.stdout, len(ran.stderr.splitlines())), (2, "", 1))
            self.assertIn(said, ran.stderr)
            program = [sys.executable, "-c", "import hayro_cmap.pdf"]
            ran = subprocess.run(program, env=environment, capture_output=True, text=True)
            self.assertEqual(ran.returncode, 1)
            self.assertRegex(ran.stderr.splitlines()[-1], f"^ImportError: .*{re.escape(said)}")

    def test_output_that_cannot_be_written(self):
        """It is one line, whatever the program is asked for."""
        for words in [("check", "good.pdf"), ("text", "good.pdf"), ("fonts", "--jobs", "2", "good.pdf", "bad.pdf")]:
            with open("/dev/full", "wb") as full:
                ran = self.program(*words, capture_output=False, stdout=full, stderr=subprocess.PIPE)
            self.assertEqual(ran.returncode, 2)
            self.assertEqual(ran.stderr, b"hayro_cmap: the standard output: No space left on device\n")
            closed = ["sh", "-c", 'exec "$@" >&-', "sh", *PROGRAM, *words]
            ran = subprocess.run(closed, cwd=self.folder, capture_output=True)
            self.assertEqual(ran.returncode, 2)
            self.assertEqual(ran.stderr, b"hayro_cmap: the standard output: Bad file descriptor\n")

    def test_without_a_standard_error(self):
        """What is said there doesn't stand in the output."""
        closed = ["sh", "-c", 'exec "$@" 2>&-', "sh", *PROGRAM, "check", "good.pdf", "none.pdf"]
        ran = subprocess.run(closed, cwd=self.folder, stdout=subprocess.PIPE)
        self.assertEqual((ran.returncode, len(ran.stdout.splitlines())), (2, 2))
        with open("/dev/full", "wb") as full:
            ran = self.program("check", "good.pdf", "none.pdf", capture_output=False, stdout=-1, stderr=full)
        self.assertEqual((ran.returncode, len(ran.stdout.splitlines())), (2, 2))


class Many(Folder):
    NAMES = ["good.pdf", "bad.pdf", "none.pdf", "good.pdf"]

    def test_processes_give_the_same(self):
        for words in [("check", "--json"), ("fonts",), ("text",)]:
            self.assertEqual(self.command(*words, *self.NAMES), self.command(*words, "--jobs", "3", *self.NAMES))

    def test_a_process_that_ends_costs_its_file(self):
        showing(b"A", GOOD).saved(self.path("kills.pdf"))
        paths = [str(self.path(name)) for name in ["kills.pdf", *self.NAMES, "kills.pdf", *self.NAMES]]
        with mock.patch.object(_many, "run", ends_its_process):
            found = list(_many.by_processes(paths, _many.Task("check", {}, None), jobs=2))
        self.assertEqual([it.path for it in found], paths)
        killed = [it for it in found if it.path.endswith("kills.pdf")]
        self.assertEqual({it.fault for it in killed}, {"the process that read it ended, by signal 9"})
        self.assertEqual([it.status for it in found if it not in killed], [0, 1, 2, 0] * 2)

    def test_a_process_that_ends_without_a_file(self):
        """It costs none."""
        pool, path = _many.Pool(_many.Task("check", {}, None)), str(self.path("good.pdf"))
        self.addCleanup(pool.close)
        for index in range(2):
            pool.begin(index, path)
            [(found, result)] = pool.finished()
            self.assertEqual((found, result.status), (index, 0))
            [worker] = pool.idle
            os.kill(worker.process.pid, signal.SIGKILL)
            worker.process.join()


if __name__ == "__main__":
    unittest.main()
