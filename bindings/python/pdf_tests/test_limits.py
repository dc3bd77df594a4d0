"""What a file may take: time, and memory. What ends the command, and what is left then."""

import contextlib
import os
import resource
import signal
import subprocess
import time
import unittest
from unittest import mock

import pikepdf

from hayro_cmap.pdf import _commands, _limits, _many, _objects, check_files

from folder import PROGRAM, Folder
from made import GOOD, File, showing

#: What is said of a file that takes too long, or too much memory.
TOO_LONG = "it can't be read: it takes more than {} seconds of processor time"
TOO_MUCH = "it can't be read: it takes too much memory"

#: What is said where the code of pikepdf ends its process for lack of memory.
CRASHED = "the process that read it ended, by signal 11"


def busy(seconds):
    """Takes so much processor time."""
    deadline = _limits.Deadline(seconds)
    with contextlib.suppress(_limits.TooLong):
        while True:
            deadline.check()


def setUpModule():
    """Lets interrupts through: a shell that runs tests in the background has them ignored."""
    signal.signal(signal.SIGINT, signal.default_int_handler)


class Deadlines(Folder):
    def test_a_deadline(self):
        """It counts processor time, and is over once."""
        deadline = _limits.Deadline(0.05)
        self.assertEqual(list(deadline.over("ab")), ["a", "b"])
        busy(0.1)
        with self.assertRaisesRegex(_limits.TooLong, "^it takes more than 0.05 seconds of processor time$"):
            deadline.check()
        self.assertRaises(_limits.TooLong, list, deadline.over("ab"))
        none = _limits.Deadline(None)
        none.check()
        self.assertEqual(list(none.over("ab")), ["a", "b"])

    def test_code_that_reads_past_malformed_objects(self):
        """It lets the exception through."""
        self.assertFalse(issubclass(_limits.TooLong, _objects.MALFORMED))

    def test_streams(self):
        streams = _objects.Streams(deadline=_limits.Deadline(0))
        self.assertRaises(_limits.TooLong, streams.decoded, pikepdf.Stream(pikepdf.new(), b""))

    def test_each_file_has_its_time(self):
        """What takes too long is said of its file, and the next one is read."""
        slow = showing(b"A", GOOD).saved(self.path("slow.pdf"))
        paths = [str(self.path("good.pdf")), slow, str(self.path("good.pdf"))]
        opened = _commands.opened

        def slowly(path):
            if path == slow:
                busy(0.3)
            return opened(path)

        options = {"seconds": 0.25}
        with mock.patch.object(_commands, "opened", slowly):
            found = [list(_commands.results_of(paths, command, options)) for command in ("check", "text")]
            found.append(list(_many.by_processes(paths, _many.Task("check", options, None), jobs=1)))
            lines = list(check_files(paths, **options))
        for results in found:
            self.assertEqual([it.status for it in results], [0, 2, 0])
            self.assertEqual(results[1].fault, TOO_LONG.format(0.25))
        self.assertEqual(sum('"unread"' in line for line in lines), 1)

    def test_code_that_never_looks(self):
        """The system ends its process, and the next file is read."""
        slow, good = showing(b"A", GOOD).saved(self.path("slow.pdf")), str(self.path("good.pdf"))
        run = _commands.run

        def endlessly(path, *arguments):
            while path == slow:
                pass
            return run(path, *arguments)

        with mock.patch.object(_many, "run", endlessly), mock.patch.object(_many, "GRACE", 0.1):
            task = _many.Task("check", {"seconds": 0.2}, None)
            results = list(_many.by_processes([good, slow, good], task, jobs=1))
        self.assertEqual([it.status for it in results], [0, 2, 0])
        self.assertEqual(results[1].fault, TOO_LONG.format(0.2))

    def test_the_option(self):
        for words in [["0"], ["-1"], ["x"], ["1.5"]]:
            self.assertEqual(self.command("check", "--seconds", *words, "good.pdf")[0], 2)
        for command in ["check", "text", "fonts"]:
            with mock.patch.object(_many, "run", wraps=_commands.run) as run:
                task = _many.Task(command, {"seconds": 7}, None)
                task.result(str(self.path("good.pdf")))
            self.assertEqual(run.call_args[0][2]["seconds"], 7)
            self.assertEqual(self.command(command, "--seconds", "7", "good.pdf")[0], 0)


class Memory(Folder):
    def test_a_process_that_runs_out(self):
        """A process may have so much memory alone, and what asks for more is said of its file."""
        path = str(self.path("good.pdf"))
        with mock.patch.object(_commands.pikepdf, "open", lambda *_, **__: bytearray(1 << 30)):
            [result] = _many.by_processes([path], _many.Task("check", {}, 1 << 29), jobs=1)
        self.assertEqual((result.status, result.fault), (2, TOO_MUCH))

    def test_what_says_that_memory_ran_out(self):
        """An exception of Python or of C++, wherever it comes from, also noted as a fault of contents."""
        path = str(self.path("good.pdf"))
        for fault in [MemoryError(), RuntimeError("std::bad_alloc"), pikepdf.PdfError("object 5: std::bad_alloc")]:
            for where in ["open", "Object.read_raw_bytes", "Object.get"]:
                with mock.patch(f"pikepdf.{where}", side_effect=fault):
                    found = [_commands.run(path, command, {}).fault for command in ("check", "text")]
                self.assertEqual(found, [TOO_MUCH] * 2, (fault, where))
        self.assertRaises(MemoryError, _commands.fault_in, ["content of object 5: std::bad_alloc"])

    def test_small_files_that_grow(self):
        """Each is read, or said to take too much memory, and the file after it is read."""
        bombs = {
            "operators.pdf": b"/F 9 Tf " + b"(A) Tj " * 1_000_000,
            "states.pdf": b"q " * 2_000_000,
            "strings.pdf": b"/F 9 Tf [" + b"(A) " * 1_000_000 + b"] TJ",
            "string.pdf": b"/F 9 Tf (" + b"A" * 20_000_000 + b") Tj",
        }
        for name, content in bombs.items():
            file = File()
            file.show(content, F=file.simple(GOOD)).saved(self.path(name), compress_streams=True)
        paths = [str(self.path(name)) for bomb in bombs for name in (bomb, "good.pdf")]
        results = list(_many.by_processes(paths, _many.Task("check", {}, 300 << 20), jobs=2))
        self.assertEqual([it.status for it in results[1::2]], [0] * len(bombs))
        self.assertTrue({it.fault for it in results[::2]} <= {TOO_MUCH, CRASHED, None}, results[::2])

    def test_a_limit_ends_with_its_block(self):
        before = resource.getrlimit(resource.RLIMIT_AS)
        self.assertEqual(self.command("repair", "bad.pdf", "out.pdf")[0], 0)
        self.assertEqual(resource.getrlimit(resource.RLIMIT_AS), before)
        with _many.limited_memory(1 << 40):
            less = resource.getrlimit(resource.RLIMIT_AS)
            self.assertTrue(0 < less[0] <= 1 << 40)
            # one that is there already stays
            with _many.limited_memory(1 << 50):
                self.assertEqual(resource.getrlimit(resource.RLIMIT_AS), less)
        self.assertEqual(resource.getrlimit(resource.RLIMIT_AS), before)

    def test_a_result_that_cannot_be_sent(self):
        [end, other] = _many.multiprocessing.Pipe()
        self.addCleanup(end.close)
        self.addCleanup(other.close)
        send, sent = other.send, []

        def failing(result):
            sent.append(result)
            if len(sent) == 1:
                raise MemoryError
            send(result)

        with mock.patch.object(other, "send", failing, create=True):
            _many.give(other, _many.Task("check", {}, None), str(self.path("good.pdf")))
        self.assertEqual((sent[0].status, end.recv().fault), (0, TOO_MUCH))


def is_there(group):
    """Whether a group has processes."""
    try:
        os.killpg(group, 0)
    except ProcessLookupError:
        return False
    return True


class Interrupted(Folder):
    def interrupted(self, *words):
        """The command, which is interrupted with all its processes after the first line of its output."""
        ran = subprocess.Popen(
            [*PROGRAM, *words], cwd=self.folder, stdout=subprocess.PIPE, stderr=subprocess.PIPE, start_new_session=True
        )
        with ran:
            ran.stdout.readline()
            os.killpg(ran.pid, signal.SIGINT)
            # these end where no process has the other ends
            left = ran.stdout.read(), ran.stderr.read()
        self.assertFalse(is_there(ran.pid))
        return ran.returncode, left[1]

    def test_an_interrupt(self):
        """There is no traceback, and no process is left."""
        self.path("list").write_text("good.pdf\n" * 20_000)
        for words in [["check"], ["check", "--jobs", "3"], ["text", "--jobs", "2"], ["fonts"]]:
            self.assertEqual(self.interrupted(*words, "--files-from", "list"), (130, b""))

    def test_a_program_that_is_killed(self):
        """Its processes end, those too that wait for it to read what they send."""
        long = showing(b"A" * 300_000, GOOD).saved(self.path("long.pdf"))
        words = [*PROGRAM, "text", "--jobs", "3", *[long] * 12]
        with subprocess.Popen(words, stdout=subprocess.PIPE, start_new_session=True) as ran:
            # the program waits for this one to read more than a line has
            ran.stdout.read(1)
            time.sleep(1)
            ran.kill()
        ended = time.monotonic() + 2 * _many.SECONDS_TO_LOOK
        while time.monotonic() < ended and is_there(ran.pid):
            time.sleep(0.1)
        self.assertFalse(is_there(ran.pid))

    def test_an_early_interrupt(self):
        """The program ends while its modules are imported."""
        self.path("pikepdf.py").write_text("import os, signal\nos.kill(os.getpid(), signal.SIGINT)\n")
        places = os.pathsep.join([str(self.folder), os.environ.get("PYTHONPATH", "")])
        ran = self.program("check", "good.pdf", env={**os.environ, "PYTHONPATH": places})
        self.assertEqual((ran.returncode, ran.stdout, ran.stderr), (-signal.SIGINT, b"", b""))

    def test_an_interrupt_while_a_process_starts(self):
        """It is for the process that starts it."""
        path, started = str(self.path("good.pdf")), []
        start = _many.multiprocessing.Process.start

        def interrupted(process):
            signal.raise_signal(signal.SIGINT)
            start(process)
            self.addCleanup(process.kill)
            started.append(process)

        with mock.patch.object(_many.multiprocessing.Process, "start", interrupted):
            with self.assertRaises(KeyboardInterrupt):
                list(_many.by_processes([path], _many.Task("check", {}, None), jobs=1))
        self.assertEqual(len(started), 1)

    def test_an_interrupt_leaves_reports(self):
        self.path("list").write_text("good.pdf\n" * 20_000)
        self.command("check", "--html", str(self.path("r.html")), "good.pdf")
        before = self.path("r.html").read_bytes()
        self.assertEqual(self.interrupted("check", "--html", "r.html", "--files-from", "list"), (130, b""))
        self.assertEqual(self.path("r.html").read_bytes(), before)
        self.assertEqual(len(list(self.folder.glob("r.html*"))), 1)

    def test_an_interrupt_of_repair(self):
        """OUT stays as it is."""
        self.path("out.pdf").write_bytes(b"before")
        with mock.patch.object(_commands, "save", side_effect=KeyboardInterrupt):
            self.assertEqual(self.command("repair", "bad.pdf", "out.pdf"), (130, "", ""))
        self.assertEqual(self.path("out.pdf").read_bytes(), b"before")


if __name__ == "__main__":
    unittest.main()
