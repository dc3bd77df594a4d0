"""`python3 -m hayro_cmap.pdf --dask`, over a scheduler and two workers on this machine."""

import contextlib
import importlib.util
import io
import json
import logging
import os
import signal
import socket
import subprocess
import sys
import tempfile
import unittest
from pathlib import Path
from unittest import mock

import pikepdf

from hayro_cmap.pdf import __main__ as command
from hayro_cmap.pdf import _many

from made import BAD, GOOD, showing

WAITS = "import sys; from distributed import Client; Client(scheduler_file=sys.argv[1]).wait_for_workers(2)"

#: How many files the workers read.
FILES = 60


def setUpModule():
    """Lets interrupts through: a shell that runs tests in the background has them ignored."""
    signal.signal(signal.SIGINT, signal.default_int_handler)


@unittest.skipUnless(importlib.util.find_spec("distributed"), "Debian's package python3-distributed isn't installed")
class Cluster(unittest.TestCase):
    @classmethod
    def setUpClass(cls):
        folder = tempfile.TemporaryDirectory()
        cls.addClassCleanup(folder.cleanup)
        cls.folder = Path(folder.name)
        about = cls.folder / "scheduler.json"
        own = ["--scheduler-file", about, "--no-dashboard"]
        cls.start("-m", "distributed.cli.dask_scheduler", "--host", "127.0.0.1", "--port", "0", *own)
        words = ["--nthreads", "1", "--no-nanny", "--local-directory", cls.folder, *own]
        cls.workers = [cls.start("-m", "distributed.cli.dask_worker", *words) for _ in range(2)]
        subprocess.run([sys.executable, "-c", WAITS, about], check=True, capture_output=True)
        cls.address = json.loads(about.read_text())["address"]

    @classmethod
    def start(cls, *words):
        """Starts a program of Python, which ends after the tests."""
        program = subprocess.Popen([sys.executable, *words], stdout=subprocess.DEVNULL, stderr=subprocess.DEVNULL)
        cls.addClassCleanup(program.wait)
        cls.addClassCleanup(program.kill)
        return program

    def command(self, *words):
        """The command over the cluster."""
        words = [sys.executable, "-m", "hayro_cmap.pdf", *words]
        return subprocess.Popen(words, stdout=subprocess.PIPE, stderr=subprocess.PIPE, text=True)

    def test_the_same_as_on_one_machine(self):
        showing(b"AB", GOOD).saved(self.folder / "good.pdf")
        showing(b"A\1C", BAD).saved(self.folder / "bad.pdf")
        (self.folder / "none.pdf").write_bytes(b"no PDF file")
        paths = [str(self.folder / name) for name in ("good.pdf", "bad.pdf", "none.pdf")]
        with self.command("check", "--json", *paths) as here:
            lines, faults = here.communicate()
        with self.command("check", "--json", "--dask", self.address, *paths) as there:
            out, errors = there.communicate()
        self.assertEqual((sorted(out.splitlines()), there.returncode), (sorted(lines.splitlines()), 2))
        self.assertEqual(errors.splitlines()[-1], faults.splitlines()[-1])

    def test_limits_and_options(self):
        """They hold on the workers, for each file. A path needn't be UTF-8."""
        name = os.path.join(os.fsencode(self.folder), b"a\xff.pdf")
        showing(b"A", GOOD).saved(self.folder / "locked.pdf", encryption=pikepdf.Encryption(owner="o", user="u"))
        showing(b"A", GOOD).saved(self.folder / "ascii.pdf")
        os.rename(self.folder / "ascii.pdf", name)
        words = ["fonts", "--dask", self.address, "--password", "u", name, str(self.folder / "locked.pdf")]
        with self.command(*words) as ran:
            out, errors = ran.communicate()
        self.assertEqual((ran.returncode, errors, len(out.splitlines())), (0, "", 2))
        self.assertIn("a\\xFF.pdf: font ", out)
        options = {"seconds": 0}
        [result] = _many.by_dask([os.fsdecode(name)], "check", options, self.address)
        self.assertEqual(result.fault, "it can't be read: it takes more than 0 seconds of processor time")

    def test_an_interrupt(self):
        paths = [showing(b"AB", GOOD).saved(self.folder / "good.pdf")] * 1000
        with self.command("fonts", "--dask", self.address, *paths) as ran:
            ran.stdout.readline()
            ran.send_signal(signal.SIGINT)
            ran.stdout.read()
            self.assertEqual((ran.stderr.read(), ran.wait()), ("", 130))

    def test_when_a_worker_dies(self):
        """The other one reads its files. This test comes last, by its name."""
        paths = [showing(b"AB", GOOD).saved(self.folder / f"{number}.pdf") for number in range(FILES)]
        with self.command("check", "-q", "--json", "--dask", self.address, *paths) as ran:
            lines = [ran.stdout.readline()]
            self.workers[0].kill()
            lines += ran.stdout.read().splitlines()
        objects = [it for it in map(json.loads, lines) if "pages" in it]
        self.assertEqual((sorted(it["file"] for it in objects), ran.returncode), (sorted(paths), 0))
        self.assertEqual({it["shown"] for it in objects}, {2})


@unittest.skipUnless(importlib.util.find_spec("distributed"), "Debian's package python3-distributed isn't installed")
class NoScheduler(unittest.TestCase):
    def test_addresses_where_none_is(self):
        """They are said in a line, and soon."""
        self.addCleanup(logging.disable, logging.NOTSET)
        free = socket.socket()
        self.addCleanup(free.close)
        free.bind(("127.0.0.1", 0))
        with mock.patch.object(_many, "TO_ANSWER", 0.5):
            for address in ["garbage", "127.0.0.1", "none://x:1", f"127.0.0.1:{free.getsockname()[1]}", "x y:z"]:
                fault = io.StringIO()
                with contextlib.redirect_stderr(fault), contextlib.redirect_stdout(io.TextIOWrapper(io.BytesIO())):
                    status = command.main(["check", "-q", "--dask", address, "a.pdf"])
                self.assertEqual((status, len(fault.getvalue().splitlines())), (2, 1), fault.getvalue())
                self.assertIn(f"hayro_cmap: {address}: the scheduler can't be reached: ", fault.getvalue())


if __name__ == "__main__":
    unittest.main()
