"""The parts that all tests of the bindings use: checks that are counted, and programs that are run."""

import functools
import importlib.util
import os
import shutil
import subprocess
import sys
from dataclasses import dataclass

# a test that hangs fails
SECONDS = 600
# the languages in the names of tests, and their spelling
LANGUAGES = {"c": "C", "cpp": "C++", "python": "Python", "rust": "Rust"}


class Failed(Exception):
    """A test can't go on; the text says why."""


@dataclass
class Ended:
    """How a program ended, and what it wrote."""

    status: int
    out: str
    err: str

    def __str__(self):
        return f"status {self.status}, output {self.out!r}, standard error {self.err[-4000:]!r}"


def run(*words, folder=None, **environment):
    """Runs a program, with these variables added to the environment."""
    return run_in(os.environ | environment, *words, folder=folder)


def run_in(environment, *words, folder=None):
    """Runs a program in this environment alone."""
    words = [str(word) for word in words]
    how = {"cwd": folder, "env": environment, "stdin": subprocess.DEVNULL, "timeout": SECONDS}
    try:
        ran = subprocess.run(words, capture_output=True, encoding="utf-8", errors="backslashreplace", **how)
    except (OSError, subprocess.TimeoutExpired) as fault:
        raise Failed(str(fault)) from fault
    return Ended(ran.returncode, ran.stdout, ran.stderr)


class Checks:
    """Counts how many checks passed and failed; a failure is printed at once."""

    def __init__(self):
        self.passed = self.failed = 0

    def holds(self, what, is_right, why):
        """Counts a check, and prints why where it fails."""
        self.passed += bool(is_right)
        self.failed += not is_right
        if not is_right:
            print(f"failed: {what}: {why}", file=sys.stderr, flush=True)

    def same(self, what, found, expected):
        """Checks that two values are equal."""
        self.holds(what, found == expected, f"expected {expected!r}, found {found!r}")

    def ended(self, what, ran, out, status=0):
        """Checks the status and the output of a program."""
        expected = f"expected status {status} and output {out!r}"
        self.holds(what, (ran.status, ran.out) == (status, out), f"{expected}, found {ran}")

    def counts(self):
        """How many checks passed, and how many failed."""
        return self.passed, self.failed

    def tally(self):
        """The line that says how many checks passed and failed."""
        return f"{self.passed} passed, {self.failed} failed"


def is_there(tool):
    """Whether the machine has a program, or this Python has pip."""
    return bool(importlib.util.find_spec("pip") if tool == "pip" else shutil.which(tool))


def needs(*tools):
    """Skips a test if the machine lacks one of these tools."""

    def decorated(test):
        @functools.wraps(test)
        def checked(*arguments):
            lacking = [tool for tool in tools if not is_there(tool)]
            if lacking:
                print(f"skipped: {spoken(test)}, for lack of {', '.join(lacking)}", flush=True)
            else:
                test(*arguments)

        return checked

    return decorated


def spoken(test):
    """The name of a test, as words."""
    words = test.__name__.removeprefix("test_").split("_")
    return " ".join(LANGUAGES.get(word, word) for word in words)
