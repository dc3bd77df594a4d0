"""Cases of programs in examples/command: files, command lines, and their expected results."""

import os
import re
import stat
import subprocess
import unicodedata
from dataclasses import dataclass, field
from pathlib import Path

ESCAPE = re.compile(r"\\(?:x([0-9A-Fa-f]{2})|u\{([0-9A-Fa-f]{1,6})\}|([nrtf0\\]))")
SHORT = {"n": b"\n", "r": b"\r", "t": b"\t", "f": b"\f", "0": b"\0", "\\": b"\\"}
PLACE = re.compile(r"\{(at|byte|line)(?: ([^{}\"]+?))??(?: ([1-9][0-9]*))?\}")
LINE_END = re.compile(rb"\r\n|\r|\n")
BINARY_HEAD = b"bcmap\x01"
PROGRAMS = ["cmap", "cmap_query"]
SECONDS = 120


class Misspelled(Exception):
    """A line of a file of cases that can't be read."""


@dataclass
class File:
    """A file, with its bytes and its marked places in order; or a link, with its target; or a pipe."""

    path: bytes
    target: bytes | None = None
    is_pipe: bool = False
    mode: int | None = None
    bytes: bytearray = field(default_factory=bytearray)
    marks: list = field(default_factory=list)

    def add(self, text):
        """Adds a text with escapes; each `\\@` in the text marks its place."""
        first, *others = text.split("\\@")
        self.bytes += unescape(first)
        for part in others:
            self.marks.append(len(self.bytes))
            self.bytes += unescape(part)

    def add_segment(self, kind, digits):
        """Adds a segment of a binary file, and updates the length in the file's head."""
        payload = bytes.fromhex(digits)
        self.bytes += bytes.fromhex(kind) + (5 + len(payload)).to_bytes(4, "big") + payload
        self.bytes[6:10] = len(self.bytes).to_bytes(4, "big")

    def mark(self, number):
        """The marked place of this number, counted from 1; without a number, the only marked place."""
        if number is None and len(self.marks) != 1:
            raise Misspelled(f"a file with {len(self.marks)} marks, of which none is named")
        return self.marks[int(number or 1) - 1]

    def place(self, mark):
        """A place in the file, as the program prints it."""
        is_binary = self.bytes.startswith(BINARY_HEAD[:5])
        return f"byte {mark}" if is_binary else f"byte {mark} (line {self.line(mark)})"

    def line(self, mark):
        """The number of the line with this place."""
        return 1 + len(LINE_END.findall(bytes(self.bytes[:mark])))


@dataclass
class Case:
    """A command line and its expected results."""

    number: int
    program: str
    words: list
    environment: dict = field(default_factory=dict)
    input: bytes = b""
    output: list = field(default_factory=list)
    errors: list = field(default_factory=list)
    status: int = 0
    written: list = field(default_factory=list)
    modes: dict = field(default_factory=dict)


def unescape(text):
    """The bytes of a text with escapes."""
    if "\\" in ESCAPE.sub("", text):
        raise Misspelled(f"no escape that is known: {text}")
    found, at = b"", 0
    for match in ESCAPE.finditer(text):
        found += text[at : match.start()].encode() + meaning(match)
        at = match.end()
    return found + text[at:].encode()


def meaning(match):
    """The bytes of an escape."""
    byte, character, short = match.groups()
    if byte:
        return bytes.fromhex(byte)
    if character:
        return chr(int(character, 16)).encode()
    return SHORT[short]


class Reader:
    """Reads the lines of a file of cases: files and cases, in order."""

    def __init__(self, path):
        self.path = path
        self.steps = []
        self.definitions = {}
        self.open = None
        self.marked = None
        self.marks = {}

    def read(self):
        """All files and cases, in order."""
        for number, line in enumerate(self.path.read_text().split("\n"), 1):
            try:
                self.read_line(number, line)
            except (Misspelled, ValueError, LookupError, AttributeError) as fault:
                raise Misspelled(f"{self.path.name}:{number}: can't be read: {fault}") from fault
        return self.steps

    def read_line(self, number, line):
        word, _, rest = line.partition(" ")
        if line.startswith("#"):
            return
        if not line:
            self.open = None
        elif word == "$":
            self.open = Case(number, *words_of(rest))
            self.steps.append(self.open)
        elif word in ("file", "let"):
            self.begin_bytes(word, rest)
        elif word == "link":
            path, target = rest.split(" ")
            self.steps.append(File(unescape(path), target=unescape(target)))
        elif word == "pipe":
            self.steps.append(File(unescape(rest), is_pipe=True))
        elif isinstance(self.open, Case):
            self.read_expected(word, rest)
        elif isinstance(self.open, File):
            self.read_bytes(word, rest)
        else:
            raise Misspelled("a line of nothing")

    def begin_bytes(self, word, name):
        """A file, or a definition for later ones."""
        self.open = File(unescape(name))
        if word == "let":
            self.definitions[name] = self.open
        else:
            self.steps.append(self.open)

    def read_bytes(self, word, rest):
        """A line that adds to the bytes of a file."""
        file = self.open
        if word == "|":
            file.add(rest)
            file.bytes += b"\n"
        elif word == "+":
            file.add(rest)
        elif word == "hex":
            file.bytes += bytes.fromhex(rest)
        elif word == "times":
            count, _, text = rest.partition(" ")
            file.bytes += int(count) * unescape(text)
        elif word == "use":
            file.bytes += self.definitions[rest].bytes
        elif word == "binary":
            file.bytes += BINARY_HEAD + (10).to_bytes(4, "big")
        elif word == "segment":
            file.add_segment(*rest.partition(" ")[::2])
        elif word == "mode":
            file.mode = int(rest, 8)
        else:
            raise Misspelled(f"no word of a file: {word}")
        if file.marks:
            self.marked = self.marks[file.path] = file

    def read_expected(self, word, rest):
        """Reads a line with the input of a case, or with an expected result."""
        case = self.open
        if word == "<":
            case.input += unescape(rest) + b"\n"
        elif word == "<+":
            case.input += unescape(rest)
        elif word == ">":
            case.output.append(self.fill(rest))
        elif word == "!":
            case.errors.append(self.fill(rest))
        elif word == "status":
            case.status = int(rest)
        elif word == "writes":
            case.written.append(File(unescape(rest)))
        elif word == "=":
            case.written[-1].bytes += unescape(rest) + b"\n"
        elif word == "mode":
            path, mode = rest.split(" ")
            case.modes[unescape(path)] = int(mode, 8)
        else:
            raise Misspelled(f"no word of a case: {word}")

    def fill(self, line):
        """Fills the marked places of files into a line: of the named file, or of the last file."""
        return PLACE.sub(lambda match: self.said(*match.groups()), line)

    def said(self, what, path, number):
        """The text for a marked place of a file."""
        file = self.marks[unescape(path)] if path else self.marked
        mark = file.mark(number)
        if what == "at":
            return file.place(mark)
        return str(mark if what == "byte" else file.line(mark))


def words_of(line):
    """The program of a command line, the words after its name, and the variables that are set before it;
    `""` is the empty word."""
    words, variables = line.split(" "), {}
    while "=" in words[0]:
        name, _, value = words.pop(0).partition("=")
        variables[name.encode()] = unescape(value)
    name, *words = words
    if name not in PROGRAMS:
        raise Misspelled(f"a command line begins with one of {PROGRAMS}")
    return name, [b"" if word == '""' else unescape(word) for word in words if word], variables


def write(folder, file):
    """Writes a file below a folder; one whose path ends with a slash is a folder."""
    path = os.path.join(os.fsencode(folder), file.path)
    if path.endswith(b"/"):
        os.makedirs(path, exist_ok=True)
        return
    os.makedirs(os.path.dirname(path), exist_ok=True)
    if file.target is not None:
        os.symlink(file.target, path)
    elif file.is_pipe:
        os.mkfifo(path)
    else:
        Path(os.fsdecode(path)).write_bytes(file.bytes)
    if file.mode is not None:
        os.chmod(path, file.mode)


def run(program, folder, words, given=b"", variables=None):
    """Runs the program in a folder. The program looks up names nowhere, unless a variable names the folders."""
    environment = {**os.environb, b"CMAP_PATH": b"", **(variables or {})}
    return subprocess.run(
        [program, *words], cwd=folder, input=given, capture_output=True, timeout=SECONDS, env=environment
    )


def text_of(lines):
    """Lines as the program prints them."""
    return "".join(line + "\n" for line in lines)


def is_like(expected, found):
    """Whether a text is as expected; `...` at the end of the last line stands for anything."""
    if expected and expected[-1].endswith("..."):
        return found.startswith(text_of(expected)[: -len("...\n")])
    return text_of(expected) == found


def harmful(output):
    """The characters of an output that would control a terminal or hide other characters."""
    text = set(output.decode(errors="backslashreplace")) - {"\n"}
    return sorted(it for it in text if unicodedata.category(it) in ("Cc", "Cf", "Zl", "Zp", "Co"))


def failures_of(program, folder, case):
    """What is wrong with a run of a case."""
    got = run(program, folder, case.words, case.input, case.environment)
    found = []
    if got.returncode != case.status:
        found.append(f"status {got.returncode}, expected {case.status}")
    for name, output, expected in [
        ("standard output", got.stdout, case.output),
        ("standard error", got.stderr, case.errors),
    ]:
        text = output.decode(errors="backslashreplace")
        if not is_like(expected, text):
            found.append(f"{name}:\n{text}expected:\n{text_of(expected)}")
        if harmful(output):
            found.append(f"{name} has characters that do harm: {harmful(output)!a}")
    found += [fault for file in case.written for fault in differences(folder, file)]
    return found + [fault for path, mode in case.modes.items() for fault in mode_faults(folder, path, mode)]


def mode_faults(folder, path, mode):
    """What is wrong with the permissions of a file."""
    got = stat.S_IMODE(os.stat(os.path.join(os.fsencode(folder), path)).st_mode)
    if got != mode:
        yield f"{os.fsdecode(path)}: mode {got:o}, expected {mode:o}"


def differences(folder, file):
    """The differences between the file that a case must write and the actual file."""
    path = Path(os.fsdecode(os.path.join(os.fsencode(folder), file.path)))
    got = path.read_bytes() if path.exists() else None
    if got != file.bytes:
        yield f"{path.name}:\n{got!a}\nexpected:\n{bytes(file.bytes)!a}"
