"""Compares the answers of the program `cmap` for codes over two bundles of the 65 predefined CMap files, and the CIDs
that are read from their texts here."""

import os
import subprocess
from collections import namedtuple
from concurrent.futures import ThreadPoolExecutor

from .bundles import CID, CODESPACE, KNOWN_NAMES, NOTDEF, TEXT, File

ACCEPTED = 0

# how many arguments a command line has at most
MOST_ARGUMENTS = 1 << 15

# the numbers of queries for each file, of answers, and of CIDs that were also read here, and the differences
Compared = namedtuple("Compared", "asked answered read failures")


def codes_of(texts):
    """Queries for all codes of one and two bytes, and for codes around the ends of longer ranges."""
    codes = {(1, code) for code in range(1 << 8)} | {(2, code) for code in range(1 << 16)}
    for text in texts:
        for it in File(text).declarations:
            if it.kind != CODESPACE and it.width > 2:
                middle = (it.start + it.end) // 2
                ends = {it.start - 1, it.start, middle, it.end, it.end + 1}
                codes |= {(it.width, code) for code in ends if 0 <= code < 1 << 8 * it.width}
    return [f"{width}:{code:0{2 * width}X}" for width, code in sorted(codes)]


def rounds_of(texts):
    """The queries for each file, in groups for one command line."""
    codes = codes_of(texts) + [f"bf:{code:04X}" for code in range(1 << 16)]
    return [codes[at : at + MOST_ARGUMENTS] for at in range(0, len(codes), MOST_ARGUMENTS)]


class Reader:
    """Reads the CIDs of codes from the texts, independently of the program: the last declaration of a code counts."""

    def __init__(self, texts):
        self.files = {name: File(text) for name, text in zip(KNOWN_NAMES, texts)}
        self.cids = {name: self.cids_in(file) for name, file in self.files.items()}

    @staticmethod
    def cids_in(file):
        """The CIDs that a file declares, by the length and the number of the code. A CID counts before a notdef."""
        cids = {}
        for kind in (NOTDEF, CID):
            for it in file.declarations:
                if it.kind == kind:
                    for code in range(it.start, it.end + 1):
                        cids[it.width, code] = it.value if kind == NOTDEF else it.value + code - it.start
        return cids

    def cid_of(self, name, width, code):
        """The CID of a code; None where no file of the chain declares one."""
        while name is not None:
            cid = self.cids[name].get((width, code))
            if cid is not None:
                return cid
            uses = self.files[name].uses
            name = uses[-1].decode() if uses else None
        return None

    def has_texts(self, name):
        """Whether a file declares texts: a text of one character would also give a CID."""
        return any(it.kind == TEXT for it in self.files[name].declarations)

    def differing(self, name, queries, lines):
        """The number of CIDs that were read, and the differences from the lines that answer these queries."""
        if self.has_texts(name):
            return 0, []
        read, failures = 0, []
        for query, line in zip(queries, lines):
            width, _, digits = query.partition(":")
            if width != "bf":
                cid = self.cid_of(name, int(width), int(digits, 16))
                read += 1
                if line.split() != [query, "-" if cid is None else str(cid)]:
                    failures.append(f"{name}: {line}, and {cid} is declared")
        return read, failures


def lines_of(program, bundle, name, queries):
    """The lines that answer queries of a file of a bundle; None where the program fails."""
    words = [program, "lookup", "--bundle", bundle, name, *queries]
    env = {**os.environ, "CMAP_PATH": ""}
    got = subprocess.run(words, capture_output=True, text=True, timeout=600, env=env)
    lines = got.stdout.splitlines()
    return lines if got.returncode == ACCEPTED and len(lines) == len(queries) else None


def compare(program, texts, bundle, other):
    """Compares the answers for the codes of each file over both bundles."""
    rounds = rounds_of(texts)
    reader = Reader(texts)

    def compare_file(name):
        failures, answered, read = [], 0, 0
        for queries in rounds:
            lines, like = (lines_of(program, it, name, queries) for it in (bundle, other))
            if lines is None or lines != like:
                failures.append(f"{name}: {queries[0]} to {queries[-1]} differ")
            answered += sum(not line.endswith(" -") for line in lines or [])
            count, differing = reader.differing(name, queries, lines or [])
            read += count
            failures += differing
        return answered, read, failures

    with ThreadPoolExecutor(len(os.sched_getaffinity(0))) as pool:
        found = list(pool.map(compare_file, KNOWN_NAMES))
    answered, read = (sum(it[at] for it in found) for at in (0, 1))
    return Compared(sum(map(len, rounds)), answered, read, [it for _, _, failures in found for it in failures])
