"""Paths of files: lists of paths, their printed form, and the opening of files."""

import errno
import io
import os
import re
import stat
import sys
from typing import BinaryIO, Iterable, List

from .._folder import files_below

#: The path that stands for the standard input, in place of a list of paths.
STANDARD_INPUT = "-"

#: The maximum size of a file that is read into memory, in bytes.
MOST_IN_MEMORY = 1 << 26

#: A byte of a path that isn't UTF-8, in Python's form in a str.
NO_UTF_8 = re.compile("[\udc80-\udcff]")


def readable(path: str) -> str:
    """A path in printed form, with \\xHH for each byte that isn't UTF-8."""
    return NO_UTF_8.sub(lambda it: "\\x%02X" % os.fsencode(it[0])[0], path)


def reason_of(fault: BaseException) -> str:
    """The reason why a file can't be read or written, without its path."""
    return getattr(fault, "strerror", None) or str(fault) or type(fault).__name__


def opened(path: str) -> BinaryIO:
    """An open file. Raises OSError unless it is a regular file, so that no call waits for a pipe."""
    file = open(path, "rb", opener=lambda path, flags: os.open(path, flags | os.O_NONBLOCK))
    if not stat.S_ISREG(os.fstat(file.fileno()).st_mode):
        file.close()
        raise OSError(errno.EINVAL, "not a regular file", path)
    return file


def in_memory(file: BinaryIO) -> BinaryIO:
    """The bytes of a small file in memory: pikepdf reads few bytes at a time, which would take many system calls. A
    large file is returned unchanged."""
    return io.BytesIO(file.read()) if os.fstat(file.fileno()).st_size <= MOST_IN_MEMORY else file


def listed(path: str, end: bytes) -> List[str]:
    """The paths in a file, or on the standard input. This byte ends each path. Empty paths are skipped."""
    if path != STANDARD_INPUT:
        with open(path, "rb") as file:
            data = file.read()
    elif sys.stdin is None:
        raise OSError(errno.EBADF, os.strerror(errno.EBADF), path)
    else:
        data = sys.stdin.buffer.read()
    return [os.fsdecode(it) for it in data.split(end) if it]


def expanded(paths: Iterable[str]) -> List[str]:
    """The same paths, with each folder replaced by the PDF files below it."""
    return [it for path in paths for it in (pdf_files_below(path) if os.path.isdir(path) else [path])]


def pdf_files_below(folder: str) -> List[str]:
    """The files in a folder and its subfolders with names that end in .pdf, and the folders that can't be read, in the
    order of the bytes of their paths."""
    unread: List[bytes] = []
    files = files_below(os.fsencode(folder), lambda fault: unread.append(fault.filename))
    found = [it for it in files if it.lower().endswith(b".pdf")]
    return [os.fsdecode(it) for it in sorted(found + unread)]


def is_among(path: str, others: Iterable[str]) -> bool:
    """Whether the file at a path is one of these files. Links are followed."""
    try:
        of_path = os.stat(path)
    except OSError:
        return False
    return any(is_same(of_path, it) for it in others)


def is_same(of_path: os.stat_result, other: str) -> bool:
    """Whether a path leads to the file with this status."""
    try:
        return os.path.samestat(of_path, os.stat(other))
    except (OSError, ValueError):
        # the file doesn't exist, or its path has a zero byte
        return False
