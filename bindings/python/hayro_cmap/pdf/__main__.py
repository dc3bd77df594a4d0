"""Checks the fonts of PDF files: faults of their CMaps, and shown codes without a text.

The command check reports faults, warnings and codes of each font. fonts lists the fonts. text prints the texts that
pages show. repair rewrites ToUnicode CMaps with faults.

The status is 0; 1 if a font is refused, --deny matches, or a ToUnicode CMap can't be repaired; 2 if a file can't be
read or the arguments are wrong; 130 after an interrupt; 141 if the reader of the output goes away.
"""

import argparse
import contextlib
import errno
import logging
import os
import sys
from typing import Iterator, List

from .. import __version__
from .._escaped import escaped
from .._run import end_to_import, raise_on_interrupt
from . import HAS_GLYPH_LIST
from ._check import OF_SHOWN_CODES, share
from ._commands import Result, run
from ._limits import MEMORY, SECONDS
from ._many import Task, by_dask, by_processes, json_lines, limited_memory
from ._paths import STANDARD_INPUT, expanded, listed, readable, reason_of
from ._warning_names import FEW_TEXTS, WARNINGS

#: The values of --deny.
DENIABLE = [*dict.fromkeys([*WARNINGS, FEW_TEXTS, *OF_SHOWN_CODES]), "all"]

#: The width of a progress bar.
WIDTH = 40

#: The status after an interrupt, and if the reader of the output goes away, as in shells.
INTERRUPTED, READER_GONE = 130, 141


def progress(over, total: int, what: str):
    """The same items, with a progress bar on the standard error if it is a terminal and the standard output isn't."""
    is_seen = sys.stderr.isatty() and not sys.stdout.isatty()
    try:
        for done, it in enumerate(over):
            if is_seen:
                full = WIDTH * done // max(total, 1)
                print(f"\r[{'#' * full:{WIDTH}}] {done} of {total} {what}", end="", file=sys.stderr, flush=True)
            yield it
    finally:
        if is_seen:
            print("\r\033[K", end="", file=sys.stderr, flush=True)


def of_pages(pages):
    """The same pages, with a progress bar."""
    return progress(pages, len(pages), "pages")


def at_least_one(number: str) -> int:
    """The number of an argument, which is at least 1."""
    value = int(number) if number.isascii() and number.isdigit() else 0
    if value == 0:
        raise argparse.ArgumentTypeError(f"not a number from 1 on: {number!r}")
    return value


def arguments(words) -> argparse.Namespace:
    parser = argparse.ArgumentParser(
        prog="python3 -m hayro_cmap.pdf", description=__doc__, formatter_class=argparse.RawDescriptionHelpFormatter
    )
    parser.add_argument("--version", action="version", version=f"hayro_cmap {__version__}")
    commands = parser.add_subparsers(dest="command", metavar="COMMAND", required=True)
    every, many, read = shared_options(), file_options(), reading_options()
    check = commands.add_parser("check", parents=[every, many, read], help="faults of CMaps, and codes without a text")
    named = f"status 1 if this is found: {', '.join(DENIABLE[:-1])}, or all"
    check.add_argument("--deny", metavar="NAME", action="append", default=[], choices=DENIABLE, help=named)
    check.add_argument("--html", metavar="REPORT", help="also writes a page with a chart of the codes of each font")
    check.add_argument("-q", "--quiet", action="store_true", help="prints only files with findings, and no last line")
    commands.add_parser("fonts", parents=[every, many], help="the fonts of each file")
    text = commands.add_parser("text", parents=[every, many, read], help="the texts that pages show")
    text.add_argument("--exact", action="store_true", help="keeps variation selectors, ligatures and spaces of fonts")
    mend = commands.add_parser("repair", parents=[every], help="rewrites ToUnicode CMaps with faults")
    mend.add_argument("input", metavar="IN", help="a PDF file")
    mend.add_argument("output", metavar="OUT", help="the repaired file, or a copy if nothing is repaired")
    mend.add_argument("--signed", action="store_true", help="repairs a signed file, which breaks its signature")
    asked = parser.parse_args(words)
    if asked.command != "repair" and not asked.files and asked.files_from is None:
        parser.error("a FILE, or --files-from, is needed")
    if getattr(asked, "html", None) == STANDARD_INPUT:
        parser.error("--html doesn't write to the standard output: a file with the name - is ./-")
    return asked


def shared_options() -> argparse.ArgumentParser:
    """The options of all commands."""
    options = argparse.ArgumentParser(add_help=False)
    options.add_argument("--json", action="store_true", help="one JSON object per line")
    options.add_argument("--password", metavar="WORD", help="the password of encrypted files")
    allowed = f"the maximum processor time for a file, by default {SECONDS}"
    options.add_argument("--seconds", metavar="N", type=at_least_one, default=SECONDS, help=allowed)
    return options


def file_options() -> argparse.ArgumentParser:
    """The arguments of commands that read many files."""
    options = argparse.ArgumentParser(add_help=False)
    options.add_argument("files", metavar="FILE", nargs="*", help="a PDF file, or a folder with PDF files")
    options.add_argument("--files-from", metavar="LIST", help="a file with more paths, one per line; - is stdin")
    options.add_argument("-0", "--null", action="store_true", help="a zero byte ends each path in LIST")
    options.add_argument("--jobs", metavar="N", type=at_least_one, default=1, help="the number of reading processes")
    options.add_argument("--dask", metavar="ADDRESS", help="reads files on the workers of this scheduler")
    return options


def reading_options() -> argparse.ArgumentParser:
    """The options of commands that find texts."""
    options = argparse.ArgumentParser(add_help=False)
    strict = options.add_mutually_exclusive_group()
    strict.add_argument("--strict", action="store_true", help="takes no texts from ToUnicode CMaps with faults")
    strict.add_argument("--lenient", action="store_true", help="reads ToUnicode CMaps past their faults (the default)")
    options.add_argument("--no-guesses", action="store_true", help="takes no texts that a file only suggests")
    return options


def paths_of(asked: argparse.Namespace) -> List[str]:
    """The paths of the arguments, then of the list. Each folder is replaced by the PDF files in it."""
    if asked.command == "repair":
        return [asked.input]
    found = [] if asked.files_from is None else listed(asked.files_from, b"\0" if asked.null else b"\n")
    return expanded(asked.files + found)


def options_of(asked: argparse.Namespace) -> dict:
    """The options of the command as a dictionary."""
    return {
        "charts": getattr(asked, "html", None) is not None,
        "deny": getattr(asked, "deny", []),
        "exact": getattr(asked, "exact", False),
        "lenient": not getattr(asked, "strict", False),
        "guesses": not getattr(asked, "no_guesses", False),
        "json": asked.json,
        "output": getattr(asked, "output", None),
        "password": asked.password,
        "seconds": asked.seconds,
        "signed": getattr(asked, "signed", False),
    }


def results(asked: argparse.Namespace, paths: List[str]) -> Iterator[Result]:
    """The results for the files, in the order of the files except on a cluster."""
    options = options_of(asked)
    if asked.command == "repair":
        # in another process, an interrupt would leave a part of OUT
        return repaired(asked.input, options)
    if asked.dask is not None:
        # messages of Dask about a lost scheduler would mix with the lines
        logging.disable(logging.CRITICAL)
        done = by_dask(paths, asked.command, options, asked.dask)
    else:
        # if a process ends, for example without memory, only the file that it reads is lost
        task = Task(asked.command, options, MEMORY, of_pages if len(paths) == 1 else iter)
        done = by_processes(paths, task, asked.jobs)
    return progress(done, len(paths), "files")


def repaired(path: str, options: dict) -> Iterator[Result]:
    """The result for a file to repair."""
    with limited_memory(MEMORY):
        yield run(path, "repair", options, of_pages)


def put(result: Result, asked: argparse.Namespace) -> None:
    """Prints the result for a file."""
    if result.fault is not None:
        say(f"{readable(result.path)}: {result.fault}")
    try:
        for line in lines_of(result, asked):
            print(line)
        sys.stdout.flush()
    except OSError as fault:
        # the rest of the buffer is dropped, so that Python doesn't report the error again at exit
        os.dup2(os.open(os.devnull, os.O_WRONLY), sys.stdout.fileno())
        raise OSError(fault.errno, fault.strerror, "the standard output") from fault


def lines_of(result: Result, asked: argparse.Namespace) -> Iterator[str]:
    """The lines for the standard output."""
    if asked.json:
        yield from json_lines(result)
    elif asked.command == "text":
        yield from map(escaped, result.lines)
    elif result.status or result.has_warnings or not getattr(asked, "quiet", False):
        yield from (escaped(f"{readable(result.path)}: {line}") for line in result.lines)


def say(text: str) -> None:
    """Prints a line on the standard error, if possible."""
    with contextlib.suppress(OSError):
        print(f"hayro_cmap: {escaped(text)}", file=sys.stderr, flush=True)


def last_line(done: List[Result]) -> str:
    """The numbers of checked, refused and unread files, and the share of their codes with a text."""
    unread = sum(result.status == 2 for result in done)
    refused = sum(result.status == 1 for result in done)
    rest = f", {unread} can't be read" if unread else ""
    counted = share(sum(result.with_text for result in done), sum(result.shown for result in done))
    checked = len(done) - unread
    return f"{checked} file{'' if checked == 1 else 's'} checked, {refused} refused{rest}; {counted}"


def run_command(asked: argparse.Namespace) -> int:
    """Runs the command, and returns its status. Raises OSError if a list can't be read, or a report or the output can't
    be written."""
    is_check, paths = asked.command == "check", paths_of(asked)
    has_page = is_check and asked.html is not None
    if has_page:
        # imported only if a page is made
        from . import _report

        _report.try_report(asked.html, paths)
    if is_check and not HAS_GLYPH_LIST:
        say("fontTools is missing, so glyph names have no texts")
    done: List[Result] = []
    with contextlib.closing(results(asked, paths)) as found:
        for result in found:
            put(result, asked)
            # the lines are printed, and the charts are kept for the page
            done.append(result._replace(lines=[], objects=[]))
    if has_page:
        _report.write_report(asked.html, done)
    if is_check and not asked.quiet:
        say(last_line(done))
    return max((result.status for result in done), default=0)


def main(words=None) -> int:
    if sys.stderr is None:
        # otherwise messages would go to the output
        sys.stderr = open(os.devnull, "w")
    try:
        raise_on_interrupt()
        end_to_import()
        asked = arguments(words)
        if sys.stdout is None:
            raise OSError(errno.EBADF, os.strerror(errno.EBADF), "the standard output")
        sys.stdout.reconfigure(errors="backslashreplace")
        return run_command(asked)
    except BrokenPipeError:
        return READER_GONE
    except KeyboardInterrupt:
        return INTERRUPTED
    except MemoryError:
        say("out of memory")
    except (OSError, ImportError) as fault:
        path = getattr(fault, "filename", None)
        say(reason_of(fault) if path is None else f"{readable(os.fsdecode(path))}: {reason_of(fault)}")
    return 2


if __name__ == "__main__":
    sys.exit(main())
