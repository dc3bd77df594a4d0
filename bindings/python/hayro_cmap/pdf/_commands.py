"""The commands for a single PDF file. A command may run in another process, or on another machine."""

import logging
import shutil
import warnings
from typing import Any, BinaryIO, Callable, Dict, Iterable, Iterator, List, NamedTuple, Optional

import pikepdf

from ._beside import written_beside
from ._check import Report, check
from ._content import Document
from ._fonts import fonts
from ._limits import FAILED_ALLOCATION, NO_MEMORY, SECONDS, Deadline, is_memory
from ._paths import in_memory, is_among, opened, readable, reason_of
from ._repair import Signed, repair, save

#: A function from pages to an iterable of the same pages, such as a progress bar.
Progress = Callable[[Iterable[Any]], Iterable[Any]]

# messages of pikepdf about damaged files, and about unneeded passwords, would mix with the lines
logging.getLogger("pikepdf").addHandler(logging.NullHandler())
logging.getLogger("pikepdf").propagate = False
warnings.filterwarnings("ignore", message="A password was provided", category=UserWarning)


class Result(NamedTuple):
    """The result of a command for a file."""

    path: str
    #: 0; 1 if a font is refused, a denied name is found, or a CMap can't be repaired; 2 if the file or its contents
    #: can't be read, or the repaired file isn't written.
    status: int
    lines: List[str] = []
    #: The lines as values of JSON.
    objects: List[Dict[str, Any]] = []
    #: A message about the whole file, for the standard error.
    fault: Optional[str] = None
    #: The number of shown codes, and the number of shown codes with a text.
    shown: int = 0
    with_text: int = 0
    #: Whether there are warnings about shown codes.
    has_warnings: bool = False
    #: The charts of the fonts, if a page is requested.
    charts: List[Dict[str, Any]] = []


class Job(NamedTuple):
    """A command's file and options."""

    path: str
    #: The open file, and the PDF file that pikepdf reads from it.
    file: BinaryIO
    pdf: pikepdf.Pdf
    options: Dict[str, Any]
    progress: Progress
    deadline: Deadline

    @property
    def lenient(self) -> bool:
        """Whether CMaps are read past their faults."""
        return self.options.get("lenient", True)

    @property
    def guesses(self) -> bool:
        """Whether texts may be guesses."""
        return self.options.get("guesses", True)

    @property
    def exact(self) -> bool:
        """Whether texts stay as the fonts give them, instead of being folded."""
        return self.options.get("exact", False)

    def report(self) -> Report:
        """The check of the file, with its fonts in the order of their object numbers."""
        report = check(self.pdf, self.progress, self.lenient, self.deadline, self.guesses)
        return report._replace(fonts=sorted(report.fonts, key=lambda it: it.font.number))


def run(path: str, command: str, options: Dict[str, Any], progress: Progress = iter) -> Result:
    """Runs a command for any file."""
    deadline, password = Deadline(options.get("seconds", SECONDS)), options.get("password") or ""
    file: Optional[BinaryIO] = None
    try:
        with opened(path) as on_disk:
            file = in_memory(on_disk)
            # inherited attributes of a page are looked up when needed, so that a written file keeps its page tree
            with pikepdf.open(file, password=password, inherit_page_attributes=False) as pdf:
                job = Job(path, file, pdf, options, lambda pages: deadline.over(progress(pages)), deadline)
                return COMMANDS[command](job)
    except pikepdf.PasswordError:
        return unread(path, f"it can't be read {'by this' if password else 'without its'} password")
    except Exception as fault:  # pikepdf raises many kinds of exceptions for malformed objects; other files go on
        # pikepdf's message begins with the file object
        reason = reason_of(fault).replace(f"{file!r}: ", "")
        return unread(path, f"it can't be read: {NO_MEMORY if is_memory(fault) else reason}")


def unread(path: str, fault: str) -> Result:
    """The result for a file that can't be read."""
    return Result(path, 2, objects=[{"ok": False, "unread": fault}], fault=fault)


def fault_in(contents: List[str]) -> Optional[str]:
    """The message about contents that can't be read, or None. Raises MemoryError if memory ran out."""
    if any(FAILED_ALLOCATION in it for it in contents):
        raise MemoryError
    return "; ".join(contents[:3]) or None


def run_fonts(job: Job) -> Result:
    found = sorted(fonts(job.pdf), key=lambda font: font.number)
    return Result(job.path, 0, list(map(str, found)), [it.as_json() for it in found])


def run_check(job: Job) -> Result:
    report = job.report()
    status = 1 if report.refused or report.has_denied(job.options.get("deny", ())) else 0
    return Result(
        job.path,
        status=2 if report.faults else status,
        lines=list(report.lines()),
        objects=[*(it.as_json() for it in report.fonts), report.as_json()],
        fault=fault_in(report.faults),
        shown=report.shown,
        with_text=report.with_text,
        has_warnings=report.has_warnings,
        charts=charts_of(report) if job.options.get("charts") else [],
    )


def charts_of(report: Report) -> List[Dict[str, Any]]:
    """The charts of the fonts of a report."""
    # imported only if a page is made
    from . import _report

    return _report.charts_of(report)


def run_text(job: Job) -> Result:
    document, lines, objects = Document(job.pdf, lenient=job.lenient, deadline=job.deadline, guesses=job.guesses), [], []
    for number, page in enumerate(job.progress(document.pages), 1):
        of_page = list(document.lines(page, job.exact))
        lines += of_page
        objects.append({"page": number, "text": "\n".join(of_page)})
    fault = fault_in(document.faults)
    return Result(job.path, 2 if fault else 0, lines, objects, fault)


def run_repair(job: Job) -> Result:
    before = {report.font.number: report for report in job.report().fonts}
    try:
        done = repair(job.pdf, signed=job.options.get("signed", False))
    except Signed:
        signed = "it is signed, and its signature would no longer hold: --signed writes it anyway"
        return Result(job.path, 2, fault=signed)
    output, written = job.options["output"], sum(bool(it.kept) for it in done)
    try:
        is_written = write_output(job, output, written)
    except (pikepdf.PdfError, OSError, RuntimeError) as fault:
        return Result(job.path, 2, fault=f"{readable(output)} can't be written: {reason_of(fault)}")
    lines, objects = [], []
    for it in done:
        reports = [before[font.number] for font in it.fonts if font.number in before]
        shown, past = sum(font.shown for font in reports), sum(font.with_text_past_faults for font in reports)
        lines += [*it.lines(), f"ToUnicode {it.number}: of {shown:,} shown codes {past:,} have a text"]
        objects.append({**it.as_json(), "shown": shown, "with_text": past})
    said = f"{written} of {len(done)} ToUnicode CMaps with faults are rewritten" if done else "nothing to repair"
    lines.append(said if written or not is_written else f"{said}, and {readable(output)} is a copy")
    objects.append({"output": readable(output) if is_written else None, "written": written})
    return Result(job.path, int(written < len(done)), lines, objects)


def write_output(job: Job, output: str, written: int) -> bool:
    """Writes the file, or a copy of it if no CMap is rewritten. False if the copy would replace the file itself."""
    if written:
        save(job.pdf, output)
    elif is_among(output, [job.path]):
        return False
    else:
        job.file.seek(0)
        with written_beside(output) as copy:
            shutil.copyfileobj(job.file, copy)
    return True


COMMANDS = {"check": run_check, "fonts": run_fonts, "text": run_text, "repair": run_repair}


def results_of(paths: Iterable[str], command: str, options: Dict[str, Any]) -> Iterator[Result]:
    """The results of a command for each of these files."""
    for path in paths:
        yield run(path, command, options)
