"""Requests for memory that are refused in turn: each program then ends with a message and a status."""

from .checks import Failed, needs, run
from .known import DECLARED, MADE_OF, WRITTEN_FOR, declaring_file, to_unicode_file
from .library import C_MEMORY, EXAMPLES, TOP

# the last request to refuse if all later requests are refused
ALL = 10**9
# more requests than a program has
MOST = 5000


def refuser(work):
    """Builds the library that refuses requests; gives its path."""
    path = work / "refuse-memory.so"
    ran = run("gcc", "-shared", "-fPIC", "-O2", "-o", path, TOP / "scripts" / "refuse-memory.c")
    if ran.status != 0:
        raise Failed(f"refuse-memory.c isn't built: {ran.err}")
    return path


def run_refusing(setting, first, last, command):
    """Runs a program with these requests refused; gives how it ended, and whether any was."""
    refusing = [f"LD_PRELOAD={setting.once(refuser)}", f"REFUSED_FROM={first}", f"REFUSED_TO={last}"]
    reports = setting.work / "reports"
    ran = run("sh", "-c", 'exec 3>"$0" env "$@"', reports, *refusing, *command)
    return ran, "m" in reports.read_text()


def refuse_each(checks, setting, what, command, answer):
    """Refuses the first, second, .. request, alone and with all later requests, up to the last request."""
    for first in range(1, MOST):
        for last in [first, ALL]:
            ran, is_refused = run_refusing(setting, first, last, command)
            which = f"{what}: request {first} refused{'' if last == first else ' and all after it'}"
            check_end(checks, which, ran, answer)
        if not is_refused:
            checks.holds(f"{what}: the requests", first > 1, "none was refused")
            print(f"{what}: {first - 1} requests for memory, each refused", flush=True)
            return
    raise Failed(f"{what}: more than {MOST} requests for memory")


def check_end(checks, which, ran, answer):
    """A program gives its answer, or a message with status 1 and no wrong line."""
    has_failed = ran.status == 1 and bool(ran.err.strip()) and answer.startswith(ran.out)
    expected = f"expected the output {answer!r}, or status 1 with a message and what the output begins with"
    checks.holds(which, has_failed or (ran.status, ran.out) == (0, answer), f"{expected}, found {ran}")


@needs("gcc", "g++")
def test_c_and_cpp_decode_without_memory(checks, setting):
    """A map over a base, and texts, of small files."""
    for language, name in [("C", "decode.c"), ("C++", "decode.cc")]:
        program = setting.programs.path(EXAMPLES / name)
        command = [program, setting.files[0].folder, "UniJIS-UTF16-V", "3042FF08"]
        refuse_each(checks, setting, language, command, "<3042> 843 あ\n<FF08> 7899 （\n")


@needs("gcc")
def test_c_reads_a_bundle_without_memory(checks, setting):
    """A bundle of small files."""
    word = "90ms-RKSJ-H:2:93FA"
    command = [setting.programs.path(EXAMPLES / "bundle.c"), setting.files[0].bundle, word]
    refuse_each(checks, setting, "bundle.c", command, f"{word} 3284\n")


@needs("gcc")
def test_c_threads_without_memory(checks, setting):
    """Four threads over a small file."""
    command = [setting.programs.path(EXAMPLES / "threads.c"), setting.files[0].folder / "UniJIS-UTF16-H"]
    refuse_each(checks, setting, "threads.c", command, f"{setting.files[0].count}\n" * 4)


@needs("gcc")
def test_c_reads_past_faults_without_memory(checks, setting):
    """A file over another one, both at fault; the warnings of a third one; and files that are loaded."""
    command = [setting.programs.path(C_MEMORY)]
    refuse_each(checks, setting, "memory.c", command, "3 faults, CID 5\n3 warnings\nCID 7\n3 faults, CID 5\n")


@needs("gcc")
def test_c_lists_declarations_without_memory(checks, setting):
    """A small file, and the codes of two CIDs."""
    command = [setting.programs.path(EXAMPLES / "declared.c"), setting.once(declaring_file), "7", "34"]
    refuse_each(checks, setting, "declared.c", command, DECLARED)


@needs("gcc")
def test_c_makes_a_file_without_memory(checks, setting):
    """The texts of a few codes."""
    command = [setting.programs.path(EXAMPLES / "to_unicode.c"), *MADE_OF]
    refuse_each(checks, setting, "to_unicode.c", command, run(*command).out)


@needs("gcc")
def test_c_writes_a_file_for_some_codes_without_memory(checks, setting):
    """A small file, for a few codes of one and of two bytes."""
    command = [setting.programs.path(EXAMPLES / "subset.c"), setting.once(declaring_file), *WRITTEN_FOR]
    refuse_each(checks, setting, "subset.c", command, run(*command).out)


@needs("gcc")
def test_c_encodes_a_text_without_memory(checks, setting):
    """A small ToUnicode CMap."""
    command = [setting.programs.path(EXAMPLES / "encode.c"), setting.once(to_unicode_file), "Rxffi", "é"]
    refuse_each(checks, setting, "encode.c", command, "000100020003\n")
