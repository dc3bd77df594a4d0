"""Behaviour that differs if `python3 -m` runs the package, and no other module imports it."""

import contextlib
import gc
import signal
import sys

#: The packages whose frames are skipped in the search for the importing module.
IMPORTERS = ("importlib", __name__.partition(".")[0])

#: The number of new objects after which the garbage collector runs.
OBJECTS_OF_LOOK = 20_000


def is_run() -> bool:
    """Whether `python3 -m` imports the modules."""
    frame = sys._getframe()
    while frame is not None and name_of(frame).partition(".")[0] in IMPORTERS:
        frame = frame.f_back
    return frame is not None and name_of(frame) == "runpy"


def name_of(frame) -> str:
    """The name of the module that a frame runs."""
    return frame.f_globals.get("__name__", "")


def missing(text: str) -> ImportError:
    """The exception for a missing dependency of the package. Under `python3 -m` the program ends with one line instead,
    since the exception would be printed with its traceback."""
    if is_run():
        print(f"hayro_cmap: {text}", file=sys.stderr)
        sys.exit(2)
    return ImportError(text)


def end_on_interrupt() -> None:
    """While `python3 -m` imports modules, an interrupt ends the program without a traceback."""
    # another handler stays, and only the main thread may set a handler
    if is_run() and signal.getsignal(signal.SIGINT) is signal.default_int_handler:
        with contextlib.suppress(ValueError):
            signal.signal(signal.SIGINT, signal.SIG_DFL)


def begin_to_import() -> None:
    """Stops the garbage collector while `python3 -m` imports modules, whose objects stay anyway."""
    if is_run():
        gc.disable()


def end_to_import() -> None:
    """Restarts the garbage collector, which now ignores imported objects: forked processes share their memory. It runs
    seldom, since few objects form reference cycles."""
    gc.freeze()
    gc.set_threshold(OBJECTS_OF_LOOK)
    gc.enable()


def raise_on_interrupt() -> None:
    """From here on, an interrupt raises KeyboardInterrupt again."""
    if signal.getsignal(signal.SIGINT) is signal.SIG_DFL:
        signal.signal(signal.SIGINT, signal.default_int_handler)
