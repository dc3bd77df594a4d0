"""A limit for the steps of the package."""

import contextlib
import sys


class TooManySteps(AssertionError):
    """A block runs more lines than it may."""


@contextlib.contextmanager
def limited(most):
    """TooManySteps where the block runs more lines of the package than `most`."""
    count = 0

    def of_line(frame, event, _):
        nonlocal count
        count += event == "line"
        if count > most:
            raise TooManySteps(f"more than {most:,} lines")
        return of_line

    def of_call(frame, event, _):
        return of_line if frame.f_globals.get("__name__", "").startswith("hayro_cmap") else None

    before = sys.gettrace()
    sys.settrace(of_call)
    try:
        yield
    finally:
        sys.settrace(before)
