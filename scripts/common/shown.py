"""The command lines that pages show, with their output."""

import re
from dataclasses import dataclass

SHOWN = re.compile(r"^    \$ (.*)\n((?:    (?!\$ ).*\n)*)", re.MULTILINE)


@dataclass
class Shown:
    """A command line, and the output that the page shows below it."""

    line: str
    printed: str

    def is_printed(self, output):
        """Whether an output is the shown output; a last line `...` stands for any rest."""
        if self.printed.endswith("...\n"):
            return output.startswith(self.printed.removesuffix("...\n"))
        return output == self.printed


def shown_in(page):
    """The command lines of a page."""
    for line, printed in SHOWN.findall(page.read_text()):
        yield Shown(line, re.sub("^    ", "", printed, flags=re.MULTILINE))
