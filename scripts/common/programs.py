"""The programs of the crates, as the scripts run them."""

import subprocess
from pathlib import Path

TOP = Path(__file__).resolve().parents[2]
CRATES = TOP / "crates"


def and_below(crate):
    """A crate and all crates of the repository below it, as crates.txt lists them."""
    lines = [line.partition(":") for line in (TOP / "crates.txt").read_text().splitlines()]
    below = {name.split()[0]: names.split() for name, colon, names in lines if colon}
    found = [crate]
    for name in found:
        found += [other for other in below[name] if other in below and other not in found]
    return found


def program_of(crate, words=()):
    """The program of a crate, which is proved and built if it is missing or old."""
    folder = CRATES / crate
    program = folder / "out" / crate
    sources = [path for name in and_below(crate) for path in (CRATES / name).glob("src/**/*.rt")]
    newest = max(path.stat().st_mtime for path in sources)
    if not program.exists() or program.stat().st_mtime < newest:
        subprocess.run(["rt", "run", *words], cwd=folder, check=True, stdin=subprocess.DEVNULL,
                       stdout=subprocess.DEVNULL)
    return program
