"""The CMap resources of Debian's package poppler-data."""

import subprocess
from pathlib import Path

RESOURCES = Path("/usr/share/poppler/cMap")


def install():
    """Installs the package, unless its resources are there."""
    if not RESOURCES.is_dir():
        subprocess.run(["apt-get", "update"], check=True)
        subprocess.run(["apt-get", "install", "--yes", "poppler-data"], check=True)


def resources():
    """The paths of all resources, in order."""
    return sorted(path for path in RESOURCES.rglob("*") if path.is_file())
