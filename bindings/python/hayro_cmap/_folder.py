"""Files in folders, read when they are requested."""

import os
from typing import Callable, Dict, Optional, Union

from ._values import Name, name_of

Path = Union[str, "os.PathLike[str]"]


def folder(*paths: Path) -> Callable[[Name], Optional[bytes]]:
    """Gives the files in these folders and their subfolders, each read when it is requested by name.

    Only files that existed when the folders were listed are found, and no file outside of the folders. Hidden files and
    subfolders, whose names begin with a dot, are skipped. If several files have a name, the first folder has
    precedence, and within a folder the first path. Raises OSError if a folder can't be read.
    """
    found: Dict[bytes, bytes] = {}
    for path in paths:
        for file in sorted(files_below(os.fsencode(path))):
            found.setdefault(os.path.basename(file), file)

    def file_of(name: Name) -> Optional[bytes]:
        path = found.get(name_of(name))
        if path is None:
            return None
        with open(path, "rb") as file:
            return file.read()

    return file_of


def raised(fault):
    """Raises the OSError of a folder that can't be read."""
    raise fault


def files_below(path, failed=raised):
    """The paths of all files in a folder and its subfolders, except hidden ones. A link to a folder isn't followed. If
    a folder can't be read, `failed` is called with the OSError."""
    for below, subfolders, names in os.walk(path, onerror=failed):
        # os.walk descends into the subfolders that remain
        subfolders[:] = seen(subfolders)
        for name in seen(names):
            file = os.path.join(below, name)
            if os.path.isfile(file):
                yield file


def seen(names):
    """The names that aren't hidden."""
    return [name for name in names if not name.startswith(b".")]
