"""The predefined CMap files of the system."""

import collections
import os
import threading
from typing import Any, Callable, Dict, Iterator, List, NamedTuple, Optional, Tuple

from ._values import Name, name_of

#: The environment variables that list the folders. The first variable that is set counts.
VARIABLES = ("HAYRO_CMAP_PATH", "CMAP_PATH")

#: The folders of poppler-data, Ghostscript and the packages cmap-adobe-*. Their files may be in subfolders.
SYSTEM_FOLDERS = ("/usr/share/poppler/cMap", "/var/lib/ghostscript/CMap", "/usr/share/fonts/cmap")


def predefined(name: Name) -> Optional[bytes]:
    """The predefined CMap file with a name, such as 90ms-RKSJ-H; None if the system has no such file.

    The file is looked up in the folders that the environment variable HAYRO_CMAP_PATH lists, separated by colons
    (semicolons on Windows). If this variable isn't set, CMAP_PATH lists the folders; other programs may give CMAP_PATH
    another meaning. If neither is set, the folders of Linux packages with these files are searched. A folder's own
    files precede the files of its subfolders. No name leads out of these folders, to a hidden file, or into a hidden
    subfolder. Raises OSError if the file exists and can't be read.
    """
    path = path_of(name_of(name))
    if path is None:
        return None
    with open(path, "rb") as file:
        return file.read()


def path_of(name: bytes) -> Optional[bytes]:
    """The path of the predefined CMap file with a name, or None."""
    return next((path for path in places(name) if os.path.isfile(path)), None)


def beside(bundle) -> Callable[[bytes], Optional[bytes]]:
    """Gives the predefined CMap files that a bundle doesn't have, or all of them without a bundle."""

    def file_of(name: bytes) -> Optional[bytes]:
        in_bundle = bundle is not None and bundle.file(name) is not None
        return None if in_bundle else predefined(name)

    return file_of


class Opened(NamedTuple):
    """A map that was opened by its name, and the state of its files at that time."""

    cmap: Any
    #: For each requested name, the path, the time, the length and the inode number of the file; None without a file.
    stamps: Dict[bytes, Optional[Tuple]]


class Kept:
    """A cache of the last opened maps of predefined CMaps. A map is valid while its files stay unchanged."""

    MOST = 32

    def __init__(self):
        self._opened: "collections.OrderedDict[bytes, Opened]" = collections.OrderedDict()
        # a signal handler may open a map while its thread has the lock
        self._lock = threading.RLock()

    def of(self, name: bytes, opened: Callable):
        """The map of a name: another handle of the cached map, or otherwise the result of `opened`."""
        with self._lock:
            kept = self._opened.get(name)
        if kept is not None and all(stamp(asked) == found for asked, found in kept.stamps.items()):
            return kept.cmap.share()
        stamps: Dict[bytes, Optional[Tuple]] = {}

        def file_of(asked):
            stamps[asked] = stamp(asked)
            return predefined(asked)

        cmap = opened(file_of)
        with self._lock:
            self._opened.pop(name, None)
            self._opened[name] = Opened(cmap.share(), stamps)
            while len(self._opened) > self.MOST:
                self._opened.popitem(last=False)
        return cmap


def stamp(name: bytes) -> Optional[Tuple]:
    """The file that a name stands for: its path, time, length and inode number; None if there is no file."""
    path = path_of(name)
    try:
        it = None if path is None else os.stat(path)
    except OSError:
        return None
    return None if it is None else (path, it.st_mtime_ns, it.st_size, it.st_ino)


def places(name: bytes) -> Iterator[bytes]:
    """The paths at which the file with a name may be."""
    if not name or name.startswith(b".") or b"/" in name or b"\0" in name:
        return
    for folder in folders():
        yield os.path.join(folder, name)
        for subfolder in subfolders(folder):
            yield os.path.join(subfolder, name)


def subfolders(folder: bytes) -> List[bytes]:
    """The subfolders of a folder that aren't hidden, in order; none if the folder can't be read."""
    try:
        with os.scandir(folder) as entries:
            return sorted(
                entry.path
                for entry in entries
                if not entry.name.startswith(b".") and entry.is_dir(follow_symlinks=False)
            )
    except OSError:
        return []


def folders() -> List[bytes]:
    """The folders in which files are looked up."""
    asked = next((os.environ[name] for name in VARIABLES if name in os.environ), None)
    given = SYSTEM_FOLDERS if asked is None else asked.split(os.pathsep)
    return [os.fsencode(folder) for folder in given if folder]
