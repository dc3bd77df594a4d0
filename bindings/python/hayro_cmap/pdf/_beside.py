"""Replacement of a file by a file that is written beside it, so that a path always has a complete file."""

import contextlib
import errno
import os
import stat
from typing import BinaryIO, Iterator, Optional, Tuple, Union

#: The number of names that are tried for a new file.
MOST_TRIES = 100

#: The permissions of a file at a new path, before the umask is applied.
NEW_PERMISSIONS = 0o666


@contextlib.contextmanager
def written_beside(path: Union[str, "os.PathLike[str]"]) -> Iterator[BinaryIO]:
    """A new file that replaces the file at a path when the block ends, with the permissions of the old file. If the
    block raises an exception, the new file is removed, and the old file stays unchanged.

    If the path is a link, the link stays, and the file to which it leads is replaced. Raises OSError if the path isn't
    a regular file.
    """
    place = os.fsdecode(os.path.realpath(path))
    permissions = permissions_of(place)
    new, file = created_beside(place, NEW_PERMISSIONS if permissions is None else permissions)
    try:
        with file:
            if permissions is not None:
                os.fchmod(file.fileno(), permissions)
            yield file
        os.replace(new, place)
    except BaseException:
        with contextlib.suppress(OSError):
            os.remove(new)
        raise


def try_beside(path: Union[str, "os.PathLike[str]"]) -> None:
    """Makes and removes a file beside a path. Raises OSError if `written_beside` can't write a file there."""
    place = os.fsdecode(os.path.realpath(path))
    permissions_of(place)
    new, file = created_beside(place, NEW_PERMISSIONS)
    file.close()
    os.remove(new)


def permissions_of(place: str) -> Optional[int]:
    """The permissions of the file at a path; None if there is no file. Raises OSError if it isn't a regular file."""
    try:
        mode = os.stat(place).st_mode
    except FileNotFoundError:
        return None
    if not stat.S_ISREG(mode):
        raise OSError(errno.EEXIST, "not a regular file", place)
    return mode & 0o777


def created_beside(place: str, permissions: int) -> Tuple[str, BinaryIO]:
    """Makes a new file beside a path, and returns its path and the file."""
    for number in range(MOST_TRIES):
        new = f"{place}.new-{number}"
        with contextlib.suppress(FileExistsError):
            return new, open(new, "xb", opener=lambda path, flags: os.open(path, flags, permissions))
    raise FileExistsError(errno.EEXIST, "all names for a file beside it are taken", place)
