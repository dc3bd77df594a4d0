"""Handles of the library, and helpers for its calls."""

import contextlib
import ctypes
import threading
from typing import Optional, TypeVar

from ._library import NO_MEMORY, NO_ROOM, OK, Handle, load

library = load()

Self = TypeVar("Self", bound="Owned")


def checked(status):
    """The status of a call. Raises MemoryError if memory ran out."""
    if status == NO_MEMORY:
        raise MemoryError("out of memory")
    return status


def put(call, *arguments, room_len=64):
    """The bytes that a call writes to a buffer, which is passed in its last three parameters; None without an
    answer."""
    needed, status = ctypes.c_size_t(room_len), NO_ROOM
    while status == NO_ROOM:
        room = ctypes.create_string_buffer(needed.value)
        status = checked(call(*arguments, room, len(room), needed))
    return room.raw[: needed.value] if status == OK else None


class Owned:
    """A handle of the library. One call at a time uses it, and it is freed once."""

    _what = "the handle"
    _made_by = ""
    _free = None

    def __init__(self, handle: Optional[Handle] = None):
        if not isinstance(handle, Handle):
            raise TypeError(f"{self._what} is made by {self._made_by}")
        self._handle = handle
        # a signal handler runs in the thread that it interrupts, which would wait for itself at a plain lock
        self._lock = threading.RLock()
        self._is_held = False

    @contextlib.contextmanager
    def _held(self):
        """The handle, for this thread alone. Raises ValueError if it is closed, RuntimeError if this thread holds
        it."""
        with self._lock:
            handle, self._is_held = self._free_handle(), True
            try:
                yield handle
            finally:
                self._is_held = False

    def _ask(self, call, *arguments):
        """The result of a call whose first parameter is the handle."""
        with self._lock:
            return call(self._free_handle(), *arguments)

    def _free_handle(self):
        """The handle, if no call uses it. The caller holds the lock."""
        if self._is_held:
            raise RuntimeError(f"{self._what} is in use by this thread")
        if self._handle is None:
            raise ValueError(f"{self._what} is closed")
        return self._handle

    def close(self):
        """Frees it, unless other handles share it. Later use raises ValueError, except a second `close`."""
        with self._lock:
            if self._is_held:
                raise RuntimeError(f"{self._what} is in use by this thread")
            handle, self._handle = self._handle, None
        if handle is not None:
            type(self)._free(handle)

    def __enter__(self: Self) -> Self:
        with self._held():
            return self

    def __exit__(self, *_) -> None:
        self.close()

    def __del__(self):
        if hasattr(self, "_lock"):
            self.close()

    def __reduce__(self):
        raise TypeError(f"{self._what} can't be copied or pickled")


class Shared(Owned):
    """A handle of an object that other handles may share."""

    _share = None

    def share(self):
        """Another handle of the same object, for lookups in another thread at the same time. Nothing is copied."""
        other = Handle()
        checked(self._ask(type(self)._share, other))
        return type(self)(other)

    def __reduce__(self):
        raise TypeError(f"{self._what} can't be copied or pickled: share() gives another handle")
