"""Reading of CMap files and the files that they use."""

import contextlib
import ctypes
import sys
from ctypes import c_size_t
from types import MappingProxyType
from typing import TYPE_CHECKING, Awaitable, Callable, Dict, List, Mapping, Optional, Tuple, Union

from ._bundle import Bundle, held
from ._faults import Cause, Reason, Refused, Segment
from ._library import ABSENT, NO_BUDGET, NO_ROOM, OVER_BUDGET, REFUSED, Fault, Handle
from ._owned import Owned, checked, library, put
from ._values import Buffer, Name, bytes_of, name_of, number

if TYPE_CHECKING:
    from ._map import CMap, Salvaged

#: Files by their names, or a callable that gives the file with a name, or None.
Files = Union[
    Mapping[bytes, Buffer], Mapping[str, Buffer], Mapping[Name, Buffer], Callable[[bytes], Optional[Buffer]]
]

#: An asynchronous function that gives the file with a name, or None.
AwaitedFiles = Callable[[bytes], Awaitable[Optional[Buffer]]]

NO_FILES: Files = MappingProxyType({})


def budget_of(budget: Optional[int]) -> int:
    """The budget in the library's form."""
    return NO_BUDGET if budget is None else number(budget, 0, NO_BUDGET, "the budget")


def most_of(most_faults: Optional[int]) -> int:
    """The most faults that are listed."""
    return sys.maxsize if most_faults is None else number(most_faults, 0, 2**32, "most_faults")


@contextlib.contextmanager
def filled(handle: Optional[Handle] = None):
    """A handle that the block fills, or a full one. It is freed if the block raises an exception."""
    handle = handle or Handle()
    try:
        yield handle
    except BaseException:
        library.hayro_cmap_free(handle)
        raise


class Loading(Owned):
    """A loader of a file, which states the name of the file that it wants."""

    _what = "the loader"
    _free = staticmethod(library.hayro_cmap_loader_free)
    _load = staticmethod(library.hayro_cmap_load)

    def __init__(self, data: Buffer, bundle: Optional[Bundle] = None, budget: Optional[int] = None):
        data, most, handle = bytes_of(data), budget_of(budget), Handle()
        with held(bundle) as over:
            checked(self._load(handle, data, len(data), over, most))
        super().__init__(handle)
        self._bundle = bundle

    @property
    def wanted(self) -> Optional[bytes]:
        """The name of the file that is wanted next, or None."""
        with self._held() as handle:
            return put(library.hayro_cmap_wanted, handle)

    def supply(self, file: Optional[Buffer]) -> None:
        """Supplies the wanted file. With None, the file of the bundle counts, and Identity-H and Identity-V need no
        file. Nothing changes if no file is wanted."""
        data = b"" if file is None else bytes_of(file)
        with self._held() as handle, held(self._bundle) as over:
            checked(library.hayro_cmap_supply(handle, over, file is not None, data, len(data)))

    def _supply_from(self, files: Optional[Files]) -> None:
        """Supplies all wanted files from a mapping or a callable."""
        file_of = files if callable(files) else gathered(files).get
        while (name := self.wanted) is not None:
            self.supply(file_of(name))

    async def _await(self, files: AwaitedFiles) -> None:
        """Supplies all wanted files, which are awaited."""
        while (name := self.wanted) is not None:
            self.supply(await files(name))

    def _finished(self, opened: Optional[bytes] = None) -> Handle:
        """The handle of the map, which closes the loader. The files that are still wanted are missing."""
        self._supply_from(None)
        fault, needed, room_len = Fault(), c_size_t(256), 0
        with filled() as cmap:
            while needed.value > room_len:
                room_len = needed.value
                room = ctypes.create_string_buffer(room_len)
                with self._held() as handle:
                    status = library.hayro_cmap_finish(cmap, handle, fault, room, room_len, needed)
                if status not in (REFUSED, OVER_BUDGET):
                    self.close()
                    self._answered(status)
                    return cmap
            raise refusal(fault, room.raw, opened)

    def _answered(self, status: int) -> None:
        """Raises ValueError if another thread has taken the map, MemoryError if memory ran out."""
        if checked(status) == ABSENT:
            raise ValueError(f"{self._what} is closed")


class Loader(Loading):
    """Reads a CMap file as `CMap.parse` does, over files that the caller looks up, in any way and at any time:

        with Loader(data) as loader:
            while (name := loader.wanted) is not None:
                loader.supply(look_up(name))
            cmap = loader.finish()

    Each name is wanted once, in the order in which files are opened, and no name after a fault. Each file is parsed
    once. `CMap.load` is this loop for files that are awaited. Binary files are read with the tables of the bundle.
    """

    def finish(self) -> "CMap":
        """The map, which closes the loader. The caller has none of the files that are still wanted. Raises Refused if
        there is no map."""
        from ._map import CMap

        return CMap(self._finished())


class SalvageLoader(Loading):
    """Reads a CMap file past its faults as `CMap.salvage` does, over files that the caller looks up as for a `Loader`.

    Names are wanted after a fault, too, but none after a chain of more than 16 files. `CMap.load_past_faults` is the
    loop for files that are awaited.
    """

    _load = staticmethod(library.hayro_cmap_load_past_faults)

    def finish(self, most_faults: Optional[int] = None) -> "Salvaged":
        """Gives the map and the first `most_faults` faults, and closes the loader. The caller has none of the files that
        are still wanted."""
        from ._map import CMap, Salvaged

        cmap, faults = self._salvaged(most_of(most_faults))
        return Salvaged(CMap(cmap), faults)

    def _salvaged(self, most: int) -> Tuple[Handle, List[Refused]]:
        """The handle of the map, and the first faults."""
        self._supply_from(None)
        found, needed, faults, names = c_size_t(8), c_size_t(256), [], b""
        while min(found.value, most) > len(faults) or needed.value > len(names):
            faults = (Fault * (min(found.value, most) + 1))()
            names = ctypes.create_string_buffer(needed.value + 1)
            with self._held() as handle:
                found_faults = library.hayro_cmap_found_faults
                self._answered(found_faults(handle, faults, len(faults), found, names, len(names), needed))
        with filled(self._finished()) as cmap:
            return cmap, refusals(faults[: min(found.value, most)], names.raw)


def loaded(
    data: Buffer,
    files: Optional[Files],
    bundle: Optional[Bundle],
    budget: Optional[int],
    opened: Optional[bytes] = None,
) -> Handle:
    """The handle of the map of a file, over the files of a mapping or of a callable. Raises Refused if there is no
    map."""
    with Loader(data, bundle, budget) as loader:
        loader._supply_from(files)
        return loader._finished(opened)


def refusals(faults: List[Fault], names: bytes) -> List[Refused]:
    """The exceptions for faults of the library, whose names are concatenated."""
    lens = [sum(fault.name_lens[: fault.names]) for fault in faults]
    return [refusal(fault, of_fault, None) for fault, of_fault in zip(faults, pieces(names, lens))]


def refusal(fault: Fault, names: bytes, opened: Optional[bytes]) -> Refused:
    """The exception for a fault of the library."""
    lens = fault.name_lens[: fault.names]
    is_malformed = fault.cause == Cause.MALFORMED
    return Refused(
        message=put(library.hayro_cmap_message, fault).decode(),
        cause=Cause(fault.cause),
        names=tuple(pieces(names, lens)),
        offset=fault.offset if is_malformed else None,
        reason=Reason(fault.reason) if is_malformed else None,
        segment=Segment(fault.segment) if fault.segment else None,
        opened=opened,
    )


def no_file(name: bytes) -> Refused:
    """The exception for a name that no file has."""
    fault = Fault(cause=Cause.NO_FILE, names=1)
    fault.name_lens[0] = len(name)
    return refusal(fault, name, None)


def past_budget(name: bytes) -> Refused:
    """The exception for a file with this name that exceeds the budget."""
    return refusal(Fault(cause=Cause.PAST_BUDGET, names=0), b"", name)


def pieces(text: bytes, lens: List[int]) -> List[bytes]:
    """Consecutive pieces of a text, with these lengths."""
    found, start = [], 0
    for length in lens:
        found.append(text[start : start + length])
        start += length
    return found


def uses(data: Buffer, bundle: Optional[Bundle] = None) -> List[bytes]:
    """The names of the files that a CMap file uses, in order. These files aren't read.

    A binary file is read with the tables of the bundle. Raises Refused if the file is malformed.
    """
    data = bytes_of(data)
    names, needed, status = c_size_t(16), c_size_t(512), NO_ROOM
    while status == NO_ROOM:
        lens, room = (c_size_t * names.value)(), ctypes.create_string_buffer(needed.value)
        with held(bundle) as over:
            status = library.hayro_cmap_uses(data, len(data), over, lens, len(lens), names, room, len(room), needed)
    if checked(status) == REFUSED:
        Loader(data, bundle).finish()
    return pieces(room.raw, lens[: names.value])


def gathered(files: Optional[Mapping]) -> Dict[bytes, bytes]:
    """All files of a mapping; none for None. Raises TypeError for any other object."""
    found: Dict[bytes, bytes] = {}
    if files is not None and not hasattr(files, "items"):
        raise TypeError(f"files are a mapping from names or a callable, and not {type(files).__name__}")
    for name, file in ({} if files is None else files).items():
        found.setdefault(name_of(name), bytes_of(file))
    return found


def names_in(data: bytes, bundle: Optional[Bundle]) -> List[bytes]:
    """The names that a file uses; none if it is malformed, which its parsing reports."""
    try:
        return uses(data, bundle)
    except Refused:
        return []
