"""Sources of CMaps, in a form that can be pickled."""

from typing import NamedTuple, Optional

from ._map import CMap, Salvaged
from ._predefined import predefined
from ._reading import Files

#: The predefined CMaps that need no files.
IDENTITIES = {b"Identity-H": False, b"Identity-V": True}


class CMapSource(NamedTuple):
    """The source of a CMap of a PDF file: the name of a predefined CMap, or the bytes of a stream, with the source of
    its entry UseCMap as `base`. Unlike a map, it can be pickled and compared."""

    name: Optional[bytes] = None
    data: Optional[bytes] = None
    base: Optional["CMapSource"] = None
    #: The object number of a stream.
    number: int = 0
    #: The reason why a stream can't be decoded.
    unreadable: Optional[str] = None

    def open(self) -> CMap:
        """The map. Raises Refused if the CMap is malformed or missing, ValueError if the stream can't be decoded."""
        if self.name is not None:
            return opened(self.name)
        return CMap.parse(self._bytes(), self.files, base=None if self.base is None else self.base.open())

    def salvage(self, most_faults: Optional[int] = None) -> Salvaged:
        """The map of a stream that is read past its faults, and these faults, without the faults of its base."""
        if self.name is not None:
            return Salvaged(opened(self.name), [])
        base = None if self.base is None else self.base.salvage(0).cmap
        return CMap.salvage(self._bytes(), self.files, base=base, most_faults=most_faults)

    @property
    def files(self) -> Optional[Files]:
        """The files that a stream may use: none without the operator `usecmap`."""
        return predefined if self.data is not None and b"usecmap" in self.data else None

    def _bytes(self) -> bytes:
        if self.data is None:
            raise ValueError(self.unreadable or "the source has neither a name nor data")
        return self.data


def opened(name: bytes) -> CMap:
    """The predefined CMap with a name."""
    return CMap.identity(IDENTITIES[name]) if name in IDENTITIES else CMap.open(name)
