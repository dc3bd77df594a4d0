"""CMap files over a base that is passed in, such as the entry UseCMap of a stream in a PDF file gives."""

from typing import Any, List, Optional, Tuple, Type

from ._bundle import Bundle
from ._faults import Refused
from ._reading import NO_FILES, Files, names_in
from ._values import bytes_of

#: The name of the base, and the operator that uses it, for a file that uses no base.
NAME = b"UseCMap"
USE = b"/" + NAME + b" usecmap\n"


class Base:
    """Gives the same file for every name, and keeps the last requested name."""

    def __init__(self, data: bytes):
        self.data = data
        self.asked: Optional[bytes] = None

    def __call__(self, name: bytes) -> bytes:
        self.asked = name
        return self.data


def parsed(kind: Type, data, base, files: Optional[Files] = NO_FILES, bundle: Optional[Bundle] = None, budget=None):
    """The map of a file over a base, which is a map or the bytes of a file."""
    given = Base(strict_file(kind, base, files, bundle, budget))
    cmap = kind.parse(data, given, bundle, budget)
    if given.asked is not None:
        return cmap
    return kind.parse(over_base(cmap, bytes_of(data), bundle), given, bundle, with_use(budget))


def strict_file(kind: Type, base, files: Optional[Files], bundle: Optional[Bundle], budget) -> bytes:
    """The base as a single file that uses no other file."""
    if isinstance(base, kind):
        return base.write()
    base = bytes_of(base)
    return kind.parse(base, files, bundle, budget).write() if names_in(base, bundle) else base


def salvaged(
    kind: Type, data, base, files: Optional[Files] = NO_FILES, bundle: Optional[Bundle] = None, budget=None, most=None
):
    """The map of a file over a base, both read past their faults, and these faults, at most `most` of each file."""
    file, of_base = salvaged_file(kind, base, files, bundle, budget, most)
    given = Base(file)
    cmap, faults = kind.salvage(data, given, bundle, budget, most_faults=most)
    name = given.asked or NAME
    if given.asked is None:
        whole = over_base(cmap, bytes_of(data), bundle)
        cmap, _ = kind.salvage(whole, given, bundle, with_use(budget), most_faults=most)
    return cmap, faults + [below(name, fault) for fault in of_base]


def salvaged_file(
    kind: Type, base, files: Optional[Files], bundle: Optional[Bundle], budget, most
) -> Tuple[bytes, List[Refused]]:
    """The base as a single file that uses no other file, read past its faults, and these faults."""
    if isinstance(base, kind):
        return base.write(), []
    # whether there is a fault counts, also if none is to be listed
    cmap, faults = kind.salvage(base, files, bundle, budget, most_faults=None if most is None else max(most, 1))
    is_alone = not faults and len(cmap.layers) == 1
    return bytes_of(base) if is_alone else cmap.write(), faults[:most]


def over_base(cmap: Any, data: bytes, bundle: Optional[Bundle]) -> bytes:
    """The file of this map, which uses no base, changed so that it uses the base."""
    is_binary = bundle is not None and data[:5] == b"bcmap"
    return USE + (cmap.write() if is_binary else data)


def with_use(budget: Optional[int]) -> Optional[int]:
    """The budget with the operator that uses the base, from the budget without it."""
    return None if budget is None else budget + len(USE)


def below(name: bytes, fault: Refused) -> Refused:
    """A fault of the base, reported for the file that uses the base by this name."""
    message, cause, names, *rest = fault.args
    return type(fault)(message, cause, (name, *names), *rest)
