"""CMap files, which map the character codes of a composite font to CIDs and to Unicode text.

    import hayro_cmap

    with hayro_cmap.CMap.open("90ms-RKSJ-H") as cmap:
        print([code.cid for code in cmap.decode(bytes.fromhex("93FA967B8CEA"))])

An `Extractor` converts the strings of a font to texts, and texts to strings. `to_unicode`, `CMapWriter` and
`CMap.write` write CMap files.

Files may be untrusted: each call returns on any bytes. A file that isn't accepted raises `Refused`. MemoryError is
raised if memory runs out. The package calls the C library of this project: the file that the environment variable
HAYRO_CMAP_LIBRARY names, otherwise the file in this package's folder, otherwise the system's library.
"""

from ._bundle import Bundle
from ._effective import TextRun
from ._encoder import Grade, Piece
from ._extractor import Character, Extractor
from ._faults import Cause, NotABundle, NotWritable, ReadAs, Reason, Refused, Segment, Unencodable
from ._folder import folder
from ._folding import fold
from ._lint import Finding
from ._map import CidRange, CMap, Code, CodeRange, Codespace, Layer, Metadata, Salvaged, TextRange, WritingMode
from ._owned import library, put
from ._predefined import predefined
from ._reading import Loader, SalvageLoader, uses
from ._source import CMapSource
from ._writer import CMapWriter, to_unicode

__all__ = [
    "Bundle",
    "CMap",
    "CMapSource",
    "CMapWriter",
    "Cause",
    "Character",
    "CidRange",
    "Code",
    "CodeRange",
    "Codespace",
    "Extractor",
    "Finding",
    "Grade",
    "Layer",
    "Loader",
    "Metadata",
    "NotABundle",
    "NotWritable",
    "Piece",
    "ReadAs",
    "Reason",
    "Refused",
    "SalvageLoader",
    "Salvaged",
    "Segment",
    "TextRange",
    "TextRun",
    "Unencodable",
    "WritingMode",
    "fold",
    "folder",
    "predefined",
    "to_unicode",
    "uses",
]

#: The version of the library.
__version__: str = put(library.hayro_cmap_version).decode()
