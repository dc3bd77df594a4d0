"""The exceptions of the package, and the reasons for which a file is refused."""

import bisect
import enum
import functools
import re
from typing import List, Optional, Tuple

from ._library import Fault
from ._owned import library
from ._values import Buffer, bytes_of, shown


class Cause(enum.IntEnum):
    """The kind of the fault of a file."""

    MALFORMED = 1
    """It doesn't follow the grammar."""
    NO_FILE = 2
    """No file has its name."""
    CHAIN_LENGTH = 3
    """It would be the seventeenth file in a chain of files that use each other."""
    PAST_BUDGET = 4
    """It exceeds the rest of the budget."""


class Reason(enum.IntEnum):
    """The reason why the reading of a malformed file stopped at a place."""

    END_WITHIN_SECTION = 2
    CODE_EXPECTED = 3
    CODE_LENGTH = 4
    UNEQUAL_LENGTHS = 5
    CID_EXPECTED = 6
    TEXT_EXPECTED = 7
    BRACKET_EXPECTED = 8
    USE_WITHOUT_NAME = 9
    HEADER = 10
    SEGMENT_LENGTH = 11
    SEGMENT_TYPE = 12
    FIELD = 13
    ENTRY = 14
    CODE_TOO_LARGE = 15
    CID_TOO_LARGE = 16
    UNCLOSED_STRING = 17
    WRONG_DIGIT = 18
    STRAY_DELIMITER = 19


class Segment(enum.IntEnum):
    """A segment of a binary file, by its contents."""

    CIDS = 1
    TEXTS = 2
    NOTDEFS = 3
    MODE = 4
    CODESPACES = 5
    COLLECTION = 6


class ReadAs(enum.IntEnum):
    """How a part at fault is read, if its meaning is clear."""

    EMPTY_TEXT = 1
    """An empty string in place of a text is read as the text without units."""
    EXTENDED_CODE = 2
    """The second code of a codespace range is longer than the first code, which gets leading bytes 0."""

    @property
    def words(self) -> str:
        """The same in English, for use after "read as"."""
        return "the empty text" if self is ReadAs.EMPTY_TEXT else "a range whose first code has leading bytes 0"


#: The end of a line of a text.
LINE_END = re.compile(rb"\r\n?|\n")


class Lines:
    """The ends of the lines of a text. A binary file has no lines."""

    def __init__(self, data: bytes):
        self._data = data

    @functools.cached_property
    def _ends(self) -> Optional[List[int]]:
        """The offsets at which lines end, found on first use."""
        return None if self._data[:5] == b"bcmap" else [it.start() for it in LINE_END.finditer(self._data)]

    def line(self, offset: Optional[int]) -> Optional[int]:
        """The line of an offset: one more than the line ends before it."""
        return None if offset is None or self._ends is None else 1 + bisect.bisect_left(self._ends, offset)


class Refused(ValueError):
    """A file, or a file that it uses, is malformed or missing, or exceeds a limit. The message names the file and the
    reason."""

    def __init__(
        self,
        message: str,
        cause: Cause,
        names: Tuple[bytes, ...] = (),
        offset: Optional[int] = None,
        reason: Optional[Reason] = None,
        segment: Optional[Segment] = None,
        opened: Optional[bytes] = None,
    ):
        super().__init__(message, cause, names, offset, reason, segment, opened)
        #: The library's message in English.
        self.message = message
        #: The kind of the fault.
        self.cause = cause
        #: The names that lead to the file at fault, each used by the file before it; empty for the first file.
        self.names = names
        #: The offset in bytes at which the reading of a malformed file stopped; otherwise None.
        self.offset = offset
        #: The reason at this offset; None if the file isn't malformed.
        self.reason = reason
        #: The segment of a binary file at this offset; otherwise None.
        self.segment = segment
        #: The name by which the first file was opened, if it was.
        self.opened = opened

    @property
    def words(self) -> str:
        """The message without the offset at its beginning."""
        start = f"byte {self.offset}: "
        return self.message[len(start) :] if self.message.startswith(start) else self.message

    def line(self, data: Buffer) -> Optional[int]:
        """The line of the offset in `data`, the bytes of the file at fault: one more than the line ends before it.

        A line ends with LF, CR or CRLF. None for a binary file, and for one that isn't malformed.
        """
        return Lines(bytes_of(data)).line(self.offset)

    def read_as(self, data: Buffer) -> Optional[ReadAs]:
        """How the part at fault is read if `data`, the bytes of the file at fault, is read past this fault.

        None if the part is lost, or if the bytes before the fault don't determine it, such as for a string that begins
        a line.
        """
        if self.reason is None:
            return None
        file = bytes_of(data)
        fault = Fault(cause=self.cause, reason=self.reason, segment=self.segment or 0, offset=self.offset)
        number = library.hayro_cmap_read_as(fault, file, len(file))
        return ReadAs(number) if number else None

    def __str__(self) -> str:
        at_fault = self.names[-1] if self.names else self.opened
        return self.message if at_fault is None else f"{shown(at_fault)}: {self.message}"


class NotABundle(ValueError):
    """The bytes aren't a bundle."""


class Unencodable(ValueError):
    """A text that can't be encoded in a font."""

    def __init__(self, text: str, offset: int):
        super().__init__(text, offset)
        #: The text.
        self.text = text
        #: `text[:offset]` is the longest prefix that can be encoded.
        self.offset = offset

    def __str__(self) -> str:
        return f"{self.text!r} can't be encoded from index {self.offset} on"


class NotWritable(ValueError):
    """No CMap file can express the map, or the name."""
