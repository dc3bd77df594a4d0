"""Objects of PDF files. Names and keys are bytes, which may be invalid UTF-8."""

import re
import zlib
from typing import Any, List, Optional

import pikepdf
from pikepdf.models import PdfParsingError

from ._limits import Deadline, is_memory

#: The maximum number of bytes of a decoded stream, and of all decoded streams of a file.
MOST_OF_STREAM = 1 << 26
MOST_OF_FILE = 1 << 31

#: The assumed ratio of decoded to raw bytes, if pikepdf decodes the filters of a stream.
MOST_TIMES = 16

#: The filter that is decoded up to a limit, and its two names.
DEFLATED = pikepdf.Name.FlateDecode
FLATE = (["FlateDecode"], ["Fl"])

#: The exceptions of pikepdf for malformed objects.
MALFORMED = (pikepdf.PdfError, PdfParsingError, RuntimeError, ValueError, TypeError, KeyError)

ESCAPED = re.compile(rb"#([0-9A-Fa-f]{2})")


class TooLarge(ValueError):
    """The decoded streams of a file have too many bytes, the file has too many fonts, or a CMap to rewrite has texts
    for too many codes."""


class Undecodable(ValueError):
    """A stream can't be decoded."""


class Streams:
    """Decodes the streams of a file. Each stream and all streams together have a limit, and there is a deadline."""

    def __init__(
        self,
        most_of_stream: int = MOST_OF_STREAM,
        most_of_file: int = MOST_OF_FILE,
        *,
        deadline: Optional[Deadline] = None,
    ):
        self._most, self._left = most_of_stream, most_of_file
        self._deadline = Deadline(None) if deadline is None else deadline

    def decoded(self, stream: pikepdf.Stream) -> bytes:
        """The bytes of a stream. Raises TooLarge if they exceed a limit, Undecodable if they can't be decoded, TooLong
        if the deadline is over."""
        self._deadline.check()
        most = min(self._most, self._left)
        try:
            data = decoded(stream, most)
        except (pikepdf.PdfError, pikepdf.DataDecodingError, RuntimeError) as fault:
            if is_memory(fault):
                raise MemoryError from fault
            raise Undecodable(f"a stream can't be decoded: {fault}") from fault
        if len(data) > most:
            raise TooLarge(f"a stream has more than {most:,} bytes")
        self._left -= len(data)
        return data


def decoded(stream: pikepdf.Stream, most: int) -> bytes:
    """The bytes of a stream. If there are more than `most`, the result may be cut after `most` + 1 bytes."""
    raw = stream.read_raw_bytes()
    filters = filters_of(stream)
    if not filters:
        return raw
    if filters in FLATE and "/DecodeParms" not in stream:
        try:
            return zlib.decompressobj().decompress(raw, most + 1)
        except zlib.error:
            pass  # pikepdf may be able to decode them
    if len(raw) > most // MOST_TIMES:
        raise TooLarge(f"a stream has {len(raw):,} bytes before it is decoded")
    return stream.read_bytes()


def filters_of(stream: pikepdf.Stream) -> List[str]:
    """The names of the filters of a stream."""
    it = stream.get("/Filter")
    if it == DEFLATED:
        return FLATE[0]
    if isinstance(it, pikepdf.Name):
        return [text_of(it)]
    listed = list(it) if isinstance(it, pikepdf.Array) else []
    return [text_of(name) for name in listed if isinstance(name, pikepdf.Name)]


def bytes_of(name: pikepdf.Name) -> bytes:
    """The bytes of a name, without the slash before it."""
    return unescaped(name.unparse(resolved=True)[1:])


def unescaped(written: bytes) -> bytes:
    """The bytes of a name from its written form without the slash."""
    return ESCAPED.sub(lambda digits: bytes.fromhex(digits[1].decode()), written) if b"#" in written else written


def text_of(name: pikepdf.Name) -> str:
    """A name as text, for output and for comparisons with names of the standard."""
    return bytes_of(name).decode("utf-8", "replace")


def name_at(dictionary: pikepdf.Object, key: str) -> Optional[str]:
    """The name at a key of a dictionary or a stream."""
    value = dictionary.get(key)
    return text_of(value) if isinstance(value, pikepdf.Name) else None


def dictionary_at(dictionary: pikepdf.Object, key: str) -> pikepdf.Dictionary:
    """The dictionary at a key of a dictionary or a stream; an empty dictionary if there is none."""
    value = dictionary.get(key)
    return value if isinstance(value, pikepdf.Dictionary) else pikepdf.Dictionary()


def stream_at(dictionary: pikepdf.Object, key: str) -> Optional[pikepdf.Stream]:
    """The stream at a key of a dictionary or a stream."""
    value = dictionary.get(key)
    return value if isinstance(value, pikepdf.Stream) else None


def named(dictionary: pikepdf.Dictionary, name: bytes) -> Any:
    """The value at a key of a dictionary, or None. The key may have any bytes."""
    # pikepdf takes bytes unchanged, and encodes a str as UTF-8
    return dictionary.get(b"/" + name, None)


def values(dictionary: pikepdf.Dictionary) -> List[Any]:
    """The values of a dictionary. The keys may have any bytes."""
    return list(dictionary.as_dict().values())


def integer_at(dictionary: pikepdf.Object, key: str) -> int:
    """The integer at a key; 0 if there is no integer."""
    value = dictionary.get(key)
    return value if isinstance(value, int) and not isinstance(value, bool) else 0


def object_number(value: Any) -> int:
    """The number of an indirect object; 0 for any other object."""
    return value.objgen[0] if isinstance(value, pikepdf.Object) else 0
