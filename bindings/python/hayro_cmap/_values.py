"""Checks of values that calls take: ctypes truncates integers silently."""

import operator
from typing import Union

#: Objects with bytes: bytes, bytearray, memoryview, mmap and other buffers.
Buffer = Union[bytes, bytearray, memoryview]

#: The possible lengths of a code in bytes.
CODE_LENGTHS = range(1, 5)

#: The name of a file, in bytes. A str is encoded as UTF-8.
Name = Union[str, Buffer]


def number(value, least, most, what):
    """The integer. Raises ValueError unless it lies from `least` to `most`, TypeError if it isn't an integer."""
    value = operator.index(value)
    if not least <= value <= most:
        raise ValueError(f"{what} is {value}, and not from {least} to {most}")
    return value


def code_number(code):
    """A code, which has at most 32 bits."""
    return number(code, 0, 2**32 - 1, "the code")


def cid_number(cid):
    """A CID, which has at most 32 bits."""
    return number(cid, 0, 2**32 - 1, "the CID")


def code_length(byte_len):
    """The length of a code in bytes."""
    return number(byte_len, CODE_LENGTHS[0], CODE_LENGTHS[-1], "the length of a code in bytes")


def code_of_bytes(data):
    """The bytes of a code as a number, and their number."""
    return int.from_bytes(data, "big"), code_length(len(data))


def code_of(code, byte_len):
    """The number and the length of a code that is given as bytes, or as a number of `byte_len` bytes."""
    if hasattr(code, "__index__"):
        return number(code, 0, 256**byte_len - 1, "the code"), byte_len
    return code_of_bytes(bytes_of(code))


def bytes_of(data):
    """The bytes of a buffer. Bytes that may change are copied. Raises TypeError if the object isn't a buffer."""
    return data if type(data) is bytes else bytes(memoryview(data))


def name_of(name):
    """The bytes of a name."""
    return name.encode() if isinstance(name, str) else bytes_of(name)


def shown(name):
    """A name in the form of messages: \\xHH for a byte that isn't printable ASCII, and two backslashes for one."""
    return "/" + "".join(
        "\\\\" if byte == 0x5C else chr(byte) if 0x20 <= byte <= 0x7E else f"\\x{byte:02X}" for byte in name
    )
