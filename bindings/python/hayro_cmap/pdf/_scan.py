"""The operators of content streams that text depends on, with their operands (ISO 32000-1, 7.8.2 and Annex A).

A single regular expression splits a content. Paths, colours and inline images are skipped.
"""

import re
from binascii import unhexlify
from typing import Iterator, List, Optional, Tuple, Union

#: White space, and the bytes of numbers with the white space between them (ISO 32000-1, 7.2.2 and 7.3.3).
BLANK = rb"[\0\t\n\f\r ]"
NUMBERS = rb"[-+.0-9\0\t\n\f\r ]*"

#: The operators for paths, colours and the graphics state that don't affect text.
PASSED = (
    rb"(?:re|rg|RG|ri|[mlcvyhSsnwJjMidgGkK]|[fFBbW]\*?|scn?|SCN?|cs|CS|sh|d[01]|BX|EX|MP|DP)"
    rb"(?=[\0\t\n\f\r /\[(<%]|\Z)"
)

#: The contents of a literal string without nested brackets and with few escapes, and of a hexadecimal string. The end
#: of any other literal string is searched for.
SIMPLE = rb"[^()\\]*(?:\\[\s\S][^()\\]*){0,64}"
DIGITS = rb"[0-9A-Fa-f\0\t\n\f\r ]*"

#: The contents of an array of strings and numbers. A longer array is read element by element.
ELEMENTS = rb"(?:[^\[\]()<>%%]*(?:\(%b\)|<%b>)){0,512}[^\[\]()<>%%]*" % (SIMPLE, DIGITS)

# the last two alternatives match everything else, so that white space is never scanned twice
TOKEN = re.compile(
    rb"%(blank)b*(?:(?:%(numbers)b%(passed)b){1,256}"
    rb"|(?P<operands>%(numbers)b)(?P<operator>[A-Za-z'\"][A-Za-z0-9*'\"]*)"
    rb"|\[(?P<array>%(elements)b)\]"
    rb"|\((?P<literal>%(simple)b)\)"
    rb"|<(?P<digits>%(digits)b)>"
    rb"|/(?P<name>[^\0\t\n\f\r ()<>\[\]{}/%%]*)"
    rb"|(?P<numbers>[-+.0-9]%(numbers)b)"
    rb"|(?P<mark><<|>>|[\[\]])"
    rb"|(?P<long>\()"
    rb"|(?P<comment>%%[^\r\n]*)"
    rb"|[\s\S]|\Z)"
    % {
        b"blank": BLANK,
        b"numbers": NUMBERS,
        b"passed": PASSED,
        b"elements": ELEMENTS,
        b"simple": SIMPLE,
        b"digits": DIGITS,
    }
)

#: The numbers of the groups of a token.
OPERATOR, ARRAY, LITERAL, HEXADECIMAL, NAME, NUMBER, MARK, LONG, COMMENT = range(2, 11)

ELEMENT = re.compile(rb"\((%b)\)|<(%b)>|([-+.0-9]+)" % (SIMPLE, DIGITS))
BRACKET = re.compile(rb"[()\\]")
ESCAPE = re.compile(rb"\\([0-7]{1,3}|\r\n|[\s\S])|\r\n?")
#: A byte of a name, written as its number (ISO 32000-1, 7.3.5).
NUMBERED = re.compile(rb"#([0-9A-Fa-f]{2})")
PIECE_OF_NUMBER = re.compile(rb"[-+]?(?:[0-9]+\.?[0-9]*|\.[0-9]+)")

#: The bytes for escapes with a letter (ISO 32000-1, table 3). An escaped line end is dropped.
LETTERS = {b"n": b"\n", b"r": b"\r", b"t": b"\t", b"b": b"\b", b"f": b"\f", b"\n": b"", b"\r": b"", b"\r\n": b""}

#: The end of an inline image, followed by bytes that look like content.
PRINTED = rb"[\t\n\f\r -~]"
END_OF_IMAGE = re.compile(rb"%bEI(?=\Z|%b(?:%b{16}|%b{0,16}\Z))" % (BLANK, BLANK, PRINTED, PRINTED))


#: An operand: the group of its token, and its written form without brackets or slash.
Operand = Tuple[int, bytes]

#: An operator: its name, the numbers right before it, and the operands before these.
Operator = Tuple[bytes, bytes, List[Operand]]

#: The marks that open an array or a dictionary, and the brackets of an array as operands.
OPENING = (b"[", b"<<")
OPENED, CLOSED = (MARK, b"["), (MARK, b"]")

#: Operands that look like operators.
VALUES = (b"true", b"false", b"null")

#: The maximum number of operands that are kept.
MOST_OPERANDS = 1 << 16


def operators(data: bytes) -> Iterator[Operator]:
    """The operators of a content that may affect text, in order."""
    start: Optional[int] = 0
    operands: List[Operand] = []
    while start is not None:
        place, start = start, None
        for token in TOKEN.finditer(data, place):
            kind = token.lastindex
            if kind == OPERATOR:
                numbers, name = token.group(1, 2)
                if name in VALUES:
                    operands.append((NUMBER, numbers))
                    continue
                yield name, numbers, operands
                operands = []
                if name == b"ID":
                    start = end_of_image(data, token.end())
                    break
            elif kind == LONG:
                start = end_of_string(data, token.end())
                operands.append((LITERAL, data[token.end() : start - 1]))
                break
            elif kind is None:
                operands = []
            elif kind != COMMENT:
                operands.append((kind, token[kind]))
                if len(operands) == MOST_OPERANDS:
                    if operands[0] == OPENED:
                        # a long array is shown in several steps
                        yield b"TJ", b"", [*operands, CLOSED]
                    operands = operands[:1]


def end_of_image(data: bytes, start: int) -> int:
    """The end of the data of an inline image with this start (ISO 32000-1, 8.9.7)."""
    found = END_OF_IMAGE.search(data, start)
    return len(data) if found is None else found.end()


def end_of_string(data: bytes, start: int) -> int:
    """The end of a literal string, after its closing bracket; `start` is its first byte (ISO 32000-1, 7.3.4.2)."""
    depth, place = 1, start
    while depth > 0:
        found = BRACKET.search(data, place)
        if found is None:
            return len(data) + 1
        place = found.end()
        if found[0] == b"\\":
            place += 1
        else:
            depth += 1 if found[0] == b"(" else -1
    return place


def numbers_in(data: bytes) -> List[float]:
    """The numbers in these bytes, with 0 for an invalid number."""
    try:
        return list(map(float, data.split()))
    except ValueError:
        return [number_of(it) for it in data.replace(b"\0", b" ").split()]


def number_of(digits: bytes) -> float:
    """A number, read like other readers if it has a second sign or point; 0 if no part of it is a number."""
    found = PIECE_OF_NUMBER.search(digits)
    return 0.0 if found is None else float(found[0])


def literal(data: bytes) -> bytes:
    """The bytes of a literal string with these contents between its brackets (ISO 32000-1, 7.3.4.2)."""
    return ESCAPE.sub(unescaped, data) if b"\\" in data or b"\r" in data else data


def unescaped(escape: "re.Match[bytes]") -> bytes:
    """The bytes of an escape, or of a line end."""
    it = escape[1]
    if it is None:
        return b"\n"
    if it[:1].isdigit() and it[0] < 0x38:
        return bytes([int(it, 8) & 0xFF])
    return LETTERS.get(it, it)


def hexadecimal(digits: bytes) -> bytes:
    """The bytes of a hexadecimal string. If the number of digits is odd, a 0 is added (ISO 32000-1, 7.3.4.3)."""
    try:
        return unhexlify(digits)
    except ValueError:
        bare = b"".join(digits.replace(b"\0", b"").split()).decode("ascii")
        return bytes.fromhex(bare + "0" * (len(bare) % 2))


def string_of(operand: Operand) -> Optional[bytes]:
    """The bytes of a string; None for any other operand."""
    kind, data = operand
    if kind == LITERAL:
        return literal(data)
    return hexadecimal(data) if kind == HEXADECIMAL else None


def last_string(operands: List[Operand]) -> Optional[bytes]:
    """The bytes of the last operand if it is a string; otherwise None."""
    return string_of(operands[-1]) if operands else None


def elements_of(operands: List[Operand]) -> List[Union[bytes, float]]:
    """The strings and the numbers in the last operand, which is an array, in order."""
    if operands and operands[-1][0] == ARRAY:
        return [element(*it) for it in ELEMENT.findall(operands[-1][1])]
    found: List[Union[bytes, float]] = []
    depth = 0
    for kind, data in operands:
        if kind == MARK:
            depth += 1 if data in OPENING else -1
        if (kind, data) == OPENED and depth == 1:
            found = []
        elif depth == 1 and kind == NUMBER:
            found += numbers_in(data)
        elif depth == 1 and kind in (LITERAL, HEXADECIMAL):
            found.append(literal(data) if kind == LITERAL else hexadecimal(data))
    return found if depth == 0 and operands and operands[-1] == CLOSED else []


def element(simple: bytes, digits: bytes, number: bytes) -> Union[bytes, float]:
    """An element of an array: a string, or otherwise a number."""
    if not number:
        return hexadecimal(digits) if digits else literal(simple)
    try:
        return float(number)
    except ValueError:
        return number_of(number)


def last_name(operands: List[Operand]) -> bytes:
    """The bytes of the last operand if it is a name; otherwise empty."""
    kind, data = operands[-1] if operands else (NAME, b"")
    if kind != NAME:
        return b""
    return data if b"#" not in data else NUMBERED.sub(lambda digits: bytes.fromhex(digits[1].decode()), data)


def actual_text(operands: List[Operand]) -> Optional[str]:
    """The text string at the key ActualText of a dictionary among the operands (ISO 32000-1, 14.9.4)."""
    for key, value in zip(operands, operands[1:]):
        if key == (NAME, b"ActualText"):
            string = string_of(value)
            return None if string is None else text_string(string)
    return None


def text_string(data: bytes) -> str:
    """The characters of a text string in UTF-16 or UTF-8 after a byte order mark, otherwise in PDFDocEncoding (ISO
    32000-1, 7.9.2.2). The bytes are read as Latin-1, which agrees for most bytes from 0x20 to 0x7E and from 0xA1 on."""
    for mark, encoding in [(b"\xfe\xff", "utf-16-be"), (b"\xff\xfe", "utf-16-le"), (b"\xef\xbb\xbf", "utf-8")]:
        if data.startswith(mark):
            return data[len(mark) :].decode(encoding, "replace")
    return data.decode("latin-1")
