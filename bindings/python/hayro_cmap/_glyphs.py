"""The texts that glyph names give the codes of simple fonts (ISO 32000-1, 9.6.6 and 9.10.2).

The names come from the encoding of the font, or from the font program. The texts come from the Adobe Glyph List, which
is part of fontTools, and from a list of names of TeX. Names that are numbers aren't in these lists; their texts are
guesses.
"""

import functools
import importlib.util
import io
import re
from typing import Any, Callable, Dict, Iterable, List, Optional, Tuple, Union

from ._encodings import BY_NAME, EXPERT, STANDARD, SYMBOL, ZAPF_DINGBATS
from ._sfnt import Sfnt

#: Whether fontTools is installed: without it, glyph names have no texts.
HAS_GLYPH_LIST = importlib.util.find_spec("fontTools") is not None

#: Glyph names in the mathematical fonts of TeX that aren't in the Adobe Glyph List, with their texts.
TEX = {
    "angbracketleft": "\u27e8",
    "angbracketright": "\u27e9",
    "arrowdblvertex": "\u2016",
    "backslashbig": "\\",
    "ceilingleft": "\u2308",
    "ceilingright": "\u2309",
    "contintegraldisplay": "\u222e",
    "contintegraltext": "\u222e",
    "coproductdisplay": "\u2210",
    "coproducttext": "\u2210",
    "epsilon1": "\u03f5",
    "floorleft": "\u230a",
    "floorright": "\u230b",
    "integraldisplay": "\u222b",
    "integraltext": "\u222b",
    "intersectiondisplay": "\u22c2",
    "intersectiontext": "\u22c2",
    "negationslash": "\u0338",
    "prime": "\u2032",
    "productdisplay": "\u220f",
    "producttext": "\u220f",
    "radicalbig": "\u221a",
    "star": "\u22c6",
    "summationdisplay": "\u2211",
    "summationtext": "\u2211",
    "uniondisplay": "\u22c3",
    "uniontext": "\u22c3",
    "visiblespace": "\u2423",
}

#: The endings of the names of larger forms in TeX, such as bracketleftbig.
LARGER = re.compile("(big|Big|bigg|Bigg)$")

#: The glyph names of the codes 0 to 255; None for a code without a glyph name.
Names = List[Optional[str]]

#: The flag of a font descriptor for glyphs outside the standard Latin character set.
SYMBOLIC = 1 << 2

#: An entry of the encoding of a Type 1 font program, such as `dup 65 /A put`. A number may have a base, such as 8#101.
ENTRY = re.compile(rb"dup\s+(?:(\d+)#)?(\w+)\s*/([^\s/\[\](){}<>%]+)\s+put\b")
ENCODING = re.compile(rb"/Encoding\s+(StandardEncoding\b|.*?(?:\breadonly|\bdef)\b)", re.DOTALL)

#: The predefined encodings of CFF font programs: a smaller offset of the encoding is an index of this list.
OF_CFF = (STANDARD, EXPERT)

#: A component of a name with the number of a character in hexadecimal digits of either case.
BY_NUMBER = re.compile("(?<![^_])(uni|u)([0-9A-Fa-f]{4,})(?![^._])")

#: Names with a decimal number after letters, such as a65 and cid_65, or with two hexadecimal digits after a letter,
#: such as G4E.
DECIMAL = re.compile("(cid_|[A-Za-z]{0,2})([0-9]{1,5})")
HEXADECIMAL = re.compile("([A-Za-z])([0-9A-Fa-f]{2})")

#: The printable characters of Latin-1.
PRINTED = frozenset([*range(0x20, 0x7F), *range(0xA0, 0x100)])

#: How many bytes of a Type 1 font program are searched for its encoding.
MOST_OF_ENCODING = 1 << 16


def names_of_codes(encoding: Optional[str], differences: Dict[int, str], built_in: Callable[[], Names]) -> Names:
    """The glyph names of a simple font: its Differences replace names of the encoding with this name, or of the
    built-in encoding (ISO 32000-1, 9.6.6)."""
    names = list(BY_NAME.get(encoding or "") or built_in())
    for code, name in differences.items():
        names[code] = name
    return names


def names_of_differences(entries: Iterable[Union[int, str, None]]) -> Dict[int, str]:
    """The glyph names of codes in an array Differences (ISO 32000-1, 9.6.6.1). An entry is a code, a name, or None for
    any other object."""
    found: Dict[int, str] = {}
    code = 0
    for it in entries:
        if isinstance(it, str):
            if 0 <= code < 256:
                found[code] = it
            code += 1
        elif it is not None:
            code = it
    return found


def built_in_names(of_program: Optional[Names], base_font: str, has_own_glyphs: bool) -> Names:
    """The built-in encoding of a font, from its program, or from the standard font with its name. A symbolic font and a
    Type 3 font have their own glyphs."""
    base = base_font.rpartition("+")[2]
    if of_program is not None:
        return of_program
    if base == "Symbol":
        return list(SYMBOL)
    if base == "ZapfDingbats":
        return list(ZAPF_DINGBATS)
    return [None] * 256 if has_own_glyphs else list(STANDARD)


def of_font_file(kind: Optional[str], decoded: Callable[[], bytes]) -> Optional[Names]:
    """The encoding of a program in a stream FontFile3 with this Subtype; None if no encoding is found."""
    if kind == "Type1C":
        return of_cff(decoded())
    return of_cff(Sfnt(decoded()).table(b"CFF ")) if kind == "OpenType" else None


def of_type1(program: bytes) -> Optional[Names]:
    """The encoding in the clear part of a Type 1 font program (Adobe Type 1 Font Format, 2.2)."""
    clear = program.partition(b"eexec")[0][:MOST_OF_ENCODING]
    found = ENCODING.search(clear)
    if found is None:
        return None
    if found[1] == b"StandardEncoding":
        return list(STANDARD)
    names: Names = [None] * 256
    for base, digits, name in ENTRY.findall(clear, found.start()):
        code = int(digits, int(base or 10)) if int(base or 10) in range(2, 37) else 256
        if code < 256:
            names[code] = name.decode("latin-1")
    return names


def cff_font(program: bytes) -> Any:
    """The font of a CFF font program, read by fontTools; None without fontTools, or if the program is malformed."""
    try:
        from fontTools import cffLib
    except ImportError:
        return None
    fonts = cffLib.CFFFontSet()
    try:
        fonts.decompile(io.BytesIO(program), None)
        return fonts[0] if fonts[0].charset else None
    except Exception:  # fontTools raises many kinds of exceptions for malformed programs
        return None


def of_cff(program: bytes) -> Optional[Names]:
    """The encoding of a CFF font program (Adobe Technical Note 5176, 12); None without fontTools."""
    font = cff_font(program)
    if font is None:
        return None
    try:
        place = font.rawDict.get("Encoding", 0)
        if place < len(OF_CFF):
            return list(OF_CFF[place])
        codes, supplements = codes_of_cff(program[place:])
        names: Names = [None] * 256
        for code, name in [*zip(codes, font.charset[1:]), *((code, font.strings[sid]) for code, sid in supplements)]:
            names[code] = name
        return names
    except Exception:  # as above
        return None


def codes_of_cff(data: bytes) -> Tuple[List[int], List[Tuple[int, int]]]:
    """The codes of the glyphs of an encoding, from glyph 1 on, and pairs of a code and a string number for more
    names."""
    kind, count, place = data[0], data[1], 2
    if kind & 0x7F == 0:
        codes = list(data[place : place + count])
        place += count
    else:
        rows = [data[at : at + 2] for at in range(place, place + 2 * count, 2)]
        codes = [first + at for first, left in rows for at in range(left + 1) if first + at < 256]
        place += 2 * count
    entries = range(place + 1, place + 1 + 3 * data[place], 3) if kind & 0x80 else ()
    return codes, [(data[at], int.from_bytes(data[at + 1 : at + 3], "big")) for at in entries]


@functools.lru_cache(maxsize=None)
def glyph_list() -> Any:
    """The Adobe Glyph List of fontTools, loaded on first use because loading takes time; None without fontTools."""
    try:
        from fontTools import agl
    except ImportError:
        return None
    return agl


@functools.lru_cache(maxsize=1 << 16)
def text_of_glyph(name: str, is_dingbat: bool = False) -> Optional[str]:
    """The text of a glyph name, by the Adobe Glyph List, its rules, and the names of TeX; otherwise None.

    The hexadecimal digits of names such as `uni20AC` and `u1040C` may also be small letters.
    """
    agl = glyph_list()
    if agl is None:
        return None
    name = BY_NUMBER.sub(lambda found: found[1] + found[2].upper(), name)
    smaller = LARGER.sub("", name)
    return agl.toUnicode(name, is_dingbat) or TEX.get(name) or TEX.get(smaller) or agl.toUnicode(smaller) or None


def texts_of_names(names: Names, base_font: str) -> List[Optional[str]]:
    """The texts of glyph names in a font with this name."""
    is_dingbat = "Dingbats" in base_font
    return [None if name is None else text_of_glyph(name, is_dingbat) for name in names]


def guessed_texts(names: Dict[int, str]) -> Dict[int, str]:
    """The texts of codes whose glyph names are numbers, which are read as numbers of characters in Latin-1.

    All names must have one form: a decimal number, or two hexadecimal digits, after the same letters. If both forms
    fit, the form with more numbers that equal their codes is taken, and the decimal form if the counts are equal. All
    numbers must be printable characters, unless each number equals its code, as in bitmap fonts of TeX: then the other
    numbers have no text.
    """
    given = {code: name for code, name in names.items() if name != ".notdef"}
    if any(map(text_of_glyph, given.values())):
        return {}
    readings = filter(None, (numbers_of(given, DECIMAL, 10), numbers_of(given, HEXADECIMAL, 16)))
    numbers = max(readings, key=lambda it: sum(code == number for code, number in it.items()), default={})
    return {code: chr(number) for code, number in numbers.items() if number in PRINTED}


def numbers_of(names: Dict[int, str], form: "re.Pattern[str]", base: int) -> Dict[int, int]:
    """The numbers in the glyph names of codes, read in one form; none if a name has another form, or a number isn't
    printable."""
    found = {code: form.fullmatch(name) for code, name in names.items()}
    if len({it and it[1] for it in found.values()}) != 1 or None in found.values():
        return {}
    numbers = {code: int(it[2], base) for code, it in found.items() if it is not None}
    is_code = all(code == number for code, number in numbers.items())
    return numbers if is_code or PRINTED.issuperset(numbers.values()) else {}
