"""Fonts that both adapters are asked for, and the texts that are right."""

import multiprocessing
import random
import unittest
import zlib
from pathlib import Path

from made import DESCRIPTOR, Name, Stream, composite, simple, to_unicode, truetype, truetype_of_groups, with_program

from hayro_cmap._glyphs import HAS_GLYPH_LIST

if not Path("/usr/share/poppler/cMap/Adobe-Japan1").is_dir():
    raise unittest.SkipTest("Debian's package poppler-data isn't installed")

BYTES = b"<00> <FF>"

#: In Shift-JIS.
WORD = bytes.fromhex("93FA967B8CEA")

EMBEDDED = b"""/CIDInit /ProcSet findresource begin begincmap /CMapName /Own-H def /WMode 0 def
2 begincodespacerange <00> <80> <8140> <9FFC> endcodespacerange
1 begincidchar <41> 843 endcidchar
1 begincidrange <8140> <8142> 3284 endcidrange
endcmap"""

#: A name, a font, a string, and its text.
RIGHT = [
    ("simple", simple(to_unicode(b"2 beginbfchar <01> <0041> <02> <00660069> endbfchar", BYTES)), b"\1\2", "Afi"),
    (
        "simple by its encoding where ToUnicode has nothing",
        simple(to_unicode(b"1 beginbfchar <01> <0041> endbfchar", BYTES), Encoding=Name("WinAnsiEncoding")),
        b"\1B",
        "AB",
    ),
    (
        "composite",
        composite(Name("Identity-H"), to_unicode(b"1 beginbfrange <0001> <0003> <0061> endbfrange")),
        b"\0\1\0\3",
        "ac",
    ),
    (
        "composite beyond the plane 0",
        composite(Name("Identity-H"), to_unicode(b"1 beginbfchar <0001> <D840DC0B> endbfchar")),
        b"\0\1",
        "\U0002000b",
    ),
    ("an empty text", simple(to_unicode(b"2 beginbfchar <01> <> <02> <0042> endbfchar", BYTES)), b"\1\2", "B"),
    (
        "an empty text of a composite font",
        composite(Name("Identity-H"), to_unicode(b"2 beginbfchar <0001> <> <0002> <0042> endbfchar")),
        b"\0\1\0\2",
        "B",
    ),
]

#: How processes are started here.
STARTS = multiprocessing.get_all_start_methods()

#: Those that are broken, and what can be kept.
BROKEN = [
    (
        "a wrong digit",
        simple(to_unicode(b"3 beginbfchar <01> <00x1> <02> <0042> <03> <0043> endbfchar", BYTES)),
        b"\2\3",
        "BC",
    ),
    ("no end", simple(to_unicode(b"2 beginbfchar <01> <0041> <02> <0042>", BYTES)), b"\1\2", "AB"),
    (
        "a text that is missing",
        composite(Name("Identity-H"), to_unicode(b"3 beginbfchar <0001> <0041> <0002> <0003> <0043> endbfchar")),
        b"\0\1",
        "A",
    ),
    (
        "a cut end",
        composite(Name("Identity-H"), to_unicode(b"9 beginbfchar <0001> <0041> <0002> <0042> <00")[:-80]),
        b"\0\1",
        "A",
    ),
    (
        "no codespace range",
        composite(Name("Identity-H"), b"1 beginbfchar <0001> <0041> endbfchar"),
        b"\0\1",
        "A",
    ),
]

#: Those for which the encoding or the collection is read.
COLLECTIONS = [
    ("90ms-RKSJ-H", composite(Name("90ms-RKSJ-H"), ordering="Japan1"), WORD, "日本語"),
    ("90ms-RKSJ-H and one byte", composite(Name("90ms-RKSJ-H"), ordering="Japan1"), b"A" + WORD, "A日本語"),
    ("90ms-RKSJ-V", composite(Name("90ms-RKSJ-V"), ordering="Japan1"), WORD[:2], "日"),
    ("Identity-H", composite(Name("Identity-H"), ordering="Japan1"), (3284).to_bytes(2, "big"), "日"),
    ("GBK-EUC-H", composite(Name("GBK-EUC-H"), ordering="GB1"), "中文".encode("gbk"), "中文"),
    ("GBK2K-H, codes of 4 bytes", composite(Name("GBK2K-H"), ordering="GB1"), "㐆A".encode("gb18030"), "㐆A"),
    ("KSCms-UHC-H", composite(Name("KSCms-UHC-H"), ordering="Korea1"), "한국".encode("cp949"), "한국"),
    ("UniJIS-UTF16-H", composite(Name("UniJIS-UTF16-H"), ordering="Japan1"), "日本".encode("utf-16-be"), "日本"),
    (
        "a stream",
        composite(Stream(EMBEDDED, Type=Name("CMap"), CMapName=Name("Own-H")), ordering="Japan1"),
        b"\x81\x40A",
        "日あ",
    ),
    (
        "a stream over a name",
        composite(
            Stream(
                b"begincmap /CMapName /Own-H def 1 begincidchar <93FA> 843 endcidchar endcmap",
                Type=Name("CMap"),
                CMapName=Name("Own-H"),
                UseCMap=Name("90ms-RKSJ-H"),
            ),
            ordering="Japan1",
        ),
        WORD[2:],
        "本語",
    ),
    (
        "ToUnicode by codes, and the collection where it has nothing",
        composite(
            Name("90ms-RKSJ-H"),
            to_unicode(b"1 beginbfchar <93FA> <0042> endbfchar", b"<8140> <9FFC>"),
            ordering="Japan1",
        ),
        WORD,
        "B本語",
    ),
    (
        "an unknown encoding with ToUnicode",
        composite(Name("No-Such-H"), to_unicode(b"1 beginbfchar <0041> <0042> endbfchar")),
        b"\0A",
        "B",
    ),
    (
        "ToUnicode with CIDs, under a map to glyphs that is a stream",
        composite(
            Name("Identity-H"),
            to_unicode(b"1 begincidrange <0000> <FFFF> 0 endcidrange"),
            CIDToGIDMap=Stream(bytes(2 * 0x6700)),
        ),
        "日本".encode("utf-16-be"),
        "日本",
    ),
    (
        "strings of five digits",
        composite(Name("Identity-H"), to_unicode(b"2 beginbfchar <0001> <20BB7> <0002> <0042> endbfchar")),
        b"\0\1\0\2",
        "\U00020BB7B",
    ),
]

#: A file of a few bytes with texts for all codes of 4 bytes.
ENDLESS = to_unicode(b"1 beginbfrange <00000000> <FFFFFFFF> <0000> endbfrange", b"<00000000> <FFFFFFFF>")

#: The same of CIDs, many times.
MANY = b"begincmap 999 begincidrange " + b"<0000> <FFFF> 0 " * 20000 + b"endcidrange endcmap"

#: Of the glyphs 1 and 2 the first one is alpha and the second beta.
ALPHA_BETA = truetype({0x3B1: 1, 0x3B2: 2})

#: A part of a Type 1 program, up to its encrypted part.
TYPE1 = b"%!PS-AdobeFont-1.0: F\n/Encoding 256 array dup 1 /alpha put dup 2 /beta put readonly def\neexec"


def glyphs(entries=None, program=ALPHA_BETA, **of_cids):
    """A composite font whose CIDs are the numbers of glyphs, and its ToUnicode CMap with these entries."""
    below = {"Subtype": Name("CIDFontType2"), "FontDescriptor": with_program("FontFile2", program), **of_cids}
    return composite(Name("Identity-H"), None if entries is None else to_unicode(entries), **below)


#: Those whose codes have texts by an embedded program.
PROGRAMS = [
    ("no ToUnicode", glyphs(), b"\0\1\0\2", "αβ"),
    ("ToUnicode first", glyphs(b"1 beginbfchar <0001> <0078> endbfchar"), b"\0\1\0\2", "xβ"),
    ("ToUnicode with a fault", glyphs(b"2 beginbfchar <0001> <0078> <0002> <00x9> endbfchar"), b"\0\1\0\2", "xβ"),
    ("a map of glyphs", glyphs(CIDToGIDMap=Stream(bytes([0, 0, 0, 2, 0, 1]))), b"\0\1\0\2", "βα"),
    (
        "an encoding that is a stream",
        composite(
            Stream(EMBEDDED + b" 1 begincidchar <42> 1 endcidchar", Type=Name("CMap"), CMapName=Name("Own-H")),
            FontDescriptor=with_program("FontFile2", ALPHA_BETA),
        ),
        b"B",
        "α",
    ),
    (
        "a simple font by its codes",
        simple(
            to_unicode(b"1 beginbfchar <01> <0078> endbfchar", BYTES),
            FontDescriptor=with_program("FontFile2", truetype({0x3B1: 1, 0x3B2: 2}, codes=[0, 2, 1, 2])),
        ),
        b"\1\2\3",
        "xαβ",
    ),
    (
        "numbers for names",
        simple(
            Encoding={"Type": Name("Encoding"), "Differences": [1, Name("a72"), Name("a105")]},
            FontDescriptor=with_program("FontFile2", truetype({})),
        ),
        b"\1\2",
        "Hi",
    ),
]

if HAS_GLYPH_LIST:
    PROGRAMS += [
        ("names of glyphs", glyphs(program=truetype({0x3B1: 1}, names=[".notdef", "x", "beta"])), b"\0\1\0\2", "αβ"),
        (
            "a Type 1 program",
            simple(
                to_unicode(b"1 beginbfchar <01> <0078> endbfchar", BYTES),
                Subtype=Name("Type1"),
                FontDescriptor=with_program("FontFile", TYPE1, Length1=len(TYPE1)),
            ),
            b"\1\2",
            "xβ",
        ),
    ]



def hostile():
    """Fonts whose programs are none, or are cut and changed, or whose entries aren't what they should be."""
    chance, named = random.Random(1), truetype({0x3B1: 1, 0x3B2: 2}, [0, 2, 1], [".notdef", "alpha", "beta"])
    programs = [b"", bytes(64), b"OTTO" + bytes(12), MANY_CODES]
    for _ in range(40):
        changed = bytearray(named[: chance.randrange(1, len(named))])
        for _ in range(chance.randrange(9)):
            changed[chance.randrange(len(changed))] = chance.randrange(256)
        programs.append(bytes(changed))
    for program in programs:
        yield glyphs(program=program)
        yield glyphs(FontDescriptor=with_program("FontFile3", program, Subtype=Name("CIDFontType0C")))
        yield simple(FontDescriptor=with_program("FontFile2", program))
        yield simple(Subtype=Name("Type1"), FontDescriptor=with_program("FontFile3", program, Subtype=Name("Type1C")))
    for entry in (Name("x"), "x", 7, [7], {"x": 7}, True):
        yield glyphs(FontDescriptor={**DESCRIPTOR, "FontFile3": entry}, CIDToGIDMap=entry)
        yield simple(FontDescriptor={**DESCRIPTOR, "FontFile2": entry, "FontFile3": entry})


#: A program with all characters, many times.
MANY_CODES = truetype_of_groups([(0, 0x10FFFF, 1)] * 1000)

#: A font whose program has a megabyte, and few bytes before it is decoded.
LARGE = glyphs(
    FontDescriptor={
        **DESCRIPTOR,
        "FontFile3": Stream(zlib.compress(truetype({0x3B1: 1}, size=1 << 20)), Filter=Name("FlateDecode")),
    }
)
