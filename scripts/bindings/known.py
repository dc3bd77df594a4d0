"""CMap files with known answers: the files of Debian's package poppler-data, and small files of the same names."""

import functools
from pathlib import Path

from common.bundles import KNOWN_NAMES, binary_bundle

from .checks import Failed
from .library import EXAMPLES, TOP

RESOURCES = Path("/usr/share/poppler/cMap")
JAPANESE = "Adobe-Japan1"
OWN = TOP / "crates" / "cmap" / "data" / "japanese"

COLLECTION = b"/CIDSystemInfo 3 dict dup begin /Registry (Adobe) def /Ordering (Japan1) def /Supplement 7 def end def "
HORIZONTAL = COLLECTION + b"""/CMapName /UniJIS-UTF16-H def /WMode 0 def
3 begincodespacerange <0000> <D7FF> <D800DC00> <DBFFDFFF> <E000> <FFFF> endcodespacerange
2 begincidrange <3041> <3093> 842 <FF08> <FF09> 674 endcidrange
"""
VERTICAL = COLLECTION + b"""/UniJIS-UTF16-H usecmap /CMapName /UniJIS-UTF16-V def /WMode 1 def
1 begincidrange <FF08> <FF09> 7899 endcidrange
"""
TEXTS = b"2 beginbfrange <034A> <039C> <3041> <1EDB> <1EDC> <FF08> endbfrange\n"

# a file, a string, and the output of an example for the string over the files of Adobe-Japan1
STRINGS = [
    ("90ms-RKSJ-H", "93FA967B8CEA", "<93FA> 3284 日\n<967B> 3722 本\n<8CEA> 1952 語\n"),
    ("UniJIS-UTF16-V", "3042FF08", "<3042> 843 あ\n<FF08> 7899 （\n"),
    ("UniJIS-UTF16-H", "3042FFFF", "<3042> 843 あ\n<FFFF> none\n"),
]
# arguments for a bundle of the predefined files, and their CIDs
WORDS = {
    "UniJIS-UTF16-H:2:3042": "843",
    "UniJIS-UTF16-V:2:FF08": "7899",
    "90ms-RKSJ-H:2:93FA": "3284",
    "90ms-RKSJ-H:2:FFFF": "none",
}
# a file, and the output of declared.c for it, with the codes of the CIDs 7 and 34
DECLARING = b"""begincidrange <20> <7E> 1 <8140> <817E> 633 endcidrange begincidchar <41> 7 endcidchar
beginbfrange <41> <42> <0061> <43> <43> <D83D> endbfrange beginbfchar <44> <00660069> endbfchar
"""
DECLARED = """cid <20> <7E> 1
cid <41> <41> 7
cid <8140> <817E> 633
text 41 42 0061
text 43 43 D83D
text 44 44 00660069
7 <26> <26>
7 <41> <41>
"""
# a file over DECLARING, and the output of declared.c for it
OVER_DECLARING = b"/declaring usecmap begincidrange <40> <42> 6 endcidrange"
BASED = """cid <40> <42> 6
7 <26> <26>
7 <41> <41>
"""
# codes with texts, from which to_unicode.c makes a file, and the output of declared.c for this file
MADE_OF = ["1=R", "2=é", "3=ffi", "4=😀", "5=S"]
MADE = """text 1 1 0052
text 2 2 00E9
text 3 3 006600660069
text 4 4 D83DDE00
text 5 5 0053
"""
# a ToUnicode CMap of the same codes, and the strings that encode.c prints for texts
TO_UNICODE = b"""begincodespacerange <0000> <FFFF> endcodespacerange
beginbfchar <0001> <0052> <0002> <00E9> <0003> <006600660069> <0004> <D83DDE00> <0005> <0053> endbfchar
"""
ENCODED = {"Réffi": "000100020003", "😀SS": "000400050005", "": ""}
# codes for which subset.c writes DECLARING, and the output of declared.c for the written file
WRITTEN_FOR = ["41", "42", "8142", "8143"]
WRITTEN = """cid <41> <41> 7
cid <42> <42> 35
cid <8142> <8143> 635
text 41 42 0061
"""
# how many codes of two bytes have a CID in UniJIS-UTF16-H, in the file of poppler-data and in the small file
COUNT, SMALL_COUNT = 15391, 85

# files that are refused, and the message of each example for them
REFUSED = {
    "Broken": (b"1 begincidrange <00> <FF> x endcidrange", "Broken: byte 27: a CID was expected"),
    "Cut": (b"/A usecmap\nbegincodespacerange <00>", "Cut: byte 35: the file ends within a section"),
    "Based": (b"/Middle usecmap", "Broken: byte 27: a CID was expected"),
    "Unfounded": (b"/Nowhere usecmap", "Nowhere: no file has this name"),
}
MIDDLE = {"Middle": b"/Broken usecmap", "A": b""}


def to_unicode_file(work):
    """A ToUnicode CMap of a few codes."""
    path = work / "to_unicode"
    path.write_bytes(TO_UNICODE)
    return path


def declaring_file(work):
    """A file that declares CIDs and texts."""
    path = work / "declaring"
    path.write_bytes(DECLARING)
    return path


def based_file(work):
    """A file over the file `declaring`."""
    path = work / "based"
    path.write_bytes(OVER_DECLARING)
    return path


class Files:
    """The files of a folder; `count` codes of two bytes have a CID in its UniJIS-UTF16-H."""

    def __init__(self, folder, texts, path, count):
        self.folder, self.texts, self.path, self.count = folder, texts, path, count

    @functools.cached_property
    def bundle(self):
        """A bundle of the predefined files, in which missing files are empty; written when it is first asked for."""
        self.path.write_bytes(binary_bundle([self.texts.get(name, b"") for name in KNOWN_NAMES]))
        return self.path


def small_files(work):
    """Small files of the project's own."""
    texts = {
        "90ms-RKSJ-H": (OWN / "Sample-RKSJ-H").read_bytes(),
        "Adobe-Japan1-UCS2": (OWN / "Adobe-Japan1-UCS2").read_bytes() + TEXTS,
        "UniJIS-UTF16-H": HORIZONTAL,
        "UniJIS-UTF16-V": VERTICAL,
    }
    write_files(work / "small", texts)
    return Files(work / "small", texts, work / "small-bundle", SMALL_COUNT)


def debian_files(work):
    """The files of poppler-data, or none where it isn't installed."""
    if not has_debian_files():
        return None
    texts = {path.name: path.read_bytes() for path in RESOURCES.rglob("*") if path.is_file()}
    return Files(RESOURCES / JAPANESE, texts, work / "bundle", COUNT)


def has_debian_files():
    """Whether poppler-data is installed."""
    return (RESOURCES / JAPANESE / "UniJIS-UTF16-H").is_file()


def write_files(folder, texts):
    """Writes files into a new folder."""
    folder.mkdir()
    for name, text in texts.items():
        (folder / name).write_bytes(text)


def refused_files(work):
    """A folder of the files that are refused."""
    folder = work / "refused"
    write_files(folder, {**MIDDLE, **{name: text for name, (text, _) in REFUSED.items()}})
    return folder


def rows_of_strings():
    """Fonts' strings: the folder of the CMap, its name, the string, and its text."""
    lines = (EXAMPLES / "strings.rows").read_text().splitlines()
    for line in lines:
        if line and not line.startswith("#"):
            name, digits, text = line.split(" ", 2)
            yield folder_of(name), name, digits, text


def folder_of(name):
    """The folder of poppler-data that has this file."""
    for path in RESOURCES.glob(f"*/{name}"):
        return path.parent
    raise Failed(f"poppler-data has no {name}")
