"""Prints the codes of strings, with their CIDs and texts.

FILE is the path of a CMap file, or the name of a file in the folders of --base or in the bundle, or the name of a
predefined CMap. Predefined CMaps are looked up in the folders of the environment variable HAYRO_CMAP_PATH or CMAP_PATH,
otherwise in the system's folders. A code without a text of its own has the text that the collection's CMap, such as
Adobe-Japan1-UCS2, gives its CID, if that CMap is found.
"""

import argparse
import os
import sys

from . import Bundle, CMap, NotABundle, Refused, __version__, folder
from ._escaped import quoted
from ._predefined import beside


def arguments():
    parser = argparse.ArgumentParser(
        prog="python3 -m hayro_cmap", description=__doc__, formatter_class=argparse.RawDescriptionHelpFormatter
    )
    parser.add_argument("file", metavar="FILE", type=os.fsencode)
    parser.add_argument("strings", metavar="HEX", nargs="+", type=string_of, help="two digits for each byte")
    parser.add_argument("--base", metavar="FOLDER", action="append", default=[], help="a folder with used files")
    parser.add_argument("--bundle", metavar="FILE", help="a bundle, for binary files and for used files")
    parser.add_argument("--budget", metavar="N", type=int, help="the maximum number of bytes of all files together")
    parser.add_argument("--version", action="version", version=f"hayro_cmap {__version__}")
    return parser.parse_args()


def string_of(digits):
    try:
        return bytes.fromhex(digits)
    except ValueError as fault:
        raise argparse.ArgumentTypeError(f"not two digits for each byte: {digits!r}") from fault


def message_of(fault):
    """The message of a fault, in which a path is a str."""
    if isinstance(fault, OSError) and isinstance(fault.filename, bytes):
        return f"{ascii(os.fsdecode(fault.filename))[1:-1]}: {fault.strerror}"
    return fault


def read(path):
    with open(path, "rb") as file:
        return file.read()


def map_of(file, **over):
    """The map of the file with a path, or with a name, which has no slash."""
    return CMap.parse(read(file), **over) if os.path.isfile(file) or b"/" in file else CMap.open(file, **over)


def files_of(folders, bundle):
    """Gives the files of these folders, then the bundle's files, then the predefined CMaps."""
    given, others = folder(*folders), beside(bundle)

    def file_of(name):
        file = given(name)
        return others(name) if file is None else file

    return file_of


def texts_of(cmap, files, bundle):
    """The collection's map from CIDs to texts; None if there is no such map, or it is refused."""
    try:
        return cmap.collection(files, bundle)
    except Refused:
        return None


def print_string(cmap, texts, string):
    """Prints a line for each code of a string."""
    for code in cmap.decode(string):
        text = cmap.text(code.code)
        if text is None and texts is not None and code.cid is not None:
            text = texts.text(code.cid)
        cid = "-" if code.cid is None else str(code.cid)
        note = "" if code.in_codespace else "  cut short" if code.cut_short else "  in no codespace range"
        print(f"{f'<{bytes(code).hex().upper()}>':10}{cid:>12}  {'-' if text is None else quoted(text)}{note}")


def main():
    it = arguments()
    sys.stdout.reconfigure(errors="backslashreplace")
    name = os.fsdecode(it.file)
    try:
        bundle = None if it.bundle is None else Bundle.open(read(it.bundle))
        over = {"files": files_of(it.base, bundle), "bundle": bundle, "budget": it.budget}
        with map_of(it.file, **over) as cmap:
            texts = texts_of(cmap, over["files"], bundle)
            for string in it.strings:
                print_string(cmap, texts, string)
    except Refused as fault:
        print(f"hayro_cmap: {ascii(name)[1:-1]}: {fault}", file=sys.stderr)
        return 1
    except (OSError, NotABundle, ValueError) as fault:
        print(f"hayro_cmap: {message_of(fault)}", file=sys.stderr)
        return 2
    return 0


if __name__ == "__main__":
    sys.exit(main())
