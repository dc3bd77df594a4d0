#!/usr/bin/env python3
"""Prints the codes of a string by a CMap file of a folder, with their CIDs and texts.

    decode.py FOLDER FILE HEX

A line is a code, its CID or none, and its text if it has one, such as `<93FA> 3284 日`. Only the files that FILE uses
are read. A CMap of a composite font mostly has only CIDs: the text of a code is then the text of its CID in the CMap
from its character collection to Unicode, such as Adobe-Japan1-UCS2 (ISO 32000-1, 9.10.2), if the folder has this CMap.
"""

import sys

import hayro_cmap


def line_of(code, text):
    """The line of a code."""
    cid = "none" if code.cid is None else code.cid
    return f"<{bytes(code).hex().upper()}> {cid}" + ("" if text is None else f" {text}")


def main(folder, file, digits):
    files = hayro_cmap.folder(folder)
    with hayro_cmap.CMap.open(file, files) as cmap:
        font = hayro_cmap.Extractor(cmap, to_unicode=cmap, files=files)
        for code, text in font.characters(bytes.fromhex(digits)):
            print(line_of(code, text))


if __name__ == "__main__":
    if len(sys.argv) != 4:
        sys.exit("usage: decode.py FOLDER FILE HEX")
    try:
        main(*sys.argv[1:])
    except hayro_cmap.Refused as fault:
        sys.exit(str(fault))
