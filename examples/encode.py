#!/usr/bin/env python3
"""Prints the string of a font that shows a text, in hexadecimal digits.

    encode.py FILE TEXT [MISSING]

The font has the predefined CMap Identity-H, so its codes have two bytes. FILE is its ToUnicode CMap, which uses no
other file. MISSING is a text that stands for each character that can't be encoded.
"""

import sys
from pathlib import Path

import hayro_cmap


def main(path, text, missing=None):
    with hayro_cmap.CMap.identity() as encoding, hayro_cmap.CMap.open(Path(path), files={}) as to_unicode:
        font = hayro_cmap.Extractor(encoding, to_unicode)
    instead = None if missing is None else font.encode(missing)
    print(font.encode(text, missing=instead).hex().upper())


if __name__ == "__main__":
    if len(sys.argv) not in (3, 4):
        sys.exit("usage: encode.py FILE TEXT [MISSING]")
    try:
        main(*sys.argv[1:])
    except hayro_cmap.Unencodable as fault:
        sys.exit(f"{fault.text[fault.offset:]}: can't be encoded")
