#!/usr/bin/env python3
"""Prints the text of a string by a predefined CMap, and its codes with their CIDs. It needs poppler-data."""

import hayro_cmap

string = "日本語".encode("cp932")
with hayro_cmap.CMap.open("90ms-RKSJ-H") as cmap:
    font = hayro_cmap.Extractor(cmap, files=hayro_cmap.predefined)
    print(font.text(string))
    for code in cmap.decode(string):
        print(bytes(code).hex(), code.cid)
