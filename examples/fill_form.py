#!/usr/bin/env python3
"""Fills text fields of a form in a PDF file.

    fill_form.py FORM OUT NAME=TEXT..

The field of each NAME gets TEXT, and an appearance that shows it in the font of the field. The font is a composite font
with a predefined CMap, such as 90ms-RKSJ-H or Identity-H. It needs neither a font program nor a ToUnicode CMap: the
character collection of the font determines the glyphs of the text. The program needs pikepdf, and the CMap files of
poppler-data.
"""

import re
import sys

import hayro_cmap
import pikepdf

#: The operator of a default appearance that sets the font and its size. ISO 32000-1, 12.7.3.3.
FONT = re.compile(r"/(\S+)\s+\S+\s+Tf")


def maps_of(font):
    """The maps of a composite font: its CMap, and the maps of its character collection from and to Unicode."""
    info = font.DescendantFonts[0].CIDSystemInfo
    encoding = hayro_cmap.CMap.open(str(font.Encoding)[1:])
    return hayro_cmap.Extractor(encoding, collection=f"{info.Registry}-{info.Ordering}", files=hayro_cmap.predefined)


def appearance(pdf, field, text):
    """The stream that shows a text in a field. ISO 32000-1, 12.7.3.3."""
    resources, style = pdf.Root.AcroForm.DR, str(field.DA)
    string = maps_of(resources.Font["/" + FONT.search(style)[1]]).encode(text)
    content = f"/Tx BMC q BT {style} 2 5 Td <{string.hex()}> Tj ET Q EMC"
    left, bottom, right, top = field.Rect
    form = {"/Type": pikepdf.Name.XObject, "/Subtype": pikepdf.Name.Form, "/Resources": resources}
    return pikepdf.Stream(pdf, content.encode(), {**form, "/BBox": [0, 0, right - left, top - bottom]})


def main(form, out, *filled):
    with pikepdf.open(form) as pdf:
        fields = {str(field.T): field for field in pdf.Root.AcroForm.Fields}
        for name, text in (it.split("=", 1) for it in filled):
            fields[name].V = pikepdf.String(text)
            fields[name].AP = pikepdf.Dictionary(N=appearance(pdf, fields[name], text))
        pdf.save(out)


if __name__ == "__main__":
    if len(sys.argv) < 3:
        sys.exit("usage: fill_form.py FORM OUT NAME=TEXT..")
    try:
        main(*sys.argv[1:])
    except hayro_cmap.Unencodable as fault:
        sys.exit(f"{fault.text[fault.offset:]}: can't be encoded")
