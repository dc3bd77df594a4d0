#!/usr/bin/env python3
"""Writes a PDF file of one page, with a ToUnicode CMap by which its text can be read.

    to_unicode.py OUT TEXT..

Each TEXT is what one glyph stands for: `to_unicode.py out.pdf o ffi c e` shows four, one of them a ligature, and
`pdftotext out.pdf -` then prints `office`. The codes of the font are 1, 2 and so on. The file has no font program, so
that viewers draw the glyphs of another font.
"""

import sys

import hayro_cmap


def stream(data):
    """An object that is a stream of these bytes."""
    return b"<< /Length %d >>\nstream\n%b\nendstream" % (len(data), data)


def objects_of(codes, to_unicode):
    """The objects of the file. The page shows the codes, to which the ToUnicode CMap gives their texts."""
    content = b"BT /F 24 Tf 72 720 Td <%b> Tj ET" % b"".join(b"%04X" % code for code in codes)
    return [
        b"<< /Type /Catalog /Pages 2 0 R >>",
        b"<< /Type /Pages /Kids [3 0 R] /Count 1 >>",
        b"<< /Type /Page /Parent 2 0 R /MediaBox [0 0 595 842] /Contents 4 0 R"
        b" /Resources << /Font << /F 5 0 R >> >> >>",
        stream(content),
        b"<< /Type /Font /Subtype /Type0 /BaseFont /Subset /Encoding /Identity-H /DescendantFonts [6 0 R]"
        b" /ToUnicode 8 0 R >>",
        b"<< /Type /Font /Subtype /CIDFontType2 /BaseFont /Subset /FontDescriptor 7 0 R /DW 500"
        b" /CIDSystemInfo << /Registry (Adobe) /Ordering (Identity) /Supplement 0 >> >>",
        b"<< /Type /FontDescriptor /FontName /Subset /Flags 4 /FontBBox [0 0 1000 1000] /ItalicAngle 0"
        b" /Ascent 800 /Descent -200 /CapHeight 800 /StemV 80 >>",
        stream(to_unicode),
    ]


def pdf_of(objects):
    """A PDF file of these objects, numbered from 1 on. ISO 32000-1, 7.5."""
    made, places = b"%PDF-1.7\n", []
    for number, data in enumerate(objects, 1):
        places.append(len(made))
        made += b"%d 0 obj\n%b\nendobj\n" % (number, data)
    size = len(objects) + 1
    table = b"".join(b"%010d 00000 n \n" % place for place in places)
    trailer = b"trailer\n<< /Size %d /Root 1 0 R >>\nstartxref\n%d\n%%%%EOF\n" % (size, len(made))
    return b"%bxref\n0 %d\n0000000000 65535 f \n%b%b" % (made, size, table, trailer)


def main(out, *texts):
    codes = {text: code for code, text in enumerate(dict.fromkeys(texts), 1)}
    to_unicode = hayro_cmap.to_unicode({code: text for text, code in codes.items()})
    with open(out, "wb") as file:
        file.write(pdf_of(objects_of([codes[text] for text in texts], to_unicode)))


if __name__ == "__main__":
    if len(sys.argv) < 3:
        sys.exit("usage: to_unicode.py OUT TEXT..")
    main(*sys.argv[1:])
