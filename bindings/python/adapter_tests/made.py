"""PDF files that tests make: a page that shows strings with fonts."""

import struct
from typing import Any, Callable, Dict, List, Sequence, Tuple


class Name(str):
    """A name."""


class Stream:
    """A stream with these entries."""

    def __init__(self, data: bytes, **entries: Any):
        self.data, self.entries = data, entries


class Reference(int):
    """The number of an object."""


def written(value: Any, put: Callable[[Any], int]) -> bytes:
    """An object as a file has it; streams are put elsewhere."""
    if isinstance(value, Reference):
        return b"%d 0 R" % value
    if isinstance(value, Stream):
        return b"%d 0 R" % put(value)
    if isinstance(value, Name):
        return b"/" + value.encode()
    if isinstance(value, (bytes, str)):
        return b"<%b>" % (value if isinstance(value, bytes) else value.encode()).hex().encode()
    if isinstance(value, dict):
        return b"<<%b>>" % b"".join(b"/%b %b " % (key.encode(), written(it, put)) for key, it in value.items())
    if isinstance(value, list):
        return b"[%b]" % b" ".join(written(it, put) for it in value)
    return str(value).encode()


class Objects:
    """The objects of a file, by their numbers from 1 on."""

    def __init__(self) -> None:
        self.written: List[bytes] = []

    def put(self, value: Any) -> int:
        """Puts an object into the file, and gives its number."""
        self.written.append(b"")
        number = len(self.written)
        if isinstance(value, Stream):
            entries = written({**value.entries, "Length": len(value.data)}, self.put)
            self.written[number - 1] = entries + b"\nstream\n" + value.data + b"\nendstream"
        else:
            self.written[number - 1] = written(value, self.put)
        return number

    def file(self, root: int) -> bytes:
        """The file with this root."""
        data, rows = b"%PDF-1.7\n", [b"0000000000 65535 f \n"]
        for number, body in enumerate(self.written, 1):
            rows.append(b"%010d 00000 n \n" % len(data))
            data += b"%d 0 obj\n%b\nendobj\n" % (number, body)
        table = b"xref\n0 %d\n%b" % (len(rows), b"".join(rows))
        trailer = b"trailer\n<</Size %d /Root %d 0 R>>\nstartxref\n%d\n%%%%EOF\n" % (len(rows), root, len(data))
        return data + table + trailer


def pdf(fonts: Dict[str, Dict[str, Any]], shown: List[Tuple[str, bytes]]) -> bytes:
    """A file whose page shows these strings, each on its line and with the font of a name."""
    objects = Objects()
    pages = objects.put({})
    lines = b"".join(b"/%b 12 Tf <%b> Tj T* " % (font.encode(), string.hex().encode()) for font, string in shown)
    page = {
        "Type": Name("Page"),
        "MediaBox": [0, 0, 600, 800],
        "Resources": {"Font": {name: Reference(objects.put(font)) for name, font in fonts.items()}},
        "Contents": Stream(b"BT 12 TL 50 700 Td %bET" % lines),
        "Parent": Reference(pages),
    }
    kids = [Reference(objects.put(page))]
    objects.written[pages - 1] = written({"Type": Name("Pages"), "Kids": kids, "Count": 1}, objects.put)
    return objects.file(objects.put({"Type": Name("Catalog"), "Pages": Reference(pages)}))


DESCRIPTOR = {"Type": Name("FontDescriptor"), "FontName": Name("F"), "Flags": 4, "FontBBox": [0, 0, 1000, 1000]}


def simple(to_unicode: Any = None, **entries: Any) -> Dict[str, Any]:
    """A simple font."""
    font = {"Type": Name("Font"), "Subtype": Name("TrueType"), "BaseFont": Name("F"), "FirstChar": 0, "LastChar": 255}
    font.update({"Widths": [500] * 256, "FontDescriptor": DESCRIPTOR, **entries})
    return font if to_unicode is None else {**font, "ToUnicode": Stream(to_unicode)}


def composite(encoding: Any, to_unicode: Any = None, ordering: str = "Identity", **of_cids: Any) -> Dict[str, Any]:
    """A composite font."""
    below = {"Type": Name("Font"), "Subtype": Name("CIDFontType0"), "BaseFont": Name("F"), "DW": 1000}
    below["CIDSystemInfo"] = {"Registry": "Adobe", "Ordering": ordering, "Supplement": 0}
    below.update({"FontDescriptor": DESCRIPTOR, **of_cids})
    font = {"Type": Name("Font"), "Subtype": Name("Type0"), "BaseFont": Name("F"), "Encoding": encoding}
    font["DescendantFonts"] = [below]
    return font if to_unicode is None else {**font, "ToUnicode": Stream(to_unicode)}


def to_unicode(entries: bytes, codespace: bytes = b"<0000> <FFFF>") -> bytes:
    """A ToUnicode CMap with these operators."""
    return b"""/CIDInit /ProcSet findresource begin 12 dict begin begincmap /CMapName /T def /CMapType 2 def
1 begincodespacerange %s endcodespacerange
%s
endcmap CMapName currentdict /CMap defineresource pop end end""" % (codespace, entries)


def truetype(characters: Dict[int, int], codes: Sequence[int] = (), names: Sequence[str] = (), size: int = 0) -> bytes:
    """A TrueType program that has the glyphs of characters; those of codes, as a Macintosh has them; the names of the
    glyphs from 0 on; and a table of this size with their outlines."""
    return truetype_of_groups([(it, it, glyph) for it, glyph in sorted(characters.items())], codes, names, size)


def truetype_of_groups(
    groups: List[Tuple[int, int, int]], codes: Sequence[int] = (), names: Sequence[str] = (), size: int = 0
) -> bytes:
    """The same of rows of characters, each with its first one, its last one, and the glyph of the first one."""
    rows = b"".join(struct.pack(">LLL", *group) for group in groups)
    unicode = struct.pack(">HHLLL", 12, 0, 16 + len(rows), 0, len(groups)) + rows
    mac = struct.pack(">HHH", 0, 262, 0) + bytes([*codes, *[0] * (256 - len(codes))])
    cmap = struct.pack(">HHHHLHHL", 0, 2, 1, 0, 20, 3, 10, 20 + len(mac)) + mac + unicode
    numbers = b"".join(struct.pack(">H", 258 + number) for number in range(len(names)))
    spelled = b"".join(bytes([len(name)]) + name.encode() for name in names)
    post = struct.pack(">L28xH", 0x20000, len(names)) + numbers + spelled
    tables = {b"cmap": cmap, b"glyf": bytes(size), **({b"post": post} if names else {})}
    records, at = b"", 12 + 16 * len(tables)
    for tag, table in tables.items():
        records += struct.pack(">4sLLL", tag, 0, at, len(table))
        at += len(table)
    return b"\0\1\0\0" + struct.pack(">HHHH", len(tables), 0, 0, 0) + records + b"".join(tables.values())


def with_program(key: str, program: bytes, flags: int = 4, **entries: Any) -> Dict[str, Any]:
    """A descriptor with an embedded program."""
    return {**DESCRIPTOR, "Flags": flags, key: Stream(program, **entries)}
