"""A form in a PDF file, whose fields have fonts of East Asian character collections, and the texts that fill it."""

from common.composite_font import with_table

# each field: the CMap of its font, the ordering of its collection, a text, and the string that shows the text. With
# Identity-H the string has the CIDs of the collection's map from Unicode; with another CMap it has the codes of
# Python's codecs. poppler reads an ASCII letter of GBK-EUC-H as a full-width letter.
FIELDS = [
    ("90ms-RKSJ-H", "Japan1", "あ一(A)100", "82A088EA284129313030"),
    ("Identity-H", "Japan1", "あ一(A)100", "034B04B000090022000A001200110011"),
    ("GBK-EUC-H", "GB1", "一汉字", "D2BBBABAD7D6"),
    ("Identity-H", "GB1", "一汉字(A)100", "10420771123300090022000A001200110011"),
    ("ETen-B5-H", "CNS1", "一漢字(A)100", "A440BA7EA672284129313030"),
    ("Identity-H", "CNS1", "一漢字(A)100", "0253100F03BF00090022000A001200110011"),
    ("KSCms-UHC-H", "Korea1", "한글一(A)100", "C7D1B1DBECE9284129313030"),
    ("Identity-H", "Korea1", "한글一(A)100", "0CE004D6193C00090022000A001200110011"),
]
# prints the values of the fields of a form, and the strings that show them
LISTING = r"""
import pikepdf, re, sys
pdf = pikepdf.open(sys.argv[1])
for field in pdf.Root.AcroForm.Fields:
    string = re.search(rb"<(.*)> Tj", field.AP.N.read_bytes())[1]
    sys.stdout.buffer.write(f"{field.V} {string.decode().upper()}\n".encode())
"""


def listed():
    """The lines that are printed for the filled form."""
    return "".join(f"{text} {string}\n" for _, _, text, string in FIELDS)


def words():
    """The arguments that fill each field with its text."""
    return [f"{index}={text}" for index, (_, _, text, _) in enumerate(FIELDS)]


def form_file(work):
    """A form of one page; each field has its index as its name."""
    path = work / "form.pdf"
    path.write_text(form())
    return path


def form():
    """The text of the file."""
    fields = " ".join(f"{5 + 2 * index} 0 R" for index in range(len(FIELDS)))
    fonts = " ".join(f"/F{index} {6 + 2 * index} 0 R" for index in range(len(FIELDS)))
    objects = [
        "<< /Type /Catalog /Pages 2 0 R /AcroForm 4 0 R >>",
        "<< /Type /Pages /Kids [3 0 R] /Count 1 >>",
        f"<< /Type /Page /Parent 2 0 R /MediaBox [0 0 595 842] /Annots [{fields}] >>",
        f"<< /Fields [{fields}] /DR << /Font << {fonts} >> >> >>",
    ]
    for index, (name, ordering, _, _) in enumerate(FIELDS):
        objects += [field(index), font(name, ordering)]
    return with_table("%PDF-1.7\n", objects)


def field(index):
    """A text field, with its widget. ISO 32000-1, 12.5.6.19 and 12.7.4.3."""
    bottom = 780 - 30 * index
    return (
        f"<< /Type /Annot /Subtype /Widget /FT /Tx /T ({index}) /F 4 /P 3 0 R /Rect [40 {bottom} 440 {bottom + 20}]"
        f" /DA (/F{index} 12 Tf 0 g) >>"
    )


def font(name, ordering):
    """A font without a font program. ISO 32000-1, 9.7."""
    return (
        f"<< /Type /Font /Subtype /Type0 /BaseFont /None /Encoding /{name} /DescendantFonts [<< /Type /Font"
        f" /Subtype /CIDFontType0 /BaseFont /None /CIDSystemInfo << /Registry (Adobe) /Ordering ({ordering})"
        " /Supplement 0 >> /FontDescriptor << /Type /FontDescriptor /FontName /None /Flags 4 /FontBBox [0 0 1000 1000]"
        " /ItalicAngle 0 /Ascent 800 /Descent -200 /CapHeight 800 /StemV 80 >> >>] >>"
    )
