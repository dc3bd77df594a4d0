"""The fonts of PDF files, the codes that pages show, and the texts of these codes. pikepdf reads the files.

    import pikepdf
    from hayro_cmap import pdf

    with pikepdf.open("F.pdf") as file:
        for font in pdf.fonts(file):
            print(font)
        print(pdf.check(file).summary())

    python3 -m hayro_cmap.pdf check|fonts|text FILE.pdf ..
    python3 -m hayro_cmap.pdf repair IN.pdf OUT.pdf

The text of a code comes from the font's ToUnicode CMap. Otherwise, in a composite font it comes from the CID and the
collection's map, and in a simple font from the glyph name, if fontTools is installed (ISO 32000-1, 9.10.2). Otherwise
it comes from the glyph in the embedded font program. `Source` lists all sources.
"""

from .._run import begin_to_import, end_on_interrupt, missing

begin_to_import()
end_on_interrupt()
try:
    import pikepdf  # noqa: F401
except ImportError as fault:
    raise missing("pikepdf is missing: pip install pikepdf, or Debian's python3-pikepdf") from fault

from .._glyphs import HAS_GLYPH_LIST
from ._check import CMapWarning, FontReport, Report, ShownCode, check
from ._content import Content, Document, Shown, characters
from ._embedded import glyph_names
from ._fonts import Character, Fault, Font, Read, Source, fonts
from ._many import check_files
from ._objects import TooLarge, Undecodable
from ._repair import Repaired, Signed, repair, save
from ._widths import Vertical, Widths

__all__ = [
    "HAS_GLYPH_LIST",
    "CMapWarning",
    "Character",
    "Content",
    "Document",
    "Fault",
    "Font",
    "FontReport",
    "Read",
    "Repaired",
    "Report",
    "Shown",
    "ShownCode",
    "Signed",
    "Source",
    "TooLarge",
    "Undecodable",
    "Vertical",
    "Widths",
    "characters",
    "check",
    "check_files",
    "fonts",
    "glyph_names",
    "repair",
    "save",
]
