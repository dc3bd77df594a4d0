"""The names of warnings about the CMaps of fonts."""

#: The warnings of `cmap check --lint`, in the same order.
WARNINGS = (
    "nothing-declared",
    "no-codespace",
    "outside-codespace",
    "overlap",
    "inverted-range",
    "crosses-row",
    "last-byte",
    "no-text",
    "private-use",
    "noncharacter",
    "replacement-character",
    "null-character",
    "no-mapping",
    "name-differs",
    "mode-differs",
    "count-differs",
    "long-section",
    "no-endcmap",
    "code-length",
    "odd-digits",
    "odd-text",
)

#: The warning that few shown codes of a font have a text.
FEW_TEXTS = "few-texts"

#: Warnings of `cmap check --lint` that don't apply to CMaps in PDF files: a stream has no file name, and a font subset
#: has few of the codes in its codespace ranges.
LEFT_OUT = ("name-differs", "no-mapping")

#: Warnings about the written form of a range, which all readers read in the same way: no text is in doubt.
OF_FORM = ("crosses-row",)
