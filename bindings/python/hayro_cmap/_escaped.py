"""Texts that are safe to print on a terminal."""

import unicodedata

#: The categories of characters that may control a terminal, or that have no fixed meaning.
HARMFUL = {"Cc", "Cf", "Cn", "Co", "Cs", "Zl", "Zp"}


def escaped(text: str) -> str:
    """The text with \\u{HEX} for each character in `HARMFUL`."""
    if text.isprintable():
        return text
    return "".join(f"\\u{{{ord(it):X}}}" if unicodedata.category(it) in HARMFUL else it for it in text)


def quoted(text: str) -> str:
    """The escaped text in quotes, with a backslash before each quote and each backslash of the text."""
    return '"' + escaped(text.replace("\\", "\\\\").replace('"', '\\"')) + '"'
