"""Texts in commonly written characters."""

from ctypes import c_size_t

from ._owned import library, put


def fold(text: str) -> str:
    """The text with commonly written characters in place of special forms, so that it can be searched and split.

    Fonts may give special forms. Variation selectors are dropped. Presentation forms of Latin, Armenian, Hebrew and
    Arabic letters (U+FB00 to U+FDFF, U+FE70 to U+FEFF) and Kangxi radicals (U+2F00 to U+2FDF) become the letters or the
    ideograph to which the Unicode Standard decomposes them. Spaces of other widths (U+00A0, U+2000 to U+200A, U+202F,
    U+205F) become U+0020, punctuation for vertical writing (U+FE10 to U+FE19, U+FE30 to U+FE48) the punctuation for
    horizontal writing, and the half-width bar U+FFE8 the bar U+007C.

    Raises UnicodeEncodeError for a text with a lone surrogate.
    """
    if text.isascii():
        return text
    data, offset = text.encode(), c_size_t()
    return put(lambda *room: library.hayro_cmap_fold(data, len(data), *room, offset), room_len=2 * len(data)).decode()
