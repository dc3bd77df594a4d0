"""The codes that codecs of Python give to characters, for predefined CMaps."""

from typing import Callable, Dict, Optional


def in_94(code: bytes) -> Optional[bytes]:
    """The code in a set of 94 by 94 characters, without the high bit."""
    return bytes(byte & 0x7F for byte in code) if len(code) == 2 and min(code) >= 0xA1 else None


def of_212(code: bytes) -> Optional[bytes]:
    """The code, if it is one of JIS X 0212."""
    return code if len(code) == 3 else None


#: The functions that take a code of a CMap from the code of a codec.
PARTS: Dict[str, Callable[[bytes], Optional[bytes]]] = {"94": in_94, "212": of_212, "212-94": lambda code: in_94(code[1:])}
#: The codec of a CMap without its writing mode, and the part of it.
CODECS = {
    "H": "euc_jp:94", "EUC": "euc_jp", "RKSJ": "shift_jis", "90ms-RKSJ": "cp932", "90msp-RKSJ": "cp932", "78-RKSJ": "shift_jis",
    "78ms-RKSJ": "cp932", "78-EUC": "euc_jp", "78": "euc_jp:94", "Ext-RKSJ": "shift_jis", "Ext": "euc_jp:94", "Add": "euc_jp:94",
    "Add-RKSJ": "shift_jis", "83pv-RKSJ": "shift_jis", "90pv-RKSJ": "shift_jis", "NWP": "euc_jp:94", "Hojo": "euc_jp:212-94",
    "Hojo-EUC": "euc_jp:212", "GB": "gb2312:94", "GB-EUC": "gb2312", "GBpc-EUC": "gb2312", "GBK-EUC": "gbk", "GBKp-EUC": "gbk",
    "GBK2K": "gb18030", "B5": "big5", "B5pc": "big5", "ETen-B5": "cp950", "ETenms-B5": "cp950", "HKscs-B5": "big5hkscs",
    "ETHK-B5": "big5hkscs", "HKdla-B5": "big5", "HKdlb-B5": "big5", "HKgccs-B5": "big5", "HKm314-B5": "big5", "HKm471-B5": "big5",
    "KSC": "euc_kr:94", "KSC-EUC": "euc_kr", "KSCpc-EUC": "euc_kr", "KSCms-UHC": "cp949", "KSCms-UHC-HW": "cp949", "KSC-Johab": "johab",
}
#: The CMaps, without writing modes, of character sets with forms of JIS C 6226-1978 that its later editions replaced.
OF_1978 = {"78", "78-EUC", "78-RKSJ", "78ms-RKSJ", "Add", "Add-RKSJ", "Ext", "Ext-RKSJ", "NWP"}
#: The codes at which `big5` and `cp950` have kana and Cyrillic letters of Unicode's old BIG5.TXT, and CMaps those of
#: vendors.
BIG5_TXT = range(0xC6A1, 0xC8FF)
UNICODE = {"UCS2": "utf-16-be", "UTF16": "utf-16-be", "UTF32": "utf-32-be", "UTF8": "utf-8"}


def stem_of(name: str) -> str:
    """The name without its writing mode."""
    return "H" if name in ("H", "V") else name.removesuffix("-H").removesuffix("-V")


def codec_of(name: str) -> Optional[str]:
    """The codec of a CMap, if it has one."""
    if name.startswith("Uni"):
        return next((codec for form, codec in UNICODE.items() if f"-{form}" in name), None)
    return CODECS.get(stem_of(name))


def encoded(codec: str, character: str) -> Optional[bytes]:
    """The code of a character; None where the codec has none."""
    name, _, part = codec.partition(":")
    try:
        code = character.encode(name)
    except UnicodeEncodeError:
        return None
    return PARTS[part](code) if part else code


def convention(name: str, character: str, code: bytes) -> Optional[str]:
    """Why the codec of a CMap is known to have another character at a code."""
    if 0xE000 <= ord(character) < 0xF900:
        return "private use"
    if stem_of(name) in OF_1978 and encoded("euc_jp:94", character):
        return "forms of 1978"
    if codec_of(name) in ("big5", "cp950") and int.from_bytes(code, "big") in BIG5_TXT:
        return "BIG5.TXT"
    return None
