"""The maps of a font: the texts of its strings, and the strings of texts."""

import copy
import itertools
import pickle
import random
import subprocess
import tempfile
import unittest
import unittest.mock
from concurrent.futures import ThreadPoolExecutor
from pathlib import Path

import hayro_cmap
from hayro_cmap import CMap, Code, Extractor, Grade, Piece, Refused, Unencodable, to_unicode
from hayro_cmap._room import Room

from .files import BROKEN, SMALL, needs_pdftotext, needs_resources, pdf_showing, predefined

#: A font of codes of one and two bytes, with the CIDs 1 to 95 and 633 to 695, and a collection.
TEXTS_OF_CIDS = b"2 beginbfrange <0001> <005F> <0020> <0279> <02B7> <3000> endbfrange"

#: Codes of two bytes; the last one of four has no text.
TO_UNICODE = b"beginbfchar <0041> <0061> <0042> <D83DDE00> <0043> <006600660069> endbfchar"


def identity_font(texts=TO_UNICODE):
    """A font of Identity-H with these texts."""
    with CMap.identity() as identity, CMap.parse(texts) as cmap:
        return Extractor(identity, cmap)


def graded_font():
    """A font with a code of each grade."""
    encoding = SMALL.replace(b"1 beginbfchar <41> <0041> endbfchar", b"")
    texts = b"beginbfchar <003D> <00A5> <0279> <3042> <027A> <3042> <027B> <2F00> <027C> <845B> endbfchar"
    unicode = b"begincodespacerange <0000> <FFFF> endcodespacerange begincidchar <3042> 634 <4E00> 635 endcidchar"
    files = [encoding, b"beginbfchar <41> <0061> <2D> <2010> endbfchar", texts, unicode]
    encoding, own, texts, unicode = map(CMap.parse, files)
    return Extractor(encoding, own, texts, unicode=unicode)


def string_of(font, text):
    """The string of a text, or None."""
    try:
        return font.encode(text)
    except Unencodable:
        return None


def from_unicode(cids):
    """A file from Unicode, in UTF-16, to these CIDs."""
    return b"begincodespacerange <0000> <FFFF> endcodespacerange begincidchar %b endcidchar" % cids


#: The maps of two collections.
COLLECTIONS = {
    "Adobe-KR-UCS2": b"beginbfchar <0005> <AC00> <0006> <AC00> endbfchar",
    "UniAKR-UTF16-H": from_unicode(b"<AC00> 6"),
    "Adobe-Japan1-UCS2": b"beginbfchar <0005> <3042> <0006> <3042> <0007> <3042> endbfchar",
    "UniJIS-UTF16-H": from_unicode(b"<3042> 6"),
    "UniJIS-UTF16-V": from_unicode(b"<3042> 7"),
}


class Texts(unittest.TestCase):
    def test_codes_without_a_text(self):
        with identity_font() as font:
            for codes in ["ABC", "", "D", "DABC", "ABCD", "ADDB", "DDD", "DADBDCD"]:
                string = codes.encode("utf-16-be")
                found = font.characters(string)
                self.assertEqual([it.code.code for it in found], list(map(ord, codes)))
                for missing in ["\uFFFD", "", "[?]"]:
                    self.assertEqual(
                        font.text(string, missing), "".join(missing if it.text is None else it.text for it in found)
                    )
            self.assertEqual(font.text(b"\0A\0B\0D\0C"), "a\U0001F600\uFFFDffi")

    def test_strings_of_all_lengths(self):
        """Those that have rooms of their own, too."""
        with identity_font() as font:
            for codes in [0, 1, 127, 128, 129, 511, 512, 513, 1024, 70_000]:
                string = b"\0A\0D" * (codes // 2) + b"\0C" * (codes % 2)
                expected = "a\uFFFD" * (codes // 2) + "ffi" * (codes % 2)
                self.assertEqual(font.text(string), expected)
                self.assertEqual(font.text(bytearray(string)), expected)
                self.assertEqual("".join(it.text or "\uFFFD" for it in font.characters(string)), expected)

    def test_texts_that_pass_the_room(self):
        texts = b"beginbfchar <0041> <%b> <0042> <0062> endbfchar" % (b"65E5" * 4000)
        with identity_font(texts) as font:
            self.assertEqual(font.text(b"\0B\0A\0D\0B"), "b" + "日" * 4000 + "\uFFFDb")
            self.assertEqual(font.text(b"\0A" * 20), "日" * 80_000)
            self.assertEqual(len(font.characters(b"\0A" * 3 + b"\0B")), 4)

    def test_codes_that_are_cut_short(self):
        """A code that the string cuts short isn't the one that its bytes write."""
        with identity_font(b"beginbfchar <0041> <0061> endbfchar") as font:
            for _ in range(2):
                self.assertEqual(font.characters(b"\0A"), [(Code(0x41, 2, 0x41, True, False), "a")])
                self.assertEqual(font.characters(b"A")[0].code, Code(0x41, 1, None, False, True))

    def test_more_characters_than_are_kept(self):
        data = b"begincodespacerange <000000> <FFFFFF> endcodespacerange begincidrange <000000> <FFFFFF> 0 endcidrange"
        with CMap.parse(data) as cmap, Extractor(cmap) as font:
            for first in [0, 50_000, 0]:
                codes = range(first, first + 50_000)
                found = font.characters(b"".join(code.to_bytes(3, "big") for code in codes))
                self.assertEqual([it.code.cid for it in found], list(codes))

    def test_collection_of_the_encoding(self):
        files = {"Adobe-Japan1-UCS2": TEXTS_OF_CIDS}
        with CMap.parse(SMALL) as cmap:
            for over in [{"files": files}, {"files": lambda name: files.get(name.decode())}]:
                with Extractor(cmap, **over) as font:
                    self.assertEqual(font.text(b"B\x81\x40"), "B\u3000")
            with CMap.parse(b"") as none, Extractor(cmap, None, none, files=files) as font:
                self.assertEqual(font.text(b"B"), "\uFFFD")
            with Extractor(cmap, files={}) as font, Extractor(None, files=files) as simple:
                self.assertEqual([font.text(b"B"), simple.text(b"B")], ["\uFFFD"] * 2)
            self.assertRaises(Refused, Extractor, cmap, files={"Adobe-Japan1-UCS2": BROKEN})

    @needs_resources
    def test_collection_of_the_system(self):
        """It is looked for there where nothing is given."""
        with CMap.open("90ms-RKSJ-H") as cmap, CMap.identity() as identity:
            for files, text in [(hayro_cmap.predefined, "日本語"), (None, "日本語"), ({}, "\uFFFD" * 3)]:
                with Extractor(cmap, files=files) as font:
                    self.assertEqual(font.text("日本語".encode("cp932")), text)
            with Extractor(cmap) as font, Extractor(identity, collection="Adobe-Japan1") as named:
                cmap.close()
                self.assertEqual((font.encode("日本"), named.text(b"\x0c\xd4")), ("日本".encode("cp932"), "日"))


class Uses(unittest.TestCase):
    """Closing, and several threads."""

    def test_repr(self):
        with identity_font() as font:
            self.assertEqual(repr(font), "<Extractor of <CMap b'Identity-H', layers: 1>>")
        self.assertEqual(repr(font), "<Extractor of <CMap, closed>>")

    def test_wrong_values(self):
        with identity_font() as font:
            self.assertRaises(TypeError, font.text, b"\0A", missing=5)
            self.assertRaises(TypeError, font.encode, b"A")
            self.assertRaises(TypeError, copy.copy, font)
            self.assertRaises(TypeError, pickle.dumps, font)
        for encoding in ["Identity-H", b"", font]:
            self.assertRaises(TypeError, Extractor, encoding)

    def test_use_after_close(self):
        font = identity_font()
        self.assertEqual([font.text(b"\0A"), font.encode("a")], ["a", b"\0A"])
        items = font.items()
        font.close()
        font.close()
        uses = [
            lambda: font.characters(b""),
            lambda: font.text(b""),
            lambda: font.characters_of([b""]),
            lambda: font.encode("a"),
            lambda: next(font.items()),
            lambda: next(items),
        ]
        for use in uses:
            self.assertRaises(ValueError, use)

    def test_closed_by_another(self):
        """A call gives its answer or a ValueError, and nothing else."""
        for _ in range(20):
            font = identity_font()
            font.text(b"\0A")
            with ThreadPoolExecutor(4) as pool:
                calls = [pool.submit(font.text, b"\0A" * 500) for _ in range(40)]
                font.close()
            for call in calls:
                self.assertTrue(isinstance(call.exception(), ValueError) or call.result() == "a" * 500)
            self.assertRaises(ValueError, font.text, b"")

    def test_use_within_a_use(self):
        """As a handler of signals may have it."""
        with identity_font() as font:
            found = []
            with unittest.mock.patch.object(Room, "text", lambda room, missing: found.append(font.characters(b"\0C")) or "x"):
                self.assertEqual(font.text(b"\0A\0A"), "x")
            self.assertEqual([[it.text for it in row] for row in found], [["ffi"]])
            self.assertEqual(font.text(b"\0A\0A"), "aa")

    def test_threads(self):
        with identity_font() as font, ThreadPoolExecutor(8) as pool:
            strings = [b"\0A" * count + b"\0C\0D" for count in range(400)] * 4
            texts = list(pool.map(font.text, strings))
            self.assertEqual(texts, ["a" * count + "ffi\uFFFD" for count in range(400)] * 4)
            found = pool.map(lambda text: font.encode(text.rstrip("\uFFFD")), texts)
            self.assertEqual(list(found), [string[:-2] for string in strings])


def codes_in(codespaces):
    """All codes of codespace ranges, given by their lowest and highest bytes."""
    return {
        bytes(code)
        for low, high in codespaces
        for code in itertools.product(*(range(least, most + 1) for least, most in zip(low, high)))
    }


class Items(unittest.TestCase):
    """Each code in a codespace range that has a text is found, once and in order."""

    def items_of(self, font, codespaces):
        """The items, which are what `characters` gives for each code."""
        items = list(font.items())
        expected = {}
        for code in codes_in(codespaces):
            found = font.characters(code)
            if len(found) == 1 and found[0].code.in_codespace and found[0].text is not None:
                expected[code] = found[0].text
        self.assertEqual(dict(items), expected)
        codes = [code for code, _ in items]
        self.assertEqual(codes, sorted(expected, key=lambda code: (len(code), code)))
        return items

    def test_simple_font(self):
        with CMap.parse(b"beginbfrange <20> <7E> <0020> <0100> <01FF> <4E00> endbfrange") as cmap:
            with Extractor(None, cmap) as font:
                items = self.items_of(font, [(b"\x00", b"\xff")])
        self.assertEqual((items[0], items[-1], len(items)), ((b" ", " "), (b"~", "~"), 95))

    def test_texts_of_cids(self):
        with CMap.parse(SMALL) as cmap, Extractor(cmap, files={"Adobe-Japan1-UCS2": TEXTS_OF_CIDS}) as font:
            items = dict(self.items_of(font, [(b"\x00", b"\x80"), (b"\x81\x40", b"\x9f\xfc")]))
        self.assertEqual((items[b"A"], items[b"\x81\x40"], len(items)), ("A", "\u3000", 95 + 63))

    def test_codes_that_begin_with_a_code(self):
        ranges = b"begincodespacerange <41> <41> <4000> <42FF> endcodespacerange"
        declared = b" begincidrange <41> <41> 1 <4000> <42FF> 2 endcidrange beginnotdefrange <4240> <4280> 1 endnotdefrange"
        with CMap.parse(ranges + declared) as cmap, CMap.parse(b"beginbfrange <0001> <0202> <0100> endbfrange") as texts:
            with Extractor(cmap, None, texts) as font:
                items = dict(self.items_of(font, [(b"\x41", b"\x41"), (b"\x40\x00", b"\x42\xff")]))
        self.assertNotIn(b"\x41\x00", items)

    def test_random_maps(self):
        chosen = random.Random(7)

        def row(length, width):
            first = chosen.randrange(256**length)
            return first, min(first + chosen.randrange(width), 256**length - 1)

        for _ in range(40):
            codespaces, parts = [], []
            for length in chosen.choices([1, 2], k=3):
                low, high = sorted(chosen.choices(range(256), k=2)), sorted(chosen.choices(range(256), k=2))
                bounds = list(zip(low, high))[:length]
                codespaces.append([bytes(min(it) for it in bounds), bytes(max(it) for it in bounds)])
            for low, high in codespaces:
                parts.append(f"begincodespacerange <{low.hex()}> <{high.hex()}> endcodespacerange")
            for kind, length in zip(chosen.choices(["cid", "notdef"], k=12), chosen.choices([1, 2], k=12)):
                first, last = row(length, 400)
                codes = f"<{first:0{2 * length}x}> <{last:0{2 * length}x}>"
                parts.append(f"begin{kind}range {codes} {chosen.randrange(600)} end{kind}range")
            texts = [f"<{first:04x}> <{last:04x}> <{chosen.randrange(65536):04x}>" for first, last in [row(2, 99)] * 9]
            of_cids = [f"<{cid:04x}> <{chosen.randrange(65536):04x}>" for cid in chosen.sample(range(700), 200)]
            with CMap.parse(" ".join(parts).encode()) as encoding:
                with CMap.parse(f"beginbfrange {' '.join(texts)} endbfrange".encode()) as own:
                    with CMap.parse(f"beginbfchar {' '.join(of_cids)} endbfchar".encode()) as collection:
                        with Extractor(encoding, own, collection) as font:
                            self.items_of(font, codespaces)

    def test_more_codes_than_can_be_listed(self):
        ranges = b"begincodespacerange <00000000> <FFFFFFFF> endcodespacerange"
        declared = b" beginnotdefrange <00000000> <FFFFFFFF> 1 endnotdefrange"
        with CMap.parse(ranges + declared) as cmap, CMap.parse(b"beginbfchar <0001> <0041> endbfchar") as texts:
            with Extractor(cmap, None, texts) as font:
                found = list(itertools.islice(font.items(), 3000))
        self.assertEqual(found[2999], ((2999).to_bytes(4, "big"), "A"))

    def test_map(self):
        with CMap.parse(TO_UNICODE + b" beginbfrange <010000> <010002> <0078> endbfrange") as cmap:
            items = dict(cmap.items())
        self.assertEqual(items[b"\x43"], "ffi")
        self.assertEqual([items[bytes([1, 0, last])] for last in range(3)], ["x", "y", "z"])
        with CMap.parse(to_unicode({1: "A", 2: "ffi"})) as cmap:
            self.assertEqual(dict(cmap.items()), {b"\0\x01": "A", b"\0\x02": "ffi"})

    @needs_resources
    def test_predefined(self):
        with CMap.open("90ms-RKSJ-H") as cmap, Extractor(cmap, files=hayro_cmap.predefined) as font:
            bounds = [(b"\x00", b"\x80"), (b"\x81\x40", b"\x9f\xfc"), (b"\xa0", b"\xdf"), (b"\xe0\x40", b"\xfc\xfc")]
            self.assertGreater(len(self.items_of(font, bounds)), 7000)


class Encoding(unittest.TestCase):
    def test_letters_come_first(self):
        texts = {1: "f", 2: "i", 3: "ffi", 4: "日", 5: "\U0001F600", 6: "f", 7: "st"}
        with identity_font(to_unicode(texts)) as font:
            self.assertEqual(font.encode("ffif日\U0001F600"), b"\0\1\0\1\0\2\0\1\0\4\0\5")
            self.assertEqual(font.encode("fist"), b"\0\1\0\2\0\7")
            self.assertEqual(font.encode(""), b"")
            self.assertEqual(font.encode("fi" * 20_000), b"\0\1\0\2" * 20_000)

    def test_simple_font(self):
        with CMap.parse(b"beginbfrange <20> <7E> <0020> endbfrange") as cmap, Extractor(None, cmap) as font:
            self.assertEqual(font.encode("A text."), b"A text.")

    def test_texts_that_no_string_shows(self):
        with identity_font() as font:
            for text, offset in [("x", 0), ("a\U0001F600x", 2), ("affix", 4), ("aff", 1), ("a\ud800", 1), ("\U0001F601", 0)]:
                with self.assertRaises(Unencodable) as raised:
                    font.encode(text)
                self.assertEqual((raised.exception.text, raised.exception.offset), (text, offset))
                self.assertIsInstance(raised.exception, ValueError)
            self.assertEqual(str(Unencodable("日x", 1)), "'日x' can't be encoded from index 1 on")

    def test_missing(self):
        with identity_font() as font:
            self.assertEqual(font.encode("axa", missing=b"\0?"), b"\0A\0?\0A")
            self.assertEqual(font.encode("x日a", missing=bytearray(b"")), b"\0A")
            self.assertRaises(Unencodable, font.encode, "a\udc00", missing=b"")
            for wrong in [b"?", b"\0?\0"]:
                with self.assertRaisesRegex(ValueError, "which isn't whole codes of the font") as raised:
                    font.encode("axa", missing=wrong)
                self.assertNotIsInstance(raised.exception, Unencodable)
            for wrong in ["x", 5]:
                self.assertRaises(TypeError, font.encode, "a", wrong)
            self.assertRaises(TypeError, font.encode, b"a")

    def test_without_texts(self):
        with CMap.identity() as identity, Extractor(identity) as font:
            self.assertEqual(font.encode(""), b"")
            self.assertRaises(Unencodable, font.encode, "a")

    def test_pieces(self):
        """One of each grade; the codes are those of the string."""
        with graded_font() as font:
            text = "aあ葛\U000E0100-\\一"
            pieces = [
                Piece("a", b"A", Grade.STATED),
                Piece("あ", b"\x81\x41", Grade.CANONICAL),
                Piece("葛", b"\x81\x43", Grade.COLLECTION),
                Piece("\U000E0100", b"", Grade.ALIKE),
                Piece("-", b"-", Grade.ALIKE),
                Piece("\\", b"\\", Grade.NATIONAL),
                Piece("一", b"\x81\x42", Grade.CANONICAL),
            ]
            self.assertEqual(font.pieces(text), pieces)
            self.assertEqual(font.encode(text), b"".join(piece.code for piece in pieces))
            self.assertEqual(font.pieces(""), [])
            self.assertEqual(font.pieces(text * 1000), pieces * 1000)
            self.assertRaises(TypeError, font.pieces, b"a")
            for text, offset in [("aあx", 2), ("あ\ud800", 1)]:
                with self.assertRaises(Unencodable) as raised:
                    font.pieces(text)
                self.assertEqual((raised.exception.text, raised.exception.offset), (text, offset))
        self.assertRaises(ValueError, font.pieces, "a")
        self.assertLess(Grade.STATED, Grade.NATIONAL)

    def test_exact_strings(self):
        with graded_font() as font:
            string = font.encode("aあ葛⼀", exact=True)
            self.assertEqual((string, font.text(string)), (b"A\x81\x41\x81\x43\x81\x42", "aあ葛⼀"))
            self.assertEqual([it.grade for it in font.pieces("a⼀", exact=True)], [Grade.STATED, Grade.COLLECTION])
            for text, offset in [("a一", 1), ("葛\U000E0100", 1), ("-", 0), ("\\", 0)]:
                self.assertEqual(len(font.pieces(text)), len(text))
                with self.assertRaises(Unencodable) as raised:
                    font.encode(text, exact=True)
                self.assertEqual(raised.exception.offset, offset)
            self.assertEqual(font.encode("一a", missing=b"\x81\x40", exact=True), b"\x81\x40A")

    def test_named_collections(self):
        """The map from Unicode is that of the writing mode; the collection that is named counts."""
        calls = [
            (False, "Adobe-Japan1", "あ", b"\0\6"),
            (True, "Adobe-Japan1", "あ", b"\0\7"),
            (True, "Adobe-KR", "가", b"\0\6"),
            (False, "Adobe-GB1", "あ", None),
            (False, None, "あ", None),
        ]
        for vertical, name, text, string in calls:
            with CMap.identity(vertical) as cmap, Extractor(cmap, collection=name, files=COLLECTIONS) as font:
                self.assertEqual(string_of(font, text), string)
        with CMap.parse(SMALL) as cmap, Extractor(cmap, files=COLLECTIONS) as font:
            self.assertEqual(font.encode("あ"), b"\x25")
            with Extractor(cmap, collection="Adobe-KR", files=COLLECTIONS) as other:
                self.assertEqual((string_of(other, "가"), string_of(other, "あ")), (b"\x25", None))
        with CMap.identity() as cmap:
            self.assertRaises(TypeError, Extractor, cmap, collection=b"Adobe-Japan1", files=COLLECTIONS)
            self.assertRaises(TypeError, Extractor, cmap, unicode="UniJIS-UTF16-H")
            with self.assertRaises(Refused):
                Extractor(cmap, collection="Adobe-Japan1", files={"UniJIS-UTF16-H": BROKEN})

    def test_given_map_from_unicode(self):
        with CMap.identity() as cmap, CMap.parse(COLLECTIONS["UniJIS-UTF16-V"]) as unicode:
            with Extractor(cmap, collection="Adobe-Japan1", files=COLLECTIONS, unicode=unicode) as font:
                self.assertEqual(font.encode("あ"), b"\0\7")
            with Extractor(cmap, unicode=unicode) as font:
                self.assertEqual((font.encode("あ"), font.text(b"\0\7")), (b"\0\7", "\uFFFD"))

    def test_map_from_unicode_of_its_own(self):
        """Of a CMap whose name begins with Uni."""
        own = b"/CMapName /UniOwn-H def begincodespacerange <0000> <FFFF> endcodespacerange "
        own += b"begincidchar <2F00> 5 <3042> 8 <4E00> 5 endcidchar"
        files = {"Adobe-Japan1-UCS2": b"beginbfchar <0005> <2F00> endbfchar", "UniJIS-UTF16-H": BROKEN}
        with CMap.parse(own) as cmap:
            with Extractor(cmap, collection="Adobe-Japan1", files=files) as font:
                self.assertEqual(font.encode("一⼀あ"), b"\x4E\0\x2F\0\x30\x42")
            for given in ({}, None):
                with Extractor(cmap, files=given) as font:
                    self.assertEqual(font.encode("あ"), b"\x30\x42")

    @needs_resources
    def test_codes_of_codecs(self):
        """A code is that of Python's codec, which is the vendor's own."""
        ideographs, kana, hangul = (0x4E00, 0x9FFF), (0x3041, 0x30F6), (0xAC00, 0xD7A3)
        # compatibility ideographs of NEC and IBM, which the collection reads as others; and one that Big5 has twice
        others = {"寬90ms-RKSJ-H": b"", "昻90ms-RKSJ-H": b"", "仝ETen-B5-H": b"\xC6\xDF"}
        rows = [
            ("90ms-RKSJ-H", "cp932", ideographs, 6682),
            ("90ms-RKSJ-H", "cp932", kana, 173),
            ("GBK-EUC-H", "gbk", ideographs, 20902),
            ("ETen-B5-H", "big5", ideographs, 13061),
            ("KSCms-UHC-H", "cp949", hangul, 11172),
        ]
        for name, codec, (first, last), count in rows:
            known = {it: it.encode(codec, "ignore") for it in map(chr, range(first, last + 1))}
            known = {it: code for it, code in known.items() if code}
            self.assertEqual(len(known), count)
            with CMap.open(name) as cmap, Extractor(cmap, files=hayro_cmap.predefined) as font:
                for character, code in known.items():
                    expected = others.get(character + name, code)
                    self.assertEqual(font.encode(character, missing=b""), expected, character + name)

    @needs_resources
    def test_exact_strings_of_predefined_maps(self):
        """The exact string of each text of a code has it again."""
        for name in ["90ms-RKSJ-H", "UniGB-UCS2-H", "KSCms-UHC-H", "ETen-B5-H"]:
            with CMap.open(name) as cmap, Extractor(cmap, files=hayro_cmap.predefined) as font:
                texts = {text for code, text in font.items() if len(text) == 1 and text != "\uFFFD" and code[0] > 0x1F}
                self.assertGreater(len(texts), 6000)
                for text in texts:
                    self.assertEqual(font.text(font.encode(text, exact=True)), text)

    @needs_resources
    def test_glyphs_of_collections(self):
        """By Identity-H: full-width kana, an ideograph and no radical, and no compound."""
        with CMap.identity() as cmap, Extractor(cmap, collection="Adobe-Japan1", files=hayro_cmap.predefined) as font:
            codes = font.characters(font.encode("あ一(A)100"))
        self.assertEqual([it.code.cid for it in codes], [843, 1200, 9, 34, 10, 18, 17, 17])


#: Texts, by the predefined CMaps that have codes for them, and the orderings of their collections.
PREDEFINED_TEXTS = [
    ("90ms-RKSJ-H", "Japan1", "日本語の文章を符号にする。ｱｲｳABC"),
    ("UniJIS-UTF16-H", "Japan1", "日本語、𠮷野家"),
    ("EUC-H", "Japan1", "漢字かな"),
    ("UniGB-UCS2-H", "GB1", "中文字符，ABC"),
    ("GBK-EUC-H", "GB1", "简体中文"),
    ("UniCNS-UTF16-H", "CNS1", "繁體中文"),
    ("ETen-B5-H", "CNS1", "繁體中文，漢字"),
    ("KSCms-UHC-H", "Korea1", "한국어 똠방각하"),
    ("UniKS-UTF16-H", "Korea1", "한국어 글자"),
]


@needs_pdftotext
class Pdftotext(unittest.TestCase):
    """pdftotext reads the texts of strings that were encoded."""

    def text_of(self, data):
        """What pdftotext reads in a PDF file."""
        with tempfile.TemporaryDirectory() as folder:
            path = Path(folder, "file.pdf")
            path.write_bytes(data)
            command = ["pdftotext", "-raw", "-enc", "UTF-8", "-nopgbrk", str(path), "-"]
            return subprocess.run(command, check=True, stdout=subprocess.PIPE).stdout.decode().strip("\n")

    @needs_resources
    def test_predefined(self):
        for name, ordering, text in PREDEFINED_TEXTS:
            with self.subTest(name=name), CMap.open(name) as cmap:
                with Extractor(cmap, files=hayro_cmap.predefined) as font:
                    string = font.encode(text)
                self.assertEqual(self.text_of(pdf_showing(string, name.encode(), ordering.encode())), text)

    def test_to_unicode(self):
        texts = ["o", "ffi", "c", "e", "日", "\U0001F600", "é", "f", "i"]
        data = to_unicode(dict(enumerate(texts, 1)))
        with identity_font(data) as font:
            string = font.encode("office日\U0001F600éfi")
            lossy = font.encode("officé ©", missing=b"\0\5")
        self.assertEqual(len(string) // 2, 11)
        self.assertEqual(self.text_of(pdf_showing(string, to_unicode=data)), "office日\U0001F600éfi")
        self.assertEqual(self.text_of(pdf_showing(lossy, to_unicode=data)), "officé日日")


if __name__ == "__main__":
    unittest.main()
