"""A model of the rule by which codes are chosen for texts (docs/FORMATS.md), over `resources`, one character and code at a time.

`Font(layers, to_unicode, collection, unicode, exact)`: lists of layers, of which all but the first may be absent.
`font.standing[text]` is the `Choice` that stands for a text; `font.encode(text)` gives a list of them, or None."""

from collections import defaultdict, namedtuple

import resources

SELECTORS = [range(0xFE00, 0xFE10), range(0xE0100, 0xE01F0)]
MARKS = SELECTORS + [range(0x300, 0x370), range(0x1160, 0x1200), range(0x20D0, 0x2100), range(0x3099, 0x309B), range(0xD7B0, 0xD7FC)]
NO_CHARACTER = ("\0", "\uFFFD", "\uFFFF")
ALIKE = """20 A0 2000 2001 2002 2003 2004 2005 2006 2007 2008 2009 200A 202F 205F; 2D AD 2010 2011; 2014 2015 FE31; 2016 2225; 2212 FF0D
    223C 301C FF5E; A2 FFE0; A3 FFE1; A5 FFE5; A6 FFE4; AC FFE2; AF 2C9 203E FFE3; 20A9 FFE6; B5 3BC; B7 2219; C5 212B; 4B 212A
    162 21A; 163 21B; 394 2206; 3A9 2126; 2044 2215; FF0C FE10; 3001 FE11; 3002 FE12; FF1A FE13; FF1B FE14; FF01 FE15; FF1F FE16
    3016 FE17; 3017 FE18; 2026 FE19; 2025 FE30; 2013 FE32; FF3F FE33 FE34; FF08 FE35; FF09 FE36; FF5B FE37; FF5D FE38; 3014 FE39
    3015 FE3A; 3010 FE3B; 3011 FE3C; 300A FE3D; 300B FE3E; 3008 FE3F; 3009 FE40; 300C FE41; 300D FE42; 300E FE43; 300F FE44
    FF3B FE47; FF3D FE48"""
LINES = [[chr(int(word, 16)) for word in line.split()] for line in ALIKE.replace("\n", ";").split(";") if line.strip()]
NATIONAL = {"\\": "\u00A5\u20A9", "|": "\u00A6\uFFE8", "~": "\u203E\u0303"}
STATED, OWN_FORM, CANONICAL, COLLECTION, BARE, ALIKE_TO, OF_ASCII = range(7)

Given = namedtuple("Given", "cid notdef")
Choice = namedtuple("Choice", "rank code")


def among(ranges, character):
    return any(ord(character) in one for one in ranges)


def bare(text):
    return "".join(character for character in text if not among(SELECTORS, character))


def given(layers):
    """{code: Given} of all codes that declarations contain; the first layer that has one decides, and in it the last of its CIDs"""
    found = {}
    for layer in layers:
        here = {}
        for lists, notdef in ((layer.notdefs, True), (layer.cids, False)):
            for length, declarations in lists.items():
                for first, last, cid in declarations:
                    for number in range(first, min(last, 256**length - 1) + 1):
                        here[number.to_bytes(length, "big")] = Given(cid if notdef else cid + number - first, notdef)
        for code, one in here.items():
            found.setdefault(code, one)
    return found


def texts(layers):
    found = {}
    for layer in layers or ():
        here = {number: resources.text(units, number - first) for first, last, units in layer.texts for number in range(first, min(last, 0xFFFFFF) + 1)}
        for number, text in here.items():
            found.setdefault(number, text)
    return found


def split(layers):
    """The layers under those of a vertical font that give CIDs, or all layers."""
    top = 0
    while top < len(layers) and layers[top].wmode == 1:
        top += 1
    declares = any(layer.cids[length] for layer in layers[:top] for length in layer.cids)
    return list(layers[top:]) if declares and top < len(layers) else list(layers)


def glyphs(lower, layers):
    """{code: CID}: by the lower layers, or else by all; no notdef and no 0"""
    found = {}
    for each in (layers, lower):
        found.update({code: one.cid for code, one in given(each).items() if not one.notdef and one.cid})
    return found


def whole_codes(layers, codes):
    """those in a codespace range of which no prefix is in one"""
    spaces = [(length, first.to_bytes(length, "big"), last.to_bytes(length, "big")) for layer in layers for length, first, last in layer.spaces]
    kept = {}

    def inside(code):
        if code not in kept:
            kept[code] = any(length == len(code) and all(a <= b <= c for a, b, c in zip(first, code, last)) for length, first, last in spaces)
        return kept[code]

    return [code for code in codes if inside(code) and not any(inside(code[:n]) for n in range(1, len(code)))]


def form_of(unicode):
    lengths = {length for layer in unicode for length, _, _ in layer.spaces}
    return "utf-8" if 1 in lengths else "utf-16-be" if 2 in lengths else "utf-32-be"


class Font:
    def __init__(self, encoding, to_unicode=None, collection=None, unicode=None, exact=False):
        self.exact = exact
        self.stated, self.texts = texts(to_unicode), texts(collection)
        self.said = {number for number, text in self.stated.items() if text is not None}
        self.seen = given(encoding)
        lower = encoding if exact else split(encoding)
        cids = self.cids = glyphs(lower, encoding)
        characters = self.characters_of(unicode, len(lower) < len(encoding)) if unicode else {}
        self.form = form_of(unicode) if unicode else None
        self.best = {}
        lengths = {length for layer in encoding for length, _, _ in layer.spaces}
        stated = [number.to_bytes(length, "big") for length in lengths for number in self.stated if number < 256**length]
        codes = sorted(whole_codes(encoding, set(self.seen) | set(cids) | set(stated)), key=lambda code: (len(code), code))
        self.last = {cids[code]: code for code in codes if code in cids and int.from_bytes(code, "big") not in self.said}
        for code in codes:
            self.offer_code(code, cids.get(code), characters)
        self.standing = dict(self.best) if exact else {**self.others(), **self.best}
        for nothing in NO_CHARACTER:
            self.standing.pop(nothing, None)
        self.longest = max(map(len, self.standing), default=1)

    def characters_of(self, unicode, is_split):
        """{CID: characters} by the map from Unicode"""
        form, found = form_of(unicode), defaultdict(list)
        for code, cid in glyphs(split(unicode) if is_split else unicode, unicode).items():
            try:
                character = code.decode(form)
            except UnicodeError:
                continue
            if len(character) == 1:
                found[cid].append(character)
        return found

    def offer_code(self, code, cid, characters):
        said = self.stated.get(int.from_bytes(code, "big"))
        if cid is None and (said is None or code in self.seen):
            return
        if said is not None:
            self.offer(said, STATED, code)
        else:
            said = self.texts.get(cid)
            for character in characters.get(cid, ()):
                if self.exact and said != character:
                    continue
                if character.encode(self.form) == code:
                    self.offer(character, OWN_FORM, code)
                elif said is None or len(said) > 1 or said == character or self.last[cid] == code:
                    self.offer(character, CANONICAL, code)
            if said is not None:
                self.offer(said, COLLECTION, code)
        if said is not None and not self.exact and bare(said) not in ("", said):
            self.offer(bare(said), BARE, code)

    def offer(self, text, rank, code):
        one = Choice(rank, code)
        if text not in self.best or (rank, len(code), code) < (self.best[text].rank, len(self.best[text].code), self.best[text].code):
            self.best[text] = one

    def others(self):
        """what stands for characters without codes of their own"""
        found = {chr(c): Choice(ALIKE_TO, b"") for one in SELECTORS for c in one}
        for character, shown in NATIONAL.items():
            for other in shown:
                if other in self.best and self.best[other].code == character.encode():
                    found[character] = Choice(OF_ASCII, character.encode())
        for line in LINES:
            code = next((self.best[other].code for other in line if other in self.best), None)
            if code is not None:
                found.update({character: Choice(ALIKE_TO, code) for character in line})
        return found

    def lengths(self, text, at):
        """how long a piece may be, in the order in which lengths are tried"""
        letter = 1
        while at + letter < len(text) and among(MARKS, text[at + letter]):
            letter += 1
        most = min(len(text) - at, self.longest)
        return [n for n in range(letter, 0, -1) if n <= most] + list(range(most, letter, -1))

    def encode(self, text):
        first = [None] * len(text) + [True]     # the first piece from each offset on
        for at in range(len(text) - 1, -1, -1):
            for n in self.lengths(text, at):
                choice = self.standing.get(text[at:at + n])
                if choice is not None and first[at + n] is not None:
                    first[at] = (n, choice)
                    break
        if first[0] is None:
            return None
        pieces, at = [], 0
        while at < len(text):
            n, choice = first[at]
            pieces.append(choice)
            at += n
        return pieces

    def string(self, text):
        pieces = self.encode(text)
        return None if pieces is None else b"".join(piece.code for piece in pieces)
