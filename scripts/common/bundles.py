"""Bundles of the 65 predefined CMap files, made from their texts: as texts, or in the binary form.

The writer is for tests and measurements. Of the text format it reads only what the files of poppler-data need.
docs/FORMATS.md describes bundles and binary files."""

import heapq
import re
import struct
from collections import Counter, namedtuple
from itertools import count, groupby

# the known names in alphabetical order, which gives each name its index
KNOWN_NAMES = """
83pv-RKSJ-H 90ms-RKSJ-H 90ms-RKSJ-V 90msp-RKSJ-H 90msp-RKSJ-V 90pv-RKSJ-H Add-RKSJ-H Add-RKSJ-V
Adobe-CNS1-UCS2 Adobe-GB1-UCS2 Adobe-Japan1-UCS2 Adobe-Korea1-UCS2 B5pc-H B5pc-V CNS-EUC-H
CNS-EUC-V ETen-B5-H ETen-B5-V ETenms-B5-H ETenms-B5-V EUC-H EUC-V Ext-RKSJ-H Ext-RKSJ-V GB-EUC-H
GB-EUC-V GBK-EUC-H GBK-EUC-V GBK2K-H GBK2K-V GBKp-EUC-H GBKp-EUC-V GBpc-EUC-H GBpc-EUC-V H
HKscs-B5-H HKscs-B5-V Identity-H Identity-V KSC-EUC-H KSC-EUC-V KSCms-UHC-H KSCms-UHC-HW-H
KSCms-UHC-HW-V KSCms-UHC-V KSCpc-EUC-H UniCNS-UCS2-H UniCNS-UCS2-V UniCNS-UTF16-H UniCNS-UTF16-V
UniGB-UCS2-H UniGB-UCS2-V UniGB-UTF16-H UniGB-UTF16-V UniJIS-UCS2-H UniJIS-UCS2-HW-H
UniJIS-UCS2-HW-V UniJIS-UCS2-V UniJIS-UTF16-H UniJIS-UTF16-V UniKS-UCS2-H UniKS-UCS2-V
UniKS-UTF16-H UniKS-UTF16-V V
""".split()

# the kinds of declarations
CID, NOTDEF, TEXT, CODESPACE = "cid", "notdef", "text", "codespace"

# codes of `width` bytes from start to end; `value` is the CID of the first, or its units
Declaration = namedtuple("Declaration", "kind width start end value")

# a segment of entries: its type, its declarations, and the number of units of each text, or None if the lengths differ
Segment = namedtuple("Segment", "type declarations units")

# how many codes a range of a binary file may have
MOST_CODES = 257

TOKEN = re.compile(
    rb"%[^\n\f\r]*|<(?P<hex>[0-9A-Fa-f\s]*)>|/(?P<name>[^\s()<>\[\]{}/%]*)"
    rb"|\((?P<text>[^()\\]*)\)|(?P<word>[\[\]{}]|<<|>>|[^\s()<>\[\]{}/%]+)"
)


def tokens_of(text):
    """The tokens of a text, each with its kind."""
    for match in TOKEN.finditer(text):
        if match.lastgroup is not None:
            yield match.lastgroup, match.group(match.lastgroup)


class File:
    """The content of a CMap file, read from its text."""

    def __init__(self, text):
        self.values = {}
        self.uses = []
        self.declarations = []
        tokens = tokens_of(text)
        before = None
        for kind, token in tokens:
            if kind == "name" and token in (b"Registry", b"Ordering", b"Supplement", b"CMapName", b"WMode"):
                self.values[token] = next(tokens)[1]
            elif token == b"usecmap":
                self.uses.append(before)
            elif kind == "word" and token in READERS:
                READERS[token](self, iter(lambda: next(tokens), ("word", token.replace(b"begin", b"end"))))
            before = token

    def add(self, kind, low, high, value):
        self.declarations.append(
            Declaration(kind, len(low), int.from_bytes(low, "big"), int.from_bytes(high, "big"), value)
        )

    def read_codespaces(self, tokens):
        for low in tokens:
            self.add(CODESPACE, string(low), string(next(tokens)), None)

    def read_ranges(self, kind, tokens):
        for low in tokens:
            high = next(tokens)
            self.add(kind, string(low), string(high), int(next(tokens)[1]))

    def read_singles(self, kind, tokens):
        for code in tokens:
            self.add(kind, string(code), string(code), int(next(tokens)[1]))

    def read_text_ranges(self, tokens):
        for low in tokens:
            low, high, (kind, token) = string(low), string(next(tokens)), next(tokens)
            if kind == "hex":
                self.add(TEXT, low, high, units_of(bytes.fromhex(token.decode())))
                continue
            for code in range(int.from_bytes(low, "big"), int.from_bytes(high, "big") + 1):
                code = code.to_bytes(len(low), "big")
                self.add(TEXT, code, code, units_of(string(next(tokens))))
            next(tokens)

    def read_text_singles(self, tokens):
        for code in tokens:
            self.add(TEXT, string(code), string(code), units_of(string(next(tokens))))


READERS = {
    b"begincodespacerange": File.read_codespaces,
    b"begincidrange": lambda file, tokens: file.read_ranges(CID, tokens),
    b"begincidchar": lambda file, tokens: file.read_singles(CID, tokens),
    b"beginnotdefrange": lambda file, tokens: file.read_ranges(NOTDEF, tokens),
    b"beginnotdefchar": lambda file, tokens: file.read_singles(NOTDEF, tokens),
    b"beginbfrange": File.read_text_ranges,
    b"beginbfchar": File.read_text_singles,
}


def string(token):
    return bytes.fromhex(token[1].decode())


def units_of(text):
    return struct.unpack(f">{len(text) // 2}H", text)


def sized(front, payload):
    """The bytes of a front and a payload, with the whole length between them."""
    return front + struct.pack(">I", len(front) + 4 + len(payload)) + payload


# the types of segments: for ranges and single codes of CIDs by their width, for texts by their number of units
CID_TYPES = {(width, single): 2 * width - (not single) for width in (1, 2, 3, 4) for single in (False, True)}
TEXT_TYPES = {(1, True): 0x11, (2, True): 0x12, (3, True): 0x13, (4, True): 0x14, (1, False): 0x15, (2, False): 0x16}
ANY_TEXTS = {False: 0x0F, True: 0x10}


def type_of(declaration):
    """The type of the segment for a declaration, and the number of units if the type fixes it."""
    single = declaration.start == declaration.end
    if declaration.kind == CID:
        return CID_TYPES[declaration.width, single], None
    units = len(declaration.value)
    if (units, single) in TEXT_TYPES:
        return TEXT_TYPES[units, single], units
    return ANY_TEXTS[single], None


def in_short_ranges(declaration):
    """The same declaration, in ranges that a binary file may hold."""
    for start in range(declaration.start, declaration.end + 1, MOST_CODES):
        more = start - declaration.start
        if declaration.kind == CID:
            value = declaration.value + more
        else:
            value = (*declaration.value[:-1], declaration.value[-1] + more)
        end = min(start + MOST_CODES - 1, declaration.end)
        yield declaration._replace(start=start, end=end, value=value)


def are_apart(declarations):
    """Whether no code lies in two of these."""
    ordered = sorted(declarations, key=lambda it: (it.start, it.end))
    return all(one.end < other.start for one, other in zip(ordered, ordered[1:]))


def segments_of(declarations):
    """The segments of CIDs of one width, or of texts. Declarations are sorted if their order doesn't matter."""
    short = [it for declaration in declarations for it in in_short_ranges(declaration)]
    if are_apart(short):
        short.sort(key=lambda it: (type_of(it), it.start))
    for (number, units), group in groupby(short, type_of):
        held = []
        for declaration in group:
            starts_anew = held and (
                declaration.start <= held[-1].end or declaration.value == 0 or len(held) == 0xFFFF
            )
            if starts_anew:
                yield Segment(number, held, units)
                held = []
            held.append(declaration)
        yield Segment(number, held, units)


def deltas_of(segment):
    """The number of codes between each entry and the entry before."""
    after = 0
    for declaration in segment.declarations:
        yield declaration.start - after
        after = declaration.end + 1


def counts_of(segment):
    """The number of codes of each range, less two; single codes are left out."""
    return [it.end - it.start - 1 for it in segment.declarations if it.end > it.start]


class PrefixTable:
    """Code words for symbols, short words for frequent symbols."""

    def __init__(self, frequencies):
        order = count()
        heap = [(number, next(order), [symbol]) for symbol, number in sorted(frequencies.items())]
        heapq.heapify(heap)
        self.lengths = dict.fromkeys(frequencies, 1 if len(heap) == 1 else 0)
        while len(heap) > 1:
            one, other = heapq.heappop(heap), heapq.heappop(heap)
            for symbol in one[2] + other[2]:
                self.lengths[symbol] += 1
            heapq.heappush(heap, (one[0] + other[0], next(order), one[2] + other[2]))
        self.symbols = sorted(self.lengths, key=lambda symbol: (self.lengths[symbol], symbol))
        self.words, value, length = {}, 0, 0
        for symbol in self.symbols:
            value <<= self.lengths[symbol] - length
            length = self.lengths[symbol]
            self.words[symbol] = format(value, f"0{length}b")
            value += 1

    def written(self, form):
        """The table, its symbols in this form."""
        most = max(self.lengths.values(), default=0)
        numbers = Counter(self.lengths.values())
        counted = [numbers[length] for length in range(1, most + 1)]
        front = struct.pack(f">HB{most}H", min(len(self.symbols), 0xFFFF), most, *counted)
        return front + struct.pack(f">{len(self.symbols)}{form}", *self.symbols)

    def column(self, symbols):
        """The bits of the symbols' words, after their length in bytes."""
        bits = "".join(self.words[symbol] for symbol in symbols)
        bits += "0" * (-len(bits) % 8)
        column = int(bits or "0", 2).to_bytes(len(bits) // 8, "big")
        return struct.pack(">I", len(column)) + column


def raw_cids(declarations):
    """The CID of each entry, or 0 if the CID follows the CIDs of the entry before."""
    after = 0
    for declaration in declarations:
        yield 0 if declaration.value == after else declaration.value
        after = declaration.value + declaration.end - declaration.start + 1


def entries(segment, deltas, counts):
    """The payload of a segment of CIDs or texts."""
    payload = struct.pack(">H", len(segment.declarations)) + deltas.column(deltas_of(segment))
    if segment.declarations[0].end > segment.declarations[0].start:
        payload += counts.column(counts_of(segment))
    if segment.declarations[0].kind == CID:
        return payload + b"".join(struct.pack(">H", cid) for cid in raw_cids(segment.declarations))
    for declaration in segment.declarations:
        if segment.units is None:
            payload += bytes([len(declaration.value)])
        payload += struct.pack(f">{len(declaration.value)}H", *declaration.value)
    return payload


def fields(file):
    """The segments of plain fields, each with its type."""
    values = file.values
    for name in file.uses:
        yield 0x09, name
    if b"WMode" in values:
        yield 0x0B, bytes([int(values[b"WMode"])])
    if b"CMapName" in values:
        yield 0x0D, values[b"CMapName"]
    if {b"Registry", b"Ordering", b"Supplement"} <= values.keys():
        texts = values[b"Registry"] + b"\0" + values[b"Ordering"] + b"\0"
        yield 0x0E, texts + struct.pack(">H", int(values[b"Supplement"]))
    spaces = [it for it in file.declarations if it.kind == CODESPACE]
    if spaces:
        yield 0x0C, bytes([len(spaces)]) + b"".join(
            bytes([it.width]) + it.start.to_bytes(it.width, "big") + it.end.to_bytes(it.width, "big")
            for it in spaces
        )
    notdefs = (it for it in file.declarations if it.kind == NOTDEF)
    for width, group in groupby(notdefs, lambda it: it.width):
        group = list(group)
        yield 0x0A, struct.pack(">BH", width, len(group)) + b"".join(
            it.start.to_bytes(width, "big") + it.end.to_bytes(width, "big") + struct.pack(">H", it.value)
            for it in group
        )


def entry_segments(file):
    """All segments of CIDs and of texts."""
    for width in (1, 2, 3, 4):
        yield from segments_of([it for it in file.declarations if it.kind == CID and it.width == width])
    yield from segments_of([it for it in file.declarations if it.kind == TEXT])


def binary_bundle(texts):
    """The bundle of these texts, one for each known name, as binary files."""
    files = [File(text) for text in texts]
    segments = [list(entry_segments(file)) for file in files]
    every = [segment for row in segments for segment in row]
    deltas = PrefixTable(Counter(delta for segment in every for delta in deltas_of(segment)))
    counts = PrefixTable(Counter(number for segment in every for number in counts_of(segment)))
    tables = deltas.written("I") + counts.written("B")
    bundle = struct.pack(">I", len(tables)) + tables
    for file, row in zip(files, segments):
        said = [sized(bytes([number]), payload) for number, payload in fields(file)]
        said += [sized(bytes([segment.type]), entries(segment, deltas, counts)) for segment in row]
        bundle += sized(b"bcmap\x01", b"".join(said))
    return bundle


def text_bundle(texts):
    """The bundle of these texts as they are, each after a comment that holds its length."""
    tables = PrefixTable(Counter()).written("I") * 2
    bundle = struct.pack(">I", len(tables)) + tables
    for text in texts:
        payload = b"\n" + text
        while set(struct.pack(">I", 10 + len(payload))) & set(b"\n\f\r"):
            payload += b" "
        bundle += sized(b"% text", payload)
    return bundle
