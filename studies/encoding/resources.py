"""Well-formed CMap resources, read by regular expressions: `parse(data, resource)` gives the layers, the top one first.

A layer has `spaces` [(length, first, last)], `cids` and `notdefs` {length: [(first, last, cid)]}, `texts` [(first, last, units)],
`wmode` and `ordering`. It is written apart from the project, and serves as the other side of comparisons."""

import re
from types import SimpleNamespace

SECTION = re.compile(rb"begin(codespacerange|cidrange|cidchar|notdefrange|notdefchar|bfrange|bfchar)(.*?)end\1", re.S)
TEXT, CODE = rb"<([0-9A-Fa-f\s]*)>", rb"<\s*([0-9A-Fa-f]+)\s*>"


def units(digits):
    data = bytes.fromhex(digits.decode().replace(" ", ""))
    return [int.from_bytes(data[i:i + 2], "big") for i in range(0, len(data), 2)]


def text(units_of_text, offset):
    """The text of UTF-16 units of which the last one counts on; none where it doesn't, or where they are no text."""
    if not units_of_text or offset > 0xFFFF or units_of_text[-1] + offset > 0xFFFF:
        return None
    counted = [*units_of_text[:-1], units_of_text[-1] + offset]
    try:
        return b"".join(unit.to_bytes(2, "big") for unit in counted).decode("utf-16-be")
    except UnicodeDecodeError:
        return None


def parse(data, resource):
    data = re.sub(rb"(?m)%.*$", b"", data)

    def word(pattern):
        found = re.search(pattern, data)
        return found and found.group(1)

    layer = SimpleNamespace(spaces=[], cids={n: [] for n in (1, 2, 3, 4)}, notdefs={n: [] for n in (1, 2, 3, 4)}, texts=[],
                            wmode=int(word(rb"/WMode\s+(\d)\s+def") or 0), ordering=word(rb"/Ordering\s*\(([^)]*)\)"))
    for kind, body in SECTION.findall(data):
        add_section(layer, kind, body)
    used = re.findall(rb"/([!-~]+?)\s+usecmap", data)
    base = resource(used[-1].decode()) if used else None
    return [layer] + (parse(base, resource) if base is not None else [])


def add_section(layer, kind, body):
    if kind == b"codespacerange":
        for first, last in re.findall(CODE + rb"\s*" + CODE, body):
            layer.spaces.append((len(first) // 2, int(first, 16), int(last, 16)))
    elif kind == b"bfchar":
        for code, digits in re.findall(CODE + rb"\s*" + TEXT, body):
            layer.texts.append((int(code, 16), int(code, 16), units(digits)))
    elif kind == b"bfrange":
        for first, last, digits, listed in re.findall(CODE + rb"\s*" + CODE + rb"\s*(?:" + TEXT + rb"|\[([^\]]*)\])", body):
            if listed:
                layer.texts += [(int(first, 16) + i,) * 2 + (units(one),) for i, one in enumerate(re.findall(TEXT, listed))]
            else:
                layer.texts.append((int(first, 16), int(last, 16), units(digits)))
    else:
        ends = CODE + rb"\s*" + (CODE if kind.endswith(b"range") else rb"()") + rb"\s*(\d+)"
        lists = layer.cids if kind.startswith(b"cid") else layer.notdefs
        for first, last, cid in re.findall(ends, body):
            lists[len(first) // 2].append((int(first, 16), int(last or first, 16), int(cid)))
