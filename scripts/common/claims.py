"""The claims of public calls: their clauses, and the definitions on which these rest, in an order for reading."""

import re
from dataclasses import dataclass, field

from .programs import CRATES

EXPORTS = re.findall(r"pub extern \"C\" fn (\w+)", "\n".join(path.read_text() for path in sorted(CRATES.glob("cmap_c*/src/*.rt"))))

# the calls of each claim whose length docs/PROVED.md gives
CLAIMS = {
    "headline": ["Bundle::parse", "CMap::parse", "CMap::lookup_cid_code", "CMap::lookup_bf_string", "CMap::metadata"],
    "c": EXPORTS,
    "maker": ["make_named_bundle"],
}

USE = re.compile(r"^ *(?:pub |ghost )*use ((?:Rattle|Prim)(?:\.\w+)+)(?:\.\{([^}]*)\}|\s+as\s+(\w+))?;?$", re.MULTILINE)
BEGIN = re.compile(r" *(?:(?:pub|abbrev|unfoldable|data|record) )+(\S+)")
CONSTRUCTOR = re.compile(r"^ +(?:pub )?([\w-]+) :", re.MULTILINE)
NAME = re.compile(r"[^\W\d][\w'-]*(?:\.[^\W\d][\w'-]*)?")
CONSTANT = re.compile(r"\b[A-Z][A-Z0-9_]+\b")


class Unclaimed(Exception):
    """No public call has the name, or its claim rests on the code."""


@dataclass
class Definition:
    """A definition of specs/, with the comment above it and the parameters of the modules around it."""

    name: str
    lines: list
    around: tuple = ()

    def text(self):
        return "\n".join(self.lines)


@dataclass
class Module:
    """A file of definitions."""

    name: str
    text: str
    definitions: dict = field(default_factory=dict)
    constructors: dict = field(default_factory=dict)
    imports: dict = field(default_factory=dict)


def imports_of(text):
    """The meaning of each imported name: a module and a name in it, or a module and None for the module itself."""
    found = {}
    for module, names, alias in USE.findall(text):
        for name in filter(None, map(str.strip, names.split(","))):
            found[name] = (module, name)
        if alias or not names:
            found[alias or module.rpartition(".")[2]] = (module, None)
    return found


def indent_of(line):
    return len(line) - len(line.lstrip())


def is_begin(line):
    """Whether a line begins a definition."""
    words = line.split()
    return bool(words) and (words[0] in ("abbrev", "unfoldable", "data", "record") or words[0] == "pub" and words[1] != "use")


def read_module(name, text):
    """The definitions of a file."""
    module = Module(name, text, imports=imports_of(text))
    comment, around, current = [], [], None
    for line in text.split("\n"):
        indent = indent_of(line)
        while around and line.strip() and indent <= indent_of(around[-1]):
            around.pop()
        if current and (not line.strip() or indent > current[1] or line.split()[0] in (current[0].name, "}", "]")):
            current[0].lines += [*comment, line]
            comment = []
            continue
        if line.strip().startswith("--"):
            comment.append(line)
            continue
        if line.strip().startswith("module "):
            around.append(line)
        elif is_begin(line):
            found = Definition(BEGIN.match(line)[1], [*comment, line], tuple(around))
            module.definitions[found.name] = found
            current, comment = (found, indent), []
            continue
        elif line.strip():
            comment = []
        if line.strip():
            current = None
    for found in module.definitions.values():
        while not found.lines[-1].strip() or found.lines[-1].strip().startswith("--"):
            found.lines.pop()
        if re.search(r"^ *(?:pub )?data ", found.text(), re.MULTILINE):
            module.constructors |= {name: found.name for name in CONSTRUCTOR.findall(found.text())}
    return module


def modules():
    """All files of definitions by their names."""
    found = {}
    for path in sorted(CRATES.glob("*/specs/**/*.antt")):
        name = f"Rattle.{path.relative_to(CRATES).parts[0]}.specs.{path.stem}"
        found[name] = read_module(name, path.read_text())
    return found


@dataclass
class Call:
    """A public call: its signature with its clauses, and the meaning of the names in these."""

    name: str
    signature: str
    imports: dict
    views: list

    def clauses(self):
        """The text of its clauses, and of the views of the types in them."""
        start = re.search(r"^ *(?:requires|ensures)", self.signature, re.MULTILINE)
        return "\n".join([self.signature[start.start() :] if start else "", *self.views])


def calls_in(text):
    """The public calls of a source by their names, as `Type::name` and `name`."""
    imports = imports_of(text)
    views = {found[1]: found[0] for found in re.finditer(r"^impl.* Model for (\w+).*?^}", text, re.MULTILINE | re.DOTALL)}
    kind, found = None, {}
    lines = text.split("\n")
    for start, line in enumerate(lines):
        if line.startswith("impl"):
            kind = re.match(r"impl(?:<.*?>)? (\w+)", line)[1] if " for " not in line else None
        elif line == "}":
            kind = None
        begins = re.match(r' *pub (?:extern "C" )?fn (\w+)', line)
        if not begins or (kind is None and line.startswith(" ")):
            continue
        end = next(at for at in range(start, len(lines)) if lines[at].endswith("{") and indent_of(lines[at]) <= indent_of(line))
        signature = "\n".join([*lines[start:end], lines[end].rstrip("{").rstrip()]).rstrip()
        name = f"{kind}::{begins[1]}" if kind else begins[1]
        found[name] = Call(name, signature, imports, [views[kind]] if kind in views else [])
    return found


def call_of(name):
    """The public call of this name."""
    for path in sorted(CRATES.glob("*/src/**/*.rt")):
        if name.rpartition("::")[2] in path.read_text():
            if found := calls_in(path.read_text()).get(name):
                return found
    raise Unclaimed(f"no public call has the name {name}")


class Claim:
    """The clauses of calls, with all definitions on which they rest."""

    def __init__(self, names):
        self.modules = modules()
        self.calls = [call_of(name) for name in names]
        self.reached, self.library, self.code = {}, set(), set()
        for call in self.calls:
            self.check_constants(call.name, call.clauses())
            self.follow(call.clauses(), call.imports)

    def check_constants(self, name, clauses):
        """Refuses clauses that name a constant of the code, since this could be any number."""
        known = {"SLOTS", *re.findall(r"\b[A-Z]\b", clauses)}
        for word in set(CONSTANT.findall(clauses)) - known:
            if word not in self.imported_words(name):
                raise Unclaimed(f"{name} rests on the constant {word} of the code")

    def imported_words(self, name):
        return call_of(name).imports

    def follow(self, text, imports, module=None):
        """Adds the definitions of the names in a text."""
        for word in NAME.findall(re.sub(r"--.*", "", text)):
            head, _, field_name = word.partition(".")
            if head in imports:
                place, name = imports[head]
                self.add(place, name or field_name or head)
            elif module and head in {**module.definitions, **module.constructors}:
                self.add(module.name, head)

    def add(self, place, name):
        """Adds the definition of a name, and the definitions on which it rests."""
        module = self.modules.get(place)
        if module is None:
            return self.add_outside(place, name)
        name = module.constructors.get(name, name)
        if name not in module.definitions:
            if name in module.imports:
                self.add(module.imports[name][0], module.imports[name][1] or name)
            return None
        if name not in self.reached.setdefault(place, set()):
            self.reached[place].add(name)
            self.follow(module.definitions[name].text(), module.imports, module)
        return None

    def add_outside(self, place, name):
        """Adds a word of the toolchain's library, or a type of the code. Refuses a constant of the code."""
        if ".specs.declared.TheConstants" in place:
            raise Unclaimed(f"a definition rests on the constant {name} of the code")
        parts = place.split(".")
        if ".declared." in place and parts[1] != "std":
            self.code.add(".".join([parts[1], *parts[4:]]).removesuffix(".TheVariants"))
        else:
            self.library.add((parts[-1], name))

    def order(self):
        """The modules, each after the modules that it uses."""
        ordered = []

        def visit(place):
            if place in ordered:
                return
            for other, _ in self.modules[place].imports.values():
                if other in self.reached and other != place:
                    visit(other)
            if place not in ordered:
                ordered.append(place)

        for place in self.reached:
            visit(place)
        return ordered

    def text_of(self, place):
        """The definitions of a module that the claim needs, in the order of the module."""
        module, around, found = self.modules[place], (), []
        for name, definition in module.definitions.items():
            if name in self.reached[place]:
                found += [line for line in definition.around if line not in around]
                found += [definition.text(), ""]
                around = definition.around
        return "\n".join(found)

    def lines(self):
        """The number of lines of the definitions."""
        texts = (self.text_of(place) for place in self.reached)
        return sum(bool(line.strip()) for text in texts for line in text.split("\n"))

    def count(self):
        """The number of definitions."""
        return sum(map(len, self.reached.values()))

    def write(self):
        """The parts of the whole text, in order."""
        for call in self.calls:
            yield from [call.signature, ""]
        for view in dict.fromkeys(view for call in self.calls for view in call.views):
            yield from [view, ""]
        for place in self.order():
            _, crate, _, name = place.split(".")
            yield from [f"-- ---- {crate}: {name}", self.text_of(place)]
        yield "-- ---- of the toolchain's library"
        for place in sorted({place for place, _ in self.library}):
            yield f"-- {place}: " + ", ".join(sorted(name for other, name in self.library if other == place))
        yield "-- ---- types of the code: " + ", ".join(sorted(self.code))
