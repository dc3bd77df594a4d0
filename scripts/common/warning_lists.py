"""The lists of the warnings of `cmap check --lint`: each list has the warnings of the source, in the same order."""

import re

from .programs import TOP

# the order, the names and the numbers of the warnings
SOURCE = "crates/cmap_lint/src/warning.rt"

# what leads to the names in each file: each pattern is looked for in what the one before it found
NAMES = {
    "docs/COMMAND.md": [r"^\| Name \| When \| Counts \|\n(.*?)\n\n", r"^\| (`.*?) \|", r"`(.*?)`"],
    "man/cmap.1": [r"in this order,\s(.*?)\.\n", r"[\w-]+"],
    "completions/_cmap": [r"^warnings=\(\s+all\s(.*?)\)", r"[\w-]+"],
    "completions/cmap.bash": [r'local warnings="all (.*?)COMPREPLY', r"[\w-]+(?![+\w-])"],
    "completions/cmap.fish": [r"^set -l warnings all (.*?)\n\n", r"[\w-]+"],
    "bindings/python/hayro_cmap/pdf/_warning_names.py": [r"^WARNINGS = \((.*?)^\)", r'"(.*?)"'],
    "bindings/python/tests/test_lint.py": [r"^NAMES = \[(.*?)^\]", r'"(.*?)"'],
    "bindings/c/tests.c": [r"^static void warnings_have_names.*?names\[\] = \{(.*?)\}", r'"(.*?)"'],
}
# and to the variants
VARIANTS = [r"^pub enum Warning \{(.*?)^\}", r"^    (\w+),"]
VARIANTS_AGAIN = [r"^const WARNINGS: .*? = \[(.*?)^\]", r"Warning::(\w+)"]
BINDING = "bindings/rust/src/finding.rs"

# files that name the last warning, each by this pattern
LAST = {
    "crates/cmap_lint/must-fail-by-hand/the_last_warning_has_no_number.edit": r"Warning::(\w+)",
    "bindings/c/tests.c": r"HAYRO_CMAP_WARNING_(\w+) \+ 1",
    "bindings/cpp/tests.cc": r"HAYRO_CMAP_WARNING_(\w+) \+ 1",
}


def found(text, patterns):
    """What the last pattern finds."""
    for pattern in patterns:
        matches = re.findall(pattern, text, re.MULTILINE | re.DOTALL)
        text = "\n".join(matches)
    return matches


def differences(path, patterns, expected):
    """A sentence for each expected word that the list in the file lacks, and for each other word in it."""
    words = found((TOP / path).read_text().replace("\\-", "-"), patterns)
    yield from (f"{path}: no warning {word}" for word in expected if word not in words)
    yield from (f"{path}: no warning of the source: {word}" for word in words if word not in expected)
    if words != expected and sorted(words) == sorted(expected):
        yield f"{path}: the warnings have another order than in {SOURCE}"


def missing_warnings():
    """The differences of each list, with a sentence for each."""
    source = (TOP / SOURCE).read_text()
    names = dict(re.findall(r'Warning::(\w+) => "([^"]+)"', source))
    numbers = dict(re.findall(r"Warning::(\w+) => (\d+)", source))
    variants = found(source, VARIANTS)
    for path, patterns in NAMES.items():
        yield from differences(path, patterns, [names[variant] for variant in variants])
    for patterns in [VARIANTS, VARIANTS_AGAIN]:
        yield from differences(BINDING, patterns, variants)
    header = (TOP / "include/hayro_cmap.h").read_text()
    cases = "".join(path.read_text() for path in (TOP / "examples/command").glob("*.cases"))
    last = variants[-1]
    for path, pattern in LAST.items():
        found_last = re.findall(pattern, (TOP / path).read_text())
        if not found_last or set(found_last) - {last, names[last].upper().replace("-", "_")}:
            yield f"{path}: {', '.join(found_last) or 'nothing'} in the place of the last warning, {last}"
    study = (TOP / "studies/lint-counts").read_text()
    for variant in variants:
        name = names[variant]
        if f'"{name}"' not in study:
            yield f"studies/lint-counts: no count of {name}"
        constant = f"HAYRO_CMAP_WARNING_{name.upper().replace('-', '_')} = {numbers[variant]}"
        if not re.search(rf"\b{constant}\b", header):
            yield f"include/hayro_cmap.h: no {constant}"
        if f": warning: {name}:" not in cases:
            yield f"examples/command: no case with the warning {name}"
