"""The tokens of a source file, each with the white space and the comments before it."""

import re
from dataclasses import dataclass

TOKEN = re.compile(
    r"""(?P<lead>(?:\s|//[^\n]*)*)
    (?:(?P<text>(?:b|c)?"(?:\\.|[^"\\])*"|b?'(?:\\(?:x[0-9A-Fa-f]{2}|u\{[^}]*\}|.)|[^'\\\n])')
    |(?P<lifetime>'[A-Za-z_]\w*)
    |(?P<word>\w+)
    |(?P<mark>::|->|=>|\.\.=|\.\.|.)
    |(?P<end>\Z))""",
    re.X | re.S,
)
BRACKETS = {"(": ")", "[": "]", "{": "}"}
# the lines of comments right above a token; the comments on a whole file stay
NOTES = re.compile(r"(?:(?:^|(?<=\n))[ \t]*//(?!!)[^\n]*\n)+(?P<indent>[ \t]*)\Z")

# lines of imports, and the prefixes of imports that come before others
IMPORTS = re.compile(r"(?:^use [^;]+;\n)+", re.M)
FRONTS = ["use self::", "use super::", "use crate::"]
# the comments on a whole file
FILE_DOCS = re.compile(r"(?:\s*//![^\n]*\n)*")


class Unknown(Exception):
    """A construct that no rule knows; the text names the file and the line."""


@dataclass
class Token:
    """A token: a literal (`text`), a lifetime, a word, a mark, or the end of the file."""

    kind: str
    text: str
    lead: str
    line: int


def tokens_of(text):
    """The tokens of a text, the end as the last one."""
    tokens, line = [], 1
    for found in TOKEN.finditer(text):
        line += found["lead"].count("\n")
        tokens.append(Token(found.lastgroup, found[found.lastgroup], found["lead"], line))
        line += tokens[-1].text.count("\n")
        if found.lastgroup == "end":
            return tokens
    raise AssertionError("a text has an end")


class Source:
    """A file, from which tokens are erased."""

    def __init__(self, path, text):
        self.path, self.tokens = path, tokens_of(text)

    def refuse(self, at, what):
        """Stops with the line of a token and a message."""
        raise Unknown(f"{self.path}:{self.tokens[at].line}: {what}")

    def word(self, at):
        """The token at an index as text, unless it is a literal."""
        within = 0 <= at < len(self.tokens) and self.tokens[at].kind != "text"
        return self.tokens[at].text if within else ""

    def words(self, at, *texts):
        """Whether these tokens follow one another from an index on."""
        return all(self.word(at + i) == text for i, text in enumerate(texts))

    def indices(self, *texts):
        """The indices of these tokens, the last one first, so that a rule may erase what follows."""
        return [at for at in reversed(range(len(self.tokens))) if self.word(at) in texts]

    def closing(self, at):
        """The index at which the bracket at an index is closed."""
        ends = []
        for i in range(at, len(self.tokens)):
            if self.word(i) in BRACKETS:
                ends.append(BRACKETS[self.word(i)])
            elif ends and self.word(i) == ends[-1]:
                ends.pop()
                if not ends:
                    return i
        return self.refuse(at, "a bracket isn't closed")

    def find(self, at, *texts):
        """The index of the next of these tokens outside of brackets, from an index on."""
        while self.word(at) not in texts:
            if self.tokens[at].kind == "end":
                self.refuse(at, f"the file ends before one of {' '.join(texts)}")
            at = self.closing(at) + 1 if self.word(at) in BRACKETS else at + 1
        return at

    def find_back(self, at, *texts):
        """The index of the last of these tokens up to an index."""
        start = at
        while self.word(at) not in texts:
            at -= 1
            if at < 0:
                self.refuse(start, f"none of {' '.join(texts)} stands before it")
        return at

    def erase(self, first, end):
        """Erases the tokens from `first` to before `end`; the white space before `first` stays."""
        self.tokens[end].lead = self.tokens[first].lead
        del self.tokens[first:end]

    def erase_item(self, first, end):
        """Erases an item, with the comments right above it."""
        kept = NOTES.sub(r"\g<indent>", self.tokens[first].lead)
        self.tokens[end].lead = kept + self.tokens[end].lead
        del self.tokens[first:end]

    def replace(self, first, end, *texts):
        """Replaces the tokens from `first` to before `end` by words and marks."""
        before = self.tokens[first]
        made = [Token("word" if text[0].isalpha() else "mark", text, "", before.line) for text in texts]
        made[0].lead = before.lead
        self.tokens[first:end] = made

    def insert(self, at, text, space):
        """Inserts a text before a token, after the comments on the whole file, and this white space after it."""
        lead = self.tokens[at].lead
        docs = FILE_DOCS.match(lead)[0]
        front = docs + "\n" if docs else "" if at == 0 else lead
        self.tokens[at].lead = space + (lead[len(docs):].lstrip("\n") if at == 0 else "")
        self.tokens.insert(at, Token("word", text, front, self.tokens[at].line))

    def text(self):
        """The text of the remaining tokens, without the empty lines of erased items, with its imports in order."""
        made, before = [], "{"
        for token in self.tokens:
            made += [tidy_lead(token.lead, before, token.text), token.text]
            before = token.text
        return IMPORTS.sub(in_order, "".join(made).lstrip("\n").rstrip() + "\n")


def tidy_lead(lead, before, after):
    """White space and comments between two tokens, without superfluous empty lines."""
    *lines, indent = lead.split("\n")
    if not lines:
        return lead
    kept = [lines[0].rstrip()]
    for line in map(str.rstrip, lines[1:]):
        is_superfluous = not line and (not kept[-1] and (len(kept) > 1 or before == "{"))
        if not is_superfluous:
            kept.append(line)
    while after == "}" and len(kept) > 1 and not kept[-1]:
        kept.pop()
    return "\n".join([*kept, indent])


def in_order(imports):
    """The imports in the order of rustfmt."""
    lines = re.findall(r"use [^;]+;\n", imports[0])
    ranks = {line: [line.startswith(front) for front in FRONTS] for line in lines}
    return "".join(sorted(lines, key=lambda line: ([not is_there for is_there in ranks[line]], line)))
