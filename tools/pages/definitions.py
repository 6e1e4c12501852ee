"""Reads the repository's own tables, for the pages that are made of them: definitions in crates/*/specs, and the constants and
variants of crates/*/src with their comments.

Reading is strict: where a line isn't of the form that is looked for, NotUnderstood says which, and nothing is guessed.
"""
import os
import re

CRATES = os.path.join(os.path.dirname(os.path.abspath(__file__)), "..", "..", "crates")

OPENING, CLOSING = "({[", ")}]"


class NotUnderstood(Exception):
    """A source that isn't of the form that was looked for."""


def text_of(path):
    """The text of a file below crates/."""
    with open(os.path.join(CRATES, path), encoding="utf-8") as file:
        return file.read()


def matched(pattern, text):
    """What a pattern finds in the whole of a text, which has to be of that form."""
    found = re.fullmatch(pattern, text)
    if not found:
        raise NotUnderstood(f"not of the form {pattern}: {text}")
    return found


# ---- expressions as texts


def plain(text):
    """The text with single blanks, and none inside brackets."""
    return re.sub(r"([({[]) | ([)}\]])", lambda found: found.group(1) or found.group(2), " ".join(text.split()))


def split(text, separator):
    """The parts of a text between separators that stand in no brackets."""
    parts, depth, begin, at = [], 0, 0, 0
    while at < len(text):
        depth += (text[at] in OPENING) - (text[at] in CLOSING)
        if depth == 0 and text.startswith(separator, at):
            parts.append(text[begin:at].strip())
            at += len(separator)
            begin = at
        else:
            at += 1
    return parts + [text[begin:].strip()]


def is_bracketed(text):
    """Whether the bracket that a text begins with is closed at its end and not before."""
    depth = 0
    for at, letter in enumerate(text):
        depth += (letter in OPENING) - (letter in CLOSING)
        if depth == 0:
            return letter == ")" and at == len(text) - 1
    return False


def bare(text):
    """The text without brackets round the whole of it."""
    while is_bracketed(text):
        text = text[1:-1].strip()
    return text


def items(text):
    """The entries of a list `a ∷ b ∷ []`."""
    entries = split(bare(text), "∷")
    if entries[-1] != "[]":
        raise NotUnderstood(f"no list: {text}")
    return entries[:-1]


def pair(text):
    """The two parts of `(a, b)`."""
    parts = split(bare(text), ",")
    if len(parts) != 2:
        raise NotUnderstood(f"no pair: {text}")
    return parts


def fields(text):
    """The fields of `record { a = x; b = y }`, or of a record with some fields replaced, in order."""
    found = matched(r"record [^{]*\{(.*)\}", bare(text))
    return [tuple(split(entry, " = ")) for entry in split(found.group(1), ";") if entry]


def choices(text):
    """The pairs of condition and answer of `if a then x else (if b then y else z)`; the last condition is None."""
    text = bare(text)
    if not text.startswith("if "):
        return [(None, text)]
    condition, rest = split(text[3:], " then ")
    answer, *others = split(rest, " else ")
    if not others:
        raise NotUnderstood(f"no else: {text}")
    return [(condition, bare(answer))] + choices(" else ".join(others))


def worth(text, names=None):
    """The number that an expression of literals, known names and + - * / % ^ << is."""
    python, at = "", 0
    token = re.compile(r"\s*(0x[0-9A-Fa-f_]+|[0-9][0-9_]*|[A-Za-z_][\w.]*|<<|[-+*/%^()])")
    while at < len(text.rstrip()):
        found = token.match(text, at)
        if not found:
            raise NotUnderstood(f"no number: {text}")
        word, at = found.group(1), found.end()
        if word[0].isalpha() or word[0] == "_":
            if word not in (names or {}):
                raise NotUnderstood(f"{word} in: {text}")
            word = str(names[word])
        python += {"^": "**", "/": "//"}.get(word, word)
    return eval(python, {"__builtins__": {}})


# ---- definitions


class Definitions:
    """The equations of a file of specs/."""

    def __init__(self, name):
        self.file = f"crates/{name}.antt"
        self.equations = {}
        for statement in statements(text_of(f"{name}.antt")):
            found = re.match(r"([a-z]\w*)((?: [^=]*?)?) = (.*)", statement)
            if found and found.group(1) not in ("use", "abbrev", "unfoldable", "pub"):
                self.equations.setdefault(found.group(1), []).append((found.group(2).strip(), found.group(3)))

    def cases(self, name):
        """The pairs of patterns and body of a definition, in order."""
        if name not in self.equations:
            raise NotUnderstood(f"{self.file}: no {name}")
        return self.equations[name]

    def body(self, name):
        """The body of a definition that has one equation."""
        cases = self.cases(name)
        if len(cases) != 1:
            raise NotUnderstood(f"{self.file}: {name} has {len(cases)} equations")
        return cases[0][1]

    def numbers(self, name, prefix):
        """The numbers that a definition gives constructors, in order: `name prefix.Tag = 0x02`."""
        numbers = {}
        for pattern, body in self.cases(name):
            if not pattern.startswith(prefix):
                raise NotUnderstood(f"{self.file}: {name} {pattern}")
            numbers[pattern[len(prefix):]] = worth(body)
        return numbers


def statements(text):
    """The statements of a file: lines that begin at its edge, each with the lines that are set in after it; no comments."""
    gathered = []
    for line in text.split("\n"):
        if not line.strip() or line.lstrip().startswith("--"):
            continue
        if not line[0].isalpha():
            gathered[-1].append(line)
        else:
            gathered.append([line])
    return [plain(" ".join(lines)) for lines in gathered]


# ---- declarations


def declared(path, pattern, text=None):
    """What a pattern finds in each line of a file of src/, or of a part of it, with the comment `///` before the line: (match,
    comment)."""
    comment, found = [], []
    for line in (text or text_of(path)).split("\n"):
        line = line.strip()
        if line.startswith("///"):
            comment.append(line[3:].strip())
            continue
        match = re.fullmatch(pattern, line)
        if match:
            found.append((match, " ".join(comment)))
        if not line.startswith("#["):
            comment = []
    if not found:
        raise NotUnderstood(f"crates/{path}: nothing like {pattern}")
    return found


def constants(path):
    """The constants of a file, by name: (text, comment)."""
    return {
        match.group(1): (match.group(2), comment) for match, comment in declared(path, r"pub(?:\(crate\))? const (\w+): \w+ = (.*);")
    }


def variants(path, enum):
    """The variants of an enum, in order, with their comments."""
    text = text_of(path)
    begin = text.find(f"enum {enum} {{")
    if begin < 0:
        raise NotUnderstood(f"crates/{path}: no enum {enum}")
    block = text[begin:text.index("\n}", begin)]
    return [(match.group(1), comment) for match, comment in declared(path, r"(\w+)(?: = \d+|\(.*\))?,", block)]
