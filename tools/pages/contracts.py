"""Public calls of the crates with their contracts, as the sources of crates/*/src write them.

A call is public where its crate's root exports it: its module is `pub`, or a `pub use` names it or the type that it belongs to. What
stands in an `impl` of a trait has the trait's contract, and is no call of its own.
"""
import functools
import glob
import os
import re
import sys

sys.path.insert(0, os.path.join(os.path.dirname(os.path.abspath(__file__)), ".."))
from toolchain import folder_of

HEAD = re.compile(r'( *)(pub )?(?:const |unsafe |extern "C" )*fn (\w+)')
OWNER = re.compile(r"(?:pub )?(?:unsafe )?(?:impl(?:<.*?>)? (?:.* for )?|trait )(\w+)")
IMPORT = re.compile(r"^\s*ghost use Rattle\.(\w+)\.specs\.([\w.]+?)(?:\.\{([^}]*)\}| as (\w+));", re.MULTILINE)
NAME = re.compile(r"(?<![\w.])([A-Za-z_]\w*)(?:\.(\w+))?")
CLAUSE = re.compile(r"    (?:requires|ensures) ")


class Call:
    """A public call: its crate, its name as it is called, its file, its documentation, and its head with its contract."""

    def __init__(self, crate, name, path, doc, lines):
        self.crate, self.name, self.path, self.doc = crate, name, path, doc
        indent = len(lines[0]) - len(lines[0].lstrip())
        self.lines = [line[indent:] for line in lines]

    def clauses(self):
        """The clauses, each as its lines, by `requires` or `ensures` with its name, if it has one."""
        found = []
        for line in self.lines:
            if CLAUSE.match(line):
                found.append((" ".join(line.partition("{")[0].split()), [line]))
            elif found and line.strip() and not line.strip().startswith("//"):
                found[-1][1].append(line)
        return found

    def signature(self):
        """The lines before the first clause."""
        at = next((at for at, line in enumerate(self.lines) if CLAUSE.match(line)), len(self.lines))
        return self.lines[:at]

    def ensures(self):
        """The text of what is promised."""
        return "\n".join("\n".join(lines) for name, lines in self.clauses() if name.startswith("ensures"))

    def sentence(self):
        """The first sentence of the documentation."""
        return sentence_of(self.doc)


def sentence_of(text):
    """The first sentence of a text: up to a period that a blank and a capital letter, or the end, follows."""
    return re.match(r"(.*?\.)(?= [A-Z`]|$)|.*", text).group(0).strip()


def text_of(path):
    with open(path, encoding="utf-8") as file:
        return file.read()


def root_of(crate):
    """The text of a crate's root file."""
    roots = [os.path.join(folder_of(crate), "src", name) for name in ("lib.rt", "main.rt")]
    return text_of(next(filter(os.path.exists, roots)))


def first_sentence(crate):
    """What a crate is: the first sentence of its own documentation."""
    return sentence_of(" ".join(line[3:].strip() for line in root_of(crate).split("\n") if line.startswith("//!")))


def exported(crate):
    """What a crate's root exports: names, and modules whose names are."""
    root, names = root_of(crate), set()
    for used in re.findall(r"^pub use ([^;]*);", root, re.MULTILINE):
        names |= set(re.findall(r"\w+", used))
    return names, set(re.findall(r"^pub mod (\w+);", root, re.MULTILINE))


def comment_above(lines, at):
    """The first paragraph of the documentation above a line, its attributes left out, as one text."""
    found = []
    while at > 0 and re.match(r"\s*(///|#\[)", lines[at - 1]):
        at -= 1
        if lines[at].lstrip().startswith("///"):
            found.append(lines[at].strip()[3:].strip())
    return " ".join(found[::-1]).partition("  ")[0]


def head_at(lines, at):
    """The lines of a function's head with its contract, up to its body, or None where it has no `ensures`."""
    indent, clauses, end = HEAD.match(lines[at]).group(1), False, at
    while end < len(lines) and lines[end].rstrip() not in (indent + "{", indent + "{}"):
        clauses = clauses or bool(CLAUSE.match(lines[end][len(indent):]))
        if not clauses and lines[end].rstrip().endswith(("{", "{}", ";")):
            return None
        end += 1
        if lines[end - 1].rstrip().endswith("};"):
            break
    head = [line.removesuffix(";") for line in lines[at:end]]
    return head if any(line.startswith(indent + "    ensures ") for line in head) else None


def owners(lines):
    """For each line the type or trait in whose block it stands, and whether that is an `impl` of a trait."""
    owner = (None, False)
    for line in lines:
        if re.match(r"(pub )?(unsafe )?(impl|trait)\b", line) and line.rstrip().endswith("{") and (found := OWNER.match(line)):
            owner = (found.group(1), line.startswith("impl") and " for " in line)
        elif line.rstrip() == "}":
            owner = (None, False)
        yield owner


def calls_in(crate, path, names, modules):
    """The public calls of a file."""
    text = text_of(path)
    lines = text.split("\n")
    module = os.path.basename(path).removesuffix(".rt")
    is_root = module in ("lib", "main")
    for at, (line, (owner, of_trait)) in enumerate(zip(lines, owners(lines))):
        found = HEAD.match(line)
        if not found or of_trait or not (found.group(2) or owner and line.startswith("    fn ")):
            continue
        name = found.group(3)
        of_c = 'extern "C"' in line
        if not (is_root or of_c or module in modules or (owner or name) in names):
            continue
        if owner and not found.group(2) and f"pub trait {owner}" not in text:
            continue
        head = head_at(lines, at)
        if head:
            called = f"{owner}::{name}" if owner else f"{module}::{name}" if module in modules else name
            yield Call(crate, called, path, comment_above(lines, at), head)


@functools.cache
def calls_of(crate):
    """The public calls of a crate, by files and in order."""
    names, modules = exported(crate)
    paths = sorted(glob.glob(os.path.join(folder_of(crate), "src", "**", "*.rt"), recursive=True))
    return [call for path in paths for call in calls_in(crate, path, names, modules)]


def definitions_of(call):
    """The files of definitions that a call's `ensures` names, each with the names, in order; what the code declares is not among
    them."""
    home, files = {}, {}
    for crate, file, names, alias in IMPORT.findall(text_of(call.path)):
        if crate != "std" and not file.startswith("declared"):
            home |= {name: f"{crate}/specs/{file}" for name in re.findall(r"\w+", names)}
            files |= {alias: f"{crate}/specs/{file}"} if alias else {}
    found = {}
    for word, member in dict.fromkeys(NAME.findall(call.ensures())):
        if word in home:
            found.setdefault(home[word], []).append(word)
        elif word in files and member:
            found.setdefault(files[word], []).append(member)
    return {file: list(dict.fromkeys(names)) for file, names in found.items()}
