#!/usr/bin/env python3
"""Keeps the repository's English: forms that are not the field's don't stand in pages, comments and texts that programs show.

    english.py          shows each place with such a form, and what is said there
    english.py --check  the same, with status 1 where there is one

A page is read whole but for its blocks of code, a source file by its comments, its documentation and its strings of several words. A word
is no proof of a mistake: what stands at a place, *behind* a door, is in `KEPT`.
"""
import os
import re
import subprocess
import sys

TOP = os.path.dirname(os.path.dirname(os.path.abspath(__file__)))

# Pages tell no past.
STANDS = "what stands, and not what stood before"

# A form that isn't said, and what is said in its place.
FORMS = [(re.compile(form), instead) for form, instead in (
    (r"\b[Bb]ehind\b", "after (in time or in a text), past (an end or a bound), through (an authority)"),
    (r"\b[Pp]uts? \w+ (\w+ )?after (a|the|other|another) (text|bytes?|list)\b", "appends .. to"),
    (r"\b(for|of) want of\b", "out of memory, without"),
    (r"(?<!there )\bis none\b(?! of those)", "is not a .., is invalid"),
    (r"\bis none (that|such)\b", "is not one that"),
    (r"\b(wrongly|badly|ill)[- ](formed|made|shaped)\b", "malformed"),
    (r"\bnot valid\b", "invalid"),
    (r"\btrap('s)? number\b", "trap value, cause"),
    (r"\bcomes into (force|effect)\b", "takes effect"),
    (r"\bbecomes? effective\b", "takes effect"),
    (r"\bgives? (an|the) alarm\b", "reports"),
    (r"\b([Nn]o longer(?! than)|[Ff]ormerly|used to be|[Pp]reviously|[Uu]ntil now|[Ss]ince then)\b", STANDS),
    (r"\bin (the )?place of the old\b", STANDS),
)]

# Places where such a word is right: the text around it.
KEPT = (
    "behind a sentry",
    "behind a door",
    "Behind a door",
    "behind door",
    "behind doors",
    "behind B's door",
    "behind the other's door",
    "behind it, by a door",
    "given since then",
    "left behind",
    "Left behind",
    "hexadecimal behind 0x",
)

# What is not read: the forms themselves, and what changed, which is about what stood before.
NOT_READ = ("tools/english.py", "CHANGELOG.md")

# What is read: pages whole, sources by their comments and strings.
COMMENTS = {".rt": "//", ".antt": "--", ".py": "#", ".s": "#", ".S": "#", ".c": "//", ".h": "//", ".txt": "#"}
SENTENCE = re.compile(r'"((?:[^"\\]|\\.)*\w \w+ \w(?:[^"\\]|\\.)*)"')


def prose_of_page(lines):
    """The lines of a page that stand in no block of code, numbered from 1."""
    inside = False
    for number, line in enumerate(lines, 1):
        if line.lstrip().startswith("```"):
            inside = not inside
        elif not inside and not line.startswith("    "):
            yield number, re.sub(r"`[^`]*`", "", line)


def prose_of_source(lines, mark):
    """The comments of a source and what its strings of several words say, numbered from 1."""
    inside = False
    for number, line in enumerate(lines, 1):
        fences = line.count('"""')
        if mark == "#" and fences:
            inside ^= fences == 1
            yield number, line
        elif inside:
            yield number, line
        else:
            code, found, comment = line.partition(mark)
            if found and (not code or code.endswith(" ")):
                yield number, comment
            yield from ((number, it) for it in SENTENCE.findall(code))


def prose(path):
    """The lines of a file that are read, with their numbers."""
    with open(os.path.join(TOP, path), encoding="utf-8", errors="replace") as file:
        lines = file.read().split("\n")
    kind = os.path.splitext(path)[1]
    return prose_of_page(lines) if kind == ".md" else prose_of_source(lines, COMMENTS[kind])


def files():
    """The files that people read, by their paths in the repository."""
    listed = subprocess.run(["git", "-C", TOP, "ls-files"], check=True, capture_output=True, encoding="utf-8").stdout.split("\n")
    return [path for path in listed if os.path.splitext(path)[1] in {".md", *COMMENTS} and path not in NOT_READ]


def faults():
    """Each place with a form that isn't said: the file, the line's number, the form, and what is said."""
    for path in files():
        for number, line in prose(path):
            for kept in KEPT:
                line = line.replace(kept, "")
            for form, instead in FORMS:
                if found := form.search(line):
                    yield path, number, found.group(), instead


def main(given):
    if given not in ([], ["--check"]):
        print(__doc__)
        return 2
    count = 0
    for path, number, form, instead in faults():
        print(f"{path}:{number}: {form!r}: say {instead}")
        count += 1
    return 1 if count and given else 0


if __name__ == "__main__":
    sys.exit(main(sys.argv[1:]))
