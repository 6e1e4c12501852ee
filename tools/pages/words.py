#!/usr/bin/env python3
"""Keeps the pages short, and their figures of time young.

    words.py            shows how many words each page has by hand, and what is too much or too old
    words.py --check    shows only what is too much or too old, and ends with 1 if something is

The pages are README.md, CONTRIBUTING.md and docs/*.md; not counted are docs/PROGRAMMING.md, which a script makes, and what stands between
the marks of tools/pages/made.py, but no cell of a table there has too many words either. docs/PROVED.md has a limit of its own, and a
choice of docs/DECISIONS.md has two sentences at most. In the pages of `TIMED` each section that speaks of seconds or minutes says
*measured on* and a date, or the page says it before its first section; none is older than the 200th commit before the last.
"""
import glob
import os
import re
import subprocess
import sys

sys.path.insert(0, os.path.join(os.path.dirname(os.path.abspath(__file__)), ".."))
from pages.made import by_hand, read
from pages.markdown import MOST_IN_A_CELL, words_in
from toolchain import ROOT

MOST_WORDS, MOST_LINES, MOST_SENTENCES, MOST_COMMITS = 30000, 90, 2, 200
MOST_IN_A_PAGE = {"docs/PROVED.md": 1500}

NOT_COUNTED = ("docs/PROGRAMMING.md",)
TIMED = ("README.md", "CONTRIBUTING.md", "docs/ARCHITECTURE.md", "docs/PERFORMANCE.md")

SENTENCE = re.compile(r"[.!?](?!\S)")
CELLS = re.compile(r"(?<!\\)\|")
FIGURE = re.compile(r"(?<![\w-])(?:seconds|minutes|ms|ns|µs)(?!\w)")
DATE = re.compile(r"measured on (\d{4}-\d{2}-\d{2})", re.IGNORECASE)


def pages():
    """The pages whose words are counted, by their paths."""
    found = ["README.md", "CONTRIBUTING.md", *sorted(os.path.relpath(it, ROOT) for it in glob.glob(os.path.join(ROOT, "docs", "*.md")))]
    return [page for page in found if page not in NOT_COUNTED]


def count(text):
    """How many words a text has by hand."""
    return words_in(by_hand(text))


def long_cells(text):
    """The cells of tables that have too many words: their first words, and how many there are."""
    for line in text.split("\n"):
        for cell in CELLS.split(line) if line.startswith("|") else []:
            if words_in(cell) > MOST_IN_A_CELL:
                yield " ".join(cell.split()[:6]), words_in(cell)


def long_choices(text):
    """The choices of a list that have too many sentences: their first words, and how many there are."""
    for line in text.split("\n"):
        sentences = len(SENTENCE.findall(line))
        if line.startswith("- ") and sentences > MOST_SENTENCES:
            yield " ".join(line[2:].split()[:6]), sentences


def oldest():
    """The day of the 200th commit before the last, or none where there are fewer, or no history."""
    asked = ["git", "-C", ROOT, "log", "--format=%cs", f"--skip={MOST_COMMITS}", "-1"]
    return subprocess.run(asked, check=False, capture_output=True, encoding="utf-8").stdout.strip()


def old_figures(text, day):
    """What is wrong with the figures of a page: sections without a date, and dates before a day."""
    top, *sections = re.split(r"^## ", text, flags=re.MULTILINE)
    for section in sections:
        if FIGURE.search(section) and not DATE.search(section) and not DATE.search(top):
            yield f"*{section.partition(chr(10))[0]}* has figures of time, and no date that they were measured on"
    yield from (f"measured on {date}, and the {MOST_COMMITS}th commit before the last is of {day}"
                for date in DATE.findall(text) if date < day)


def faults():
    """What is too much or too old."""
    texts = {page: read(page) for page in pages()}
    total = sum(map(count, texts.values()))
    if total > MOST_WORDS:
        yield f"{total} words by hand in the pages: {MOST_WORDS} at most"
    lines = texts["README.md"].count("\n")
    if lines > MOST_LINES:
        yield f"README.md: {lines} lines: {MOST_LINES} at most"
    yield from (f"{page}: {count(texts[page])} words by hand: {most} at most" for page, most in MOST_IN_A_PAGE.items()
                if count(texts[page]) > most)
    yield from (f"docs/DECISIONS.md: a choice of {many} sentences: {first} .." for first, many in long_choices(texts["docs/DECISIONS.md"]))
    for page, text in texts.items():
        yield from (f"{page}: a cell of {words} words: {first} .." for first, words in long_cells(text))
    day = oldest()
    for page in TIMED:
        yield from (f"{page}: {fault}" for fault in old_figures(by_hand(texts[page]), day))


def main(given):
    if given not in ([], ["--check"]):
        print(__doc__)
        return 2
    if not given:
        counts = {page: count(read(page)) for page in pages()}
        print("\n".join(f"{words:6} {page}" for page, words in [*counts.items(), ("all", sum(counts.values()))]))
    found = list(faults())
    print("".join(fault + "\n" for fault in found), end="")
    return 1 if found and given else 0


if __name__ == "__main__":
    sys.exit(main(sys.argv[1:]))
