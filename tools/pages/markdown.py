"""Texts of the pages that are made."""
import re

MOST_IN_A_CELL = 60
WORD = re.compile(r"\S*\w\S*")


def words_in(text):
    """How many words a text has: a word has a letter or a digit."""
    return len(WORD.findall(text))


def cut(text):
    """A text, or where it has too many words for a cell its parts that end in a comma or a colon as far as there is room."""
    parts = re.split(r"(?<=[,;:]) ", text)
    while words_in(" ".join(parts)) > MOST_IN_A_CELL:
        parts.pop()
    shorter = " ".join(parts)
    return text if shorter == text else f"{shorter} .."


def cells_of(parts):
    """Parts of a list as texts for cells, one under the other, each with as many parts as there is room for."""
    cells = [[]]
    for part in parts:
        if words_in("; ".join([*cells[-1], part])) > MOST_IN_A_CELL:
            cells.append([])
        cells[-1].append(part)
    return ["; ".join(cell) for cell in cells]


def table(heads, rows):
    """A table, of the texts of its cells."""
    lines = ["| " + " | ".join(cells) + " |" for cells in [heads, *rows]]
    return "\n".join([lines[0], "|" + "---|" * len(heads), *lines[1:]])
