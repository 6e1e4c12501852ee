#!/usr/bin/env python3
"""The recipes of CONTRIBUTING.md: recipes/*.patch, each a whole change of one kind.

    recipes.py            writes the table
    recipes.py --check    says which patch doesn't apply, and where the table is another, and ends with 1 if something is wrong

A patch's first line says what it is, and what stands between it and the changes what they don't show. What scripts make (cases, pages)
is no part of it. `python3 tools/try_recipes.py NAME` proves one, and writes into recipes/tried.txt when and in how many minutes.
"""
import glob
import os
import subprocess
import sys

sys.path.insert(0, os.path.join(os.path.dirname(os.path.abspath(__file__)), ".."))
from pages.made import fill
from pages.markdown import cells_of, table
from toolchain import ROOT

RECIPES = os.path.join(ROOT, "recipes")
TRIED = os.path.join(RECIPES, "tried.txt")


def names():
    return sorted(os.path.basename(path).removesuffix(".patch") for path in glob.glob(os.path.join(RECIPES, "*.patch")))


def path_of(name):
    return os.path.join(RECIPES, f"{name}.patch")


def title(name):
    """What a recipe is: its patch's first line."""
    with open(path_of(name), encoding="utf-8") as file:
        return file.readline().strip().removesuffix(".")


def applied(name, *options, room=ROOT):
    """Calls `git apply` on a recipe in a checkout."""
    command = ["git", "apply", *options, path_of(name)]
    return subprocess.run(command, cwd=room, check=False, capture_output=True, encoding="utf-8", errors="replace")


def changed(name):
    """The files that a recipe changes, each with how many lines it adds."""
    lines = applied(name, "--numstat").stdout.split("\n")
    return [(path, int(added)) for added, _, path in (line.split("\t") for line in lines if line)]


def room_of(path):
    """Where a file belongs: its crate, or its folder."""
    first, _, rest = path.partition("/")
    crate, _, file = rest.partition("/")
    return (crate, file.removesuffix(".antt")) if first == "crates" else (first, rest) if rest else ("top", first)


def files(name):
    """The files of a recipe, by crate or folder, with the lines that it adds to each: a text a cell."""
    found = {}
    for path, added in changed(name):
        room, file = room_of(path)
        found.setdefault(room, []).append(f"{file} {added}")
    return cells_of(f"{room}: {', '.join(listed)}" for room, listed in found.items())


def tried():
    """When each recipe was proved, and in how many minutes."""
    if not os.path.exists(TRIED):
        return {}
    with open(TRIED, encoding="utf-8") as file:
        return {name: f"{date}, {minutes}" for name, date, minutes in map(str.split, file)}


def recipes(_):
    proved, rows = tried(), []
    for name in names():
        first, *more = files(name)
        rows.append([f"`{name}`: {title(name)}", str(sum(added for _, added in changed(name))), first, proved.get(name, "not yet")])
        rows += [["", "", cell, ""] for cell in more]
    return table(["Recipe", "Lines", "Where, and how many", "Proved on, minutes"], rows)


def main(given):
    if given not in ([], ["--check"]):
        print(__doc__)
        return 2
    wrong = [f"recipes/{name}.patch doesn't apply:\n{told}" for name in names() if (told := applied(name, "--check").stderr)]
    print("".join(wrong), end="")
    well = fill("CONTRIBUTING.md", os.path.basename(__file__), recipes, bool(given))
    return 0 if well and not wrong else 1


if __name__ == "__main__":
    sys.exit(main(sys.argv[1:]))
