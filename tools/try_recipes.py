#!/usr/bin/env python3
"""Applies a recipe to a copy of the repository and proves what it touches.

    python3 tools/try_recipes.py NAME ..            the crates that recipes/NAME.patch changes, and what stands below them
    python3 tools/try_recipes.py --whole NAME ..    every crate, the program and the C libraries; then the cases that scripts make of it

The copy is a clone of the last commit, with what scripts make written anew and the numbers of cases counted. `rt ci` with names proves in
it, from nothing: a crate which the recipe leaves alone, with all below it, costs nothing where the gate kept it. Of one that passes the day
and the minutes of wall time are written into recipes/tried.txt. It ends with 1 at the first that fails; its copy stays, and is said.
"""
import datetime
import os
import re
import subprocess
import sys
import tempfile
import time

from pages.recipes import TRIED, applied, changed, names
from toolchain import ROOT, below, crates

# What writes the files that are no part of a patch, in this order.
MAKERS = ("cases/make.py", "pages/programming.py", "pages/reading_order.py", "pages/calls.py")

# Says of each file of cases how many it has.
COUNT = "from trying.files import FILES; [print(file.name, len(file.read())) for file in FILES]"


def called(command, folder):
    """Calls a command in a folder of the copy; answers whether it went well."""
    print(f"{os.path.basename(folder)}: {' '.join(command)}", flush=True)
    return subprocess.run(command, cwd=folder, check=False).returncode == 0


def count_cases(room):
    """Writes how many cases each file has."""
    tools = os.path.join(room, "tools")
    asked = subprocess.run([sys.executable, "-c", COUNT], cwd=tools, check=True, capture_output=True, encoding="utf-8")
    path = os.path.join(tools, "trying", "files.py")
    with open(path, encoding="utf-8") as file:
        text = file.read()
    for line in asked.stdout.splitlines():
        name, count = line.split()
        text = re.sub(rf'(File\("{name}", [\w.]+, )\d+', rf"\g<1>{count}", text)
    with open(path, "w", encoding="utf-8") as file:
        file.write(text)


def copied(name, room):
    """Makes a copy with the recipe; answers whether that went well."""
    if not called(["git", "clone", "-q", ROOT, room], os.path.dirname(room)):
        return False
    told = applied(name, room=room).stderr
    print(told, end="")
    if told or not all(called([sys.executable, os.path.join("tools", maker)], room) for maker in MAKERS):
        return False
    count_cases(room)
    return True


def touched(name):
    """The crates that a recipe changes and that stand below no other of them."""
    known = crates()
    mine = {parts[1] for path, _ in changed(name) if (parts := path.split("/"))[0] == "crates"} & set(known)
    under = set().union(*[below(crate, known) for crate in mine])
    return sorted(mine - under)


def commands(name, room, whole):
    """The commands that prove a recipe, each with its folder."""
    python = lambda *words: ([sys.executable, *words], room)
    if whole:
        return [python("tools/prove.py"), (["make", "-s", "-C", "c", "all"], room), python("tools/try_cases.py")]
    return [(["rt", "ci", *touched(name)], room)]


def tell(name, minutes):
    """Writes that a recipe passed."""
    lines = []
    if os.path.exists(TRIED):
        with open(TRIED, encoding="utf-8") as file:
            lines = [line for line in file if line.split()[0] != name]
    lines.append(f"{name} {datetime.date.today()} {minutes:.1f}\n")
    with open(TRIED, "w", encoding="utf-8") as file:
        file.writelines(sorted(lines))


def passes(name, whole):
    """Proves a recipe in a copy; answers whether all went well."""
    room, begun = os.path.join(tempfile.mkdtemp(prefix="recipe-"), name), time.monotonic()
    if not (copied(name, room) and all(called(*command) for command in commands(name, room, whole))):
        print(f"{name}: not proved; its copy is {room}")
        return False
    minutes = (time.monotonic() - begun) / 60
    print(f"{name}: proved in {minutes:.1f} minutes")
    tell(name, minutes)
    subprocess.run(["rm", "-rf", os.path.dirname(room)], check=True)
    return True


def main(given):
    whole, chosen = given[:1] == ["--whole"], [it for it in given if it != "--whole"]
    if not chosen or not set(chosen) <= set(names()):
        print(__doc__ + "\nRecipes: " + " ".join(names()))
        return 2
    return 0 if all(passes(name, whole) for name in chosen) else 1


if __name__ == "__main__":
    sys.exit(main(sys.argv[1:]))
