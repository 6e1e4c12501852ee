#!/usr/bin/env python3
"""Whether each choice that a definition marks *profile* has its row in docs/PROFILE.md.

    python3 tools/pages/profile.py --check

A mark is the word `profile` in parentheses in a comment of a file of crates/*/specs or crates/*/src (that of a run, which `--profile`
writes, stands in none); the file has to be named in the table, as `crate/specs/Name` or `crate/src/name.rt`. It names also what the
table names and is no file. It ends with 1 where something is missing.
"""
import os
import re
import subprocess
import sys

TOP = os.path.join(os.path.dirname(os.path.abspath(__file__)), "..", "..")
MARK = re.compile(r"^\s*(?:--|//).*\([^()]*\bprofile\b[^()]*\)", re.MULTILINE)


def name_of(path):
    """A file as the table names it: definitions without their ending."""
    return path.removeprefix("crates/").removesuffix(".antt")


def marked():
    """The files of definitions and code that mark a choice."""
    asked = ["git", "-C", TOP, "ls-files", "crates/*/specs/*", "crates/*/src/*"]
    tracked = subprocess.run(asked, capture_output=True, text=True, check=True)
    for path in tracked.stdout.split():
        with open(os.path.join(TOP, path), encoding="utf-8") as file:
            if MARK.search(file.read()):
                yield name_of(path)


def named():
    """The files that the table names."""
    with open(os.path.join(TOP, "docs", "PROFILE.md"), encoding="utf-8") as file:
        rows = [line for line in file if line.startswith("| ")]
    return {name for row in rows for name in re.findall(r"`(\w+/(?:specs|src)/[\w.]+)`", row)}


def exists(name):
    """Whether a file has this name."""
    path = os.path.join(TOP, "crates", name)
    return os.path.exists(path) or os.path.exists(path + ".antt")


def main():
    faults = [f"{name} marks a choice that docs/PROFILE.md has no row of" for name in marked() if name not in named()]
    faults += [f"docs/PROFILE.md names {name}, which is no file" for name in sorted(named()) if not exists(name)]
    print("\n".join(faults) or f"{len(named())} files of choices, each in docs/PROFILE.md")
    return 1 if faults else 0


if __name__ == "__main__":
    sys.exit(main())
