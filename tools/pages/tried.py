#!/usr/bin/env python3
"""Tries the commands of the pages: README.md and docs/*.md.

    python3 tools/pages/tried.py [PROGRAM]

PROGRAM is the proved program, as the gate leaves it: crates/cherisim/out/cherisim. A block marked ```console has lines `$ COMMAND`,
each with what the command prints after it, on standard output and standard error. Lines `> ` directly after a command go on with it.
A page's commands run one after the other in a folder of their own, which has a copy of examples/ and the program, as `cherisim` and as
`./cherisim`. What they print has to be what stands there, word for word; a command that prints nothing has to end with 0.
docs/COMPILED.md needs a compiler, and is tried by tools/pages/compiled.py. The sessions that docs/DEBUGGER.md and docs/REACH.md tell line
by line, set in by four blanks, have to be those of examples/, which tools/examples.py tries.
"""
import glob
import os
import shlex
import shutil
import subprocess
import sys
import tempfile

TOP = os.path.join(os.path.dirname(os.path.abspath(__file__)), "..", "..")
PROGRAM = os.path.join(TOP, "crates", "cherisim", "out", "cherisim")

# The pages that another script tries.
ELSEWHERE = ["docs/COMPILED.md"]

# The pages that tell sessions of the debugger, and their files in examples/, in order.
WALKS = {os.path.join("docs", "DEBUGGER.md"): ("bounds", "list"), os.path.join("docs", "REACH.md"): ("compartments",)}

# How long a command may take, and the status of `timeout` where it takes longer.
SECONDS = 600
OUT_OF_TIME = 124


class Command:
    """A command of a page: the line where it stands, its text, and the lines that it is to print."""

    def __init__(self, line, text):
        self.line, self.text, self.printed = line, text, []

    def wrong(self, room):
        """Runs the command, and answers what is wrong with it, or nothing."""
        environment = {"PATH": f"{room}:{os.environ['PATH']}", "HOME": room, "LANG": "C.UTF-8"}
        ran = subprocess.run(["timeout", str(SECONDS), "bash", "-c", self.text], cwd=room, env=environment, stdin=subprocess.DEVNULL,
                             stdout=subprocess.PIPE, stderr=subprocess.STDOUT, check=False)
        came = ran.stdout.decode(errors="replace")
        came += "" if came.endswith("\n") or not came else "\n"
        wanted = "".join(line + "\n" for line in self.printed)
        if ran.returncode == OUT_OF_TIME:
            return f"not ended after {SECONDS} seconds\n"
        if came != wanted:
            return f"stands:\n{wanted}came:\n{came}"
        return f"status {ran.returncode}, and nothing printed\n" if ran.returncode and not came else ""


def commands(page):
    """The commands of a page, in order."""
    inside, begun, found = False, False, []
    with open(os.path.join(TOP, page), encoding="utf-8") as file:
        for number, line in enumerate(file.read().split("\n"), 1):
            if line.startswith("```"):
                inside, begun = line == "```console", False
            elif inside and line.startswith("$ "):
                found.append(Command(number, line[2:]))
                begun = True
            elif inside and not begun:
                raise ValueError(f"{page}, line {number}: no command before it")
            elif inside and line.startswith("> ") and not found[-1].printed:
                found[-1].text += "\n" + line[2:]
            elif inside:
                found[-1].printed.append(line)
    if inside:
        raise ValueError(f"{page}: a block isn't closed")
    return found


def furnished(room, program):
    """Puts examples/ and the program into a folder."""
    shutil.copytree(os.path.join(TOP, "examples"), os.path.join(room, "examples"))
    name = os.path.join(room, "cherisim")
    with open(name, "w", encoding="utf-8") as file:
        file.write(f'#!/bin/sh\nexec {shlex.quote(os.path.abspath(program))} "$@"\n')
    os.chmod(name, 0o755)


def section_line(page, title):
    """The line at which a section of a page begins."""
    with open(os.path.join(TOP, page), encoding="utf-8") as file:
        return file.read().split("\n").index(title) + 1


def tried(page, program, section=None):
    """Tries a page's commands, or those from a section on; says what is wrong, and answers whether nothing is."""
    first = section_line(page, section) if section else 0
    listed = [command for command in commands(page) if command.line > first]
    with tempfile.TemporaryDirectory(prefix="tried-") as room:
        furnished(room, program)
        for command in listed:
            wrong = command.wrong(room)
            if wrong:
                print(f"{page}, line {command.line}: {command.text}\n{wrong}", end="")
                return False
    if listed:
        print(f"{page}: {len(listed)} commands")
    return True


def set_in(page):
    """The lines of a page that are set in by four blanks, without them."""
    inside = False
    with open(os.path.join(TOP, page), encoding="utf-8") as file:
        for line in file.read().split("\n"):
            inside ^= line.startswith("```")
            if not inside and line.startswith("    "):
                yield line[4:]


def lines_of(sessions, ending):
    """The lines of the sessions' files with an ending, one session after the other."""
    for name in sessions:
        with open(os.path.join(TOP, "examples", name + ending), encoding="utf-8") as file:
            yield from file.read().splitlines()


def told(page, sessions):
    """Whether a page tells its sessions as they stand in examples/, after the commands that begin them."""
    lines = [line for line in set_in(page) if not line.startswith("cherisim ")]
    typed = [line[2:] for line in lines if line.startswith("> ")]
    answered = [line for line in lines if not line.startswith("> ")]
    same = typed == list(lines_of(sessions, ".commands")) and answered == list(lines_of(sessions, ".replies"))
    print(f"{page}: {len(typed)} lines of sessions{'' if same else ', which examples/ has otherwise'}")
    return same


def main():
    program = sys.argv[1] if len(sys.argv) > 1 else PROGRAM
    if not os.path.exists(program):
        print(f"no program {os.path.relpath(program, TOP)}: the gate leaves it there")
        return 1
    pages = ["README.md"] + sorted(os.path.relpath(page, TOP) for page in glob.glob(os.path.join(TOP, "docs", "*.md")))
    return 0 if all([*[told(*walk) for walk in WALKS.items()], *[tried(page, program) for page in pages if page not in ELSEWHERE]]) else 1


if __name__ == "__main__":
    sys.exit(main())
