#!/usr/bin/env python3
"""Tries the script `cherisim` where the program isn't built: that it makes each file that the program makes, and prints what it prints.

    python3 tools/unbuilt.py [PROGRAM]

PROGRAM is the proved program, as the gate leaves it: crates/cherisim/out/cherisim. The README's commands, and some with `=` in an option,
are called through the script in a copy of the tracked files, and compared with what the program does: status, standard output, and the
files that are made. There `rt` is a stand-in that has the proved program do it in a folder of its own, as `rt try` does, because a build
takes a minute of processor time. Mistakes are told where no `rt` is on the path. One command that makes two files is then called with `rt`
itself.
"""
import os
import re
import shutil
import subprocess
import sys
import tempfile

from pages.tried import commands, furnished
from toolchain import program_given

TOP = os.path.join(os.path.dirname(os.path.abspath(__file__)), "..")

# A command in the README's list of all of them, before its comment.
LISTED = re.compile(r"    (\./cherisim\b[^#\n]*)")

# The command whose usage is shown; of the program's that is empty.
USED = re.compile(rb"^Usage: cherisim ([a-z]*)", re.MULTILINE)

# What a command line may also look like.
OTHERS = ("./cherisim asm --symbols=labels.sym examples/list.s list.img", "./cherisim dis --symbols=labels.sym -- list.img",
          "./cherisim dis --header list.img", "./cherisim run --trace=steps.trace --quiet list.img 30", "./cherisim run --why list.img 30",
          "echo 'when pc in 0..4: store no' > low.policy && ./cherisim run list.img 30 --quiet --policy low.policy",
          "./cherisim run --policy=low.policy list.img 10000 --symbols labels.sym",
          "./cherisim audit list.img 30 --policy low.policy --symbols labels.sym", "./cherisim audit list.img 30",
          "./cherisim run examples/none.img 5", "./cherisim go examples/list.s --steps 30 --trace go.trace",
          "./cherisim run --profile=run.profile list.img 30 --quiet", "./cherisim go examples/list.s --steps 30 --profile go.profile",
          "./cherisim run --calls=run.calls list.img 30 --quiet", "./cherisim go examples/list.s --steps 30 --calls go.calls",
          "./cherisim asm examples/list.s list.img --lines list.lines", "./cherisim run --lines=list.lines list.img 30 --why=all",
          "./cherisim prove list.img --policy low.policy --symbols labels.sym --lines list.lines")

# What is told before anything is built, as the program tells it: `rt` isn't asked.
MISTAKES = ("./cherisim go none.s", "./cherisim go list.img --stepz 3", "./cherisim rnu list.img 30", "./cherisim run list.img 30 --tock 3", "./cherisim dis none.img --header",
            "./cherisim run list.img 30 --policy none.policy", "./cherisim debug --symbols=none.sym list.img",
            "./cherisim prove list.img --policy none.policy", "./cherisim prove list.img --tick 3",
            "./cherisim audit list.img 30 --profile p", "./cherisim audit list.img 30 --calls c",
            "./cherisim run list.img 30 --lines none.lines")

# The command that is called with `rt` itself.
WHOLE = "./cherisim asm examples/bounds.s whole.img --symbols whole.sym"

STAND_IN = """#!/bin/sh
[ "$1 $2" = "try --" ] || exit 99
shift 2
cd {own} && exec {program} "$@"
"""
SECONDS = 600
# How much of what differs is said.
SHOWN = 400


def listed():
    """The README's commands: those that are tried as they stand, and those in its list."""
    with open(os.path.join(TOP, "README.md"), encoding="utf-8") as file:
        return [*(command.text for command in commands("README.md")), *LISTED.findall(file.read()), *OTHERS]


def files_of(folder):
    """The files below a folder, with their bytes."""
    found = {}
    for path, _, names in os.walk(folder):
        for name in names:
            file = os.path.join(path, name)
            with open(file, "rb") as opened:
                found[os.path.relpath(file, folder)] = opened.read()
    return found


def did(command, folder, path):
    """What a command does in a folder: its status, what it prints, and the files that it makes or changes."""
    before = files_of(folder)
    ran = subprocess.run(["bash", "-c", command], cwd=folder, env={"PATH": path, "HOME": folder, "LANG": "C.UTF-8"}, timeout=SECONDS,
                         stdin=subprocess.DEVNULL, capture_output=True, check=False)
    made = {name: held for name, held in files_of(folder).items() if before.get(name) != held}
    return ran.returncode, ran.stdout, made


def told(command, folder, path):
    """What a command that is a mistake ends with: its status, the first line on standard error, and the command whose usage follows."""
    ran = subprocess.run(["bash", "-c", command], cwd=folder, env={"PATH": path, "HOME": folder, "LANG": "C.UTF-8"}, timeout=SECONDS,
                         stdin=subprocess.DEVNULL, capture_output=True, check=False)
    used = USED.search(ran.stderr)
    return ran.returncode, ran.stderr.split(b"\n")[0], used and used[1]


def copied(folder):
    """Copies the tracked files into a folder."""
    names = subprocess.run(["git", "ls-files", "-z"], cwd=TOP, capture_output=True, check=True).stdout.decode().split("\0")
    for name in filter(None, names):
        os.makedirs(os.path.dirname(os.path.join(folder, name)), exist_ok=True)
        shutil.copy2(os.path.join(TOP, name), os.path.join(folder, name))


def stand_in(room, program):
    """A folder for the path whose `rt` has the program do what it is told, in a folder of its own; answers both."""
    folder, own = os.path.join(room, "bin"), os.path.join(room, "own")
    os.mkdir(folder)
    os.mkdir(own)
    with open(os.path.join(folder, "rt"), "w", encoding="utf-8") as file:
        file.write(STAND_IN.format(own=own, program=program))
    os.chmod(os.path.join(folder, "rt"), 0o755)
    return folder, own


def is_same(command, wanted, came, parts=("status", "standard output", "files")):
    """Whether a command did what the program does; says it if not."""
    for what, left, right in zip(parts, wanted, came):
        if left != right:
            print(f"{command}: not the program's {what}\nwanted {str(left)[:SHOWN]}\ncame   {str(right)[:SHOWN]}")
            return False
    return True


def main():
    program = program_given(sys.argv[1:])
    with tempfile.TemporaryDirectory(prefix="unbuilt-") as room:
        built, unbuilt, path = os.path.join(room, "built"), os.path.join(room, "unbuilt"), os.environ["PATH"]
        os.mkdir(built)
        furnished(built, program)
        copied(unbuilt)
        folder, own = stand_in(room, program)
        for place in (built, unbuilt):
            with open(os.path.join(place, "flat.bin"), "wb") as file:
                file.write(bytes(8))
        tried = listed()
        right = [is_same(it, did(it, built, path), did(it, unbuilt, f"{folder}:{path}")) for it in tried]
        nothing = os.path.join(room, "nothing")
        os.mkdir(nothing)
        os.symlink(shutil.which("bash"), os.path.join(nothing, "bash"))
        for name in ("dirname", "env"):
            os.symlink(shutil.which(name), os.path.join(nothing, name))
        right += [is_same(it, told(it, built, path), told(it, unbuilt, nothing), ("status", "first line", "usage")) for it in MISTAKES]
        left = files_of(own)
        if left:
            print(f"made where `rt try` runs the program: {', '.join(left)}")
        right += [not left, is_same(WHOLE, did(WHOLE, built, path), did(WHOLE, unbuilt, path))]
    print(f"cherisim: {len(tried)} commands where the program isn't built, {len(MISTAKES)} mistakes that are told without a build, and one "
          "that is built for the call")
    return 0 if all(right) else 1


if __name__ == "__main__":
    sys.exit(main())
