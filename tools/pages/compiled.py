#!/usr/bin/env python3
"""Tries the commands of docs/COMPILED.md where their compiler is installed, as tools/pages/tried.py tries those of the other pages.

    python3 tools/pages/compiled.py [PROGRAM]

Without the compiler it says so, and tries those from the section on that needs none.
"""
import os
import shutil
import sys

sys.path.insert(0, os.path.join(os.path.dirname(os.path.abspath(__file__)), ".."))
from pages.tried import PROGRAM, commands, tried

PAGE = "docs/COMPILED.md"

# From this section on no compiler is needed.
WITHOUT = "## Many runs"

# The compiler, and Debian's package that has it.
COMPILER, PACKAGE = "riscv64-unknown-elf-gcc", "gcc-riscv64-unknown-elf"


def main():
    if not any(command.text.startswith(f"{COMPILER} ") for command in commands(PAGE)):
        print(f"{PAGE} has no command that begins with {COMPILER}")
        return 1
    if not shutil.which(COMPILER):
        print(f"{PAGE}: what needs {COMPILER}, of Debian's package {PACKAGE}, isn't tried")
    section = None if shutil.which(COMPILER) else WITHOUT
    return 0 if tried(PAGE, sys.argv[1] if len(sys.argv) > 1 else PROGRAM, section) else 1


if __name__ == "__main__":
    sys.exit(main())
