#!/usr/bin/env python3
"""Makes the files of cases anew, in cases/ and, where the proved program reads them, in crates/conformance/data.

    python3 tools/cases/make.py            writes them
    python3 tools/cases/make.py --check    says which differ from those that stand there, and ends with 1 if any does

Each module of SOURCES has a function `files()` that gives pairs: a file's name, and its lines. A module that needs a program which is
not installed is left out, and its Debian package is named.
"""
import importlib
import os
import sys

sys.path.insert(0, os.path.join(os.path.dirname(os.path.abspath(__file__)), ".."))
from trying.paths import CASES, PROVED_CASES

# The files that the proved program reads.
PROVED = {
    "words", "windows", "requests", "agreements", "rights", "capability_rows", "accesses", "jumps", "invocations", "alone", "failures",
}

# The modules that make files, one a line.
SOURCES = [
    "words",
    "requests",
    "rights",
    "capability_rows",
    "checks",
    "special",
    "machine_parts",
    "integers",
    "isa_vectors",
    "images",
    "programs",
    "worlds",
    "schedules",
    "asm_texts",
    "asm_vectors",
    "asm_lines",
    "asm_names",
    "shown_vectors",
    "bounds_texts",
    "sessions",
    "pasts",
    "command_lines",
    "program_cases",
    "objects",
    "policed",
    "callers",
    "audits",
    "proofs",
    "breaches",
    "alone",
]

# The programs that some modules need, and Debian's packages that have them.
PACKAGES = {
    "riscv64-linux-gnu-as": "binutils-riscv64-linux-gnu",
    "riscv64-linux-gnu-objcopy": "binutils-riscv64-linux-gnu",
}


def made():
    """The names of the files with what is to stand in them."""
    for source in SOURCES:
        try:
            module = importlib.import_module(f"cases.{source}")
            yield from ((name, "".join(line + "\n" for line in lines)) for name, lines in module.files())
        except FileNotFoundError as missing:
            if missing.filename not in PACKAGES:
                raise
            package = PACKAGES[missing.filename]
            print(f"tools/cases/{source}.py is left out: it needs {missing.filename}, of Debian's package {package}", file=sys.stderr)


def standing(path):
    """What stands in a file, or nothing."""
    if not os.path.exists(path):
        return ""
    with open(path, encoding="utf-8", newline="") as file:
        return file.read()


def main():
    check = sys.argv[1:] == ["--check"]
    differing = 0
    for name, text in made():
        path = os.path.join(PROVED_CASES if name.removesuffix(".txt") in PROVED else CASES, name)
        if standing(path) == text:
            continue
        differing += 1
        print(f"{name} differs" if check else f"{name} is written")
        if not check:
            with open(path, "w", encoding="utf-8", newline="") as file:
                file.write(text)
    return 1 if check and differing else 0


if __name__ == "__main__":
    sys.exit(main())
