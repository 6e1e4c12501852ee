#!/usr/bin/env python3
"""Whether each constant that a definition takes from code is bound by a law.

    python3 tools/bound_numbers.py            says of each which law binds it
    python3 tools/bound_numbers.py --check    says which are bound by none, and ends with 1 where one is

A definition that takes a number from the code is met by whatever number stands there: only a law that says the number as a literal refuses
another. A constant is an import of `TheConstants` in a file of crates/*/specs. A law binds it whose clause, in src/laws.rt of the
constant's crate, says `NAME ≡` and a number; or, of a list, a clause that names the list, or a definition that is made of it, with the
names as texts or with what a list of rows has to hold.
"""
import glob
import os
import re
import sys

TOP = os.path.join(os.path.dirname(os.path.abspath(__file__)), "..")
IMPORT = re.compile(r"use Rattle\.(\w+)\.specs\.declared\.([\w.]+)\.TheConstants\.\{([^}]*)\}")
LAW = re.compile(r"pub fn (\w+)\(\)\n(.*?)\n\{\}", re.S)
CLAUSE = re.compile(r"ensures(?: \w+)? \{(.*?)\}(?=\n    ensures|\Z)", re.S)
NUMBER = r"(?:0x[0-9a-f]+|\d+)\b"


def read(*path):
    with open(os.path.join(TOP, *path), encoding="utf-8") as file:
        return file.read()


def taken():
    """The constants that definitions take: of each its crate, module and name, and the files that take it."""
    found = {}
    for path in sorted(glob.glob(os.path.join(TOP, "crates", "*", "specs", "*.antt"))):
        name = os.path.relpath(path, os.path.join(TOP, "crates")).removesuffix(".antt")
        for crate, module, names in IMPORT.findall(read(path)):
            for constant in re.split(r",\s*", names):
                found.setdefault((crate, module, constant), []).append(name)
    return found


def laws_of(crate):
    """The laws of a crate: of each clause the law's name and the clause."""
    path = os.path.join(TOP, "crates", crate, "src", "laws.rt")
    if not os.path.exists(path):
        return []
    return [(law, clause) for law, clauses in LAW.findall(read(path)) for clause in CLAUSE.findall(clauses)]


def made_of(crate, constant):
    """The names of the definitions of a crate that are made of a constant: those whose equation, with the lines that go on, names it."""
    texts = [read(path) for path in glob.glob(os.path.join(TOP, "crates", crate, "specs", "*.antt"))]
    equations = [found for text in texts for found in re.findall(r"^(\w+) =((?:.|\n(?= ))*)", text, re.M)]
    return {name for name, equation in equations if re.search(rf"\b{constant}\b", equation)}


def binding(crate, constant):
    """The law that binds a constant, or none."""
    names = [constant, *sorted(made_of(crate, constant))]
    for law, clause in laws_of(crate):
        if re.search(rf"\b{constant} ≡ {NUMBER}", clause):
            return law
        for name in names:
            listed = re.search(rf"\b{name} ≡ \(", clause) and 'codes "' in clause
            if listed or re.search(rf"\bHoldsEachRowOnce {name}\b", clause):
                return law
    return None


def main():
    check = "--check" in sys.argv
    constants, faults = taken(), 0
    for (crate, module, constant), files in sorted(constants.items()):
        law = binding(crate, constant)
        faults += law is None
        if law is None or not check:
            said = f"{crate}::laws::{law}" if law else "no law binds it"
            print(f"{crate}::{module.replace('.', '::')}::{constant}: {said} ({', '.join(sorted(set(files)))})")
    print(f"{len(constants)} constants that definitions take, {faults} that no law binds")
    return 1 if faults and check else 0


if __name__ == "__main__":
    sys.exit(main())
