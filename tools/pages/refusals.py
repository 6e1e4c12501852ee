#!/usr/bin/env python3
"""Compares the orders of refusals that pages and comments tell with those of the definitions.

    python3 tools/pages/refusals.py            shows the orders as the definitions have them
    python3 tools/pages/refusals.py --check    says what differs, and ends with 1 if something does

An order is that in which a definition names its codes, where what it calls stands in its place. Each code of a call of
docs/REFUSALS.md, of the tables of docs/ASSEMBLY.md and of the comments in `COMMENTS` has to come in that order; what a call
refuses for reasons of its own (no memory, a failed device) follows. And each code that a crate declares stands in docs/REFUSALS.md.
"""
import glob
import os
import re
import sys

sys.path.insert(0, os.path.join(os.path.dirname(os.path.abspath(__file__)), ".."))
from pages.definitions import CRATES, Definitions, text_of

TOP = os.path.join(os.path.dirname(os.path.abspath(__file__)), "..", "..")
CODE = re.compile(r"\b[A-Z][0-9]{1,2}\b")


class Orders:
    """The definitions of some files, which name each other."""

    def __init__(self, *files):
        self.equations = {}
        for file in files:
            self.equations |= Definitions(file).equations

    def codes(self, name, above=()):
        """The codes that a definition names, in order; a definition that calls itself goes on as it began."""
        found = []
        for _, body in self.equations[name]:
            for word in re.findall(r"(?<![.\w])[A-Za-z_]\w*", body):
                if CODE.fullmatch(word):
                    found.append(word)
                elif word in self.equations and word not in (*above, name):
                    found += self.codes(word, (*above, name))
        return found


def variants(path):
    """The codes that an enum of faults declares."""
    return re.findall(r"^    ([A-Z][0-9]{1,2}),$", text_of(path), re.MULTILINE)


def orders():
    """Each call's codes in the order of the definitions, and after it those that it has for reasons of its own."""
    text, image = Orders("assembler/specs/Faults"), Orders("image/specs/Image", "image/specs/Grammar")
    special = Orders("special_regs/specs/Refusals")
    of_line, build = text.codes("line_checks"), [code for code in image.codes("build_checks") if code != "L3"]
    of_first = variants("asm_lines/src/fault.rt")
    return {
        "assemble": (of_line, ["A10"]),
        "parse_line": ([code for code in of_line if code in of_first], []),
        "Image::build": ([code for code in build if code not in variants_of_capabilities(image)], ["L11"]),
        "Image::build_v2": (build, ["L11"]),
        "image::read": (image.codes("reading"), ["L10", "L11"]),
        "read_csr": (special.codes("csr_checks"), []),
        "write_csr": (special.codes("csr_checks"), []),
        "special_rw": (special.codes("scr_checks"), []),
        "leave_trap": (special.codes("return_checks"), []),
    }


def variants_of_capabilities(image):
    """The codes that only an image of version 2 meets: too many capabilities, and what is wrong with one."""
    return ["L15", *image.codes("capability_checks")]


def firsts(codes):
    """Codes without those that came before."""
    return list(dict.fromkeys(codes))


def rows(page):
    """The cells of a page's tables, a row each."""
    with open(os.path.join(TOP, "docs", page), encoding="utf-8") as file:
        return [[cell.strip() for cell in line.strip("|\n").split(" | ")] for line in file if line.startswith("| ")]


def told():
    """What pages and comments tell: where, the codes that they name in order, and the call whose order it is."""
    for cells in rows("REFUSALS.md"):
        for call in re.findall(r"`([\w:]+)`", cells[0]):
            if len(cells) > 1:
                yield f"docs/REFUSALS.md, {call}", CODE.findall(cells[1]), call
    in_order = [cells[0] for cells in rows("ASSEMBLY.md") if CODE.fullmatch(cells[0])]
    yield "docs/ASSEMBLY.md, Faults", [code for code in in_order if code.startswith("A")], "assemble"
    yield "docs/ASSEMBLY.md, An image file", [code for code in in_order if code.startswith("L")], "image::read"
    for path, before, call in COMMENTS:
        comment = text_of(path).replace("\n///", "")
        yield f"crates/{path}", CODE.findall(comment[comment.index(before):].partition("\n")[0].partition(".")[0]), call


# Comments that tell an order: the file, the words before the codes, and the call whose order it is.
COMMENTS = [
    ("assembler/src/fault.rt", "Within a line the first of this order is reported:", "assemble"),
    ("assembler/src/assembly.rt", "within a line the first of A8", "assemble"),
]


def differences():
    """What is told otherwise than the definitions have it, and codes that docs/REFUSALS.md lacks."""
    by_call, met = orders(), set()
    for where, codes, call in told():
        if call in by_call:
            met.add(call)
            whole, own = by_call[call]
            if codes not in (whole, whole + own, firsts(whole), firsts(whole) + own):
                yield f"{where}: {' '.join(codes)}; the definition has {' '.join(whole + own)}"
    yield from (f"docs/REFUSALS.md: no row for {call}" for call in by_call if call not in met)
    with open(os.path.join(TOP, "docs", "REFUSALS.md"), encoding="utf-8") as file:
        page = file.read()
    for path in sorted(glob.glob(os.path.join(CRATES, "*", "src", "*.rt"))):
        path = os.path.relpath(path, CRATES)
        yield from (f"docs/REFUSALS.md: no {code} of crates/{path}" for code in variants(path) if not re.search(rf"\b{code}\b", page))


def main(given):
    if given == ["--check"]:
        found = list(differences())
        for it in found:
            print(it)
        return 1 if found else 0
    for call, (codes, own) in orders().items():
        print(f"{call}: {' '.join(codes + own)}")
    return 0


if __name__ == "__main__":
    sys.exit(main(sys.argv[1:]))
