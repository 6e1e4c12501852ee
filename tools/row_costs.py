#!/usr/bin/env python3
"""Says what each row costs in a loop of it: host instructions a step, as valgrind's callgrind counts them, in both modes.

    python3 tools/row_costs.py [ROW ..]         all rows that can stand in a loop, or these

A loop is the row and a branch. It is run for a million steps and for two, by the built program (`rt run` in crates/cherisim leaves it), and
what the second million takes is shared by its steps; what a branch takes beside a nop is taken off. A row over 120 is marked.
"""
import os
import re
import subprocess
import sys
import tempfile

from model.row_forms import FORM, SECOND
from toolchain import ROOT

PROGRAM = os.path.join(ROOT, "crates", "cherisim", "out", "cherisim")
MILLION = 1_000_000
MOST = 120

# Rows that end a run of the machine or jump: they stand in no loop of two instructions, but in one of their own.
ELSEWHERE = {"ecall", "ebreak", "mret", "jal", "jalr", "jalr.cap", "cinvoke", "cunseal", "beq", "bne", "blt", "bge", "bltu", "bgeu"}

# What an operand is in a loop: a1 has the address of 64 bytes, ca2 opens them, a3 is 3.
OPERANDS = {"rd": "a0", "cd": "ca0", "rs1": "a1", "cs1": "ca2", "rs2": "a3", "cs2": "ca4", "signed": "16", "unsigned": "16", "stored": "16",
            "shift6": "3", "shift5": "3", "upper": "0x1000", "csr": "mscratch", "five": "3", "scr": "mscratchc"}

HEADS = {
    "integer": ".pages 16\nla a1, data\ncspecialrw ca2, ddc, c0\ncsetaddr ca2, ca2, a1\ncmove ca4, ca2\n",
    "capability": ".pages 16\n.mode 1\ncla ca2, data\ncmove ca1, ca2\ncmove ca4, ca2\n",
}
LOOP = "li a3, 3\nli a5, 9\nagain: {}\nbne a5, zero, again\n.align 4\ndata: .zero 64\n"


def written(name, form):
    """A row with the operands of the loop."""
    operands = re.sub(r"\w+", lambda it: OPERANDS[it[0]], form)
    if name.startswith("c") and name[1:] in SECOND:
        operands = operands.replace("ca2", "ca1")
    return f"{name} {operands}".strip()


def lines(mode):
    """The rows of a mode that can stand in a loop, each with its text."""
    for name, form in FORM.items():
        if name in ELSEWHERE:
            continue
        if mode == "capability" and name in SECOND:
            name, form = SECOND[name]
        yield name, written(name, form)


def program(*words):
    return subprocess.run([PROGRAM, *words], capture_output=True, text=True, check=False)


def counted(image, steps, folder):
    """How many host instructions a run of so many steps takes."""
    out = os.path.join(folder, "callgrind")
    subprocess.run(["valgrind", "--tool=callgrind", f"--callgrind-out-file={out}", PROGRAM, "run", image, str(steps), "--quiet"],
                   capture_output=True, check=False)
    with open(out, encoding="utf-8") as file:
        return int(re.search(r"^(?:summary|totals): (\d+)", file.read(), re.MULTILINE)[1])


def loop_cost(mode, line, folder):
    """What a step of the loop of a line costs, or None where it is no text of the assembly language."""
    text, image = os.path.join(folder, "loop.s"), os.path.join(folder, "loop.img")
    with open(text, "w", encoding="utf-8") as file:
        file.write(HEADS[mode] + LOOP.format(line))
    made = program("asm", text, image)
    if made.returncode:
        sys.exit(f"{line}: {made.stderr}")
    return (counted(image, 2 * MILLION, folder) - counted(image, MILLION, folder)) / MILLION


def main(given):
    with tempfile.TemporaryDirectory() as folder:
        for mode in HEADS:
            plain = loop_cost(mode, "nop", folder)
            print(f"{mode} mode: nop and branch {plain:.1f} a step")
            for name, line in lines(mode):
                if given and name not in given:
                    continue
                cost = 2 * loop_cost(mode, line, folder) - plain
                print(f"  {cost:6.1f}{' *' if cost > MOST else '  '} {line}", flush=True)
    return 0


if __name__ == "__main__":
    sys.exit(main(sys.argv[1:]))
