"""Writes a record for each step of a program, with the fields of the RISC-V Formal Interface, for tools that compare implementations.

    python3 rvfi.py FILE STEPS [--packed] > TRACE

FILE is an image, or a text whose name ends in .s. A record is a line of JSON; with --packed it is 88 bytes, each number with its lowest
byte first: order, pc_rdata, pc_wdata, insn, rs1_rdata, rs2_rdata, rd_wdata, mem_addr, mem_rdata, mem_wdata (8 bytes each), mem_rmask,
mem_wmask, rs1_addr, rs2_addr, rd_addr, trap, halt, intr (1 byte each). Registers there are their addresses alone, and of 16 bytes of
memory the lowest 8; JSON has both halves and the tag.

A step that traps changes no register and no memory. An interrupt is a step of its own, with trap and intr, and no instruction is done.
"""
import argparse
import json
import sys

from cherisim import Machine
from cherisim.records import packed, record


def as_json(fields):
    shown = {name: {"address": it.address, "upper": it.upper, "tag": it.tag} if hasattr(it, "tag") else it for name, it in fields.items()}
    return json.dumps(shown).encode() + b"\n"


def machine_of(name):
    with open(name, "rb") as file:
        data = file.read()
    return Machine(text=data) if name.endswith(".s") else Machine(data)


def main(given, out):
    parser = argparse.ArgumentParser(description=__doc__.splitlines()[0])
    parser.add_argument("file")
    parser.add_argument("steps", type=int)
    parser.add_argument("--packed", action="store_true")
    asked = parser.parse_args(given)
    machine, write = machine_of(asked.file), packed if asked.packed else as_json
    for order in range(asked.steps):
        if machine.halted is not None:
            break
        out.write(write(record(machine, order)))
    return 0


if __name__ == "__main__":
    sys.exit(main(sys.argv[1:], sys.stdout.buffer))
