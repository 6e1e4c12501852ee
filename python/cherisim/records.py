"""What a step did, in the fields of the RISC-V Formal Interface.

A step that traps changes no register and no memory. An interrupt is a step of its own, with trap and intr, and no instruction is done.
"""
from __future__ import annotations

import re
import struct
from typing import Any, Dict, List, Optional, Tuple

from . import REGISTERS, Cap, Machine, OutOfRange, Stop, disassemble

_ACCESS = re.compile(r"c?([ls])([bhwdc])u?(?:\.ddc|\.cap)? (\w+), (-?\d*)\((\w+)\)")
_SIZES = {"b": 1, "h": 2, "w": 4, "d": 8, "c": 16}
LONG = ("order", "pc_rdata", "pc_wdata", "insn", "rs1_rdata", "rs2_rdata", "rd_wdata", "mem_addr", "mem_rdata", "mem_wdata")
SHORT = ("mem_rmask", "mem_wmask", "rs1_addr", "rs2_addr", "rd_addr", "trap", "halt", "intr")
_HALF = (1 << 64) - 1


def operands(text: str) -> Tuple[int, int, int]:
    """The numbers of an instruction's rs1, rs2 and rd, by its text; 0 where it has none."""
    named = [REGISTERS[word] for word in re.split(r"[ ,()]+", text)[1:] if word in REGISTERS]
    found = _ACCESS.match(text)
    if not named or text.startswith("fence"):
        return 0, 0, 0
    if found and found[1] == "s":
        return named[1], named[0], 0
    if text.startswith("cinvoke"):
        return named[0], named[1], 31
    rd, sources = (0, named) if text.startswith("b") else (named[0], named[1:])
    rs1, rs2 = (sources + [0, 0])[:2]
    return rs1, rs2, rd


def access(text: str, before: List[Cap]) -> Optional[Tuple[int, int, bool]]:
    """The address and the size of an instruction's load or store, and whether it stores; None of another."""
    found = _ACCESS.match(text)
    if not found:
        return None
    return (before[REGISTERS[found[5]]].address + int(found[4] or 0)) & _HALF, _SIZES[found[2]], found[1] == "s"


def in_ram(machine: Machine, address: int, size: int) -> Optional[int]:
    """The number in RAM at an address, or None where none is."""
    try:
        return int.from_bytes(machine.mem[address:address + size], "little")
    except OutOfRange:
        return None


def fetched(machine: Machine) -> Tuple[int, str]:
    """The word at PCC, and its text; 0 and nothing where no RAM is."""
    word = in_ram(machine, machine.pc, 4)
    return (0, "") if word is None else (word, disassemble(word, machine.scrs["pcc"].flag))


def of_memory(machine: Machine, text: str, before: List[Cap], after: List[Cap]) -> Dict[str, int]:
    """The fields of memory, after a step that did not trap. What a load of a device register gave stands in rd."""
    fields, found = dict.fromkeys(("mem_addr", "mem_rmask", "mem_wmask", "mem_rdata", "mem_wdata"), 0), access(text, before)
    if not found:
        return fields
    (address, size, stores), (_, rs2, rd) = found, operands(text)
    mask, bits = (1 << size) - 1, (1 << 8 * size) - 1
    if stores:
        return {**fields, "mem_addr": address, "mem_wmask": mask, "mem_wdata": int.from_bytes(before[rs2].memory, "little") & bits}
    data = in_ram(machine, address, size)
    return {**fields, "mem_addr": address, "mem_rmask": mask, "mem_rdata": after[rd].address & bits if data is None else data}


def record(machine: Machine, order: int) -> Dict[str, Any]:
    """Does a step, and answers its record: registers as capabilities."""
    before, pc, (word, text), traps = machine.regs.values(), machine.pc, fetched(machine), machine.next_ends is Stop.TRAP
    machine.step()
    after, interrupts = machine.regs.values(), traps and bool(machine.csrs["mcause"] >> 63)
    if interrupts:
        word, text = 0, ""
    rs1, rs2, rd = operands(text)
    rd = 0 if traps else rd
    return {"order": order, "pc_rdata": pc, "pc_wdata": machine.pc, "insn": word, "text": text, "trap": int(traps), "intr": int(interrupts),
            "halt": int(machine.halted is not None), "rs1_addr": rs1, "rs2_addr": rs2, "rd_addr": rd, "rs1_rdata": before[rs1],
            "rs2_rdata": before[rs2], "rd_wdata": after[rd], **of_memory(machine, "" if traps else text, before, after)}


def packed(fields: Dict[str, Any]) -> bytes:
    """The 88 bytes of a record: each number with its lowest byte first, registers as their addresses, and of 16 bytes of memory the lowest
    8, with as many bits of their masks."""
    number = {name: it.address if isinstance(it, Cap) else it for name, it in fields.items() if name != "text"}
    return struct.pack("<10Q8B", *(number[name] & _HALF for name in LONG), *(number[name] & 0xFF for name in SHORT))
