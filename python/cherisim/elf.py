"""Makes GDB's table of an image or of a text in the assembly language: an ELF file with what RAM begins with, labels and lines.

    cherisim asm prog.s prog.img --symbols prog.sym --lines prog.lines
    python3 -m cherisim.elf prog.img prog.elf --symbols prog.sym --lines prog.lines

A text in place of the image, with a name that ends in .s, has its own labels. It is a table for GDB, and can be loaded into a machine that
GDB talks to; it is not an image.
"""
from __future__ import annotations

import argparse
import os
import re
import struct
import sys
from typing import Dict, List, NamedTuple, Optional, Sequence, Tuple

from . import PAGE, RAM, CherisimError, Machine, Symbols
from ._symbols import opened

_BYTES, _SYMBOLS, _STRINGS = 1, 2, 3         # kinds of sections
_ABSOLUTE = 0xFFF1                          # the section of an address that lies in none
_LOADED = 7                                 # flags: written, loaded, executed
_COPY, _ADVANCE_PC, _ADVANCE_LINE = 1, 2, 3  # standard opcodes of a line program
_END = b"\0\x01\x01"                        # the end of a sequence
# Abbreviation 1: a compilation unit without children, and its attributes, each with its form.
_UNIT = bytes([1, 0x11, 0, 0x10, 0x06, 0x11, 0x01, 0x12, 0x01, 0x03, 0x08, 0x1B, 0x08, 0x25, 0x08, 0x13, 0x05, 0, 0, 0])
_ASSEMBLER = 0x8001                         # DW_LANG_Mips_Assembler, which all assemblers use
_INSN = 4                                   # bytes of an instruction


class Section(NamedTuple):
    """A section of an ELF file. `link` and `info` are section numbers as the kind has them."""

    name: str
    kind: int
    flags: int
    address: int
    data: bytes
    link: int = 0
    info: int = 0
    align: int = 1
    entry: int = 0


def _signed(number: int) -> bytes:
    """LEB128 of a signed number."""
    digits = bytearray()
    while not -0x40 <= number < 0x40:
        digits.append(number & 0x7F | 0x80)
        number >>= 7
    return bytes(digits) + bytes([number & 0x7F])


def _counted(data: bytes) -> bytes:
    return struct.pack("<I", len(data)) + data


def placed(lines: Dict[int, str]) -> Tuple[str, List[Tuple[int, int]]]:
    """The name of the first source, and the instructions that its lines place: each address with the line's number, in ascending order."""
    found = [(address, it) for address, line in sorted(lines.items()) if (it := re.match(r"([^:]*):(\d+)", line))]
    name = found[0][1][1] if found else ""
    return name, [(address, int(it[2])) for address, it in found if it[1] == name]


def _line_table(name: str, directory: str, rows: Sequence[Tuple[int, int]]) -> bytes:
    """.debug_line of DWARF 2: one file, and a sequence for each piece of code, in units of an instruction."""
    head = bytes([_INSN, 1, 0xFB, 14, 10]) + bytes([0, 1, 1, 1, 1, 0, 0, 0, 1])
    head += directory.encode() + b"\0\0" + name.encode() + b"\0\1\0\0\0"
    code, at, line = b"", 0, 1
    for address, number in rows:
        if address != at:
            code, line = code + (_END if code else b"") + b"\0\x09\x02" + struct.pack("<Q", address), 1
        code += bytes([_ADVANCE_LINE]) + _signed(number - line) + bytes([_COPY, _ADVANCE_PC, 1])
        at, line = address + _INSN, number
    return _counted(struct.pack("<HI", 2, len(head)) + head + code + _END)


def _unit(name: str, directory: str, low: int, high: int) -> bytes:
    """.debug_info of DWARF 2: the one unit."""
    unit = b"\x01" + struct.pack("<IQQ", 0, low, high) + name.encode() + b"\0" + directory.encode() + b"\0cherisim asm\0"
    return _counted(struct.pack("<HIB", 2, 0, 8) + unit + struct.pack("<H", _ASSEMBLER))


def _sections(machine: Machine) -> List[Section]:
    """The pages of RAM that hold something, those that stand one after the other together."""
    data = machine.mem[:]
    held = {n for n in range(0, len(data), PAGE) if data.count(0, n, n + PAGE) < PAGE}
    begins, ends = sorted(n for n in held if n - PAGE not in held), sorted(n + PAGE for n in held if n + PAGE not in held)
    return [Section(f".text{n}" if n else ".text", _BYTES, _LOADED, RAM + begin, data[begin:end], align=_INSN)
            for n, (begin, end) in enumerate(zip(begins, ends))]


def _symbol_table(symbols: Symbols, sections: Sequence[Section]) -> Tuple[bytes, bytes, int]:
    """.symtab, its names, and how many symbols it has: each label, in the section that its address lies in."""
    table, names, count = bytes(24), b"\0", 1
    for name, address in symbols.items():
        home = (n for n, it in enumerate(sections, 1) if it.address <= address <= it.address + len(it.data))
        table += struct.pack("<IBBHQQ", len(names), 0, 0, next(home, _ABSOLUTE), address, 0)
        names, count = names + name.encode() + b"\0", count + 1
    return table, names, count


def _file(sections: Sequence[Section], names_at: int, entry: int) -> bytes:
    """The file: its head, the sections' bytes, and their table."""
    names, data, rows = b"\0", b"", bytes(64)
    for it in sections:
        rows += struct.pack("<IIQQQQIIQQ", len(names), it.kind, it.flags, it.address, 64 + len(data), len(it.data), it.link, it.info,
                            it.align, it.entry)
        names, data = names + it.name.encode() + b"\0", data + it.data
    at = 64 + len(data)
    rows += struct.pack("<IIQQQQIIQQ", len(names), _STRINGS, 0, 0, at, len(names) + len(".shstrtab") + 1, 0, 0, 1, 0)
    names += b".shstrtab\0"
    head = b"\x7fELF\x02\x01\x01" + bytes(9)
    head += struct.pack("<HHIQQQIHHHHHH", 2, 243, 1, entry, 0, at + len(names), 0, 64, 0, 0, 64, names_at + 1, names_at)
    return head + data + names + rows


def table_of(machine: Machine, directory: str) -> bytes:
    """The table of a machine in its opening state, by its labels and the lines that it has, whose sources stand in a directory."""
    sections, (name, rows) = _sections(machine), placed(machine.symbols.lines)
    table, names, count = _symbol_table(machine.symbols, sections)
    number = len(sections) + 1
    sections += [Section(".symtab", _SYMBOLS, 0, 0, table, number + 1, count, 8, 24), Section(".strtab", _STRINGS, 0, 0, names)]
    if rows:
        sections += [Section(".debug_abbrev", _BYTES, 0, 0, _UNIT),
                     Section(".debug_info", _BYTES, 0, 0, _unit(name, directory, rows[0][0], rows[-1][0] + _INSN)),
                     Section(".debug_line", _BYTES, 0, 0, _line_table(name, directory, rows))]
    return _file(sections, len(sections) + 1, machine.pc)


def main(given: Optional[Sequence[str]] = None) -> int:
    """Writes the table of a file; 1 where it or its tables are refused."""
    parser = argparse.ArgumentParser(prog="python3 -m cherisim.elf", description=(__doc__ or "").splitlines()[0])
    parser.add_argument("file", help="an image, or a text in the assembly language whose name ends in .s")
    parser.add_argument("out", help="the ELF file")
    parser.add_argument("--symbols", help="a table of labels, as `cherisim asm --symbols` and `nm` write it")
    parser.add_argument("--lines", help="a table of lines of the source, as `cherisim asm --lines` writes it")
    asked = parser.parse_args(given)
    try:
        data = table_of(opened(asked.file, asked.symbols, asked.lines), os.path.dirname(os.path.abspath(asked.file)))
        with open(asked.out, "wb") as out:
            out.write(data)
    except (CherisimError, OSError) as error:
        print(f"cherisim.elf: {asked.file}: {error}", file=sys.stderr)
        return 1
    return 0


if __name__ == "__main__":
    sys.exit(main())
