"""The rows of the instruction table, as crates/isa_rows/src/table.rt lists them, and the words of instructions."""
import re
from ctypes import byref, c_uint32
from typing import NamedTuple

from model.words import SPACE

from . import paths
from .libraries import Insn

LINE = re.compile(r'\s*(\w+) (0x[0-9a-f]{8}) (\w+) (\w+) (\w+) (?:"([^"]+)"|\("([^"]+)" "([^"]+)"\)) .*;')


class Row(NamedTuple):
    """A row: its place, its variant's name, its word with all operands 0, format and kind, and its names in both modes."""
    place: int
    variant: str
    value: int
    format: str
    kind: str
    name: str
    capability_name: str


def listed():
    with open(paths.ROWS, encoding="utf-8") as table:
        found = [match.groups() for match in map(LINE.fullmatch, table.read().split("\n")) if match]
    for place, (variant, value, shape, kind, _, both, name, capability_name) in enumerate(found):
        yield Row(place, variant, int(value, 16), shape, kind, both or name, both or capability_name)


ROWS = list(listed())
BY_NAME = {row.name: row for row in ROWS}
BY_VARIANT = {row.variant: row for row in ROWS}


def encoded(library, name, rd=0, rs1=0, rs2=0, imm=0):
    """The word of an instruction, its row by name in integer mode."""
    insn, word = Insn(imm % SPACE, BY_NAME[name].place, rd, rs1, rs2), c_uint32()
    if not library.cheri_encode(byref(insn), byref(word)):
        raise ValueError(f"{name} {rd} {rs1} {rs2} {imm:x} is no instruction")
    return word.value


def decoded(library, word):
    """The instruction of a word and its row, or None where it is no row."""
    insn = Insn()
    if not library.cheri_decode(word, byref(insn)):
        return None
    return insn, ROWS[insn.row]
