"""The words of rows and their texts: which fields operands fill, which word is which row, and how the assembly language writes one.

A row's word without operands is that of cases/encodings.txt, which GNU as and the fields of CHERI-RISC-V's encodings give, with the
fields cleared.
"""
import re
from functools import lru_cache
from typing import NamedTuple

from model.integers import s
from model.names import CAPABILITY_NAMES, CSR_NAMES, NAMES, SCR_NAMES
from model.row_forms import FORM, SECOND
from trying.paths import cases_of

# For each operand the fields that it fills, as (lowest bit of the word, lowest bit of the operand, count of bits).
FIELDS = {
    "rd": [(7, 0, 5)], "rs1": [(15, 0, 5)], "rs2": [(20, 0, 5)], "scr": [(20, 0, 5)], "five": [(15, 0, 5)],
    "signed": [(20, 0, 12)], "unsigned": [(20, 0, 12)], "csr": [(20, 0, 12)], "shift6": [(20, 0, 6)], "shift5": [(20, 0, 5)],
    "stored": [(7, 0, 5), (25, 5, 7)], "upper": [(12, 12, 20)],
    "branch": [(8, 1, 4), (25, 5, 6), (7, 11, 1), (31, 12, 1)],
    "jump": [(21, 1, 10), (20, 11, 1), (12, 12, 8), (31, 20, 1)],
}
HOLDS = {"scr": "rs2", "five": "rs1"} | {slot: "imm" for slot in
         ("signed", "unsigned", "csr", "shift6", "shift5", "stored", "upper", "branch", "jump")}
# The bits of immediates that have a sign.
SIGNED = {"signed": 12, "stored": 12, "upper": 32, "branch": 13, "jump": 21}
# The name in integer mode of a row by its name in capability mode.
PLAIN = {second: name for name, (second, _) in SECOND.items()}


class Insn(NamedTuple):
    """An instruction: its row's name in integer mode and its operands; those that the row hasn't are 0."""
    row: str
    rd: int = 0
    rs1: int = 0
    rs2: int = 0
    imm: int = 0


def slots(form):
    """The operands of a form, as names of FIELDS."""
    return [name.replace("cd", "rd").replace("cs1", "rs1").replace("cs2", "rs2") for name in re.findall(r"\w+", form)]


def with_operands(vector, changes):
    """The vector with other operands, for those of these that its row has."""
    word, name, operands = vector
    operands = dict(operands)
    for slot in slots(FORM[name]):
        if slot not in changes:
            continue
        number = operands[HOLDS.get(slot, slot)] = changes[slot]
        for at, low, count in FIELDS[slot]:
            ones = 2**count - 1
            word = word & ~(ones << at) | (number >> low & ones) << at
    return word, name, operands


@lru_cache
def plain_words():
    """Each row's word with all operands 0."""
    with open(cases_of("encodings"), encoding="utf-8") as file:
        found = {name: int(word, 16) for word, name in re.findall(r"^([0-9a-f]{8}) => (\S+) \d", file.read(), re.MULTILINE)}
    return {name: with_operands((word, name, {}), dict.fromkeys(FIELDS, 0))[0] for name, word in found.items()}


def made(name, changes):
    """The word of a row with these operands."""
    return with_operands((plain_words()[name], name, {}), changes)[0]


@lru_cache
def lines():
    """The rows by their opcodes: for each the bits that are no operand's, what they are, and its name."""
    found = {}
    for name, word in plain_words().items():
        free = with_operands((0, name, {}), dict.fromkeys(FIELDS, -1))[0]
        found.setdefault(word & 0x7F, []).append((~free & 0xFFFFFFFF, word, name))
    return found


@lru_cache(maxsize=None)
def decode(word):
    """The instruction of a word, or None where it is no row."""
    row = next((name for mask, value, name in lines().get(word & 0x7F, ()) if word & mask == value), None)
    return row and Insn(row, **{HOLDS.get(slot, slot): operand_of(word, slot) for slot in slots(FORM[row])})


def operand_of(word, slot):
    """What a word's fields say of an operand."""
    number = sum((word >> at & 2**count - 1) << low for at, low, count in FIELDS[slot])
    return s(number, SIGNED[slot]) if slot in SIGNED else number


# ---- texts

def operand(slot, operands):
    """An operand's text."""
    if slot[-1] in "d12" and slot[0] in "rc":
        return (CAPABILITY_NAMES if slot[0] == "c" else NAMES)[operands["r" + slot.lstrip("rc")]]
    number = operands[HOLDS[slot]]
    if slot == "csr":
        return CSR_NAMES.get(number, f"{number:#x}")
    if slot == "scr":
        return SCR_NAMES.get(number, str(number))
    if slot == "upper":
        return f"{number >> 12 & 0xFFFFF:#x}"
    if slot in ("branch", "jump"):
        return f".{number:+d}"
    return str(number % 4096 if slot == "unsigned" else number)


def shown(name, operands, mode):
    """The text of a row in a mode."""
    name, form = SECOND.get(name, (name, FORM[name])) if mode else (name, FORM[name])
    return " ".join([name] + [re.sub(r"\w+", lambda slot: operand(slot[0], operands), form)] * (form != ""))


def text_of(word, mode):
    """The text of a word in a mode, as the disassembler shows it."""
    insn = decode(word)
    return shown(insn.row, insn._asdict(), mode) if insn else f".word 0x{word:08x}"
