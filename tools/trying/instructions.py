"""Integer rows by a step of a machine, and the words and the texts of instructions."""
import re
from ctypes import byref, c_uint32, create_string_buffer

from model.devices import TRANSMIT
from model.words import NULL_HIGH, ROOT_HIGH, SPACE

from .libraries import Word
from .machines import PCC, RAM
from .reading import Left, Words, number
from .rows import BY_NAME, decoded

# how far a branch that is taken goes
AWAY = 64
# How many amounts a shift has.
AMOUNTS = {"Shift6": 64, "Shift5": 32}


def integer(bench, case):
    """A mnemonic, rs1's number, and rs2's or the immediate: what a step leaves in rd; of a branch 1 where it is taken."""
    words = Words(bench.library, case.inputs)
    row, a, b = BY_NAME[words.word()], words.hex(), words.hex()
    if b >= AMOUNTS.get(row.format, SPACE):
        # an amount that no instruction has
        raise Left
    machine = bench.once("integers", bench.root_machine)
    machine.set_scr(PCC, bench.root(RAM))
    machine.set_reg(11, number(a))
    machine.set_reg(12, number(b))
    operands = {"Upper": {"rd": 10, "imm": b}, "Register": {"rd": 10, "rs1": 11, "rs2": 12},
                "Branch": {"rs1": 11, "rs2": 12, "imm": AWAY}}.get(row.format, {"rd": 10, "rs1": 11, "imm": b})
    fault = bench.fault_of(machine, row.name, **operands)
    if fault:
        return f"a trap: {fault[0]:x} {fault[1]:x}"
    gone = machine.pc() - RAM
    if row.kind == "Branch":
        return {4: "0", AWAY: "1"}[gone]
    value = machine.reg(10)
    return f"{value.address:x}" if (gone, value.upper, value.tag) == (4, NULL_HIGH, False) else "no number, or a jump"


def encoding(bench, case):
    """A word: `none`, or the mnemonic, the numbers of rd, rs1 and rs2, the immediate, and the instruction's own word."""
    found = decoded(bench.library, int(case.inputs, 16))
    if found is None:
        return "none"
    insn, row = found
    word = c_uint32()
    if not bench.library.cheri_encode(byref(insn), byref(word)):
        return "operands that do not fit"
    return f"{row.name} {insn.rd} {insn.rs1} {insn.rs2} {insn.imm:x} {word.value:08x}"


def text_of(library, word, capability_mode):
    """The text of a word, which both libraries give."""
    text, again = create_string_buffer(64), create_string_buffer(64)
    length = library.cheri_disassemble(word, capability_mode, text)
    if library.cherisim_disassemble(word, capability_mode, again) != length or text.raw != again.raw:
        raise ValueError("cherisim_disassemble gives another text")
    return text.raw[:length].decode("ascii")


def shown(bench, case):
    """A word: its text in integer mode and its text in capability mode."""
    word = int(case.inputs, 16)
    return f"{text_of(bench.library, word, False)} | {text_of(bench.library, word, True)}"


def digits(bench, case):
    """A number, and how many of its digits: the digits, where the answer to `why` shows so many. It shows 17 of a top, 5 of a type, and 2
    of a byte that a device takes."""
    word, width = case.inputs.split()
    machine = bench.root_machine()
    if width == "17":
        # the top of all addresses
        pattern = r"of pcc: .* to (\w+)"
    elif width == "5":
        sealed = bench.library.cheri_cap(Word(RAM, ROOT_HIGH & ~(0x3FFFF << 27) | int(word, 16) << 27), True)
        machine.set_reg(11, sealed)
        bench.place(machine, "lb.cap", rd=10, rs1=11)
        pattern = r"ca1 v:1 .* o:(\w+)"
    else:
        machine.set_reg(11, number(TRANSMIT))
        machine.set_reg(12, number(int(word, 16)))
        bench.place(machine, "sb", rs1=11, rs2=12)
        pattern = r"effect: device store 1 byte at \w+: (\w+)"
    return re.search(pattern, machine.why())[1]
