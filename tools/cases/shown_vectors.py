#!/usr/bin/env python3
"""Words with the texts that they are shown as in both modes, from outside the program; and numbers with their digits.

    python3 tools/cases/shown_vectors.py --compare

The words are those of isa_vectors.py (of GNU as for RV64IM, Zicsr, Zifencei and the privileged rows, put together from the fields of
CHERI-RISC-V's encodings for the others), and these words with other operands in their fields. The texts are written here by the rules
of the assembly language.

--compare compares the texts of integer mode with those of GNU objdump (Debian's package binutils-riscv64-linux-gnu) over the words of
RV64IM, Zicsr, Zifencei and the privileged rows, and stops at a difference.
These differences are of form, and both sides are brought to one: white space round commas; targets, which objdump gives
as addresses; numbers of lui, auipc and shifts, decimal here and hexadecimal there or the other way round; names of CSRs
that objdump knows and the language doesn't; fence's sets, which the language writes as a number, and fence.i's zeros.
A fence or fence.i whose fields the manual reserves is left out: objdump shows it as no row, or without its operands.
"""
import os
import re
import subprocess
import sys
import tempfile

sys.path.insert(0, os.path.join(os.path.dirname(os.path.abspath(__file__)), ".."))
from cases import isa_vectors
from model.row_forms import FORM
from model.names import CSR_NAMES as CSRS
from model.rows import FIELDS, HOLDS, shown, slots, with_operands
from model.integers import s as signed
from model.words import SPACE

# ---- words and their operands


def vectors():
    """The words of the table of the instruction set, as (word, mnemonic, operands), and those that are no row."""
    made = [(word, name, {"rd": rd, "rs1": rs1, "rs2": rs2, "imm": signed(imm)}) for word, _, name, rd, rs1, rs2, imm in isa_vectors.made]
    return made, [word for word, _ in isa_vectors.NONE]


# One more word of each row: registers at both ends of their numbers, and immediates that the words of the table haven't.
OTHERS = {"rd": 8, "rs1": 0, "rs2": 31, "scr": 1, "five": 0, "signed": 0, "unsigned": 0, "csr": 0x342, "shift6": 33, "shift5": 1,
          "stored": -1, "upper": 0x1000, "branch": 0, "jump": 0}


def extras(made):
    """Each row with other operands; then every register, special register and CSR, numbers beside those of CSRs, and limits."""
    first = {}
    for vector in made:
        first.setdefault(vector[1], vector)
    for name, vector in first.items():
        if FORM[name]:
            yield with_operands(vector, OTHERS)
    for number in range(0, 32):
        yield with_operands(first["cspecialrw"], {"rd": (number + 2) % 32, "rs1": (number + 1) % 32, "scr": number})
    for number in range(0, 32, 3):
        yield with_operands(first["add"], {"rd": number, "rs1": (number + 1) % 32, "rs2": (number + 2) % 32})
    forms = [first[name] for name in ("csrrw", "csrrs", "csrrc", "csrrwi", "csrrsi", "csrrci")]
    for place, number in enumerate(sorted(CSRS)):
        yield with_operands(forms[place % 6], {"csr": number})
    for place, number in enumerate((0x001, 0x302, 0x303, 0x306, 0x345, 0x7C0, 0xB01, 0xB03, 0xC00, 0xF10, 0xF15)):
        yield with_operands(forms[place % 6], {"csr": number})
    for name, number in (("jal", -1048576), ("jal", 1048574), ("beq", -4096), ("bgeu", 4094), ("bne", 2), ("blt", -2), ("fence", 255),
                         ("fence", 0x33), ("fence", -2048), ("fence.i", 2047), ("csetboundsimm", 2048), ("slliw", 31), ("addi", 0)):
        yield with_operands(first[name], dict.fromkeys(FIELDS, number) | {"rd": 0, "rs1": 0, "rs2": 8})


def unlisted():
    """Words with one fixed field that no row has."""
    def fields(funct7=0, rs2=11, rs1=10, funct3=0, rd=10, opcode=0x5B):
        return funct7 << 25 | rs2 << 20 | rs1 << 15 | funct3 << 12 | rd << 7 | opcode
    yield from (fields(opcode=opcode) for opcode in (0x07, 0x0B, 0x27, 0x2B, 0x2F, 0x3F, 0x43, 0x53, 0x6B, 0x77, 0x7B, 0x7F))
    yield from (fields(funct7=funct7) for funct7 in (0x02, 0x0A, 0x12, 0x15, 0x1F, 0x22, 0x40, 0x7B))
    yield from (fields(funct7=0x7C, rd=rd) for rd in (0x07, 0x0F, 0x10, 0x1F))
    yield from (fields(funct7=0x7D, rs2=rs2) for rs2 in (0x0F, 0x16, 0x18, 0x1E))
    yield from (fields(funct7=0x7F, rs2=rs2) for rs2 in (0x0E, 0x12, 0x1E))
    yield from (fields(funct3=funct3) for funct3 in (4, 5, 6))
    yield from (fields(funct3=7, opcode=opcode) for opcode in (0x0F, 0x1B, 0x23, 0x67))
    yield from (fields(funct7=0x21, opcode=opcode) for opcode in (0x33, 0x3B))
    yield from (fields(funct7=funct7, funct3=5, opcode=0x13) for funct7 in (0x40, 0x60))
    yield from (0x00000073 ^ 1 << bit for bit in (7, 15, 21, 25, 31))
    yield from (0x10500073 ^ 1 << bit for bit in (11, 19, 20, 28))


# ---- comparison with the field's disassembler

FIELD_CSRS = {"fflags": 0x001, "medeleg": 0x302, "mideleg": 0x303, "mcounteren": 0x306, "mhpmcounter3": 0xB03, "cycle": 0xC00,
              "mconfigptr": 0xF15}


def disassembled(words):
    """The texts that objdump gives, each with its place."""
    with tempfile.NamedTemporaryFile() as raw:
        raw.write(b"".join(word.to_bytes(4, "little") for word in words))
        raw.flush()
        command = ["riscv64-linux-gnu-objdump", "-D", "-z", "-b", "binary", "-m", "riscv:rv64", "-M", "no-aliases", raw.name]
        text = subprocess.run(command, check=True, capture_output=True, text=True).stdout
    lines = re.findall(r"^ *([0-9a-f]+):\t([0-9a-f]{8}) *\t(.*)$", text, re.M)
    assert [int(line[1], 16) for line in lines] == list(words), "objdump cut the words otherwise"
    return [(int(place, 16), line) for place, _, line in lines]


def one_form(text, place):
    """A text as its mnemonic and operands, numbers as numbers, a target as an address."""
    text = re.sub(r" *[#<].*", "", text)
    name, _, rest = text.replace("\t", " ").partition(" ")
    parts = [part.strip() for part in rest.split(",")] if rest.strip() else []
    if name == "fence" and len(parts) == 3:
        number = int(parts[2])
        parts = ["".join(letter for bit, letter in zip((8, 4, 2, 1), "iorw") if number >> at & bit) for at in (4, 0)]
    if name == "fence.i" and len(parts) == 3:
        parts = []

    def value(part):
        if part[0] == ".":
            return (place + int(part[1:])) % SPACE
        if part in FIELD_CSRS and name.startswith("csr"):
            return FIELD_CSRS[part]
        return int(part, 0) if re.fullmatch(r"-?(0x[0-9a-f]+|\d+)", part) else part
    return name, [value(part) for part in parts]


def compare(table):
    """Compares the texts of the rows that the field's disassembler knows, and stops at a difference that is not of form."""
    known = [v for v in table if v[1] not in ("lc", "sc") and v[0] & 0x7F != 0x5B]
    reserved = [v for v in known if v[1] == "fence" and v[0] & 0xF00F8F80 or v[1] == "fence.i" and v[0] & 0xFFFF8F80]
    known = [v for v in known if v not in reserved]
    for vector, (place, theirs) in zip(known, disassembled([v[0] for v in known])):
        ours = shown(vector[1], vector[2], False)
        assert one_form(ours, place) == one_form(theirs, place), f"{vector[0]:#010x}: {ours} against {theirs}"
    rows = len({v[1] for v in known})
    print(f"{len(known)} words of {rows} rows compared, {len(reserved)} reserved forms of fence left out", file=sys.stderr)


# Words whose texts the manuals' listings and the rules of the language give at sight, in both modes.
LISTED = [
    (0x00A58023, "sb a0, 0(a1)", "csb a0, 0(ca1)"),
    (0x00002517, "auipc a0, 0x2", "auipcc ca0, 0x2"),
    (0x100005B7, "lui a1, 0x10000", "lui a1, 0x10000"),
    (0x22B5055B, "cincoffset ca0, ca0, a1", "cincoffset ca0, ca0, a1"),
    (0x00000073, "ecall", "ecall"),
    (0x00000000, ".word 0x00000000", ".word 0x00000000"),
    (0x00B50863, "beq a0, a1, .+16", "beq a0, a1, .+16"),
    (0xFEB508E3, "beq a0, a1, .-16", "beq a0, a1, .-16"),
    (0x00B500E3, "beq a0, a1, .+2048", "beq a0, a1, .+2048"),
    (0x0000006F, "jal zero, .+0", "cjal cnull, .+0"),
    (0x30051573, "csrrw a0, mstatus, a0", "csrrw a0, mstatus, a0"),
    (0xFFF51573, "csrrw a0, 0xfff, a0", "csrrw a0, 0xfff, a0"),
    (0x00051573, "csrrw a0, 0x0, a0", "csrrw a0, 0x0, a0"),
    (0x0250855B, "cspecialrw ca0, 5, cra", "cspecialrw ca0, 5, cra"),
]

# Numbers, how many digits, and the digits.
DIGITS = [(SPACE, 17, "10000000000000000"), (0xBEEF, 5, "0beef"), (0x12345, 2, "45")]


def cases(table, none):
    yield "# a word => its text in integer mode | its text in capability mode"
    yield "# as they are listed"
    yield from (f"{word:08x} => {integer} | {capability}" for word, integer, capability in LISTED)
    yield "# words of rows"
    yield from (f"{word:08x} => {shown(name, operands, False)} | {shown(name, operands, True)}" for word, name, operands in table)
    yield "# words that are no row"
    yield from (f"{word:08x} => .word 0x{word:08x} | .word 0x{word:08x}" for word in none)


def digits():
    yield "# a number, and how many of its digits => the digits"
    yield from (f"{number:x} {width} => {text}" for number, width, text in DIGITS)


def whole():
    """The words of rows, each once, and those that are no row."""
    made, none = vectors()
    for vector in made:
        own = {slot: vector[2][HOLDS.get(slot, slot)] for slot in slots(FORM[vector[1]])}
        assert with_operands(vector, own) == vector, f"the fields of {vector}"
    known = {}
    for vector in made + list(extras(made)):
        assert known.setdefault(vector[0], vector) == vector, vector
    table = list(known.values())
    none = list(dict.fromkeys(none + list(unlisted())))
    assert {vector[1] for vector in table} == set(FORM)
    assert all(sum(vector[1] == name for vector in table) >= 2 for name in FORM if FORM[name])
    assert not set(none) & set(known)
    return table, none


def files():
    yield "shown.txt", cases(*whole())
    yield "digits.txt", digits()


if __name__ == "__main__" and sys.argv[1:] == ["--compare"]:
    try:
        compare(whole()[0])
    except FileNotFoundError as missing:
        sys.exit(f"tools/cases/shown_vectors.py needs {missing.filename}, of Debian's package binutils-riscv64-linux-gnu")
