"""Spellings of registers and rows, from the manuals' listings."""

from cases.quoting import quoted

# Some of a register's names.
REGISTERS = [
    ("x0", 0), ("zero", 0), ("c0", 0), ("cnull", 0), ("ra", 1), ("cra", 1), ("sp", 2), ("csp", 2), ("gp", 3), ("tp", 4), ("t0", 5),
    ("t2", 7), ("s0", 8), ("fp", 8), ("cs0", 8), ("cfp", 8), ("x8", 8), ("s1", 9), ("a0", 10), ("ca0", 10), ("x10", 10),
    ("c10", 10), ("a7", 17), ("s2", 18), ("cs11", 27), ("t3", 28), ("ct6", 31), ("t6", 31), ("x31", 31), ("c31", 31),
]

# Texts that name no register.
NO_REGISTERS = [
    "", "x", "x32", "c32", "X1", "cx5", "czero", "A0", "a8", "s12", "x01", "a0 ",
]

# Special registers with their numbers: control and status registers, then special capability registers.
CSRS = [
    ("mstatus", 0x300), ("mip", 0x344), ("mcycle", 0xb00), ("minstret", 0xb02), ("mhartid", 0xf14),
]

SCRS = [
    ("pcc", 0), ("ddc", 1), ("mtcc", 28), ("mtdc", 29), ("mscratchc", 30), ("mepcc", 31),
]

# Rows with their names in integer mode and in capability mode.
ROW_NAMES = [
    ("Addi", "addi", "addi"), ("Auipc", "auipc", "auipcc"), ("Jal", "jal", "cjal"), ("Jalr", "jalr", "cjalr"),
    ("JalrCap", "jalr.cap", "jalr.cap"), ("Lw", "lw", "clw"), ("Lc", "lc", "clc"), ("Sd", "sd", "csd"), ("Sc", "sc", "csc"),
    ("FenceI", "fence.i", "fence.i"), ("LwuCap", "lwu.cap", "lwu.cap"), ("CGetAddr", "cgetaddr", "cgetaddr"),
]

# What a row is written with: each operand, and by which name its register is shown.
SLOTS = [
    ("jalr", "[Rd(ByMode), Address(ByMode)]"),
    ("sc.ddc", "[Rs2(Capability), Authority(Integer)]"),
]


def cases():
    yield "# register TEXT => number; register_name NUMBER MODE => name"
    yield from (f"register {quoted(text)} => {number}" for text, number in REGISTERS)
    yield from (f"register {quoted(text)} => -" for text in NO_REGISTERS)
    for number, names in ((0, ("zero", "cnull")), (8, ("s0", "cs0")), (31, ("t6", "ct6"))):
        yield from (f"register_name {number} {mode} => {name}" for mode, name in enumerate(names))
    yield "# csr TEXT and scr TEXT => number; csr_name NUMBER and scr_name NUMBER => name"
    for text, number in CSRS:
        yield f"csr {quoted(text)} => {number}"
        yield f"csr_name {number} => {text}"
    for text, number in SCRS:
        yield f"scr {quoted(text)} => {number}"
        yield f"scr_name {number} => {text}"
    yield from (f"csr {quoted(text)} => -" for text in ("pcc", "MIE"))
    yield from (f"scr {quoted(text)} => -" for text in ("mepc", ""))
    yield f"csr_name {0x302} => -"
    yield "scr_name 2 => -"
    yield "# row TEXT => the row, and its names in both modes; slots TEXT => what the row is written with"
    for row, name, second in ROW_NAMES:
        yield from (f"row {quoted(text)} => {row} {name} {second}" for text in dict.fromkeys((name, second)))
    yield from (f"row {quoted(text)} => -" for text in ("", "nop", "ADDI", "addi ", "clui", "li"))
    yield from (f"slots {quoted(text)} => {slots}" for text, slots in SLOTS)


def files():
    yield "names.txt", cases()
