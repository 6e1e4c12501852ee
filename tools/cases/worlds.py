"""Two worlds: one program in two images, that differ where it may not look, and in what it then may. What is told of both is what the model
machine tells: bounds and permissions decide what is reachable, and the faults are those of the first check that fails.

Each program narrows PCC and DDC, jumps to code that nobody trusts, and runs it as a stretch. That code has PCC without system access over
64 bytes from CODE on, DDC and a0 over bytes from SHARED on, and a1 over the transmit register.
"""

from cases.programs.items import BOTH, ENTRY
from model.deeds import OfModel
from model.rights import ACCESS_SYSTEM_REGISTERS, EXECUTE, LOAD_CAPABILITY
from model.texts import machine_of

HEAD = ("# mode | statements | what the first world has after them | what the second has | events and queries => answers, both where they "
        "differ")

CODE = ENTRY + 0x100
SHARED = ENTRY + 0x200
PRELUDE = ENTRY + 0x240

# Loads a byte that is shared, sends it, loads eight more, and then the byte past DDC's bounds.
LOADS = ["lbu a2, 0(a0)", "sb.cap a2, (ca1)", "ld a3, 8(a0)", "lbu a4, 16(a0)"]


def narrowed(length=16, code=ACCESS_SYSTEM_REGISTERS, data=ACCESS_SYSTEM_REGISTERS | EXECUTE):
    """Narrows PCC and DDC, without the permissions of `code` and `data`, and jumps to CODE."""
    return [
        "cspecialrw ct0, pcc, cnull", f"cincoffsetimm ct0, ct0, {CODE - ENTRY}", "addi t1, zero, 64", "csetbounds ct0, ct0, t1",
        f"addi t1, zero, {-1 - code}", "candperm ct0, ct0, t1",
        f"addi t1, zero, {-1 - data}", "cspecialrw ca0, ddc, cnull", "candperm ca0, ca0, t1", "cspecialrw ca1, ddc, cnull",
        "candperm ca1, ca1, t1",
        "lui t1, 0x10000", "csetaddr ca1, ca1, t1", "addi t1, zero, 8", "csetbounds ca1, ca1, t1",
        "cgetaddr t1, ct0", f"addi t1, t1, {SHARED - CODE}", "csetaddr ca0, ca0, t1", f"addi t1, zero, {length}",
        "csetbounds ca0, ca0, t1", "cspecialrw cnull, ddc, ca0", "addi t1, zero, 0", "jalr.cap cnull, ct0",
    ]


def code(statements):
    return [f".org {CODE:#x}", *statements]


def shared(*directives):
    return [f".org {SHARED:#x}", *directives]


def prelude(statements):
    """Statements that are done before the program's first, in one world or in both."""
    return [f".org {PRELUDE:#x}", *statements, "jal zero, start"]


def entered(statements):
    """A program that begins with the prelude of its world."""
    return [f".entry {PRELUDE:#x}", f"start: {statements[0]}", *statements[1:]]


def line(mode, program, one, two, deeds):
    """The case of a program and two worlds, and of events, runs and queries."""
    told = [OfModel(machine_of("; ".join([f".mode {mode}", *program, *more]))).answers(deeds.split("; ")) for more in (one, two)]
    assert len(told[0]) == len(told[1])
    answers = [first if first == second else f"{first} / {second}" for first, second in zip(*told)]
    worlds = " | ".join("; ".join(statements) for statements in (program, one, two))
    return f"{mode} | {worlds} | {deeds} => {'; '.join(answers)}"


def hidden_memory():
    yield "# RAM that no reachable capability covers differs: the bytes past DDC's bounds, and a place far from them"
    after = "sent; ends; a2; a3; address pcc; step; trap; mcycle"
    for mode in BOTH:
        one, two = (shared(".dword 0x42", ".dword 0x1122334455667788", f".dword 0x5ec4e70{n}", f".org {SHARED + 0x100:#x}", f".dword {n}")
                    for n in (1, 2))
        yield line(mode, narrowed() + code(LOADS), one, two,
                   f"steps 23; word {SHARED + 16:x}; word {SHARED + 0x100:x}; stretch ssssss; {after}")
    yield "# the same where DDC's bounds end inside a granule"
    loads = ["lbu a2, 0(a0)", "sb.cap a2, (ca1)", "lbu a3, 8(a0)", "lhu a4, 8(a0)"]
    for mode in BOTH:
        one, two = (shared(".dword 0x42", ".byte 7", f".byte {n}", f".byte {n}") for n in (1, 2))
        yield line(mode, narrowed(length=9) + code(loads), one, two, f"steps 23; word {SHARED + 8:x}; stretch ssssss; {after}")


def hidden_tag():
    yield "# a granule's tag differs, and its authority has no Load_Capability"
    loads = ["lc ca2, 0(a0)", "cgettag a3, ca2", "sb.cap a3, (ca1)", "ebreak"]
    for mode in BOTH:
        program = entered(narrowed(data=ACCESS_SYSTEM_REGISTERS | EXECUTE | LOAD_CAPABILITY)) + code(loads)
        one, two = (prelude(["cspecialrw ct3, ddc, cnull", f"{row} ct3, ct3", "addi t2, zero, 1", "slli t2, t2, 31",
                             f"addi t2, t2, {SHARED - ENTRY:#x}", "sc.ddc ct3, (t2)", "addi t3, zero, 0", "addi t2, zero, 0"])
                    for row in ("cmove", "ccleartag"))
        yield line(mode, program, one, two, f"steps 32; granule {SHARED:x}; stretch ssss; sent; ends; fields a2; a3; address pcc")


def other_mtcc(place):
    """A world whose MTCC has this address. The word that says so is overwritten, so that nothing else differs."""
    return shared(".dword 0x42", ".dword 0x11") + prelude([
        f"addi t0, zero, {place:#x}", "csrrw zero, mtvec, t0", "addi t2, zero, 1", "slli t2, t2, 31",
        f"addi t2, t2, {PRELUDE - ENTRY:#x}", "sw.ddc zero, (t2)", "addi t2, zero, 0"])


# The worlds in which MTCC alone differs, after 31 steps, and what shows it.
MTCC = (other_mtcc(0x100), other_mtcc(0x204))
SEEN = f"steps 31; word {PRELUDE:x}; address mtcc"


def hidden_register():
    yield "# MTCC alone differs, and nothing reachable opens it: so do PCC after the trap that ends the stretch, and nothing before"
    for mode in BOTH:
        yield line(mode, entered(narrowed()) + code(LOADS), *MTCC,
                   f"{SEEN}; stretch stsbssss; sent; ends; address pcc; a2; a3; waiting; mtime; step; address pcc; mcause; mtval; "
                   "address mepcc; mcycle")
    yield "# a read of MTCC without access traps in both"
    for mode in BOTH:
        yield line(mode, entered(narrowed()) + code(["cspecialrw ca2, mtcc, cnull"]), *MTCC,
                   f"{SEEN}; stretch ss; ends; fields a2; step; mcause; mtval; address pcc")


def reachable():
    yield "# what is reachable is seen: MTCC by code with system access, and a byte in DDC's bounds"
    for mode in BOTH:
        yield line(mode, entered(narrowed(code=0)) + code(["cspecialrw ca2, mtcc, cnull"]), *MTCC, "steps 31; stretch s; address a2")
        yield line(mode, narrowed() + code(LOADS), shared(".dword 0x42"), shared(".dword 0x43"), "steps 23; stretch ssssss; sent; a2; a3")


def lines():
    yield HEAD
    for cases in (hidden_memory, hidden_tag, hidden_register, reachable):
        yield from cases()


def files():
    yield "worlds.txt", lines()
