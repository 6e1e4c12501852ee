"""What `why` answers: the conditions of a step's stages in the manuals' order (UCAM-CL-TR-987, memory access and jump checks; RISC-V
privileged manual, mcause), each true or the first that is false, and the step's effect.

A stage is its first line, the capabilities that it asks, and its conditions up to the first false one.
"""

from cases.conversations import said
from model.devices import RAM
from model.rights import UNSEALED, letters
from model.sessions import Session
from model.words import SPACE


def fields(name, tag, address, base, top, perms, flag, otype):
    """A register and its capability's fields."""
    return f"{name} v:{tag} a:{address:016x} b:{base:016x} t:{top:017x} p:{perms:05x} f:{flag} o:{otype:05x}"


def value(name, tag, address, base, top, perms, flag, otype):
    """A register that is asked, with its permissions in letters."""
    return f"{fields(name, tag, address, base, top, perms, flag, otype)} {letters(perms)}"


def root(name, address):
    return value(name, 1, address, 0, SPACE, 0x78fff, 0, UNSEALED)


def number(name, address):
    return value(name, 0, address, 0, SPACE, 0, 0, UNSEALED)


def written(name, address):
    """A register and the number that a step gives it."""
    return fields(f"{name} =", 0, address, 0, SPACE, 0, 0, UNSEALED)


def stage(first, held, conditions):
    """A stage's lines; the conditions are pairs of their text and whether they hold, of which the first false one is the last shown."""
    yield first
    yield from (f"  {line}" for line in held)
    for text, holds in conditions:
        yield f"  {'ok' if holds else 'no'} {text}"
        if not holds:
            return


def bounds(register, address, size, base, top):
    """The condition on a capability's bounds."""
    return f"length of {register}: {address:016x} + {size} in {base:016x} to {top:017x}", base <= address and address + size <= top


def multiple(address, size):
    return f"a multiple of {size}: {address:016x}", address % size == 0


def fetch(address, in_ram=True):
    """The fetch through a PCC that is root."""
    return stage(f"fetch at {address:016x}", [root("pcc", address)], [
        ("tag of pcc", True), ("seal of pcc", True), ("permit execute of pcc", True), bounds("pcc", address, 4, 0, SPACE),
        (f"RAM at {address:016x}", in_ram)])


def decoding(address, is_instruction=True):
    return stage(f"decoding at {address:016x}", [], [("the word is an instruction", is_instruction)])


def access(what, held, register, permission, address, size, base, top, answers, maps="RAM or a device", rights=(True, True, True)):
    """An access through an authority: its tag, seal and permission, its bounds, the alignment, and what answers there."""
    tag, seal, permitted = rights
    return stage(f"{what} at {address:016x}", [held], [
        (f"tag of {register}", tag), (f"seal of {register}", seal), (f"permit {permission} of {register}", permitted),
        bounds(register, address, size, base, top), multiple(address, size), (f"{maps} at {address:016x}", answers)])


def trapped(cause, name, mtval):
    return f"effect: trap {name}, mcause {cause:016x}, mtval {mtval:016x}"


def reply(*parts):
    """A reply's lines: texts, and stages."""
    return "\n".join(line for part in parts for line in ([part] if isinstance(part, str) else part))


def step_and_ask(steps, *parts):
    """Steps before the question, which sent nothing, and the answer to it."""
    before = f"> step {steps}\nevents {steps} out - pc {RAM + 4 * steps:016x} running\n" if steps else ""
    return f"{before}> why\n{reply(*parts)}\n"


def begun(address, line):
    """The instruction's line, and a fetch and a decoding that pass."""
    return reply(f"{address:016x} {line}", fetch(address), decoding(address))


# ca0 has 16 bytes of RAM, after 5 steps.
BOUNDED = "auipc a1, 0x1; addi a1, a1, -2048; cspecialrw ca0, ddc, cnull; csetaddr ca0, ca0, a1; csetboundsimm ca0, ca0, 16; "
LOW, HIGH = RAM + 0x800, RAM + 0x810

# ca2 is PCC sealed with type 5, after 4 steps.
SEALED = "cspecialrw ca0, pcc, cnull; cspecialrw ca1, ddc, cnull; cincoffsetimm ca1, ca1, 5; cseal ca2, ca0, ca1; "


def sealed(name, address, otype):
    return value(name, 1, address, 0, SPACE, 0x78fff, 0, otype)


CONVERSATIONS = [
    ("Why an ordinary sum is done, and what it changes; asking changes nothing", "add a0, a1, a2",
     step_and_ask(0, begun(RAM, "00c58533 add a0, a1, a2"), f"effect: {written('ca0', 0)}") + said(Session("add a0, a1, a2"), "csr")),
    ("Why a load past its authority's bounds traps", BOUNDED + "cincoffsetimm ca0, ca0, 16; ld.cap a2, (ca0)",
     step_and_ask(6, begun(RAM + 24, "fab5065b ld.cap a2, (ca0)"),
                  access("load of 8 bytes", value("ca0", 1, HIGH, LOW, HIGH, 0x78fff, 0, 0x3ffff), "ca0", "load", HIGH, 8, LOW, HIGH, True),
                  trapped(28, "CHERI exception, length violation at ca0", 32 * 10 + 1))),
    ("A load in its authority's bounds is done", BOUNDED + "ld.cap a2, (ca0)",
     step_and_ask(5, begun(RAM + 20, "fab5065b ld.cap a2, (ca0)"),
                  access("load of 8 bytes", value("ca0", 1, LOW, LOW, HIGH, 0x78fff, 0, 0x3ffff), "ca0", "load", LOW, 8, LOW, HIGH, True),
                  f"effect: {written('ca2', 0)}")),
    ("Why a load through a number traps", "auipc a1, 0x1; ld.cap a2, (ca1)",
     step_and_ask(1, begun(RAM + 4, "fab5865b ld.cap a2, (ca1)"),
                  access("load of 8 bytes", number("ca1", RAM + 0x1000), "ca1", "load", RAM + 0x1000, 8, 0, SPACE, False,
                         rights=(False, True, True)),
                  trapped(28, "CHERI exception, tag violation at ca1", 32 * 11 + 2))),
    ("Why an access traps whose address is no multiple of its size", "auipc a1, 0x0; ld a0, 4(a1)",
     step_and_ask(1, begun(RAM + 4, "0045b503 ld a0, 4(a1)"),
                  access("load of 8 bytes", root("ddc", 0), "ddc", "load", RAM + 4, 8, 0, SPACE, True),
                  trapped(4, "load address misaligned", RAM + 4))),
    ("A store to a device, and one to where nothing answers", "lui a1, 0x10000; sb a1, 0(a1); sd zero, 0(zero)",
     step_and_ask(1, begun(RAM + 4, "00b58023 sb a1, 0(a1)"),
                  access("store of 1 byte", root("ddc", 0), "ddc", "store", 0x1000_0000, 1, 0, SPACE, True),
                  "effect: device store 1 byte at 0000000010000000: 00")
     + "> step 1\nevents 1 out 00 pc 0000000080000008 running\n> why\n"
     + reply(begun(RAM + 8, "00003023 sd zero, 0(zero)"),
             access("store of 8 bytes", root("ddc", 0), "ddc", "store", 0, 8, 0, SPACE, False),
             trapped(7, "store access fault", 0))),
    ("Why a jump to a sealed capability traps", SEALED + "jalr.cap cra, ca2",
     step_and_ask(4, begun(RAM + 16, "fec600db jalr.cap cra, ca2"),
                  stage(f"jump to {RAM:016x}", [sealed("ca2", RAM, 5)], [("tag of ca2", True), ("seal of ca2", False)]),
                  trapped(28, "CHERI exception, seal violation at ca2", 32 * 12 + 3))),
    ("Why an invocation of a pair of two types traps",
     SEALED + "cincoffsetimm ca1, ca1, 1; cspecialrw ca3, ddc, cnull; cseal ca3, ca3, ca1; cinvoke ca2, ca3",
     step_and_ask(7, begun(RAM + 28, "fcd600db cinvoke ca2, ca3"),
                  stage(f"invocation of {RAM:016x}", [sealed("ca2", RAM, 5), sealed("ca3", 0, 6)], [
                      ("tag of ca2", True), ("tag of ca3", True), ("seal of ca2", True), ("seal of ca3", True), ("type of ca2", False)]),
                  trapped(28, "CHERI exception, type violation at ca2", 32 * 12 + 4))),
    ("A branch that is taken is a jump, and one that is not asks for nothing", "beq a0, a1, .+8; bne a0, a1, .+8; bne a0, a1, .+8",
     step_and_ask(0, begun(RAM, "00b50463 beq a0, a1, .+8"),
                  stage(f"jump to {RAM + 8:016x}", [root("pcc", RAM)], [bounds("pcc", RAM + 8, 4, 0, SPACE), multiple(RAM + 8, 4)]),
                  f"effect: jump to {RAM + 8:016x}")
     + "> step 1\nevents 1 out - pc 0000000080000008 running\n> why\n"
     + reply(begun(RAM + 8, "00b51463 bne a0, a1, .+8"), "effect: nothing")),
    ("Why a fetch outside RAM traps", "jalr zero, 0(zero)",
     "> step 1\nevents 1 out - pc 0000000000000000 running\n> why\n" + reply(fetch(0, False), trapped(1, "instruction access fault", 0))),
    ("Why a word that is no instruction traps", "", step_and_ask(
        0, f"{RAM:016x} 00000000 .word 0x00000000", fetch(RAM), decoding(RAM, False), trapped(2, "illegal instruction", 0))),
    ("A system register that there is not, and one that may be used", "csrrs a0, 0x300, zero; csrrs a0, 0x123, zero",
     step_and_ask(0, begun(RAM, "30002573 csrrs a0, mstatus, zero"),
                  stage(f"system register at {RAM:016x}", [root("pcc", RAM)], [
                      ("there is such a register, and it may be written where it is", True), ("access system registers of pcc", True)]),
                  f"effect: {written('ca0', 0x1800)}")
     + "> step 1\nevents 1 out - pc 0000000080000004 running\n> why\n"
     + reply(begun(RAM + 4, "12302573 csrrs a0, 0x123, zero"),
             stage(f"system register at {RAM + 4:016x}", [root("pcc", RAM + 4)], [
                 ("there is such a register, and it may be written where it is", False)]),
             trapped(2, "illegal instruction", 0x12302573))),
    ("ECALL asks for its trap itself", "ecall",
     step_and_ask(0, begun(RAM, "00000073 ecall"), trapped(11, "environment call", 0))),
    ("An interrupt is taken in place of the instruction",
     "lui a1, 0x2004; addi a0, zero, 128; csrrs zero, mie, a0; csrrsi zero, mstatus, 8; sd zero, 0(a1); addi a2, zero, 1",
     step_and_ask(5, f"{RAM + 20:016x} 00100613 addi a2, zero, 1",
                  "effect: take timer interrupt, mcause 8000000000000007, mtval 0000000000000000")),
    ("A halted machine says so", "lui a1, 0x100; sd zero, 0(a1)",
     "> step 2\nevents 2 out - pc 0000000080000008 halted 0\n> why\nhalted 0"),
]
