"""What `why json` answers, by the model of what a step asks (tools/model/asked.py)."""

from cases.conversations import modelled
from cases.explanations import BOUNDED, SEALED
from model.devices import RAM
from model.rights import CINVOKE, EXECUTE, GLOBAL, LOAD, STORE, STORE_CAPABILITY, STORE_LOCAL

# Code and data sealed with one type, ca2 and ca3, after 7 steps: the data without some permissions, by the complement of their bits.
PAIR = ("cspecialrw ca0, pcc, cnull; cspecialrw ca1, ddc, cnull; cincoffsetimm ca1, ca1, 5; addi a4, zero, {}; candperm ca3, ca1, a4; "
        "cseal ca2, ca0, ca1; cseal ca3, ca3, ca1; cinvoke ca2, ca3")
# ca0 is PCC 20 bytes on, which is jumped to; the steps before it change that capability.
GOES_ON = "cspecialrw ca0, pcc, cnull; {}; cincoffsetimm ca0, ca0, 20; jalr.cap cnull, ca0; "
UNPRIVILEGED = GOES_ON.format("addi a1, zero, 1023; candperm ca0, ca0, a1")
IN_CAPABILITY_MODE = GOES_ON.format("addi a1, zero, 1; csetflags ca0, ca0, a1")
# The trap's entry is a capability in place of root: it is in a register.
ENTERS = "cspecialrw cnull, mtcc, {}; ecall"


def without(*permissions):
    """The complement of permissions' bits."""
    return -1 - sum(permissions)


def lacking(*permissions):
    """Statements that make ca1 DDC at their own place, without some permissions; 5 steps."""
    return (f"cspecialrw ca1, ddc, cnull; addi a2, zero, {without(*permissions)}; candperm ca1, ca1, a2; auipc a3, 0x0; "
            "cincoffset ca1, ca1, a3; ")


def asked(about, text, *counts, labels=None):
    """What the machine of a text is asked after so many steps, each time."""
    return modelled(about, text, "; ".join(f"step {count}; why json" if count else "why json" for count in counts), labels=labels)


FETCHES = [
    asked("A sum asks for its fetch and its decoding alone; labels", "add a0, a1, a2", 0, labels={"begin": RAM, "one": RAM - 4095}),
    asked("A label 4096 bytes below is not shown", "nop; beq a0, a1, .+8", 0, 1, labels={"below": RAM - 4096, "far": RAM + 0x1000}),
    asked("A word that is no instruction", "", 0),
    asked("Nothing is fetched outside RAM", "jalr zero, 0(zero)", 1, labels={"null": 0}),
    asked("A fetch through a number", ENTERS.format("ca0"), 2),
    asked("A fetch through what is sealed", SEALED + ENTERS.format("ca2"), 6),
    asked("A fetch through what may not execute", lacking(EXECUTE) + ENTERS.format("ca1"), 7),
    asked("A fetch past PCC's bounds", BOUNDED + "cincoffsetimm ca0, ca0, 16; " + ENTERS.format("ca0"), 8),
    asked("ECALL asks for its trap itself", "ecall", 0),
    asked("So does EBREAK", "ebreak", 0),
    asked("An interrupt is taken in place of the instruction, and asks for nothing",
          "lui a1, 0x2004; addi a0, zero, 128; csrrs zero, mie, a0; csrrsi zero, mstatus, 8; sd zero, 0(a1); addi a2, zero, 1", 5),
    asked("A machine that halts, and the number that it halted with", "lui a1, 0x100; addi a0, zero, -1; sd a0, 0(a1)", 2, 1),
]

ACCESSES = [
    asked("A load within its authority's bounds; labels", BOUNDED + "ld.cap a2, (ca0)", 5, labels={"heap": RAM + 0x800, "text": RAM}),
    asked("A load past its authority's bounds", BOUNDED + "cincoffsetimm ca0, ca0, 9; ld.cap a2, (ca0)", 6),
    asked("A load through a number is refused by its tag", "auipc a1, 0x1; ld.cap a2, (ca1)", 1),
    asked("A load through what is sealed", SEALED + "ld.cap a2, (ca2)", 4),
    asked("A load without the permission", lacking(LOAD) + "lw.cap a0, (ca1)", 5),
    asked("A load whose address is no multiple of its size", "auipc a1, 0x0; ld a0, 4(a1)", 1),
    asked("Nothing answers a load at 0", "lh a0, 0(zero)", 0),
    asked("A device's register answers no load of one byte", "lui a1, 0x10000; lb a0, 16(a1)", 1),
    asked("It answers one of 8 bytes; another takes a store of one byte, and none of two", "lui a1, 0x10000; ld a0, 16(a1); sb a1, 0(a1); "
          "sh a1, 0(a1)", 1, 1, 1),
    asked("A load through rs1 in capability mode", IN_CAPABILITY_MODE + "ld a2, 4(a0); ld a2, 4(a1)", 5, 1),
    asked("A store through DDC that is a number", "cspecialrw cnull, ddc, ca1; sw a0, 0(a1)", 1),
    asked("A store without the permission", lacking(STORE) + "sb.cap a0, (ca1)", 5),
    asked("A capability is stored and loaded, but not past RAM",
          "cspecialrw ca0, ddc, cnull; auipc a1, 0x1; sc ca0, -20(a1); lc ca2, -20(a1); lc ca2, 12(a1)", 2, 1, 1),
    asked("A store of a capability past RAM", "cspecialrw ca0, ddc, cnull; auipc a1, 0x1; sc ca0, 12(a1)", 2),
    asked("A store of a capability wants a permission of its own", lacking(STORE_CAPABILITY) + "sc.cap ca1, (ca1)", 5),
    asked("Of null it wants none", lacking(STORE_CAPABILITY) + "cincoffsetimm ca1, ca1, 4; sc.cap ca4, (ca1)", 6),
    asked("A store of one that isn't global wants one more", lacking(GLOBAL, STORE_LOCAL) + "sc.cap ca1, (ca1)", 5),
    asked("It is stored with that permission", lacking(GLOBAL) + "cincoffsetimm ca1, ca1, 4; sc.cap ca1, (ca1)", 6),
]

JUMPS = [
    asked("A branch that is taken is a jump, and one that isn't asks for nothing", "beq a0, a1, .+8; nop; bne a0, a1, .+8", 0, 1),
    asked("A jump with a link; labels", "jal ra, .+8", 0, labels={"entry": RAM}),
    asked("A jump to no multiple of 4", "jalr ra, 2(zero)", 0),
    asked("A jump out of PCC's bounds", GOES_ON.format("csetboundsimm ca0, ca0, 64; nop") + "jal zero, .+64", 5),
    asked("A jump to a sealed capability", SEALED + "jalr.cap cra, ca2", 4),
    asked("An entry is jumped to", "cspecialrw ca0, pcc, cnull; csealentry ca0, ca0; jalr.cap cra, ca0", 2),
    asked("It isn't at an offset, in capability mode", IN_CAPABILITY_MODE + "csealentry ca0, ca0; jalr ra, 4(a0)", 6),
    asked("An invocation of a pair that no condition refuses", PAIR.format(without(EXECUTE)), 7, 1),
    asked("An invocation of data that may be executed", PAIR.format(-1), 7),
    asked("An invocation of data that may not be invoked", PAIR.format(without(EXECUTE, CINVOKE)), 7),
    asked("An invocation of a pair of two types",
          SEALED + "cincoffsetimm ca1, ca1, 1; cspecialrw ca3, ddc, cnull; cseal ca3, ca3, ca1; cinvoke ca2, ca3", 7),
    asked("An invocation of what isn't sealed", "cspecialrw ca0, pcc, cnull; cinvoke ca0, ca0", 1),
    asked("An invocation of data that is a number", SEALED + "cinvoke ca2, ca4", 4),
]

SYSTEM = [
    asked("A control and status register that there isn't", "csrrs a0, 0x123, zero", 0),
    asked("One that is read, one that is written, and one that may not be", "csrrs a0, mstatus, zero; csrrw zero, mscratch, a0; "
          "csrrwi a0, mhartid, 1", 0, 1, 1),
    asked("A special capability register that is read, and PCC, which may not be written", "cspecialrw ca0, mepcc, cnull; "
          "cspecialrw cnull, pcc, ca0", 0, 1),
    asked("Without access to system registers DDC is read, and MTCC isn't",
          UNPRIVILEGED + "cspecialrw ca0, ddc, cnull; cspecialrw ca0, mtcc, cnull", 5, 1),
    asked("Without it there is no return from a trap", UNPRIVILEGED + "mret", 5),
    asked("The return from a trap", "mret", 0),
]

CONVERSATIONS = FETCHES + ACCESSES + JUMPS + SYSTEM
