"""Accesses, jumps and invocations: an instruction with that authority, and its fault or where it went."""
import random
import re

from model.faults import CHERI, STORES_CAPABILITY, STORES_LOCAL
from model.rights import EXECUTE, STORE, STORE_CAPABILITY
from model.words import ROOT_HIGH, SPACE

from .libraries import Cap
from .machines import DDC, PAGE, PCC, RAM
from .reading import Left, Words, number

FLAG = 1 << 45
PAGES, DDC_IN_FAULTS = 16, 33
FETCH_ACCESS, LOAD_ACCESS, STORE_ACCESS, MISALIGNED_JUMP = 1, 5, 7, 0
LOADS = {1: "lb", 2: "lh", 4: "lw", 8: "ld"}
STORES = {1: "sb", 2: "sh", 4: "sw", 8: "sd"}
# Registers of what is moved, and of an address.
MOVED, ADDRESS = 15, 13
NUMBER = 0x0123456789ABCDEF


def fault_text(fault):
    return f"{fault[0]:x} {fault[1]:x}"


def with_perms(perms, address):
    """All addresses, with these permissions."""
    return Cap(address, perms << 48 | ROOT_HIGH & (1 << 48) - 1, True)


def machine_of(bench, capability_mode):
    """A machine whose RAM has other bytes everywhere, with its first instruction in a mode."""
    def filled():
        machine = bench.root_machine(PAGES)
        machine.write(RAM, random.Random(PAGES).randbytes(PAGES * PAGE))
        return machine
    machine = bench.once("filled", filled).copy()
    machine.set_scr(PCC, Cap(RAM, ROOT_HIGH | FLAG * capability_mode, True))
    return machine


def what_is_stored(kind):
    """A value of a kind: untagged, or a capability with or without Global."""
    return {"untagged": number(NUMBER), "local": with_perms(0xFFFE, RAM), "global": with_perms(0xFFFF, RAM)}[kind]


class Access:
    """An access of data: its instruction, its bytes, and what it stores."""

    def __init__(self, what, words):
        self.is_load = what.startswith("load")
        if what in ("load", "store"):
            self.size, self.stored = words.decimal(), number(NUMBER)
            self.name = (LOADS if self.is_load else STORES)[self.size]
        else:
            self.size, self.name = 16, {"loadc": "lc", "storec": "sc"}[what]
            self.stored = what_is_stored(words.word()) if what == "storec" else number(0)

    def done_at(self, machine, before, address):
        """Whether a load or a store that went through moved the bytes at an address, and no other."""
        after, place = machine.ram(), address - RAM
        there = slice(place, place + self.size)
        if self.is_load:
            value = self.loaded(machine, before[there], address)
            return after == before and machine.reg(MOVED).key() == value.key()
        left = after[:place] + after[place + self.size:] == before[:place] + before[place + self.size:]
        if self.size == 16:
            return left and machine.read_cap(address).key() == self.stored.key()
        return left and after[there] == NUMBER.to_bytes(8, "little")[:self.size]

    def loaded(self, machine, there, address):
        """What is loaded of these bytes at an address."""
        return machine.read_cap(address) if self.size == 16 else number(int.from_bytes(there, "little", signed=True))


def stored(bench, value):
    """What a store of a value stores: told by which permissions it asks for."""
    for perms, cause, kind in ((STORE, STORES_CAPABILITY, "untagged"), (STORE | STORE_CAPABILITY, STORES_LOCAL, "global")):
        machine = machine_of(bench, True)
        machine.set_reg(10, with_perms(perms, RAM + PAGE))
        machine.set_reg(MOVED, value)
        fault = bench.fault_of(machine, "sc", rs1=10, rs2=MOVED)
        if fault is None:
            return kind
        if fault != (CHERI, 32 * 10 + cause):
            return fault_text(fault)
    return "local"


def access(bench, case):
    """An access, the authority's register, the authority and the address: by that register where the address is near, and else by DDC,
    whose number in a fault stands for the register's."""
    words = Words(bench.library, case.inputs)
    what = words.word()
    if what == "stored":
        return stored(bench, words.value())
    asked = Access(what, words)
    register, authority, address = words.decimal(), words.value(), words.hex()
    away = (address - authority.address + (1 << 63)) % SPACE - (1 << 63)
    is_near = register < 32 and -2048 <= away < 2048
    machine = machine_of(bench, is_near)
    machine.set_reg(MOVED, asked.stored)
    if is_near:
        machine.set_reg(register, authority)
    else:
        machine.set_scr(DDC, authority)
        machine.set_reg(ADDRESS, number(address))
    operands = {"rd": MOVED} if asked.is_load else {"rs2": MOVED}
    bench.place(machine, asked.name, rs1=register if is_near else ADDRESS, imm=away if is_near else 0, **operands)
    before = machine.ram()
    fault = bench.fault(machine)
    if fault is None:
        return f"{address:x}" if asked.done_at(machine, before, address) else "other bytes are moved"
    mcause, mtval = fault
    if mcause in (LOAD_ACCESS, STORE_ACCESS):
        return f"{mtval:x}"
    if mcause == CHERI and not is_near and mtval >> 5 == DDC_IN_FAULTS:
        mtval = 32 * register + mtval % 32
    return f"{mcause:x} {mtval:x}"


def is_in_ram(address):
    return RAM <= address <= RAM + PAGES * PAGE - 4


def fetch(bench, pcc):
    """A fetch through a PCC: the fault, or the address."""
    machine = machine_of(bench, False)
    machine.set_scr(PCC, pcc)
    fault = bench.fault_of(machine, "addi") if is_in_ram(pcc.address) else bench.fault(machine)
    if fault is None:
        return f"{machine.pc() - 4:x}"
    return f"{fault[1]:x}" if fault[0] == FETCH_ACCESS else fault_text(fault)


def target(bench, pcc, address):
    """A jump within PCC, which is fetched through it; where nothing can be fetched the check after the fetch is never made."""
    if not is_in_ram(pcc.address) or not pcc.upper >> 48 & EXECUTE:
        raise Left
    machine = machine_of(bench, False)
    machine.set_scr(PCC, pcc)
    fault = bench.fault_of(machine, "jal", imm=address - pcc.address)
    return fault_text(fault) if fault else f"{machine.pc():x}"


def jump_to(bench, register, value, offset):
    """A jump to a capability in capability mode: the machine before it, and its fault."""
    machine = machine_of(bench, True)
    machine.set_reg(register, value)
    bench.place(machine, "jalr", rs1=register, imm=offset)
    asked = re.findall(r"length of \w+: ([0-9a-f]{16}) \+ 4 in", machine.why())
    return machine, bench.fault(machine), asked[-1]


def jump(bench, case):
    """`fetch PCC`, `target PCC TARGET`, `jump REGISTER VALUE OFFSET`, or `to ADDRESS OFFSET`, answered by where such a jump goes."""
    words = Words(bench.library, case.inputs)
    what = words.word()
    if what == "fetch":
        return fetch(bench, words.value())
    if what == "target":
        return target(bench, words.value(), words.hex())
    if what == "to":
        machine, fault, asked = jump_to(bench, 10, bench.root(words.hex()), words.hex())
        if fault is None:
            return f"{machine.pc():x}"
        # of a target whose bytes go past the end of the addresses, what the question why shows
        return f"{fault[1] if fault[0] == MISALIGNED_JUMP else int(asked, 16):x}"
    machine, fault, _ = jump_to(bench, words.decimal(), words.value(), words.hex())
    return fault_text(fault) if fault else f"{machine.pc():x}"


def invocation(bench, case):
    """A register and the code in it, and a register and the data in it."""
    words = Words(bench.library, case.inputs)
    machine = machine_of(bench, False)
    code = words.decimal()
    machine.set_reg(code, words.value())
    data = words.decimal()
    machine.set_reg(data, words.value())
    fault = bench.fault_of(machine, "cinvoke", rs1=code, rs2=data)
    return fault_text(fault) if fault else f"{machine.pc():x}"
