"""Which trap a run left unhandled, and the lines that say where it ended (docs/DEBUGGER.md, where a run ended).

Traps stand on a stack while they are open: a trap goes on it, MRET takes one off, and a step that is no trap clears it where it runs with
the bounds and permissions of the step that took the lowest, and that trap's handler began with others.
"""
from typing import NamedTuple

from model import faults, recorded
from model.capabilities import base, perms, top
from model.machine import LOADS, STORES
from model.names import CAPABILITY_NAMES, SCR_NAMES


class Taken(NamedTuple):
    """A trap that was taken: its step's number, counted from 1, where it was, its cause, the condition that failed, and whether its handler
    runs with other bounds and permissions than the step."""
    number: int
    pc: int
    cause: int
    mtval: int
    condition: str
    level: tuple
    is_left: bool

    def words(self):
        """What is said of it."""
        return f"{cause_text(self.cause, self.mtval)}, mepc {self.pc:016x}, step {self.number}\n{self.condition}"


class Open:
    """The traps that are open in a run: all of them, those that came in a row at its end, and how many of these a fetch took."""

    def __init__(self):
        self.stack, self.row, self.unfetched = [], [], 0

    def trap(self, taken, is_fetch):
        self.unfetched = self.unfetched + is_fetch if self.row else 0
        self.stack.append(taken)
        self.row.append(taken)

    def step(self, level, is_return):
        self.row = []
        if is_return and self.stack:
            self.stack.pop()
        if self.stack and self.stack[0].is_left and self.stack[0].level == level:
            self.stack = []


def level_of(value):
    return base(value), top(value), perms(value)


def register_name(number):
    return CAPABILITY_NAMES[number] if number < faults.FIRST_SPECIAL else SCR_NAMES[number - faults.FIRST_SPECIAL]


def cause_text(cause, mtval):
    if cause == faults.CHERI:
        return f"CHERI exception, {recorded.VIOLATIONS[mtval % 32]} violation at {register_name(mtval // 32)}"
    return f"{recorded.CAUSES[cause]}, mtval {mtval:016x}"


def condition(before, step):
    """The line of the condition that failed, where there is one."""
    cause, mtval = step.trap
    if cause == faults.ILLEGAL:
        return "  no the word is an instruction\n"
    if cause == faults.FETCH_ACCESS:
        return f"  no RAM at {mtval:016x}\n"
    if cause != faults.CHERI:
        return ""
    name, kind = register_name(mtval // 32), mtval % 32
    if kind != faults.LENGTH:
        return f"  no {recorded.VIOLATIONS[kind]} of {name}\n"
    row = step.insn.row.partition(".")[0]
    _, by, address = before.access(step.insn)
    size = STORES[row] if row in STORES else LOADS[row][0]
    return f"  no length of {name}: {address:016x} + {size} in {base(by):016x} to {top(by):017x}\n"


def do(opened, machine, number):
    """Does the step of a number; whether it was a trap while another was open."""
    pcc, mtcc, before, others = machine.special["pcc"], machine.special["mtcc"], machine.copy(), len(opened.stack)
    before.at = pcc
    step = machine.step()
    if step.trap:
        is_fetch = step.word is None and not step.trap[0] & faults.INTERRUPT
        opened.trap(Taken(number, pcc[1], *step.trap, condition(before, step), level_of(pcc), level_of(pcc) != level_of(mtcc)), is_fetch)
    else:
        opened.step(level_of(pcc), step.insn.row == "mret")
    return bool(step.trap and others)


def run(machine, steps):
    """Does so many steps, and answers the traps that are then open."""
    opened = Open()
    for number in range(1, steps + 1):
        do(opened, machine, number)
    return opened


def before_second(machine, steps):
    """How many of so many steps come before a trap that is taken while another is open."""
    opened = Open()
    return next((done for done in range(steps) if do(opened, machine, done + 1)), steps)


def ending(machine, steps):
    """The line of a run of so many steps that doesn't halt, and those of its traps."""
    opened = run(machine, steps)
    line = f"cherisim: steps {steps}, pcc {machine.pc:016x}; "
    if opened.row:
        first, last = opened.stack[0], opened.row[0]
        later = f"  later traps at an entry that can't be fetched: {opened.unfetched}\n" if opened.unfetched else ""
        return f"{line}first trap: {first.words()}" + ("" if first == last else f"  last trap: {last.words()}") + later
    cause, mtval, mepc = machine.csr("mcause"), machine.csr("mtval"), machine.special["mepcc"][1]
    return f"{line}last trap: {cause_text(cause, mtval)}, mepc {mepc:016x}\n" if cause or mtval else line[:-2] + "\n"
