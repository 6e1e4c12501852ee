"""Scripts of control and status registers, special capability registers, traps and the choice of an interrupt.

The registers are a machine's. What a call answers is what an instruction does in a copy of that machine; what it leaves is then written
into the machine itself, so that nothing else of the step (the counters, PCC's address) stays.
"""
from ctypes import byref, c_bool

from model.devices import CONTROL, EXTERNAL_BIT as EXTERNAL, TIMER_BIT as TIMER, TIMER_COMPARE
from model.faults import ACCESS, BREAKPOINT as EBREAK, CHERI, DDC as OF_DDC, ECALL, FIRST_SPECIAL as SPECIAL, ILLEGAL, INTERRUPT, LENGTH
from model.faults import STORE_ACCESS
from model.rights import EXECUTE, UNSEALED
from model.words import SPACE, fields

from .machines import (DDC, MCAUSE, MCYCLE, MEPCC, MIE, MINSTRET, MSCRATCH, MSCRATCHC, MSTATUS, MTCC, MTDC, MTVAL, PAGE, PCC, RAM, SCRS,
                       SEALED_JUMP, TRAP, Refused)
from .reading import Left, Words, cap_text, number
from .rows import encoded

# The mtval of an access past DDC's bounds.
PAST_DDC = OF_DDC << 5 | LENGTH
STORES_AT = RAM + 0x200


def is_fetched(pcc):
    """Whether an instruction in RAM is fetched through a PCC."""
    perms, _, otype = fields(pcc.upper)
    return pcc.tag and otype == UNSEALED and perms & EXECUTE and RAM <= pcc.address < RAM + PAGE


class Registers:
    """What a script's calls are made to."""

    def __init__(self, bench, pcc, root, other):
        self.bench, self.machine, self.shows_mtval = bench, bench.root_machine(), True
        for number_of, value in ((PCC, pcc), (DDC, root), (MTCC, root), (MEPCC, root), (MTDC, other), (MSCRATCHC, other)):
            self.machine.set_scr(number_of, value)

    # ---- copies

    def copied(self, mip=0):
        """A copy of the machine whose devices ask for interrupts."""
        copy = self.machine.copy()
        if mip & (TIMER | EXTERNAL):
            kept = {n: copy.scr(n) for n in (PCC, DDC)}, {n: copy.csr(n) for n in (MSTATUS, MCYCLE, MINSTRET)}
            copy.set_csr(MSTATUS, 0)
            copy.set_scr(DDC, self.bench.root(0))
            for address, value in [(TIMER_COMPARE, 0)] * bool(mip & TIMER) + [(CONTROL, 1)] * bool(mip & EXTERNAL):
                copy.set_scr(PCC, self.bench.root(STORES_AT))
                copy.set_reg(11, number(address))
                copy.set_reg(12, number(value))
                self.bench.place(copy, "sd", rs1=11, rs2=12)
                copy.step()
            if mip & EXTERNAL:
                copy.receive(0x41)
            for n, value in kept[0].items():
                copy.set_scr(n, value)
            for n, value in kept[1].items():
                copy.set_csr(n, value)
        return copy

    def done(self, copy, name, **operands):
        """Does an instruction in a copy: the name of its fault, or None."""
        if not is_fetched(copy.scr(PCC)):
            raise Left
        self.bench.place(copy, name, **operands)
        fault = self.bench.fault(copy, marks=False)
        if fault is None:
            return None
        if fault == (ILLEGAL, encoded(self.bench.library, name, **operands)):
            return "S1"
        register = SPECIAL + (operands["rs2"] if name == "cspecialrw" else PCC)
        return "S2" if fault == (CHERI, register << 5 | ACCESS) else f"{fault[0]:x} {fault[1]:x}"

    def take(self, copy, scrs, csrs=(MSTATUS,)):
        """Takes some registers over from a copy."""
        for n in scrs:
            self.machine.set_scr(n, copy.scr(n))
        for n in csrs:
            self.machine.set_csr(n, copy.csr(n))

    # ---- control and status registers

    def set(self, words):
        on, before = words.bit(), words.bit()
        self.machine.set_csr(MSTATUS, on << 3 | before << 7)
        for n in (MIE, MSCRATCH, MCAUSE, MTVAL, MCYCLE, MINSTRET):
            self.machine.set_csr(n, words.hex())
        return "ok"

    def csrs(self, _):
        if not self.shows_mtval:
            raise Left
        mstatus = self.machine.csr(MSTATUS)
        rest = " ".join(f"{self.machine.csr(n):x}" for n in (MIE, MSCRATCH, MCAUSE, MTVAL, MCYCLE, MINSTRET))
        return f"{mstatus >> 3 & 1} {mstatus >> 7 & 1} {rest}"

    def counted(self, n, other):
        """Counts one of the counters, as an instruction counts both."""
        copy = self.copied()
        self.done(copy, "addi")
        if copy.csr(other) != (self.machine.csr(other) + 1) % SPACE:
            return "the other counter is not one more"
        self.machine.set_csr(n, copy.csr(n))
        return "ok"

    def cycle(self, _):
        return self.counted(MCYCLE, MINSTRET)

    def instruction(self, _):
        return self.counted(MINSTRET, MCYCLE)

    def look(self, words):
        n, mip = words.hex(), words.hex()
        try:
            return f"{self.copied(mip).csr(n):x}"
        except Refused:
            return "none"

    def read_by(self, n, copy):
        """What a read of a register by an instruction gives, or its fault."""
        return self.done(copy, "csrrs", rd=10, imm=n) or f"{copy.reg(10).address:x}"

    def read(self, words):
        n, mip = words.hex(), words.hex()
        if n > 0xFFF:
            return {"none": "S1"}[self.look(Words(None, f"{n:x} 0"))]
        copy = self.copied(mip)
        if mip:
            copy.set_csr(MSTATUS, 0)
        return self.read_by(n, copy)

    def check(self, words):
        n, writes = words.hex(), words.bit()
        fault = self.done(self.copied(), "csrrw", rd=10, rs1=11, imm=n) if writes else self.done(self.copied(), "csrrs", rd=10, imm=n)
        return fault or "ok"

    def write(self, words):
        n, value = words.hex(), words.hex()
        if n > 0xFFF:
            try:
                self.machine.set_csr(n, value)
            except Refused as refused:
                return {"range": "S1"}[refused.code()]
        copy = self.copied()
        copy.set_reg(11, number(value))
        fault = self.done(copy, "csrrw", rs1=11, imm=n)
        if fault:
            return fault
        self.machine.set_csr(n, value)
        is_same = self.machine.csr(n) == copy.csr(n) and all(self.machine.scr(k).key() == copy.scr(k).key() for k in (MTCC, MEPCC))
        return "ok" if is_same else "cherisim_set_csr leaves another value"

    # ---- special capability registers

    def scrs(self, _):
        return ", ".join(cap_text(self.machine.scr(n)) for n in SCRS)

    def swapped(self, n, new):
        """What an instruction that reads a special register, and writes it where there is a value, leaves: a fault or the value, and the
        copy that it was done in."""
        copy = self.copied()
        copy.set_reg(11, new or number(0))
        fault = self.done(copy, "cspecialrw", rd=10, rs1=11 if new else 0, rs2=n)
        return fault or cap_text(copy.reg(10)), copy

    def checkscr(self, words):
        n, writes = words.decimal(), words.bit()
        if n > 31:
            try:
                return cap_text(self.machine.scr(n))
            except Refused as refused:
                return {"range": "S1"}[refused.code()]
        return self.swapped(n, number(0) if writes else None)[0]

    def get(self, words):
        n = words.decimal()
        # where nothing is fetched, what the library reads
        return self.swapped(n, None)[0] if is_fetched(self.machine.scr(PCC)) else cap_text(self.machine.scr(n))

    def swap(self, words):
        n, new = words.decimal(), words.value()
        answer, copy = self.swapped(n, new)
        if not answer.startswith("S"):
            self.machine.set_scr(n, new)
            if copy.scr(n).key() != new.key():
                return "another value is held"
        return answer

    # ---- traps

    def interrupted(self, mip):
        """A copy that takes an interrupt."""
        copy = self.copied(mip)
        copy.set_csr(MIE, mip)
        copy.set_csr(MSTATUS, 1 << 3)
        return copy, self.bench.fault(copy)

    def trapped(self, mcause):
        """A copy that takes an exception of a cause."""
        copy = self.copied()
        copy.set_reg(11, number(0))
        small = self.bench.library.cheri_set_bounds(self.bench.root(RAM), 16, byref(c_bool()))
        copy.set_scr(DDC, small if mcause == CHERI else self.bench.root(0))
        name, operands = {CHERI: ("ld", {"rd": 10, "rs1": 11}), STORE_ACCESS: ("sd", {"rs1": 11}), ECALL: ("ecall", {}),
                          EBREAK: ("ebreak", {})}[mcause]
        return copy, self.bench.fault_of(copy, name, **operands)

    def trap(self, words):
        """A trap. A CHERI exception and a breakpoint have an mtval of their own here: one of another is tried where no call shows it."""
        mcause, mtval = words.hex(), words.hex()
        interrupts = {INTERRUPT | 7: TIMER, INTERRUPT | 11: EXTERNAL}
        copy, fault = self.interrupted(interrupts[mcause]) if mcause in interrupts else self.trapped(mcause)
        own = {CHERI: PAST_DDC, EBREAK: self.machine.pc()}.get(mcause, mtval)
        if own != mtval:
            self.shows_mtval = False
        if fault != (mcause, own):
            return f"another trap: {fault}"
        self.take(copy, (PCC, MTCC, MEPCC), (MSTATUS, MCAUSE, MTVAL))
        return "ok"

    def returns(self, _):
        copy = self.copied()
        self.bench.place(copy, "mret")
        why = copy.next_ends()
        return self.done(copy, "mret") if why == TRAP else {SEALED_JUMP: "unseals", 0: "ok"}[why]

    def leave(self, _):
        copy = self.copied()
        fault = self.done(copy, "mret")
        if fault is None:
            self.take(copy, (PCC, MEPCC))
        return fault or "ok"

    def target(self, words):
        copy = self.copied()
        copy.set_scr(MEPCC, words.value())
        return self.done(copy, "mret") or cap_text(copy.scr(PCC))

    def pending(self, words):
        copy = self.copied(words.hex())
        self.bench.place(copy, "addi")
        fault = self.bench.fault(copy)
        return f"{fault[0]:x} {fault[1]:x}" if fault else "none"


def script(bench, case):
    """PCC, the value that begins in DDC, MTCC and MEPCC, and that of MTDC and MScratchC; and after `;` calls."""
    begin, _, calls = case.inputs.partition(";")
    words = Words(bench.library, begin)
    registers = Registers(bench, words.value(), words.value(), words.value())
    answers = []
    for call in calls.split(";"):
        words = Words(bench.library, call)
        answers.append(getattr(registers, words.word())(words))
    return "; ".join(answers)
