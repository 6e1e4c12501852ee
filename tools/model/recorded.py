"""Steps that are recorded: what each found and left, how it made what it wrote, and the line that a trace has of it.

How a value is made follows from the row and its operands; what a step comes to is said in the words of docs/TRACE.md.
"""
from model import faults, origins
from model.capabilities import base, flag, otype
from model.devices import RAM
from model.faults import FIRST_SPECIAL
from model.machine import LOADS, OF_BRANCH, STORES, VIEWS, csr_written, view_written
from model.memory import WORD
from model.names import CAPABILITY_NAMES, CSR_NAMES, SCR_NAMES
from model.origins import GRANULE, MEPCC, MTCC, NUMBER, PCC, REGISTER, SPECIAL, Event, Making, fields, held, placed
from model.rights import SENTRY
from model.rows import text_of
from model.words import SPACE

CAUSES = {faults.JUMP_MISALIGNED: "instruction address misaligned", faults.FETCH_ACCESS: "instruction access fault",
          faults.ILLEGAL: "illegal instruction", faults.BREAKPOINT: "breakpoint", faults.LOAD_MISALIGNED: "load address misaligned",
          faults.LOAD_ACCESS: "load access fault", faults.STORE_MISALIGNED: "store address misaligned",
          faults.STORE_ACCESS: "store access fault", faults.ECALL: "environment call", faults.CHERI: "CHERI exception",
          faults.TIMER_INTERRUPT: "timer interrupt", faults.EXTERNAL_INTERRUPT: "external interrupt"}
VIOLATIONS = {faults.LENGTH: "length", faults.TAG: "tag", faults.SEAL: "seal", faults.TYPE: "type", faults.EXECUTES: "permit execute",
              faults.LOADS: "permit load", faults.STORES: "permit store", faults.STORES_CAPABILITY: "permit store capability",
              faults.STORES_LOCAL: "permit store local capability", faults.ACCESS: "access system registers",
              faults.INVOKES: "permit CInvoke"}
SIZES = {1: "1 byte", 2: "2 bytes", 4: "4 bytes", 8: "8 bytes"}

# The rows that make a value of rs1 and a number, each with its way and the number of its source, rs2 and immediate.
DERIVING = {
    "cincoffset": ("moved", lambda v, n, imm: v[1] + n), "cincoffsetimm": ("moved", lambda v, n, imm: v[1] + imm),
    "csetoffset": ("moved", lambda v, n, imm: base(v) + n), "csetaddr": ("moved", lambda v, n, imm: n),
    "csetbounds": ("bounded", lambda v, n, imm: n), "csetboundsimm": ("bounded", lambda v, n, imm: imm),
    "csetboundsexact": ("bounded exactly", lambda v, n, imm: n),
    **{row: (way, lambda v, n, imm: 0) for row, way in (("candperm", "restricted"), ("csetflags", "flagged"), ("csealentry", "entry"),
                                                      ("cmove", "copied"), ("ccleartag", "cleared"))},
}


def event(machine):
    """Does a step, and records it."""
    before = machine.state()
    if machine.halted is not None:
        return Event(before, before, {}, "")
    insn = machine.next_insn()
    old = machine.csr(CSR_NAMES[insn.imm]) if insn and insn.row.startswith("csrr") and insn.imm in CSR_NAMES else 0
    step, after = machine.step(), machine.state()
    if step.trap:
        writes = {MEPCC: Making("copied", PCC), PCC: Making("resumed", MTCC, number=after.pcc[1])}
        effect = trap_text(*step.trap)
    else:
        done = Done(before, after, step.insn, old)
        writes, effect = done.writes(), done.effect()
        if PCC not in writes and not after.pcc[2]:
            writes[PCC] = Making("moved", PCC, number=after.pcc[1])
    text = "-" if step.word is None else f"{step.word:08x} {text_of(step.word, flag(before.pcc))}"
    return Event(before, after, writes, f"{placed(before.pcc[1])} {text}: {effect}", step)


def trap_text(cause, mtval):
    """What is said of a trap."""
    taken, violation = "take" if cause & faults.INTERRUPT else "trap", ""
    if cause == faults.CHERI:
        number = mtval // 32
        at = CAPABILITY_NAMES[number] if number < FIRST_SPECIAL else SCR_NAMES[number - FIRST_SPECIAL]
        violation = f"{VIOLATIONS[mtval % 32]} violation at {at}, "
    return f"{taken} {CAUSES[cause]}, {violation}mcause {cause:016x}, mtval {mtval:016x}"


# Rows that write no register, whatever stands in the place of rd.
WRITES_NONE = {*OF_BRANCH, *STORES, "sc", "cinvoke", "fence"}


class Done:
    """An instruction that was done without a trap, between two states; `old` is what the control and status register held that it has."""

    def __init__(self, before, after, insn, old):
        self.before, self.after, self.insn, self.old = before, after, insn, old
        self.row, _, self.form = insn.row.partition(".")
        self.rd = 0 if self.row in WRITES_NONE else insn.rd
        self.one, self.two = before.registers[insn.rs1], before.registers[insn.rs2]
        self.place = (self.one[1] + insn.imm) % SPACE
        self.mode = flag(before.pcc)
        self.enters = insn.row == "jalr.cap" or insn.row == "jalr" and self.mode

    def csr_write(self):
        """What is written into a control and status register, or None."""
        number = self.insn.rs1 if self.row.endswith("i") else self.one[1]
        writes = self.row.startswith("csrrw") or self.row.startswith("csrr") and self.insn.rs1
        return csr_written(self.row, self.old, number) if writes else None

    # ---- how it made what it wrote

    def writes(self):
        """The makings by the places that were written."""
        found = self.of_others()
        if self.rd:
            found[REGISTER, self.rd] = self.of_register()
        return found

    def of_others(self):
        """Those of places beside the register rd."""
        one, two = (REGISTER, self.insn.rs1), (REGISTER, self.insn.rs2)
        if self.row in STORES:
            return {(GRANULE, self.place // WORD * WORD): NUMBER} if self.place >= RAM else {}
        if self.row == "sc":
            return {(GRANULE, self.place): Making("copied", two)}
        if self.row == "cinvoke":
            return {PCC: Making("entered", one, number=self.one[1] & ~1), (REGISTER, 31): Making("opened", two)}
        if self.row == "mret":
            return {PCC: Making("resumed", MEPCC, number=held(self.before, MEPCC)[1] & ~3)}
        if self.enters:
            return {PCC: Making("entered", one, number=self.place & ~1)}
        if self.row == "cspecialrw" and self.insn.rs1:
            return {(SPECIAL, SCR_NAMES[self.insn.rs2]): Making("copied", one)}
        csr, number = CSR_NAMES.get(self.insn.imm), self.csr_write()
        if number is None or csr not in VIEWS:
            return {}
        place = SPECIAL, VIEWS[csr]
        return {place: Making("moved", place, number=view_written(csr, number))}

    def of_register(self):
        """That of the register rd."""
        one = REGISTER, self.insn.rs1
        if self.row in DERIVING:
            way, number = DERIVING[self.row]
            return Making(way, one, number=number(self.one, self.two[1], self.insn.imm) % SPACE)
        if self.row in ("cseal", "cunseal"):
            return Making(self.row[1:] + "ed", one, (REGISTER, self.insn.rs2))
        if self.row == "lc":
            through = self.form == "cap" or not self.form and self.mode
            return Making("loaded", (GRANULE, self.place), one if through else origins.DDC)
        if self.row == "cspecialrw":
            return Making("copied", (SPECIAL, SCR_NAMES[self.insn.rs2]))
        if self.enters or self.row == "jal" and self.mode:
            return Making("linked", PCC, number=(self.before.pcc[1] + 4) % SPACE)
        if self.row == "auipc" and self.mode:
            return Making("moved", PCC, number=(self.before.pcc[1] + self.insn.imm) % SPACE)
        return NUMBER

    # ---- what it comes to

    def effect(self):
        """What is said of it."""
        target = self.after.pcc[1]
        given = f"{CAPABILITY_NAMES[self.rd]} = {fields(self.after.registers[self.rd])}" if self.rd else ""
        first = given and given + ", "
        if self.row in STORES or self.row == "sc":
            return self.stored()
        if self.row in OF_BRANCH:
            return f"jump to {placed(target)}" if OF_BRANCH[self.row](self.one[1], self.two[1]) else "nothing"
        if self.row == "cinvoke":
            first = f"{CAPABILITY_NAMES[31]} = {fields(self.after.registers[31])}, "
        if self.enters or self.row == "cinvoke":
            return f"{first}jump to {placed(target)}, pcc = {fields(self.after.pcc)}"
        if self.row in ("jal", "jalr"):
            return f"{first}jump to {placed(target)}"
        if self.row == "cspecialrw" and self.insn.rs1:
            return f"{first}{SCR_NAMES[self.insn.rs2]} = {fields(self.one)}"
        if self.csr_write() is not None:
            return f"{first}{CSR_NAMES[self.insn.imm]} = {self.csr_write():016x}"
        if self.row == "mret":
            value = held(self.before, MEPCC)
            return "return from trap" + (" through a sentry" if value[2] and otype(value) == SENTRY else "")
        if self.row in LOADS and self.place < RAM:
            return f"{given or 'load'} from device {placed(self.place)}"
        return given or "nothing"

    def stored(self):
        if self.row == "sc":
            return f"store capability at {placed(self.place)}: {fields(self.two)}"
        size = STORES[self.row]
        device = "" if self.place >= RAM else "device "
        return f"{device}store {SIZES[size]} at {placed(self.place)}: {self.two[1] % 2 ** (8 * size):0{2 * size}x}"
