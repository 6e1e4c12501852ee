"""What the next step of the model machine asks, condition by condition, in the manuals' order (UCAM-CL-TR-987, memory access and jump
checks, CInvoke; RISC-V privileged manual, mcause), and the objects of JSON that say it (docs/JSON.md).

A condition has its question, whether it holds, and the trap where it doesn't. Up to the first that is false they are what `why json` says.
"""
from typing import NamedTuple

from model import faults
from model.capabilities import base, flag, has, is_unsealed, otype, top
from model.devices import CONTROL, HALT, RECEIVE, STATUS, TIMER, TIMER_COMPARE, TRANSMIT
from model.listings import with_names
from model.machine import LOADS, OF_BRANCH, READ_ONLY, STORES, is_within
from model.memory import WORD
from model.names import CSR_NAMES, SCR_NAMES, SPECIALS
from model.objects import capability, half, line, place, trap, word
from model.origins import LABEL
from model.recorded import VIOLATIONS, event
from model.rights import (ACCESS_SYSTEM_REGISTERS, CINVOKE, EXECUTE, GLOBAL, GREATEST_SEALING_TYPE, LOAD, SENTRY, STORE, STORE_CAPABILITY,
                          STORE_LOCAL)
from model.unhandled import register_name
from model.words import SPACE

# The device registers that a load of 8 bytes is answered by, which are those that a store of 8 bytes is taken by; one takes a byte too.
DEVICE_REGISTERS = (HALT, TIMER_COMPARE, TIMER, TRANSMIT, RECEIVE, STATUS, CONTROL)


class Condition(NamedTuple):
    """A condition: whether it holds, what it asks, the keys of that question, and mcause and mtval where it is false."""
    holds: bool
    asks: str
    keys: dict
    fault: tuple


class Asking:
    """The next step of a machine that isn't halted, with a table of labels."""

    def __init__(self, machine, labels=()):
        self.machine, self.labels = machine.copy(), labels
        # as the step begins
        self.pcc = self.machine.at = machine.special["pcc"]

    # ---- questions

    def held(self, number):
        """The value in a register as mtval counts it."""
        if number < faults.FIRST_SPECIAL:
            return self.machine.registers[number]
        return self.machine.special[SCR_NAMES[number - faults.FIRST_SPECIAL]]

    def of(self, number):
        return {"register": register_name(number), "capability": capability(self.held(number))}

    def place(self, address):
        return {"address": place(address, self.labels)}

    def right(self, number, cause, holds):
        return Condition(bool(holds), "right", {"right": VIOLATIONS[cause], **self.of(number)}, (faults.CHERI, 32 * number + cause))

    def bounds(self, number, address, size):
        by = self.of(number)
        keys = {"register": by["register"], **self.place(address), "size": size, "capability": by["capability"]}
        return Condition(is_within(self.held(number), address, size), "bounds", keys, (faults.CHERI, 32 * number + faults.LENGTH))

    def multiple(self, cause, address, size):
        return Condition(address % size == 0, "multiple", {**self.place(address), "size": size}, (cause, address))

    def ram(self, cause, address, size):
        return Condition(self.machine.memory.holds(address, size), "ram", self.place(address), (cause, address))

    def system(self, holds):
        return Condition(holds, "system_register", {}, (faults.ILLEGAL, self.word()))

    def access_to_system(self, number=faults.PCC):
        return self.right(number, faults.ACCESS, has(self.pcc, ACCESS_SYSTEM_REGISTERS))

    # ---- the fetch, and the word

    def word(self):
        return self.machine.memory.number(self.pcc[1], 4) if self.machine.memory.holds(self.pcc[1], 4) else None

    def fetch(self):
        yield self.right(faults.PCC, faults.TAG, self.pcc[2])
        yield self.right(faults.PCC, faults.SEAL, is_unsealed(self.pcc))
        yield self.right(faults.PCC, faults.EXECUTES, has(self.pcc, EXECUTE))
        yield self.bounds(faults.PCC, self.pcc[1], 4)
        yield self.ram(faults.FETCH_ACCESS, self.pcc[1], 4)

    # ---- rows

    def access(self, insn, size, answers, is_store, value=None):
        """An access through an authority; of a store of a capability the value, which asks for more where it is tagged."""
        number, by, address = self.machine.access(insn)
        needs, lacking = (STORE, faults.STORES) if is_store else (LOAD, faults.LOADS)
        yield self.right(number, faults.TAG, by[2])
        yield self.right(number, faults.SEAL, is_unsealed(by))
        yield self.right(number, lacking, has(by, needs))
        if value and value[2]:
            yield self.right(number, faults.STORES_CAPABILITY, has(by, STORE_CAPABILITY))
            if not has(value, GLOBAL):
                yield self.right(number, faults.STORES_LOCAL, has(by, STORE_LOCAL))
        yield self.bounds(number, address, size)
        yield self.multiple(faults.STORE_MISALIGNED if is_store else faults.LOAD_MISALIGNED, address, size)
        yield answers(faults.STORE_ACCESS if is_store else faults.LOAD_ACCESS, address, size)

    def device(self, cause, address, size):
        """RAM or the register of a device."""
        is_register = size == 8 and address in DEVICE_REGISTERS or cause == faults.STORE_ACCESS and size == 1 and address == TRANSMIT
        return Condition(self.machine.memory.holds(address, size) or is_register, "ram_or_device", {**self.place(address), "size": size},
                         (cause, address))

    def jump(self, number, target):
        yield self.bounds(number, target, 4)
        yield self.multiple(faults.JUMP_MISALIGNED, target, 4)

    def enter(self, insn):
        """A jump to a capability."""
        to, number = self.machine.registers[insn.rs1], insn.rs1
        yield self.right(number, faults.TAG, to[2])
        yield self.right(number, faults.SEAL, is_unsealed(to) or otype(to) == SENTRY and insn.imm == 0)
        yield self.right(number, faults.EXECUTES, has(to, EXECUTE))
        yield from self.jump(number, (to[1] + insn.imm) % SPACE & ~1)

    def invocation(self, insn):
        """CInvoke of code and data, which alternate."""
        pair = insn.rs1, insn.rs2
        code, data = map(self.held, pair)
        yield from (self.right(number, faults.TAG, self.held(number)[2]) for number in pair)
        yield from (self.right(number, faults.SEAL, otype(self.held(number)) <= GREATEST_SEALING_TYPE) for number in pair)
        yield self.right(insn.rs1, faults.TYPE, otype(code) == otype(data))
        yield from (self.right(number, faults.INVOKES, has(self.held(number), CINVOKE)) for number in pair)
        yield self.right(insn.rs1, faults.EXECUTES, has(code, EXECUTE))
        yield self.right(insn.rs2, faults.EXECUTES, not has(data, EXECUTE))
        yield from self.jump(insn.rs1, code[1] & ~1)

    def special(self, insn):
        """A special capability register: one that there is, and not PCC where it is written; most of them for the system alone."""
        name = SCR_NAMES.get(insn.rs2)
        yield self.system(name is not None and not (insn.rs1 and name == "pcc"))
        yield self.right(faults.FIRST_SPECIAL + insn.rs2, faults.ACCESS, name not in SPECIALS or has(self.pcc, ACCESS_SYSTEM_REGISTERS))

    def control(self, insn):
        """A control and status register."""
        name, writes = CSR_NAMES.get(insn.imm), insn.row in ("csrrw", "csrrwi") or insn.rs1
        yield self.system(name is not None and not (writes and name in READ_ONLY))
        yield self.access_to_system()

    def of_row(self, insn):
        """What the instruction asks."""
        row = insn.row.partition(".")[0]
        one = self.machine.registers[insn.rs1]
        if row in OF_BRANCH:
            taken = OF_BRANCH[row](one[1], self.machine.registers[insn.rs2][1])
            return self.jump(faults.PCC, (self.pcc[1] + insn.imm) % SPACE) if taken else ()
        if row == "jal":
            return self.jump(faults.PCC, (self.pcc[1] + insn.imm) % SPACE)
        if row == "jalr" and not flag(self.pcc) and insn.row == "jalr":
            return self.jump(faults.PCC, (one[1] + insn.imm) % SPACE & ~1)
        if row in LOADS:
            return self.access(insn, LOADS[row][0], self.device, False)
        if row in STORES:
            return self.access(insn, STORES[row], self.device, True)
        if row in ("lc", "sc"):
            return self.access(insn, WORD, self.ram, row == "sc", self.machine.registers[insn.rs2] if row == "sc" else None)
        if row.startswith("csrr"):
            return self.control(insn)
        others = {"jalr": self.enter, "cinvoke": self.invocation, "cspecialrw": self.special, "mret": lambda _: [self.access_to_system()]}
        return others.get(row, lambda _: ())(insn)

    def asked(self):
        """All conditions; what stands after the fetch and the decoding only where those hold."""
        yield from self.fetch()
        insn = self.machine.next_insn()
        yield Condition(insn is not None, "instruction", {}, (faults.ILLEGAL, self.word()))
        yield from self.of_row(insn)

    def told(self):
        """Those up to the first that is false: none where an interrupt is taken."""
        if self.is_interrupted():
            return
        for condition in self.asked():
            yield condition
            if not condition.holds:
                return

    def is_interrupted(self):
        cause = (self.machine.copy().step().trap or (0,))[0]
        return cause & faults.INTERRUPT != 0

    # ---- objects

    def begun(self, found):
        """Where PCC is, and a word there."""
        return {"pcc": place(self.pcc[1], self.labels), **word(found, flag(self.pcc))}

    def effect(self):
        """What the step comes to, and the trap that it is."""
        after = self.machine.copy()
        text = event(after).line.split(": ", 1)[1]
        taken = self.machine.copy().step().trap
        return {"effect": with_names(text, [(at, name) for at, name in self.labels], f"([0-9a-f]{{16}}){LABEL}"),
                "trap": taken and trap(*taken)}

    def check(self, conditions):
        """The step traps by the first condition that is false, and where all hold only as ECALL, EBREAK and interrupts do."""
        taken = self.machine.copy().step().trap
        false = [condition.fault for condition in conditions if not condition.holds]
        assert false == [taken] if false else not taken or taken[0] in (faults.ECALL, faults.BREAKPOINT) or self.is_interrupted()

    def objects(self):
        """The lines that `why json` answers with."""
        conditions = list(self.told())
        self.check(conditions)
        return "".join(map(line, [self.begun(self.word()),
                                  *({"holds": it.holds, "asks": it.asks, **it.keys} for it in conditions), self.effect()]))

    def trace_object(self, number):
        """The line of a trace's object."""
        return line({"step": number, **self.begun(self.machine.copy().step().word), **self.effect()})


def why_objects(machine, labels=()):
    """What `why json` answers."""
    return line({"halted": half(machine.halted)}) if machine.halted is not None else Asking(machine, labels).objects()
