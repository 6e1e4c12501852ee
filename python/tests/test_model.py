"""Random instructions of every row, on random values, beside the model machine (tools/model/machine.py): why the next step ends a stretch,
and registers after each step; memory, devices and all else at the end of a program.

CHERISIM_MODELLED says how many programs.
"""
import os
import unittest
from random import Random

import support  # where tools/ is found
from cherisim import CSRS, SCRS, Cap, Machine
from model.capabilities import and_perms, integer, is_unsealed, seal, set_address, set_bounds, with_fields
from model.devices import CONTROL, HALT, RAM, RECEIVE, STATUS, TIMER, TIMER_COMPARE, TRANSMIT
from model.machine import Machine as Model
from model.machine import root
from model.memory import WORD
from model.row_forms import FORM
from model.rights import ACCESS_SYSTEM_REGISTERS, EXECUTE, SENTRY
from model.rows import made, slots
from model.words import ONES

PROGRAMS = int(os.environ.get("CHERISIM_MODELLED", "200"))
CODE, STEPS = 256, 60
DEVICES = (HALT, TIMER_COMPARE, TIMER, TRANSMIT, RECEIVE, STATUS, CONTROL)
ENDS = {None: None, "trap": "TRAP", "unseal": "UNSEAL", "sealed jump": "SEALED_JUMP"}


class Drawing:
    """Random instructions, numbers and values, many of which lie where something is."""

    def __init__(self, dice):
        self.dice, self.of = dice, lambda *choices: dice.choice(choices)

    def operand(self, slot):
        """What an operand holds."""
        pick = self.dice.randrange
        if slot in ("csr", "scr"):
            return self.of(*(CSRS if slot == "csr" else SCRS).values(), pick(32))
        if slot == "upper":
            return self.of(0, 1, pick(1 << 20)) << 12
        if slot in ("branch", "jump"):
            return 2 * pick(-32, 33)
        if slot in ("rd", "rs1", "rs2", "five"):
            return self.of(pick(32), pick(10, 14), pick(10, 14))
        return self.of(0, 0, 8, -16, pick(-2048, 2048))

    def word(self):
        """An instruction of any row, and now and then any word."""
        row = self.of(*FORM, "cinvoke")
        operands = {"rs1": 10, "rs2": 11} if row == "cinvoke" else {it: self.operand(it) for it in slots(FORM[row])}
        return self.dice.getrandbits(32) if self.dice.random() < 0.03 else made(row, operands)

    def number(self):
        return self.of(self.dice.getrandbits(64), RAM + self.dice.randrange(4096), RAM + 16 * self.dice.randrange(256), self.of(*DEVICES),
                       self.dice.randrange(64), ONES - self.dice.randrange(64))

    def value(self):
        """A number, or a capability with less and less of root's rights, sealed or not."""
        chance = self.dice.random
        value = set_address(root(0), self.number())
        if chance() < 0.7:
            value = set_bounds(value, self.of(0, 8, 16, 64, 256, 4096, self.dice.getrandbits(40)))[0]
            value = set_address(value, value[1] + self.of(0, 0, 8, self.dice.randrange(-64, 64)))
        value = and_perms(value, self.of(ONES, ONES, self.dice.getrandbits(20)))
        value = with_fields(value, flag=self.dice.randrange(2))
        if value[2] and is_unsealed(value) and chance() < 0.3:
            value = self.of(with_fields(value, otype=SENTRY), seal(value, root(self.of(5, 6))))
        return self.of(value, value, value, integer(value[1]), with_fields(value, tag=False))

    def entered(self):
        """A PCC that leads to code in either mode, with system access or not; and what code may be entered and opened by: a pair of one
        type, a sentry, and the authority of that type."""
        rights = self.of(ONES, ONES, ONES ^ ACCESS_SYSTEM_REGISTERS)
        code = and_perms(root(RAM + 4 * self.dice.randrange(CODE), self.dice.randrange(2)), rights)
        data = and_perms(root(RAM + 4 * CODE), ONES ^ EXECUTE)
        return code, (with_fields(code, otype=5), with_fields(data, otype=5), with_fields(code, otype=SENTRY), root(5))


class Programs(unittest.TestCase):
    """A machine and a model that do the same."""

    def begin(self, drawing):
        """Both, with the same words and values."""
        contents = b"".join(drawing.word().to_bytes(4, "little") for _ in range(CODE)) + drawing.dice.randbytes(1024)
        self.model, self.machine = Model(), Machine.flat(contents)
        self.model.memory.write(RAM, contents)
        for n in range(1, 32):
            self.give(n, drawing.value())
        for name in ("ddc", "mtcc", "mtdc", "mscratchc", "mepcc"):
            at_code = root(RAM + 4 * drawing.dice.randrange(CODE) + drawing.of(0, 0, 1))
            self.put(name, drawing.of(drawing.value(), at_code, at_code, at_code))
        for place in range(RAM + 4 * CODE, RAM + 4 * CODE + 1024, 8 * WORD):
            self.model.memory.put(place, drawing.value())
            self.machine.set_cap(place, cap_of(self.model.memory.value(place)))
        for name in ("mstatus", "mie"):
            self.machine.csrs[name] = number = drawing.dice.getrandbits(12)
            self.model.write_csr(name, number)

    def give(self, n, value):
        self.model.registers[n], self.machine.regs[n] = value, cap_of(value)

    def put(self, name, value):
        self.model.special[name], self.machine.scrs[name] = value, cap_of(value)

    def test_they_agree_step_by_step(self):
        for number in range(PROGRAMS):
            drawing = Drawing(Random(number))
            self.begin(drawing)
            for step in range(STEPS):
                self.event(drawing)
                came = self.machine.next_ends
                self.assertEqual(came and came.name, ENDS[self.model.next_ends()], (number, step))
                self.model.step()
                self.machine.step()
                self.assertEqual([key_of(self.machine.regs[n]) for n in range(32)], self.model.registers, (number, step))
                self.assertEqual({name: key_of(self.machine.scrs[name]) for name in SCRS}, self.model.special, (number, step))
            self.compare(number)

    def event(self, drawing):
        """Now and then a tick, a byte, or code that is entered."""
        chance = drawing.dice.random()
        if chance < 0.1:
            self.model.tick()
            self.machine.tick()
        elif chance < 0.15:
            self.model.byte(65)
            self.machine.receive(b"A")
        elif chance < 0.4:
            code, values = drawing.entered()
            self.put("pcc", code)
            for n, value in enumerate(values, 10):
                self.give(n, value)

    def compare(self, number):
        """All of the state."""
        devices, memory = self.model.devices, self.model.memory
        self.assertEqual(self.machine.mem[:], bytes(memory.ram), number)
        self.assertEqual(list(self.machine.tags()), sorted(memory.tags), number)
        self.assertEqual({name: self.machine.csrs[name] for name in CSRS}, {name: self.model.csr(name) for name in CSRS}, number)
        self.assertEqual((self.machine.halted, self.machine.sent, *self.machine.time, *self.machine.console),
                         (devices.halted, devices.sent, devices.mtime, devices.mtimecmp, devices.queue, devices.overrun,
                          bool(devices.control)), number)


def cap_of(value):
    return Cap(value[1], value[0], value[2])


def key_of(cap):
    return cap.upper, cap.address, cap.tag


if __name__ == "__main__":
    unittest.main()
