"""Random programs, step by step, against the program's debugger: all registers after each step, and at the end all else.

Both stand on the proved machine, and share nothing around it: the debugger reads an image file and commands, and shows text; this side
goes through C and Python. CHERISIM_STEPS says how many steps in all.
"""
import os
import random
import struct
import subprocess
import tempfile
import unittest
from concurrent.futures import ThreadPoolExecutor

import support
from support import PAGE, RAM, encodings, image
from cherisim import CSRS, SCRS, Machine

STEPS = int(os.environ.get("CHERISIM_STEPS", "100000"))
OF_A_PROGRAM = 400
SEED = 21

# Where things lie after RAM's beginning: set-up, trap handler, random code and how many words of it, the table of first values, data.
HANDLER, CODE, WORDS, TABLE, DATA = 0x180, 0x200, 120, 0x400, 0x1000
# The entries of the table after those of registers 1 to 31.
FOR_MTCC, FOR_MIE, MTIMECMP, FIRST_TIME = range(31, 35)


class Instructions:
    """Random instructions by the formats of docs/PROGRAMMING.md, with operands that often mean something."""

    def __init__(self, drawn):
        self.drawn, self.rows = drawn, encodings()

    def immediate(self, name):
        if name.startswith("csrr"):
            return self.drawn.choice([*CSRS.values(), 0x7C0])
        return self.drawn.choice((0, 0, 0, 1, 4, 8, 16, 32, 64, -8, -16)) if self.drawn.random() < 0.8 else self.drawn.randrange(4096)

    def fields(self, form, name, here):
        """The bits of a word outside its mask."""
        rd, rs1, rs2 = (self.drawn.randrange(32) << at for at in (7, 15, 20))
        target, value = 4 * (self.drawn.randrange(WORDS) - here), self.immediate(name)
        if name == "cspecialrw":
            rs2 = self.drawn.choice([*SCRS.values(), 2]) << 20
        if form in ("Immediate", "Unsigned"):
            return rd | rs1 | (value & 0xFFF) << 20
        if form == "Store":
            return rs1 | rs2 | (value & 31) << 7 | (value >> 5 & 0x7F) << 25
        if form == "Branch":
            return rs1 | rs2 | (target >> 1 & 15) << 8 | (target >> 5 & 63) << 25 | (target >> 11 & 1) << 7 | (target >> 12 & 1) << 31
        if form == "Jump":
            return rd | jump(target)
        return self.drawn.getrandbits(32) if form == "Upper" else rd | rs1 | rs2 | self.drawn.getrandbits(1) << 25

    def word(self, here):
        """The instruction at a place of the code; now and then a word that may be none."""
        if self.drawn.random() < 0.02:
            return self.drawn.getrandbits(32)
        mask, value, form, name = self.drawn.choice(self.rows)
        return value | self.fields(form, name, here) & ~mask & 0xFFFFFFFF


def jump(by):
    """The immediate of JAL."""
    return (by >> 1 & 0x3FF) << 21 | (by >> 11 & 1) << 20 | (by >> 12 & 0xFF) << 12 | (by >> 20 & 1) << 31


def load(register, entry):
    """lc register, entry of the table, through register 31 at RAM's beginning."""
    return TABLE + 16 * entry << 20 | 31 << 15 | 2 << 12 | register << 7 | 0x0F


def special(number, rd, rs1):
    """cspecialrw"""
    return 0x0200005B | number << 20 | rs1 << 15 | rd << 7


def set_up():
    """Puts the handler into MTCC and a time into mtimecmp, loads all registers, lets interrupts in, and goes to the code: in both modes."""
    words = [31 << 7 | 0x17,  # auipc c31, 0
             load(1, FOR_MTCC), special(SCRS["mtcc"], 0, 1), load(1, FOR_MIE), CSRS["mie"] << 20 | 1 << 15 | 1 << 12 | 0x73,
             load(1, MTIMECMP), load(2, FIRST_TIME), 2 << 20 | 1 << 15 | 3 << 12 | 0x23,  # sd x2, 0(c1)
             *(load(register, register - 1) for register in range(1, 32)),
             CSRS["mstatus"] << 20 | 8 << 15 | 6 << 12 | 0x73]  # csrrsi zero, mstatus, 8
    return [*words, jump(CODE - 4 * len(words)) | 0x6F]


def handler():
    """Lets no more interrupts in, and goes on after the instruction that trapped."""
    return [CSRS["mie"] << 20 | 1 << 12 | 0x73, special(SCRS["mepcc"], 31, 0), 4 << 20 | 31 << 15 | 1 << 12 | 31 << 7 | 0x5B,
            special(SCRS["mepcc"], 0, 31), 0x30200073]


def first_value(drawn):
    """What a register begins with: a number, or base, length, permissions and flag of a capability."""
    data = RAM + DATA + 16 * drawn.randrange(200)
    return drawn.choice((
        lambda: drawn.randrange(64), lambda: drawn.getrandbits(64), lambda: data, lambda: (1 << 64) - drawn.randrange(1, 64),
        lambda: 1 << drawn.randrange(64), lambda: (data, drawn.choice((8, 16, 64, 800)), 0xFFFF, 0),
        lambda: (data, drawn.choice((16, 64)), drawn.getrandbits(16), drawn.getrandbits(1)), lambda: (RAM, 8192, 0xFFFF, 0),
        lambda: (RAM + CODE + 4 * drawn.randrange(WORDS), 64, drawn.choice((0xFFFF, 0x07, 0x407, 0x107)), drawn.getrandbits(1)),
        lambda: (0x10000000, 32, 0xFFFF, 0), lambda: (0x0200BFF8, 8, 0xFFFF, 0), lambda: (drawn.randrange(9), 64, 0x281, 0)))()


def program(drawn):
    """The image of a random program."""
    instructions, mode, bytes_of = Instructions(drawn), drawn.getrandbits(1), bytearray(2 * PAGE)
    table = [first_value(drawn) for _ in range(31)]
    table += [(RAM + HANDLER, 64, 0xFFFF, drawn.getrandbits(1)), 0x880, (0x02004000, 8, 0xFFFF, 0), drawn.randrange(40)]
    code = [*(instructions.word(here) for here in range(WORDS)), jump(-4 * WORDS) | 0x6F]
    for at, words in ((0, set_up()), (HANDLER, handler()), (CODE, code)):
        bytes_of[at:at + 4 * len(words)] = struct.pack(f"<{len(words)}I", *words)
    places = [RAM + TABLE + 16 * entry for entry in range(len(table))]
    for place, value in zip(places, table):
        if isinstance(value, int):
            bytes_of[place - RAM:place - RAM + 8] = struct.pack("<Q", value)
    caps = [(place, *value) for place, value in zip(places, table) if not isinstance(value, int)]
    return image([(RAM, bytes(bytes_of))], version=2, pages=2, mode=mode, caps=caps)


def commands(drawn, steps):
    """Steps with all registers after each, and now and then a tick or a byte before."""
    for _ in range(steps):
        event = drawn.random()
        if event < 0.06:
            yield "tick 1" if event < 0.04 else f"byte {drawn.randrange(256)}"
        yield from ("step 1", "regs", "scr", "csr")
    yield from ("caps", f"mem {RAM} {PAGE}", f"mem {RAM + PAGE} {PAGE}")


class Shown:
    """A machine that answers the debugger's commands."""

    def __init__(self, data):
        self.machine, self.texts = Machine(data), {}

    def line(self, name, cap):
        key = cap.address, cap.upper, cap.tag
        if key not in self.texts:
            self.texts[key] = str(cap)
        return f"{name} {self.texts[key]}"

    def event(self, what):
        """Does an event, and answers its line."""
        sent = what() or b""
        halted = self.machine.halted
        return [f"events 1 out {sent.hex() or '-'} pc {self.machine.pc:016x} " + ("running" if halted is None else f"halted {halted}")]

    def answer(self, command):
        """The lines of an answer."""
        word, *given = command.split()
        machine = self.machine
        if word in ("step", "tick", "byte"):
            return self.event({"step": machine.step, "tick": machine.tick, "byte": lambda: machine.receive(bytes([int(given[0])]))}[word])
        if word in ("regs", "scr"):
            return [self.line(name, cap) for name, cap in (machine.regs if word == "regs" else machine.scrs).items()]
        if word == "csr":
            return [f"{name} {value:016x}" for name, value in machine.csrs.items()]
        if word == "caps":
            return [self.line(f"{at:016x}", machine.cap_at(at)) for at in machine.tags()]
        begin, length = map(int, given)
        return [f"{at:016x}: {machine.mem[at:at + 16].hex(' ')}" for at in range(begin, begin + length, 16)]


def conversation(name, data, asked):
    """What the debugger answers about an image."""
    with open(name, "wb") as file:
        file.write(data)
    ran = subprocess.run([support.PROGRAM, "debug", name], input="\n".join([*asked, "quit", ""]), stdout=subprocess.PIPE, check=True,
                         encoding="ascii")
    return ran.stdout.splitlines()


def conversations(room):
    """Random programs, each with what is asked and what the debugger answers: it has the next conversation during a comparison."""
    drawn, begun = random.Random(SEED), []
    with ThreadPoolExecutor(1) as pool:
        for number in range(-(-STEPS // OF_A_PROGRAM)):
            data, asked = program(drawn), list(commands(drawn, min(OF_A_PROGRAM, STEPS - number * OF_A_PROGRAM)))
            begun.append((data, asked, pool.submit(conversation, os.path.join(room, f"{number % 2}.img"), data, asked)))
            if len(begun) > 1:
                yield begun.pop(0)
        yield from begun


@unittest.skipUnless(support.has_program(), support.NO_PROGRAM)
class AgainstTheDebugger(unittest.TestCase):
    def test_random_programs(self):
        with tempfile.TemporaryDirectory() as room:
            for number, (data, asked, answers) in enumerate(conversations(room), 1):
                self.compare(number, Shown(data), asked, iter(answers.result()))

    def compare(self, number, shown, asked, lines):
        """Gives a machine of this side the commands of a conversation."""
        steps = 0
        for command in asked:
            steps += command == "step 1"
            for line in shown.answer(command):
                came = next(lines, "nothing")
                if came != line:
                    self.fail(f"program {number}, after step {steps}, {command}:\nthe debugger shows {came}\nthe library gives  {line}")
        self.assertIsNone(next(lines, None))


class TheProgramsThemselves(unittest.TestCase):
    def test_they_do_something(self):
        """Random programs get to their code, and do more than trap: loads, stores, jumps and traps all come."""
        drawn, traps, changed, causes = random.Random(SEED), 0, 0, set()
        for _ in range(20):
            machine = Machine(program(drawn))
            ran = machine.run(400)
            self.assertEqual(ran.steps, 400)
            traps += machine.csrs["mcycle"] != machine.csrs["minstret"]
            changed += any(machine.mem[RAM + DATA:])
            causes.add(machine.csrs["mcause"])
        self.assertTrue(traps > 10 and changed > 5 and len(causes) > 3, (traps, changed, causes))


if __name__ == "__main__":
    unittest.main()
