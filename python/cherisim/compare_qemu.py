"""Steps random programs of RV64IM beside QEMU, and compares every register that both machines have after each step.

    python3 -m cherisim.compare_qemu --steps 1000000 --seed 1

It needs qemu-system-riscv64 (Debian's package qemu-system-misc), which is driven through its stub for GDB over a pipe. With --program
FLAT the bytes of a compiled program are stepped beside qemu-riscv64 (package qemu-user) in place of it. docs/COMPARED.md has the figures.
"""
from __future__ import annotations

import argparse
import os
import random
import struct
import sys
import tempfile
import time
from collections import Counter
from ctypes import byref, c_uint64
from typing import List, NamedTuple, Optional, Sequence, Tuple

from . import CSRS, PAGE, RAM, Machine, Stop, disassemble
from . import _library as c
from ._library import lib
from ._qemu import SYSTEM, USER, System, User, missing
from ._random_programs import AT_TIME, PAGES, START, TIME, Program, program

OF_A_PROGRAM = 500
"""The steps of a random program."""
COMPARED = ("mstatus", "mie", "mtvec", "mscratch", "mepc", "mcause", "mtval", "mip")
"""The control and status registers that are compared after each step."""
CONSTANT = ("misa", "mvendorid", "marchid", "mimpid", "mhartid")
"""Those that are compared once. mcycle and minstret are not: QEMU counts the host's time in them."""

_RAM_PAGES = 256                 # as QEMU's board has at least
_MSTATUS = 0x1888                # QEMU says in mstatus, too, how wide the modes are that there are none of
_MRET, _MPP_BITS = 0x30200073, 0x1800
_ADDRESSES = struct.Struct("<" + "Q16x" * 32)
_BOARD = ((0x1000, 0x11000), (0x1000000, 0x1001000), (0x2000000, 0x2010000))  # where QEMU's board has a ROM or a device
_DEVICES = (0x100000, 0x2004000, 0x200BFF8, 0x10000000, 0x10000008, 0x10000010, 0x10000018)
_MISALIGNED = "misaligned load or store: QEMU does it, this machine traps"
_EBREAK = "mtval of EBREAK: QEMU has 0, this machine the address"
_TARGET = "mtval of a misaligned JAL or branch: QEMU has the address of the instruction, this machine the target"
_MPP = "MPP of mstatus after MRET: QEMU has 0, this machine 3, since there is no mode but machine mode"
_HALF = "mtval of an illegal word whose low bits aren't 11: QEMU has its low half, as of an instruction of 16 bits"
_ZERO = "CSRRS or CSRRC of a read-only register with a register that holds 0: QEMU reads, here it is illegal, as a write by its field rs1"
_PLACES = "an address where only one of the machines has a device or a ROM"
_CHERI = "a word that is an instruction of CHERI here"
HALT, TRANSMIT = 0x100000, 0x10000000

State = Tuple[int, ...]
"""x0 to x31, pc, and the registers of COMPARED."""


class Difference(NamedTuple):
    """Where the machines differ: after which step, in which register, and what each has."""

    step: int
    where: str
    here: int
    qemu: int
    word: str

    def __str__(self) -> str:
        return f"step {self.step}, {self.word}: {self.where} is {self.here:#x} here and {self.qemu:#x} in QEMU"


def addresses(machine: Machine) -> State:
    """x0 to x31 and pc."""
    room = (c.Cap * 32)()
    machine._do(lib.cherisim_all_regs, room)
    return (*_ADDRESSES.unpack(bytes(room)), machine.pc)


class Compared:
    """A machine and one of QEMU, program by program, with the figures of all."""

    def __init__(self, qemu: System) -> None:
        self.qemu, self.machine, self.steps, self.programs = qemu, Machine.flat(b"", pages=_RAM_PAGES), 0, 0
        numbers = qemu.numbers()
        self._asked = ["g", *(f"p{numbers[name]:x}" for name in COMPARED)]
        self._puts = {name: f"P{numbers[name]:x}=" for name in COMPARED}
        self.traps: Counter[int] = Counter()
        self.known: Counter[str] = Counter()
        self.unknown: List[Difference] = []
        for name in CONSTANT:
            there = int.from_bytes(bytes.fromhex(qemu.ask(f"p{numbers[name]:x}")[0]), "little")
            if there != self.machine.csrs[name]:
                self.unknown.append(Difference(0, name, self.machine.csrs[name], there, "-"))

    # ---- states

    def here(self) -> State:
        """This machine's state."""
        value, found = c_uint64(), []
        for name in COMPARED:
            self.machine._do(lib.cherisim_csr, CSRS[name], byref(value))
            found.append(value.value)
        return (*addresses(self.machine), *found)

    def there(self) -> State:
        """QEMU's."""
        registers, *values = self.qemu.ask(*self._asked)
        found = [int.from_bytes(bytes.fromhex(it), "little") for it in values]
        found[0] &= _MSTATUS
        return (*self.qemu.registers(registers), *found)

    def put(self, state: State) -> None:
        """Gives QEMU a state; mip isn't written, it is the timer's."""
        puts = (self._puts[name] + value.to_bytes(8, "little").hex() for name, value in zip(COMPARED[:-1], state[33:]))
        for reply in self.qemu.ask("G" + struct.pack("<33Q", *state[:33]).hex(), *puts):
            if reply != "OK":
                raise ValueError(f"QEMU answers {reply} to a write of registers")

    # ---- programs

    def open(self, it: Program) -> None:
        """Both machines at the first instruction of a program's code."""
        self.machine = Machine.flat(it.data, pages=_RAM_PAGES)
        self.qemu.write(RAM, it.data)
        self.machine.regs[AT_TIME] = TIME
        self.put(self.here())
        for _ in range(START):
            self.machine.step()
            self.qemu.ask("s")
        for name, csr in it.csrs.items():
            self.machine.csrs[name] = csr
        for number, value in enumerate(it.registers):
            self.machine.regs[number] = value
        self.put(self.here())
        self.programs += 1

    def run(self, steps: int) -> None:
        """So many steps at most, up to a difference that ends the program."""
        for _ in range(steps):
            traps, pc = self.machine.next_ends is Stop.TRAP, self.machine.pc
            self.machine.step()
            self.qemu.ask("s")
            self.steps += 1
            here, there = self.here(), self.there()
            if traps:
                self.traps[here[-3]] += 1
            if here != there and not self._explained(here, there, pc, traps):
                return
        self._memory()

    def _memory(self) -> None:
        """Compares the bytes of the program's pages."""
        here, there = self.machine.mem[RAM:RAM + PAGES * PAGE], self.qemu.read(RAM, PAGES * PAGE)
        for n, (mine, other) in enumerate(zip(here, there)):
            if mine != other:
                self.unknown.append(Difference(self.steps, f"the byte at {RAM + n:#x}", mine, other, "-"))
                return

    def _word(self, pc: int) -> int:
        return int.from_bytes(self.machine.mem[pc:pc + 4], "little") if RAM <= pc <= RAM + _RAM_PAGES * PAGE - 4 else 0

    def _reason(self, here: State, there: State, pc: int, traps: bool) -> Optional[str]:
        """The reason of a difference, where it is known."""
        word, cause, value, differ = self._word(pc), here[-3], here[-2], _differ(here, there)
        if word == _MRET and not traps and differ == [33] and here[33] == there[33] | _MPP_BITS:
            return _MPP
        if traps and cause in (4, 6) and (there[32] == pc + 4 or there[-3] in (5, 7)):
            return _MISALIGNED
        if traps and differ == [len(here) - 2]:
            by_cause = {3: (_EBREAK, 0), 0: (_TARGET, pc), 2: (_HALF, word & 0xFFFF if word & 3 != 3 else -1)}
            reason, expected = by_cause.get(cause, (None, None))
            if reason and there[-2] == expected:
                return reason
        if traps and cause == 2 and word & 0x7F == 0x73 and word >> 12 & 7 in (2, 3) and word >> 30 == 3 and here[word >> 15 & 31] == 0:
            return _ZERO
        if traps and any(begin <= value < end for begin, end in _BOARD) or there[-2] in _DEVICES and there[-3] in (5, 7):
            return _PLACES
        return _CHERI if word & 0x7F == 0x5B or word & 0x707F in (0x200F, 0x4023) else None

    def _explained(self, here: State, there: State, pc: int, traps: bool) -> bool:
        """Whether a difference has a reason that is known: it is counted, QEMU gets this machine's state, and the program goes on."""
        reason = self._reason(here, there, pc, traps)
        if reason is None:
            n = _differ(here, there)[0]
            name = f"x{n}" if n < 32 else ("pc", *COMPARED)[n - 32]
            self.unknown.append(Difference(self.steps, name, here[n], there[n], f"{pc:#x} {disassemble(self._word(pc))}"))
            return False
        at = here[-2] & -8
        if reason == _MISALIGNED and RAM <= at <= RAM + _RAM_PAGES * PAGE - 16:  # what a store did there
            self.qemu.write(at, self.machine.mem[at:at + 16])
        self.known[reason] += 1
        self.put(here)
        return True


def _differ(here: State, there: State) -> List[int]:
    """The places where two states differ."""
    return [n for n, pair in enumerate(zip(here, there)) if pair[0] != pair[1]]


def compared(steps: int, seed: int, of_a_program: int = OF_A_PROGRAM) -> Compared:
    """Steps random programs until so many steps are done or differences have no reason that is known."""
    drawn, qemu = random.Random(seed), System()
    try:
        both = Compared(qemu)
        while both.steps < steps and len(both.unknown) < 10:
            both.open(program(drawn))
            both.run(min(of_a_program, steps - both.steps))
        return both
    finally:
        qemu.close()


# ---- a compiled program

def mapped(flat: bytes) -> bytes:
    """An ELF program of the bytes of a flat one, for QEMU's user mode: RAM with them, and memory where devices are."""
    head = b"\x7fELF\x02\x01\x01" + bytes(9) + struct.pack("<HHIQQQIHHHHHH", 2, 243, 1, RAM, 64, 0, 0, 64, 56, 3, 0, 0, 0)
    for at, size, length in ((HALT, 0, PAGE), (TRANSMIT, 0, PAGE), (RAM, len(flat), _RAM_PAGES * PAGE)):
        head += struct.pack("<IIQQQQQQ", 1, 7, PAGE if size else 0, at, at, size, length, PAGE)
    return head.ljust(PAGE, b"\0") + flat


def compare_program(flat: bytes, steps: int) -> Tuple[int, bytes, Optional[Difference]]:
    """Steps the bytes of a compiled program beside QEMU's user mode up to the halt, so many steps at most: how many were done, what was
    sent, and the first difference in registers or in what is sent."""
    machine = Machine.flat(flat, pages=_RAM_PAGES)
    with tempfile.TemporaryDirectory() as folder:
        name = os.path.join(folder, "program")
        with open(name, "wb") as file:
            file.write(mapped(flat))
        os.chmod(name, 0o700)
        qemu = User(name, folder)
        try:
            qemu.ask("G" + struct.pack("<33Q", *addresses(machine)).hex())
            for step in range(1, steps + 1):
                pc, sent = machine.pc, machine.step()
                qemu.ask("s")
                if machine.halted is not None:
                    return step, bytes(machine.sent), None
                here, there = addresses(machine), qemu.registers(qemu.ask("g")[0])
                if sent:
                    here, there = (*here, sent[0]), (*there, qemu.read(TRANSMIT, 1)[0])
                if here != there:
                    n = next(n for n, pair in enumerate(zip(here, there)) if pair[0] != pair[1])
                    where = f"x{n}" if n < 32 else ("pc", "the byte that is sent")[n - 32]
                    return step, bytes(machine.sent), Difference(step, where, here[n], there[n], f"{pc:#x}")
            return steps, bytes(machine.sent), None
        finally:
            qemu.close()


# ---- the command

def _parser() -> argparse.ArgumentParser:
    made = argparse.ArgumentParser(prog="python3 -m cherisim.compare_qemu", description=(__doc__ or "").splitlines()[0])
    made.add_argument("--steps", type=int, default=100000, help="steps in all (100000)")
    made.add_argument("--seed", type=int, default=1, help="of the random programs (1)")
    made.add_argument("--program", help="the bytes of a compiled program, in place of random ones")
    return made


def _shown(both: Compared, seconds: float) -> None:
    """The figures."""
    print(f"steps {both.steps}, programs {both.programs}, seconds {seconds:.0f}")
    for cause, count in sorted(both.traps.items()):
        print(f"  {'interrupt' if cause >> 63 else 'trap'} {cause & 63}: {count}")
    for reason, count in both.known.most_common():
        print(f"  {count} times {reason}")
    print(f"other differences: {len(both.unknown)}")
    for difference in both.unknown:
        print(f"  {difference}")


def main(given: Optional[Sequence[str]] = None) -> int:
    """1 where the machines differ without a known reason."""
    asked = _parser().parse_args(given)
    needs = missing(USER if asked.program else SYSTEM)
    if needs:
        print(needs)
        return 0
    if asked.program:
        with open(asked.program, "rb") as file:
            done, sent, difference = compare_program(file.read(), asked.steps)
        print(f"steps {done}, sent {sent!r}, differences: {difference or 'none'}")
        return int(difference is not None)
    begun = time.monotonic()
    both = compared(asked.steps, asked.seed)
    _shown(both, time.monotonic() - begun)
    return int(bool(both.unknown))


if __name__ == "__main__":
    sys.exit(main())
