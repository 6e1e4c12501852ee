"""Random programs of RV64IM in machine mode, whose memory, traps and interrupts this machine and other ones have alike."""
from __future__ import annotations

import random
import struct
from typing import Callable, Dict, List, NamedTuple, Sequence, Tuple

from . import CSRS, PAGE, RAM

CODE, WORDS = RAM + PAGE, 256
"""Where the random instructions stand, and how many."""
HANDLER, VECTORED = RAM + 0x400, RAM + 0x800
"""The entries of traps: one for all, and a table with a jump for each interrupt."""
DATA, PAGES = RAM + 2 * PAGE, 3
"""Where loads and stores mostly go, and the pages of a program with all of it."""
START = 3
"""The instructions at RAM's beginning: they take the timer's asking back, by register 20, and go to the code."""
TIME = 0x02004000
"""mtimecmp: storing 0 asks for the timer's interrupt at once, and storing 2^64 - 1 takes it back."""
ABSENT = (0, 0x05000000, RAM - 2048, RAM + 256 * PAGE + 2048, 1 << 40)
"""Addresses where no machine of the comparison has anything, up to 1 KiB below and above."""

# Registers that random instructions don't write: three addresses of data, mtimecmp's, an absent one, data, code, mie's bit and both
# entries; the handler has those from 28 on.
WRITTEN, AT_TIME, NOWHERE, AT_DATA, AT_CODE, TIMER_BIT, DIRECT, TABLE, LEFT = 17, 20, 21, 22, 23, 24, 25, 26, 28
_POINTERS = (AT_DATA, 17, 18, 19)
_ABSENT_CSRS = (0x001, 0x100, 0x180, 0x5C0, 0x7C0, 0x800)
_OP = ((0x33, 0, range(8)), (0x33, 32, (0, 5)), (0x33, 1, range(8)), (0x3B, 0, (0, 1, 5)), (0x3B, 32, (0, 5)), (0x3B, 1, (0, 4, 5, 6, 7)))
_ALL = (1 << 64) - 1


class Program(NamedTuple):
    """A program: the bytes of its pages, and what x0 to x31 and the registers of control and status begin with."""

    data: bytes
    registers: Tuple[int, ...]
    csrs: Dict[str, int]


def _r(opcode: int, funct7: int, funct3: int, rd: int, rs1: int, rs2: int) -> int:
    return funct7 << 25 | rs2 << 20 | rs1 << 15 | funct3 << 12 | rd << 7 | opcode


def _i(opcode: int, funct3: int, rd: int, rs1: int, imm: int) -> int:
    return (imm & 0xFFF) << 20 | rs1 << 15 | funct3 << 12 | rd << 7 | opcode


def _s(funct3: int, rs1: int, rs2: int, imm: int) -> int:
    return (imm >> 5 & 0x7F) << 25 | rs2 << 20 | rs1 << 15 | funct3 << 12 | (imm & 31) << 7 | 0x23


def _b(funct3: int, rs1: int, rs2: int, by: int) -> int:
    high, low = (by >> 12 & 1) << 31 | (by >> 5 & 63) << 25, (by >> 1 & 15) << 8 | (by >> 11 & 1) << 7
    return high | rs2 << 20 | rs1 << 15 | funct3 << 12 | low | 0x63


def _j(rd: int, by: int) -> int:
    return (by >> 20 & 1) << 31 | (by >> 1 & 0x3FF) << 21 | (by >> 11 & 1) << 20 | (by >> 12 & 0xFF) << 12 | rd << 7 | 0x6F


def _csr(funct3: int, rd: int, number: int, rs1: int) -> int:
    return number << 20 | rs1 << 15 | funct3 << 12 | rd << 7 | 0x73


def handler() -> List[int]:
    """Of an interrupt takes the timer's asking back; after an exception goes on with the next instruction, and where none could be fetched,
    with the first of the code."""
    cause, time, value = 29, 30, 31
    taken = [_i(0x13, 0, value, 0, -1), _s(3, time, value, 0), 0x30200073]
    done = [_csr(2, value, CSRS["mepc"], 0), _i(0x13, 0, value, value, 4), _csr(1, 0, CSRS["mepc"], value), 0x30200073]
    lost = [_i(0x13, 0, value, AT_CODE, 0), _csr(1, 0, CSRS["mepc"], value), 0x30200073]
    head = [_csr(2, cause, CSRS["mcause"], 0), _i(0x13, 0, time, AT_TIME, 0),
            _b(5, cause, 0, 4 + 4 * len(taken)), *taken,               # bge cause, zero: an exception
            _i(0x13, 0, value, 0, 1), _b(4, value, cause, 8),          # blt 1, cause: a fetch was possible
            _j(0, 4 + 4 * len(done))]
    return [*head, *done, *lost]


class Drawing:
    """Random instructions."""

    def __init__(self, drawn: random.Random) -> None:
        self.drawn = drawn
        kinds: Sequence[Tuple[int, Callable[[int], int]]] = (
            (30, self._arithmetic), (22, self._immediate), (5, self._upper), (10, self._load), (10, self._store), (10, self._branch),
            (4, self._jump), (5, self._status), (4, self._time), (2, self._other))
        self._kinds = [call for weight, call in kinds for _ in range(weight)]

    def word(self, here: int) -> int:
        """The instruction at a place of the code, counted in words."""
        return self.drawn.choice(self._kinds)(here)

    def _rd(self) -> int:
        return self.drawn.randrange(WRITTEN)

    def _rs(self) -> int:
        """Any but mtimecmp's address, which nothing else may come to hold, and the handler's."""
        return self.drawn.choice((*range(AT_TIME), *range(NOWHERE, LEFT)))

    def _arithmetic(self, _here: int) -> int:
        opcode, funct7, functs = self.drawn.choice(_OP)
        return _r(opcode, funct7, self.drawn.choice(list(functs)), self._rd(), self._rs(), self._rs())

    def _immediate(self, _here: int) -> int:
        wide = self.drawn.random() < 0.7
        opcode, funct3 = (0x13, self.drawn.randrange(8)) if wide else (0x1B, self.drawn.choice((0, 1, 5)))
        imm = self.drawn.getrandbits(12)
        if funct3 in (1, 5):
            imm = imm & (63 if wide else 31) | (0x400 if funct3 == 5 and self.drawn.getrandbits(1) else 0)
        return _i(opcode, funct3, self._rd(), self._rs(), imm)

    def _upper(self, _here: int) -> int:
        return self.drawn.getrandbits(20) << 12 | self._rd() << 7 | self.drawn.choice((0x37, 0x17))

    def _place(self, size: int) -> Tuple[int, int]:
        """A register and an offset of a load or a store: mostly of data at a multiple of its size."""
        chance, offset = self.drawn.random(), self.drawn.randrange(-1024, 1024)
        if chance < 0.04:
            return NOWHERE, offset & -size
        return self.drawn.choice(_POINTERS), offset if chance > 0.97 else offset & -size

    def _load(self, _here: int) -> int:
        funct3 = self.drawn.randrange(7)
        base, offset = self._place(1 << (funct3 & 3))
        if self.drawn.random() < 0.02:
            base = self._rd()
        return _i(0x03, funct3, self._rd(), base, offset)

    def _store(self, _here: int) -> int:
        funct3 = self.drawn.randrange(4)
        base, offset = self._place(1 << funct3)
        return _s(funct3, base, self._rs(), offset)

    def _target(self, here: int) -> int:
        """How far to another word of the code, mostly a few words on, lest a program stay in a loop; now and then to between two."""
        far = self.drawn.random() < 0.03
        words = self.drawn.randrange(WORDS) - here if far else min(self.drawn.randrange(1, 12), WORDS - 1 - here)
        return 4 * words + (2 if self.drawn.random() < 0.03 else 0)

    def _branch(self, here: int) -> int:
        return _b(self.drawn.choice((0, 1, 4, 5, 6, 7)), self._rs(), self._rs(), self._target(here))

    def _jump(self, here: int) -> int:
        if self.drawn.getrandbits(1):
            return _j(self._rd(), self._target(here))
        chance = self.drawn.random()
        base = NOWHERE if chance < 0.1 else self._rd() if chance < 0.15 else AT_CODE
        to = 4 * here + self._target(here) + (self.drawn.randrange(4) if chance > 0.9 else 0)
        return _i(0x67, 0, self._rd(), base, to)

    def _status(self, _here: int) -> int:
        """A read or a write of a control and status register that both machines take alike."""
        rd, pick = self._rd(), self.drawn.randrange
        return self.drawn.choice((
            lambda: _csr(6 + pick(2), 0, CSRS["mstatus"], self.drawn.choice((0, 8, 8))),
            lambda: _csr(2, rd, self.drawn.choice((CSRS["mip"], CSRS["misa"])), 0), lambda: _csr(1 + pick(3), rd, CSRS["mie"], TIMER_BIT),
            lambda: _csr(1, rd, CSRS["mtvec"], self.drawn.choice((DIRECT, TABLE))), lambda: _csr(1, rd, CSRS["mepc"], AT_CODE),
            lambda: _csr(self.drawn.choice((1, 2, 3, 5, 6, 7)), rd, CSRS[self.drawn.choice(("mscratch", "mcause", "mtval"))], self._rs()),
            lambda: _csr(2, rd, CSRS[self.drawn.choice(("mepc", "mtvec", "mie", "mcause"))], 0),
            lambda: _csr(1 + pick(3), rd, CSRS[self.drawn.choice(("mvendorid", "marchid", "mimpid", "mhartid"))], 7 * (pick(3) == 0)),
            lambda: _csr(1 + pick(3), rd, self.drawn.choice(_ABSENT_CSRS), self._rs())))()

    def _time(self, _here: int) -> int:
        """The timer asks, lets interrupts in, or is looked at."""
        asks, lets = _s(3, AT_TIME, 0, 0), _csr(6, 0, CSRS["mstatus"], 8)
        return self.drawn.choice((asks, asks, lets, _csr(2, 0, CSRS["mie"], TIMER_BIT), _i(0x03, 3, self._rd(), AT_TIME, 0)))

    def _other(self, _here: int) -> int:
        """A fence, ECALL, EBREAK, MRET, or a word that is no instruction of RV64IM, nor in the room that CHERI takes."""
        fences = (0x0FF0000F, 0x0000100F)
        return self.drawn.choice((*fences, 0x00000073, 0x00100073, 0x30200073, 0, 0xFFFFFFFF, 0x0000200B, 0x0000702F, 0x00007003))


def program(drawn: random.Random) -> Program:
    """A random program."""
    data, drawing = bytearray(PAGES * PAGE), Drawing(drawn)
    code = [*(drawing.word(here) for here in range(WORDS - 1)), _j(0, -4 * (WORDS - 1))]
    start = [_i(0x13, 0, LEFT, 0, -1), _s(3, AT_TIME, LEFT, 0)]
    start.append(_j(0, CODE - RAM - 4 * len(start)))
    table = [_j(0, HANDLER - VECTORED - 4 * n) for n in range(16)]
    for at, words in ((RAM, start), (HANDLER, handler()), (VECTORED, table), (CODE, code)):
        data[at - RAM:at - RAM + 4 * len(words)] = struct.pack(f"<{len(words)}I", *words)
    data[DATA - RAM:] = drawn.randbytes(PAGE)
    values = [drawn.choice((drawn.getrandbits(64), drawn.randrange(64), 1 << drawn.randrange(64), _ALL - drawn.randrange(64)))
              for _ in range(32)]
    fixed = {0: 0, 17: DATA + 1024, 18: DATA + 2040, 19: DATA + 3001, AT_TIME: TIME, NOWHERE: drawn.choice(ABSENT), AT_DATA: DATA + 2048,
             AT_CODE: CODE, TIMER_BIT: 1 << 7, DIRECT: HANDLER, TABLE: VECTORED | 1}
    registers = tuple(fixed.get(n, value) for n, value in enumerate(values))
    csrs = {"mstatus": 0x1800 | drawn.choice((0, 8, 0x80)), "mie": drawn.choice((0, 0x80)), "mtvec": drawn.choice((HANDLER, VECTORED | 1)),
            "mscratch": drawn.getrandbits(64), "mepc": CODE, "mcause": drawn.getrandbits(64), "mtval": drawn.getrandbits(64)}
    return Program(bytes(data), registers, csrs)
