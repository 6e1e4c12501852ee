"""GDB over the proved machine: its remote serial protocol on standard input and output.

    gdb-multiarch prog.elf -ex 'target remote | python3 -m cherisim.gdb prog.img'

FILE is an image, or a text in the assembly language whose name ends in .s. docs/GDB.md has a session, and the table of the packets.
"""
from __future__ import annotations

import argparse
import os
import re
import select
import sys
from dataclasses import dataclass
from typing import Callable, Dict, List, Optional, Sequence, Set, Tuple

from . import RAM, CherisimError, Machine, Stop
from ._described import PC, SHAPES, description, is_written, memory_map, registers, value, write
from ._monitor import Monitor, entry_is_fetched, next_cause
from ._replay import Range, Replay, Schedule
from ._symbols import opened
from ._wire import BOUND, TooLong, Wire

STOPS = ("unhandled", "trap", "never")
"""Before which traps a run stops: those whose handler can't be fetched, all but ECALL and interrupts, none."""
HALTS = ("exit", "stay")
"""What the halt is to GDB: the end of the process, or the end of what was recorded, from which one can go back."""

_SIGNALS = {0: 0x0A, 1: 0x0B, 2: 0x04, 3: 0x05, 4: 0x0A, 5: 0x0B, 6: 0x0A, 7: 0x0B, 28: 0x0B}  # of each cause of a trap that stops
_SUPPORTED = (f"PacketSize={BOUND:x};QStartNoAckMode+;qXfer:features:read+;qXfer:memory-map:read+;swbreak+;hwbreak+;vContSupported+;"
              "ReverseStep+;ReverseContinue+")
_FIRST, _MOST = 100_000, 20_000_000     # steps between two looks at the line: at first, and at most
_WATCHED, _EACH = 1_000_000, 50_000     # at most where bytes are watched, and where each step is looked at
_SHOWN = 4096    # bytes of text in one packet
_READ = 8192     # bytes that `m` answers at most
_FIXED = {"vCont?": "vCont;c;C;s;S;r", "qC": "QC1", "qfThreadInfo": "m1", "qsThreadInfo": "l"}


class Refused(Exception):
    """A packet that is refused, with its answer: nothing was changed."""


@dataclass
class Asked:
    """What a conversation is asked for: one of STOPS, of HALTS and of SHAPES."""

    stop: str = "unhandled"
    halt: str = "exit"
    caps: str = "fields"


def _hex(text: str) -> int:
    if not re.fullmatch(r"[0-9a-fA-F]{1,16}", text):
        raise Refused("E01")
    return int(text, 16)


def _pair(text: str) -> Tuple[int, int]:
    """Two numbers with a comma between: an address and a length."""
    parts = text.split(",")
    if len(parts) != 2:
        raise Refused("E01")
    return _hex(parts[0]), _hex(parts[1])


def _bytes(text: str) -> bytes:
    if not re.fullmatch(r"([0-9a-fA-F]{2})*", text):
        raise Refused("E01")
    return bytes.fromhex(text)


def _piece(whole: str, where: str) -> str:
    """A piece of a text, after `m` where more follows and `l` where not."""
    offset, length = _pair(where)
    return ("l" if offset + length >= len(whole) else "m") + whole[offset:offset + length]


class Bridge:
    """A conversation with GDB about a machine and its past."""

    def __init__(self, replay: Replay, wire: Wire, asked: Asked) -> None:
        self.replay, self.wire, self.asked = replay, wire, asked
        self.registers, self.xml = registers(asked.caps), description(asked.caps)
        self.monitor = Monitor(replay)
        self.breaks: Set[int] = set()
        self.watches: Set[Range] = set()
        self.last, self.ends, self.extended, self._quiet = "T05", False, False, False
        self._shown = 0                    # bytes that were shown: what is sent again after going back is not shown again
        self._told: Optional[int] = None   # the step before whose trap it stopped last: to go on takes the trap
        self._heads: Dict[str, Callable[[str], Optional[str]]] = {
            "p": self._get, "P": self._put, "m": self._look, "M": self._store, "Z": self._set, "z": self._clear, "T": lambda _: "OK",
            "H": lambda _: "OK", "G": self._put_all, "R": self._restarted, **{it: self._plainly(it) for it in "csCS"}}
        self._words: Sequence[Tuple[str, Callable[[str], Optional[str]]]] = (
            ("qSupported", lambda _: _SUPPORTED), ("QStartNoAckMode", self._no_acknowledgement), ("qAttached", self._attached),
            ("qXfer:features:read:target.xml:", lambda rest: _piece(self.xml, rest)),
            ("qXfer:memory-map:read::", lambda rest: _piece(memory_map(self.machine), rest)), ("qRcmd,", self._command),
            ("vCont;", self._resumed), ("vRun", self._run_again), ("vKill", self._killed))

    @property
    def machine(self) -> Machine:
        """The machine as it stands."""
        return self.replay.machine

    # ---- the conversation

    def talk(self) -> None:
        """Answers packets up to the end."""
        while not self.ends:
            try:
                data = self.wire.packet()
                if data is None:
                    return
                reply = self.answer(data)
            except TooLong:
                reply = "E05"
            except Refused as refused:
                reply = str(refused)
            if reply is not None:
                self.wire.send(reply.encode("latin-1"))
            self.wire.acknowledges &= not self._quiet

    def answer(self, data: bytes) -> Optional[str]:
        """The answer to a packet, empty where it is unknown, or None where none is sent. Raises Refused."""
        if data[:1] == b"X":
            where, colon, raw = data[1:].partition(b":")
            return self._stored(where.decode("latin-1"), raw) if colon else "E01"
        text = data.decode("latin-1")
        if text in _FIXED:
            return _FIXED[text]
        for word, call in self._words:
            if text.startswith(word):
                return call(text[len(word):])
        if text in ("?", "g", "bs", "bc", "!", "k", "D") or text.startswith("D;"):
            return self._alone(text[:2] if text[0] == "b" else text[0])
        call = self._heads.get(text[:1])
        return call(text[1:]) if call else ""

    def _alone(self, text: str) -> Optional[str]:
        """The packets that have no operands."""
        if text == "?":
            return self._with_pc(self.last)
        if text == "g":
            return b"".join(value(self.machine, it, self.asked.caps) for it in self.registers[:PC + 1]).hex()
        if text in ("bs", "bc"):
            return self._told_stop(self._back(text == "bs"))
        if text == "!":
            self.extended = True
            return "OK"
        self.ends = text == "D" or not self.extended
        return "OK" if text == "D" else None

    def _no_acknowledgement(self, _rest: str) -> str:
        self._quiet = True
        return "OK"

    def _attached(self, _rest: str) -> str:
        return "0" if self.asked.halt == "exit" else "1"

    def _killed(self, _rest: str) -> str:
        self.ends = not self.extended
        return "OK"

    def _restarted(self, _rest: str) -> None:
        self.replay.restart()
        self.last, self._shown, self._told = "T05", 0, None

    def _run_again(self, _rest: str) -> str:
        self._restarted("")
        return self._with_pc(self.last)

    def _command(self, rest: str) -> str:
        """The reply of a command as hexadecimal digits, its beginning in packets of output where it is long."""
        reply = self._monitored(_bytes(rest).decode("latin-1")).encode()
        for n in range(0, len(reply) - _SHOWN, _SHOWN):
            self.wire.send(b"O" + reply[n:n + _SHOWN].hex().encode())
        return reply[(len(reply) - 1) // _SHOWN * _SHOWN:].hex() or "OK"

    def _monitored(self, line: str) -> str:
        words = line.split()
        if words[:1] == ["stop"]:
            if len(words) != 2 or words[1] not in STOPS:
                return f"stop takes {', '.join(STOPS)}\n"
            self.asked.stop = words[1]
            return ""
        if words == ["ago"]:
            return f"{self.replay.n}\n"
        if words == ["stops"]:
            return "".join([*(f"at {a:016x}\n" for a in sorted(self.breaks)),
                            *(f"changed {a:016x} {n}\n" for a, n in sorted(self.watches))])
        return self.monitor.answer(line)

    # ---- registers and memory

    def _numbered(self, text: str) -> int:
        number = _hex(text)
        if number >= len(self.registers):
            raise Refused("E02")
        return number

    def _get(self, rest: str) -> str:
        return value(self.machine, self.registers[self._numbered(rest)], self.asked.caps).hex()

    def _put(self, rest: str) -> str:
        where, _, digits = rest.partition("=")
        it, data = self.registers[self._numbered(where)], _bytes(digits)
        if not is_written(it):
            raise Refused("E02")
        if len(data) != it.bytes:
            raise Refused("E01")
        self._written([(it.name, int.from_bytes(data, "little"))])
        return "OK"

    def _put_all(self, rest: str) -> str:
        data = _bytes(rest)
        if len(data) != 8 * (PC + 1):
            raise Refused("E01")
        numbers = [(it.name, int.from_bytes(data[8 * n:8 * n + 8], "little")) for n, it in enumerate(self.registers[:PC + 1])]
        held = {it.name: int.from_bytes(value(self.machine, it, self.asked.caps), "little") for it in self.registers[:PC + 1]}
        self._written([(name, number) for name, number in numbers if held[name] != number])
        return "OK"

    def _written(self, numbers: List[Tuple[str, int]]) -> None:
        """Puts numbers into registers, of which one that can't be put refuses all."""
        if any(name == "pc" and number % 4 for name, number in numbers):
            raise Refused("E01")
        named = {it.name: it for it in self.registers}
        for name, number in numbers:
            write(self.machine, named[name], number)
        self._changed()

    def _changed(self) -> None:
        """A write is no event: what was before it can't be gone back to, and what comes is new."""
        self.replay.forget()
        self._shown, self._told = len(self.machine.sent), None

    def _look(self, rest: str) -> str:
        address, length = _pair(rest)
        there = RAM + len(self.machine.mem) - address if address >= RAM else 0
        whole = self.replay.read((address, min(length, there, _READ))) if there > 0 else None
        if not whole:
            raise Refused("E03")
        return whole.hex()

    def _store(self, rest: str) -> str:
        where, colon, digits = rest.partition(":")
        return self._stored(where, _bytes(digits)) if colon else "E01"

    def _stored(self, where: str, data: bytes) -> str:
        address, length = _pair(where)
        if length != len(data):
            raise Refused("E04")
        if data and self.replay.read((address, length)) is None:
            raise Refused("E03")
        if data:
            self.machine.mem[address:address + length] = data
            self._changed()
        return "OK"

    # ---- stops

    def _set(self, rest: str) -> str:
        kind, where = self._kind(rest)
        if kind == "2":
            if not where[1] or self.replay.read(where) is None:
                raise Refused("E03")
            self.watches.add(where)
        elif kind in "01":
            self.breaks.add(where[0])
        return "OK" if kind in "012" else ""

    def _clear(self, rest: str) -> str:
        kind, where = self._kind(rest)
        if kind == "2":
            self.watches.discard(where)
        elif kind in "01":
            self.breaks.discard(where[0])
        return "OK" if kind in "012" else ""

    def _kind(self, rest: str) -> Tuple[str, Range]:
        if not re.match(r"[0-4],", rest):
            raise Refused("E01")
        return rest[0], _pair(rest[2:])

    def _with_pc(self, stop: str) -> str:
        return stop if stop[0] == "W" else f"{stop}{PC:02x}:{self.machine.pc.to_bytes(8, 'little').hex()};"

    def _told_stop(self, stop: str) -> str:
        self.last = stop
        return self._with_pc(stop)

    def _before_trap(self) -> Optional[str]:
        """The stop before a step that would trap, where it is one to stop before and was not told."""
        if self.asked.stop == "never" or self._told == self.replay.n or self.machine.next_ends is not Stop.TRAP:
            return None
        signal = _SIGNALS.get(next_cause(self.machine) or 0)
        if signal is None or self.asked.stop == "unhandled" and entry_is_fetched(self.machine):
            return None
        self._told = self.replay.n
        return f"T{signal:02x}"

    def _standing(self) -> Optional[str]:
        """The stop of a machine that stands after a step, or None where it may go on."""
        halted = self.machine.halted
        if halted is not None:
            return "T05replaylog:end;" if self.asked.halt == "stay" else f"W{halted & 0xFF:02x}"
        return "T05swbreak:;" if self.machine.pc in self.breaks else None

    def _show(self) -> None:
        """Shows what was sent and not shown."""
        sent = bytes(self.machine.sent[self._shown:])
        for n in range(0, len(sent), _SHOWN):
            self.wire.send(b"O" + sent[n:n + _SHOWN].hex().encode())
        self._shown += len(sent)

    # ---- time

    def _plainly(self, kind: str) -> Callable[[str], str]:
        """c and s without operands, C and S with the number of a signal, which a machine has none of."""
        def resumed(rest: str) -> str:
            if kind in "cs" and rest or kind in "CS" and not re.fullmatch("[0-9a-fA-F]{2}", rest):
                raise Refused("E01")
            return self._told_stop(self._go() if kind in "cC" else self._step())
        return resumed

    def _resumed(self, rest: str) -> Optional[str]:
        """vCont: the first of its actions, since there is one thread."""
        found = re.fullmatch(r"([csCSr])([0-9a-fA-F]*)(?:,([0-9a-fA-F]+))?(?:[:;].*)?", rest, re.DOTALL)
        if not found or (found[3] is None) != (found[1] != "r"):
            raise Refused("E01")
        if found[3] is None:
            return self._plainly(found[1])(found[2])
        return self._told_stop(self._step((_hex(found[2]), _hex(found[3]))))

    def _one(self) -> Optional[str]:
        """A step, and the stop that it comes to: before it, where it would trap, or after it."""
        stop = self._before_trap()
        if stop:
            return stop
        changed = self.replay.run_watched(1, (), sorted(self.watches))
        self._told = None
        self._show()
        return f"T05watch:{changed[0]:x};" if changed else self._standing()

    def _step(self, inside: Range = (0, 0)) -> str:
        """A step, or more of them while pc lies inside a range."""
        if self.machine.halted is not None:
            return self._standing() or "T05"
        while True:
            stop = self._one()
            if stop or not inside[0] <= self.machine.pc < inside[1]:
                return stop or "T05"
            if self.replay.n % _EACH == 0 and self.wire.interrupted():
                return "T02"

    def _go(self) -> str:
        """At least one step, and on to a stop."""
        if self.machine.halted is not None:
            return self._standing() or "T05"
        stop, size, careful = self._one(), _FIRST, self.asked.stop == "trap"
        while not stop:
            if self.wire.interrupted():
                return "T02"
            if self.watches:
                stop = self._on_watched(_EACH if careful else min(size, _WATCHED))
            else:
                stop = self._on_careful(size) if careful else self._on(size)
            self._show()
            stop, size = stop or self._standing(), min(2 * size, _MOST)
        return stop

    def _is_lost(self) -> bool:
        """Whether the next step is a trap without a handler, where that is looked for: a run may have come to it by others before."""
        return self.asked.stop != "never" and self.machine.next_ends is Stop.TRAP and not entry_is_fetched(self.machine)

    def _on(self, most: int) -> Optional[str]:
        """On at the library's speed. Where a trap has no handler, every later step is a trap: so it is looked for in a run that ends before
        one, from where it began."""
        begin = self.replay.n
        if self.asked.stop == "unhandled":
            self.replay.keep()
        self.replay.run_to(most, sorted(self.breaks))
        if not self._is_lost():
            return None
        end = self.replay.n
        self.replay.go_to(begin)
        return self._on_careful(end - begin)

    def _on_careful(self, most: int) -> Optional[str]:
        """On, with a look at each step that may be a trap to stop before."""
        end, told = self.replay.n + most, sorted(self.breaks)
        while self.replay.n < end:
            stop = self.replay.run_to(end - self.replay.n, told, ends=True)
            if stop in (Stop.ADDRESS, Stop.HALTED):
                return None
            if stop is not Stop.STEPS:
                before = self._before_trap()
                if before:
                    return before
                self.replay.step()
                if self._standing():
                    return None
        return self._before_trap()

    def _on_watched(self, most: int) -> Optional[str]:
        """On, with a look at watched bytes after each step."""
        begin, end = self.replay.n, self.replay.n + most
        if self.asked.stop != "trap":
            self.replay.keep()
            changed = self.replay.run_watched(most, sorted(self.breaks), sorted(self.watches))
            if changed:
                return f"T05watch:{changed[0]:x};"
            if not self._is_lost():
                return None
            end = self.replay.n
            self.replay.go_to(begin)
        while self.replay.n < end:
            stop = self._one()
            if stop:
                return stop
        return None

    def _back(self, one: bool) -> str:
        """Back by a step, or to the last breakpoint or watched change before."""
        self._told = None
        if self.replay.n <= self.replay.begin:
            return "T05replaylog:begin;"
        if one:
            self.replay.go_to(self.replay.n - 1)
            return "T05"
        found = self.replay.back_to(sorted(self.breaks), sorted(self.watches))
        if found is None:
            return "T05replaylog:begin;"
        return f"T05watch:{found[1][0]:x};" if found[1] else "T05swbreak:;"


def _standard() -> Wire:
    """The wire over standard input and output."""
    def read(wait: bool) -> Optional[bytes]:
        if not wait and not select.select([0], [], [], 0)[0]:
            return b""
        return os.read(0, 65536) or None

    def write_all(data: bytes) -> None:
        while data:
            data = data[os.write(1, data):]

    return Wire(read, write_all)


def _schedule(asked: argparse.Namespace) -> Schedule:
    """That of `cherisim run` where one of its options is given, else none."""
    if all(it is None for it in (asked.input, asked.gap, asked.tick)):
        return Schedule()
    data = b""
    if asked.input is not None:
        with open(asked.input, "rb") as file:
            data = file.read()
    return Schedule(data, 1000 if asked.gap is None else asked.gap, 100 if asked.tick is None else asked.tick)


def parser() -> argparse.ArgumentParser:
    """The command line."""
    made = argparse.ArgumentParser(prog="python3 -m cherisim.gdb", description=(__doc__ or "").splitlines()[0])
    made.add_argument("file", help="an image, or a text in the assembly language whose name ends in .s")
    made.add_argument("--symbols", help="a table of labels for `monitor`, as `cherisim asm --symbols` and `nm` write it")
    made.add_argument("--lines", help="a table of lines of the source for it, as `cherisim asm --lines` and `nm -l` write it")
    made.add_argument("--input", help="a file whose bytes come on the console's line")
    made.add_argument("--gap", type=int, help="steps between two of its bytes (1000)")
    made.add_argument("--tick", type=int, help="steps between two ticks of the timer, 0 for none (100)")
    made.add_argument("--stop", choices=STOPS, default="unhandled", help="before which traps a run stops")
    made.add_argument("--halt", choices=HALTS, default="exit", help="whether the halt ends the process")
    made.add_argument("--caps", choices=SHAPES, default="fields", help="how capability registers are described")
    return made


def main(given: Optional[Sequence[str]] = None) -> int:
    """Talks up to the end; 1 where the file is refused."""
    asked = parser().parse_args(given)
    try:
        machine = opened(asked.file, asked.symbols, asked.lines)
        replay = Replay(machine, _schedule(asked))
    except (CherisimError, OSError) as error:
        print(f"cherisim.gdb: {asked.file}: {error}", file=sys.stderr)
        return 1
    Bridge(replay, _standard(), Asked(asked.stop, asked.halt, asked.caps)).talk()
    return 0


if __name__ == "__main__":
    sys.exit(main())
