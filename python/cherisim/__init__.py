"""A CHERI-RISC-V machine whose running code is proved, for Python: libcherisim by ctypes.

    >>> from cherisim import Cap, Machine
    >>> machine = Machine(text="csetboundsimm ca0, ca0, 16")
    >>> machine.regs["ca0"] = Cap.root(0x80000100)
    >>> machine.step()
    b''
    >>> machine.regs["ca0"].length
    16

A machine stays on the thread that made it: a call from another one raises WrongThread. Machines share nothing, so each thread may have
some of its own. What the library does is proved; this module is only tested.

The library is found by the environment's CHERISIM_LIB, else beside this module, else where `make -C c` leaves it, else by its name.
"""
from __future__ import annotations

import enum
from ctypes import byref, c_bool, c_size_t, c_uint32, c_uint64, create_string_buffer, pointer
from threading import get_ident
from typing import Any, Collection, Iterator, List, NamedTuple, Optional, Sequence, Tuple, Union

from . import _library as c
from ._caps import Cap, Insn, Perms, decode, disassemble, encode, execute
from ._faults import (CherisimError, Closed, ImageFault, OutOfMemory, OutOfRange, Pastless, PolicyFault, Remembered, SymbolsFault,
                      TextFault, WrongThread, in_range, refusal)
from ._html import machine_html
from ._library import NULL_UPPER, SENTRY, UNSEALED, lib
from ._names import _SHOWN, CSRS, PAGE, RAM, REGISTERS, SCRS
from ._policy import _PARTS, Breach, Policy, Proof, Watched, found_in
from ._reach import Answer, Door, Questions, Reach, ReachMember
from ._symbols import Symbols, labels_of
from ._views import Memory, Registers, SpecialRegisters, StatusRegisters, _value

__version__ = "0.1.0"
__all__ = ["Answer", "Breach", "CSRS", "Call", "Cap", "CherisimError", "Closed", "Console", "Door", "ImageFault", "Insn", "Link", "Machine",
           "Memory", "NULL_UPPER", "OutOfMemory", "OutOfRange", "PAGE", "Pastless", "Perms", "Policy", "PolicyFault", "Proof", "RAM",
           "REGISTERS", "Ran", "Reach", "ReachMember", "Registers", "Remembered", "Replay", "SCRS", "SENTRY", "Schedule",
           "SpecialRegisters", "StatusRegisters", "Stop", "Symbols", "SymbolsFault", "TextFault", "Timer", "UNSEALED", "Watched",
           "WrongThread", "decode", "disassemble", "encode", "execute"]

_PLACES = ((*_SHOWN, *tuple(SCRS)[:2]), tuple(SCRS)[2:])  # where members are found: registers, and special registers
_ROOM = {"sent": 65536, "text": 4096, "reach": 64}  # the room of a buffer, which a call may need more than once
_BUFFER, _FULL = c.CONSTANTS["BUFFER"], c.CONSTANTS["FULL"]


# ---- what a run answers, and what devices hold

class Stop(enum.IntEnum):
    """Why a run stopped, or why the next step would end a stretch."""

    STEPS = 0
    """All steps were done."""
    HALTED = 1
    """The machine is halted."""
    ADDRESS = 3
    """PCC has the address."""
    TRAP = 4
    """The next step traps, or takes an interrupt."""
    UNSEAL = 5
    """The next step unseals a capability."""
    SEALED_JUMP = 6
    """The next step is a CInvoke, or a jump or a return through a sentry."""


_ENDS = frozenset((Stop.TRAP, Stop.UNSEAL, Stop.SEALED_JUMP))  # what ends a stretch


class Ran(NamedTuple):
    """What a run did: how many steps, which bytes it sent, why it stopped, and the number that the machine is halted with, or None."""

    steps: int
    sent: bytes
    stop: Stop
    halted: Optional[int]


class Timer(NamedTuple):
    """The timer: its ticks, and those from which on it interrupts."""

    mtime: int
    mtimecmp: int


class Console(NamedTuple):
    """The console: the bytes that wait, the oldest first, whether one was lost, and whether a byte that waits interrupts."""

    waiting: bytes
    overrun: bool
    control: bool


def _reach_of(members: Sequence[c.Member], doors: Sequence[c.Door] = ()) -> Reach:
    """A reach, of what C gives."""
    numbers = {(member.kind, member.place): number for number, member in enumerate(members)}
    opened = [Door(numbers[it.sealed_kind, it.sealed], numbers[it.key_kind, it.key]) for it in doors]
    registers = (*_PLACES[0], *opened)

    def where(member: c.Member) -> Union[str, int, Door]:
        return (registers, _PLACES[1])[member.kind][member.place] if member.kind < len(_PLACES) else member.place

    return Reach(ReachMember(number, Cap._of(member.value), where(member), member.from_ if member.kind else None)
                 for number, member in enumerate(members))


# ---- machines

class Machine(Questions):
    """A machine in the opening state of an image's bytes, or of the image of a text in the assembly language.

        Machine(Path("hello.img").read_bytes())
        Machine(text=Path("hello.s").read_text())
        Machine.flat(words, entry=0x80000000)

    `symbols` is a table of labels, or its text; a machine of a text has those of the text. A label can stand where an address can.

    With `past` it remembers what it is given: steps, ticks and bytes, each of them an event. Then `origin`, `lost` and `back` ask of them;
    what writes to it between two events raises Remembered.

    Raises ImageFault, TextFault, SymbolsFault or OutOfMemory. It is freed with the object, or by close(), or after a `with`.
    """

    sent: bytearray
    """All bytes that were sent so far."""
    _handle: c.Handle
    _at: Any
    _thread: int
    _symbols: Union[None, Symbols, bytes]
    _past: Optional[Past]

    def __new__(cls, *_given: object, **_named: object) -> Machine:
        machine = super().__new__(cls)
        machine._handle = c.Handle()
        machine._at = pointer(machine._handle)
        machine._thread = get_ident()
        machine.sent, machine._symbols, machine._past = bytearray(), None, None
        return machine

    def __init__(self, image: Optional[bytes] = None, *, text: Union[str, bytes, None] = None,
                 symbols: Union[None, Symbols, str] = None, past: bool = False) -> None:
        if (image is None) == (text is None):
            raise TypeError("a machine is made of an image or of a text")
        self._symbols = Symbols.read(symbols) if isinstance(symbols, str) else symbols
        line, status = c_uint64(), 0
        if text is not None:
            data = text.encode() if isinstance(text, str) else bytes(text)
            self._symbols = data if symbols is None else self._symbols
            status = lib.cherisim_assemble(data, len(data), self._at, byref(line))
        elif image is not None:
            data = bytes(memoryview(image))
            status = lib.cherisim_new(data, len(data), self._at)
        if status:
            raise refusal(status, "Machine", line.value)
        if past:
            self._past = Past(data if text is None else image_of(data))

    @classmethod
    def flat(cls, data: bytes, address: int = RAM, entry: Optional[int] = None, pages: int = 1, capability_mode: bool = False,
             symbols: Union[None, Symbols, str] = None) -> Machine:
        """The machine of these bytes at an address, which is also where it begins where no entry is given."""
        machine, data, entry = cls.__new__(cls), bytes(memoryview(data)), address if entry is None else entry
        for what, number, bits in (("address", address, 64), ("entry", entry, 64), ("number of pages", pages, 32)):
            in_range(what, number, bits)
        status = lib.cherisim_new_flat(data, len(data), address, entry, pages, capability_mode, machine._at)
        if status:
            raise refusal(status, "Machine.flat")
        machine._symbols = Symbols.read(symbols) if isinstance(symbols, str) else symbols
        return machine

    def copy(self) -> Machine:
        """A machine in the same state, with the same bytes sent; from here on the two share nothing."""
        other = type(self).__new__(type(self))
        self._do(lib.cherisim_copy, other._at)
        other.sent[:], other._symbols = self.sent, self._symbols
        other._past = self._past and self._past.copy()
        return other

    __copy__ = copy

    def __deepcopy__(self, _memo: object) -> Machine:
        return self.copy()

    def close(self) -> None:
        """Frees the machine: every later call raises Closed. A second time changes nothing."""
        self._own()
        lib.cherisim_free(self._at)

    def __enter__(self) -> Machine:
        return self

    def __exit__(self, *_how: object) -> None:
        self.close()

    def __del__(self, _free: Any = lib.cherisim_free, _ident: Any = get_ident) -> None:
        # one that ends on another thread than its own is not freed: the library doesn't allow it
        if _ident() == self._thread:
            _free(self._at)

    def _own(self) -> None:
        if get_ident() != self._thread:
            raise WrongThread("a machine stays on the thread that made it")

    def _do(self, call: Any, *given: Any) -> None:
        """A call of the library, whose first argument is the machine."""
        self._own()
        if self._past is not None and call in WRITES:
            raise Remembered(Remembered.__doc__)
        status = call(self._at, *given)
        if status:
            raise refusal(status, call.__name__)

    # ---- events

    def step(self, n: int = 1) -> bytes:
        """n steps: each an interrupt, an instruction or a trap. Answers the bytes that they send; a halted machine ignores them."""
        if n != 1:
            return self.run(n).sent
        sent = c.Sent()
        self._do(lib.cherisim_step, byref(sent))
        self._note(STEPS, 1)
        if not sent.sends:
            return b""
        self.sent.append(sent.byte)
        return bytes([sent.byte])

    def tick(self, n: int = 1) -> None:
        """n ticks of the timer."""
        for _ in range(n):
            self._do(lib.cherisim_tick)
            self._note(TICKS, 1)

    def receive(self, data: bytes) -> None:
        """Bytes come on the console's line, one after the other. 64 may wait; what comes while so many do is lost."""
        for byte in bytes(memoryview(data)):
            self._do(lib.cherisim_receive, byte)
            self._note(BYTE, byte)

    def run(self, steps: int, until: Union[None, str, int, Collection[Stop]] = None, *, tick: int = 0, input: bytes = b"",
            gap: int = 1000) -> Ran:
        """Runs so many steps at most, as `cherisim run` does, and answers what was done.

        A byte of the input comes just before each step with a number 1 + i * gap, and a tick after each step whose number is a
        multiple of `tick` (0: none). Steps are counted anew in each call. Nothing comes after the step that halts the machine.

        With an address or a label as `until` the run stops before a step whose PCC has it; with "trap" before a step that traps, unseals a
        capability, or jumps through a seal: what it leaves is the state before that step. (A label of that name is `symbols["trap"]`.) With
        Stop.TRAP, Stop.UNSEAL or Stop.SEALED_JUMP, or a tuple of these, it stops before a step of such a kind alone, and looks at each end
        of a stretch for it.
        """
        if gap < 1:
            raise OutOfRange(f"no gap {gap}")
        in_range("number of steps", steps, 64)
        in_range("tick", tick, 64)
        asked = c.Asked(tick=tick)
        wanted: Collection[Stop] = _ENDS if until == "trap" else {until} if isinstance(until, Stop) else ()
        if isinstance(until, (str, int)) and not wanted:
            asked.address, asked.at_address = self.address_of(until), True
        elif until is not None:
            wanted, asked.at_end = wanted or {*until}, True
            if not _ENDS.issuperset(wanted):
                raise ValueError(f"no step is one of {until!r}")
            asked.doors = Stop.SEALED_JUMP not in wanted
        began, done = len(self.sent), 0
        for byte, mark in zip(bytes(memoryview(input)), range(0, steps, gap)):
            done, stop = self._run_to(asked, done, mark, wanted)
            if done < mark or self.halted is not None:
                break
            self.receive(bytes([byte]))
        done, stop = self._run_to(asked, done, steps, wanted)
        return Ran(done, bytes(self.sent[began:]), stop, self.halted)

    def changed(self, where: Union[str, int], steps: int) -> Optional[int]:
        """Steps while a register, a special register or a granule holds what it holds, tag and all: so many at most. Answers how many there
        were up to the one that changed it, or None where none did."""
        in_range("number of steps", steps, 64)
        place, stepped, done, before = place_for(where, self.address_of), c.Stepped(), 0, self._held(where)
        while True:
            self._do(lib.cherisim_step_while_held, steps - done, byref(place), byref(stepped))
            self._note(STEPS, stepped.steps)
            done += stepped.steps
            if stepped.sent.sends:
                self.sent.append(stepped.sent.byte)
            if self._held(where) != before:
                return done
            if not stepped.sent.sends:
                return None

    def _held(self, where: Union[str, int]) -> Cap:
        """What a place holds: a register before a special register before a granule."""
        return self.regs[where] if where in REGISTERS else self.scrs[where] if where in SCRS else self.cap_at(where)

    def run_turn(self, steps: int, *, tick: int = 0, input: bytes = b"", gap: int = 1000) -> Ran:
        """The same up to the first step that traps or unseals a capability: through sealed jumps, up to where answers with `doors` hold."""
        return self.run(steps, (Stop.TRAP, Stop.UNSEAL), tick=tick, input=input, gap=gap)

    def trace(self, steps: int, *, tick: int = 0, input: bytes = b"", gap: int = 1000) -> str:
        """Runs so many steps at most, and answers a line for each, as `cherisim run --trace` writes it (docs/TRACE.md), with the machine's
        labels."""
        if gap < 1:
            raise OutOfRange(f"no gap {gap}")
        in_range("number of steps", steps, 64)
        in_range("tick", tick, 64)
        lines, asked, data = [], c.Asked(tick=tick), bytes(memoryview(input))
        for done in range(steps):
            if self.halted is not None:
                break
            if done % gap == 0 and done // gap < len(data):
                self.receive(data[done // gap:done // gap + 1])
            lines.append(self._trace_line(done + 1, self.symbols) + "\n")
            self._run_to(asked, done, done + 1)
        return "".join(lines)

    def _trace_line(self, number: int, symbols: Symbols) -> str:
        """The line of a trace for the next step, as that of step `number`, with labels and the line of a source: empty where it is halted.
        """
        table = symbols.table()
        line = self._text(lib.cherisim_trace, table, len(table), c_uint64(number), line=c_uint64())
        return line and line[:-1] + symbols.line(self.pc)

    def watch(self, policy: Union[Policy, str], steps: int, *, tick: int = 0, input: bytes = b"", gap: int = 1000) -> Watched:
        """Runs so many steps at most, as `cherisim run --policy` does: up to the first before which a reachable capability breaks a rule
        that applies. Up to there, it is proved, the rules are kept. A text as the policy may name the machine's labels."""
        policy, timetable, data = self._policed(policy, steps, tick, gap), c.Timetable(steps, gap, tick), bytes(memoryview(input))
        found = self._breach(policy, timetable, data)
        ran = self.run(found.step - 1 if found.found else steps, tick=tick, input=data, gap=gap)
        if not found.found:
            return Watched(ran, None)
        if ran.steps % gap == 0 and ran.steps // gap < len(data):
            self.receive(data[ran.steps // gap:ran.steps // gap + 1])
        return Watched(ran, self._shown_breach(found))

    def audit(self, policy: Union[Policy, str], steps: int, *, tick: int = 0, input: bytes = b"", gap: int = 1000) -> List[Breach]:
        """Each part of a rule that is broken in a run, with the first step before which it is, as `cherisim audit` tells them. The machine
        stays as it is."""
        policy, timetable, data = self._policed(policy, steps, tick, gap), c.Timetable(steps, gap, tick), bytes(memoryview(input))
        told = self._text(lib.cherisim_audit, policy.text, len(policy.text), policy.labels, len(policy.labels), byref(timetable), data,
                          len(data), line=c_uint64())
        found, run = [], Replay(self.copy(), Schedule(data, gap, tick))
        for step, line, part, where in found_in(told):
            run.go_to(step - 1)
            reach = run.machine.reach()
            found.append(Breach.by(step, line, part, reach, next(it.number for it in reach if it.where == where)))
        return found

    def prove(self, policy: Union[Policy, str], steps: int = 10**6) -> Proof:
        """Whether it is shown of every run from here on, over any steps, ticks and bytes and with any code where the policy says so, that it
        keeps to the policy; of the machine's own code at most so many steps are done, on a copy (docs/PROVE.md)."""
        in_range("number of steps", steps, 64)
        policy, shown = self._policed(policy, 0, 0, 1), c_bool()
        told = self._text(lib.cherisim_prove, policy.text, len(policy.text), policy.labels, len(policy.labels), c_uint64(steps), byref(shown),
                          line=c_uint64())
        return Proof(shown.value, told)

    def _policed(self, policy: Union[Policy, str], steps: int, tick: int, gap: int) -> Policy:
        """A policy that is given as itself or as a text, where the numbers of a run are in range."""
        for what, number in (("number of steps", steps), ("tick", tick), ("gap", gap)):
            in_range(what, number, 64)
        return policy if isinstance(policy, Policy) else Policy.read(policy, self.symbols)

    def _shown_breach(self, found: c.Breach) -> Breach:
        """A breach, of the state before its step."""
        return Breach.by(found.step, found.line, _PARTS[found.part], self.reach(), found.member)

    def _breach(self, policy: Policy, timetable: c.Timetable, data: bytes) -> c.Breach:
        """Where a policy stops a run, as C gives it."""
        found, line = c.Breach(), c_uint64()
        self._own()
        status = lib.cherisim_watch(self._at, policy.text, len(policy.text), policy.labels, len(policy.labels), byref(timetable), data,
                                    len(data), byref(found), byref(line))
        if status:
            raise refusal(status, "cherisim_watch", line.value)
        return found

    def _run_to(self, asked: c.Asked, done: int, mark: int, wanted: Collection[Stop] = _ENDS) -> Tuple[int, Stop]:
        """Runs from a number of steps to another, and answers where it came to, and why it stopped: of ends of a stretch at those that are
        wanted alone."""
        ran, room = c.Ran(), create_string_buffer(max(1, min(mark - done, _ROOM["sent"])))
        while True:
            asked.steps, asked.before = mark - done, done
            self._do(lib.cherisim_run, byref(asked), room, len(room), byref(ran))
            if self._past is not None:
                self._past.note_run(ran.steps, asked.tick, done, len(self.sent), lambda: self.halted is not None)
            self.sent += room[:ran.sent]
            done += ran.steps
            if ran.stop in _ENDS and ran.stop not in wanted:
                asked.at_end = False
                done, _ = self._run_to(asked, done, done + 1)
                asked.at_end = True
            elif ran.stop != _BUFFER:
                return done, Stop(ran.stop)

    # ---- what it was given, where it remembers

    def _note(self, kind: int, number: int) -> None:
        """Notes what was given."""
        if self._past is not None:
            self._past.note(kind, number, len(self.sent))

    def _remembered(self) -> Past:
        """What was given. Raises Pastless where that isn't remembered."""
        self._own()
        if self._past is None:
            raise Pastless(Pastless.__doc__)
        return self._past

    @property
    def events(self) -> int:
        """How many events there were, as the debugger's `ago` counts them: steps, ticks and bytes."""
        return self._remembered().events

    def back(self, events: int = 1) -> None:
        """Takes back the last events, with what they sent. Raises OutOfRange where there were fewer."""
        past = self._remembered()
        if not 0 <= events <= past.events:
            raise OutOfRange(f"no {events} events back: there were {past.events}")
        past.back(events, self._at)
        sent, since = past.keep(past.events - events)
        if len(self.sent) > sent and since:
            other = type(self).__new__(type(self))
            past.back(sum(1 if kind == BYTE else number for kind, number in since), other._at)
            other._give(since)
            sent += len(other.sent)
        del self.sent[sent:]

    def _give(self, given: Sequence[Tuple[int, int]]) -> None:
        """Gives what was noted."""
        for kind, number in given:
            if kind == STEPS:
                self._run_to(c.Asked(), 0, number)
            elif kind == TICKS:
                self.tick(number)
            else:
                self.receive(bytes([number]))

    def origin(self, where: Union[str, int], most: Optional[int] = 64) -> List[Link]:
        """What the value in a register, a special register or a granule was made of, the newest step first, down to a number or data, or to
        the opening state. A step has its number among all events. So many links at most, or all where `most` is None: each goes over the
        past once."""
        return self._remembered().links(lib.cherisim_origin_links, place_for(where, self.address_of), most)

    def lost(self, where: Union[str, int], most: Optional[int] = 64) -> List[Link]:
        """Where the tag of what stands there went, the newest step first: down to the first whose source had its tag. Where the steps end in
        data, the one that overwrote a tag; or, where double words were copied from a tagged capability, their stores, each with the granule
        that it comes from. So many links at most, or all where `most` is None."""
        return self._remembered().links(lib.cherisim_lost_links, place_for(where, self.address_of), most)

    def origin_text(self, where: Union[str, int]) -> str:
        """The same as the debugger's `origin` shows it, with the machine's labels."""
        return self._remembered().text(lib.cherisim_origin, place_for(where, self.address_of), self.symbols.table())

    def lost_text(self, where: Union[str, int]) -> str:
        """Where the tag went, and why, as the debugger's `lost` shows it, with the machine's labels."""
        return self._remembered().text(lib.cherisim_lost, place_for(where, self.address_of), self.symbols.table())

    # ---- what it holds

    @property
    def regs(self) -> Registers:
        """The general registers: `regs["ca0"]`, `regs[10]`."""
        return Registers(self)

    @property
    def scrs(self) -> SpecialRegisters:
        """The special capability registers: `scrs["pcc"]`."""
        return SpecialRegisters(self)

    @property
    def csrs(self) -> StatusRegisters:
        """The control and status registers: `csrs["mcause"]`."""
        return StatusRegisters(self)

    @property
    def mem(self) -> Memory:
        """RAM: `mem[0x80000000]`, `mem[0x80000000:0x80000010]`."""
        return Memory(self)

    @property
    def pc(self) -> int:
        """PCC's address. One that is put there is set as CSetAddr sets it: where PCC's bounds would change, its tag goes."""
        return self.scrs["pcc"].address

    @pc.setter
    def pc(self, address: int) -> None:
        self.scrs["pcc"] = self.scrs["pcc"].set_address(address)

    @property
    def symbols(self) -> Symbols:
        """The labels: those that were given, or those of the text that the machine was made of."""
        if isinstance(self._symbols, bytes):
            self._symbols = labels_of(self._symbols.decode("ascii"))
        return Symbols() if self._symbols is None else self._symbols

    def address_of(self, where: Union[int, str]) -> int:
        """An address as it is, or that of a label. Raises OutOfRange where there is none."""
        if isinstance(where, str):
            return self.symbols[where]
        in_range("address", where, 64)
        return where

    @property
    def pages(self) -> int:
        """How many pages of 4096 bytes RAM has."""
        value = c_uint32()
        self._do(lib.cherisim_pages, byref(value))
        return value.value

    def cap_at(self, address: Union[int, str]) -> Cap:
        """The granule of 16 bytes at a multiple of 16."""
        value = c.Cap()
        self._do(lib.cherisim_read_cap, self.address_of(address), byref(value))
        return Cap._of(value)

    def set_cap(self, address: Union[int, str], value: Union[Cap, int]) -> None:
        """Puts a value and its tag into the granule at a multiple of 16."""
        self._do(lib.cherisim_write_cap, self.address_of(address), _value(value))

    def tags(self) -> Iterator[int]:
        """The addresses of the tagged granules of RAM, in ascending order."""
        at = c_uint64(RAM - 1)
        while True:
            try:
                self._do(lib.cherisim_next_tagged, at.value + 1, byref(at))
            except OutOfRange:
                return
            yield at.value

    @property
    def halted(self) -> Optional[int]:
        """The number that the machine is halted with, or None."""
        value = c.Halted()
        self._do(lib.cherisim_halted, byref(value))
        return value.number if value.halted else None

    @property
    def time(self) -> Timer:
        """The timer."""
        value = c.Timer()
        self._do(lib.cherisim_timer, byref(value))
        return Timer(value.mtime, value.mtimecmp)

    @property
    def console(self) -> Console:
        """The console; looking takes no byte."""
        value, queue = c.Console(), create_string_buffer(64)
        self._do(lib.cherisim_console, queue, byref(value))
        return Console(queue.raw[:value.waiting], value.overrun, value.control)

    # ---- questions

    @property
    def next_ends(self) -> Optional[Stop]:
        """TRAP, UNSEAL or SEALED_JUMP, where the next step would be one; else None."""
        why = c_uint32()
        self._do(lib.cherisim_next_ends, byref(why))
        return Stop(why.value) if why.value else None

    def _text(self, call: Any, *given: Any, line: Optional[c_uint64] = None) -> str:
        """The text of a call that takes a buffer, its room, where it puts the length, which is what the text takes where it is too long,
        and where it puts the number of a faulty line, if it reads lines."""
        room, length, faulty = create_string_buffer(_ROOM["text"]), c_size_t(), () if line is None else (byref(line),)
        self._own()
        status = call(self._at, *given, room, len(room), byref(length), *faulty)
        if status == _FULL:
            room = create_string_buffer(length.value)
            status = call(self._at, *given, room, len(room), byref(length), *faulty)
        if status:
            raise refusal(status, call.__name__, line.value if line else 0)
        return room.raw[:length.value].decode("ascii")

    def why(self) -> str:
        """What the next step will do, and why, as the debugger's command `why` shows it."""
        return self._text(lib.cherisim_why)

    def _all(self, call: Any, kind: Any) -> Any:
        """What a call puts into a buffer of these structures, whose count it gives where there is no room for all."""
        count, status = c_size_t(_ROOM["reach"]), _FULL
        self._own()
        while status == _FULL:
            room = (kind * count.value)()
            status = call(self._at, room, len(room), byref(count))
        if status:
            raise refusal(status, call.__name__)
        return room[:count.value]

    def reach(self, doors: bool = False) -> Reach:
        """What the code that runs from here on can come to hold, whatever its instructions are, up to the next trap, unsealing or sealed
        jump: the members of docs/AUTHORITY.md's *reachable*, as the debugger's command `reach members` shows them. With `doors`, what it
        can come to hold through sealed jumps up to the next trap or unsealing."""
        if doors:
            return _reach_of(self._all(lib.cherisim_reach_through_doors, c.Member), self._all(lib.cherisim_doors, c.Door))
        return _reach_of(self._all(lib.cherisim_reach, c.Member))

    def _repr_html_(self) -> str:
        return machine_html(self)

    def __repr__(self) -> str:
        state = "closed" if not self._handle.at else "on another thread" if get_ident() != self._thread else (
            f"pc {self.pc:#x} " + ("running" if self.halted is None else f"halted {self.halted}"))
        return f"<Machine {state}>"


from ._backtrace import Call  # which are made of this module
from ._origins import Link
from ._past import BYTE, STEPS, TICKS, WRITES, Past, image_of, place_for
from ._replay import Replay, Schedule
