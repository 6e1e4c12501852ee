"""A machine with its past: steps have numbers, and any of them can be gone back to, since a run is a function of where it begins and of
what comes."""
from __future__ import annotations

from ctypes import byref
from typing import Dict, List, NamedTuple, Optional, Sequence, Tuple, Union

from . import Machine, OutOfRange, Stop
from . import _library as c
from ._library import lib
from ._backtrace import Call, open_calls
from ._origins import Link, links, lost_links
from ._past import STEPS

_EVERY = 5_000_000  # steps between two states that are kept
_KEPT, _BYTES = 32, 1 << 28  # states that are kept at most, and bytes of RAM in them: then every second one goes
_SPAN = 2000        # steps that are looked at first for the last stop; then ever more
_UNASKED = 64       # steps with a look at watched bytes before each, until it is asked again whether code can store there; then ever more
_FAR = 1 << 62

Range = Tuple[int, int]
"""Bytes of RAM: the address of the first, and how many."""


class Schedule(NamedTuple):
    """What comes beside the steps: byte i of the input just before step 1 + i * gap, and a tick after each step whose number is a multiple
    of `tick` (0: none)."""

    input: bytes = b""
    gap: int = 1000
    tick: int = 0


class Replay:
    """A machine after `n` steps of its run, each with what comes beside it; the byte that comes before step n + 1 has come."""

    machine: Machine
    n: int

    def __init__(self, machine: Machine, schedule: Schedule = Schedule()) -> None:
        if schedule.gap < 1:
            raise OutOfRange(f"no gap {schedule.gap}")
        self.machine, self.schedule, self.n = machine, schedule, 0
        self._bring()
        self._opening = machine.copy()
        self._kept: Optional[Dict[int, Machine]] = {0: self._opening}
        self._most = max(2, min(_KEPT, _BYTES // len(machine.mem)))

    def fork(self, at: Optional[int] = None) -> Replay:
        """The same of a copy of the machine, as it stands or after an earlier step; it has no past."""
        other = Replay.__new__(Replay)
        machine, n = (self.machine, self.n) if at is None else self._near(at)
        other.machine, other.schedule, other.n, other._kept = machine.copy(), self.schedule, n, None
        other.run(0 if at is None else at - n)
        return other

    # ---- forwards

    def _bring(self) -> None:
        at, apart = divmod(self.n, self.schedule.gap)
        if not apart and at < len(self.schedule.input) and self.machine.halted is None:
            self.machine.receive(self.schedule.input[at:at + 1])

    def _stand(self) -> None:
        """What comes where a step is done: the byte before the next one, and a state to keep."""
        self._bring()
        if self._kept is not None and not self.n % _EVERY:
            self.keep()

    def _next(self) -> int:
        """Up to which step the machine may run at once: up to the next byte of the input or the next state to keep."""
        gap, byte = self.schedule.gap, self.n // self.schedule.gap + 1
        kept = (self.n // _EVERY + 1) * _EVERY if self._kept is not None else _FAR
        return min(byte * gap if byte < len(self.schedule.input) else _FAR, kept)

    def run(self, most: int, until: Optional[int] = None, ends: bool = False) -> Stop:
        """Runs so many steps at most, and answers why it stopped: before a step whose PCC has the address, or where `ends` is set before
        one that ends a stretch."""
        asked, end = c.Asked(tick=self.schedule.tick, at_end=ends), self.n + most
        if not most:
            return Stop.STEPS
        if until is not None:
            asked.address, asked.at_address = until, True
        while True:
            mark = min(end, self._next())
            self.n, stop = self.machine._run_to(asked, self.n, mark)
            if self.n < mark or self.machine.halted is not None:
                return stop
            self._stand()
            if self.n == end:
                return stop

    def run_to(self, most: int, stops: Sequence[int], ends: bool = False) -> Stop:
        """The same of several addresses. A run of the library looks for one: the others are tried on copies, each up to the nearest so far.
        """
        for address in stops[1:]:
            other = self.fork()
            other.run(most, address, ends)
            most = min(most, other.n - self.n)
        return self.run(most, stops[0] if stops else None, ends)

    def step(self) -> None:
        """One step, with the tick after it."""
        if self.machine.halted is not None:
            return
        self.machine.step()
        self.n += 1
        if self.schedule.tick and not self.n % self.schedule.tick and self.machine.halted is None:
            self.machine.tick()
        self._stand()

    # ---- backwards

    def keep(self) -> None:
        """Keeps the state as it is, to come back to."""
        if self._kept is None or self.n in self._kept:
            return
        self._kept[self.n] = self.machine.copy()
        if len(self._kept) > self._most:
            for n in sorted(self._kept)[1::2]:
                del self._kept[n]

    @property
    def begin(self) -> int:
        """The first step number that can be gone back to."""
        return min(self._kept) if self._kept else self.n

    def _near(self, n: int) -> Tuple[Machine, int]:
        """The last state that is kept of those up to step n, and after which step it is."""
        assert self._kept is not None
        near = max(mark for mark in self._kept if mark <= n)
        return self._kept[near], near

    def go_to(self, n: int) -> None:
        """To after step n, forwards or backwards; back to `begin` at most."""
        machine, near = self._near(n)
        if not near <= self.n <= n:
            self.machine, self.n = machine.copy(), near
        if self.n < n:
            self.run(n - self.n)

    def number(self, step: int) -> int:
        """The number of a step among all events: bytes, steps and ticks."""
        before, (data, gap, tick) = step - 1, self.schedule
        return step + min(len(data), before // gap + 1) + (before // tick if tick else 0)

    def origin(self, where: Union[str, int]) -> List[Link]:
        """What the value in a register, a special register or a granule was made of, as the debugger's `origin` shows it: the last step
        that wrote it, then the last before that wrote its source, up to a number or data, or to what no remembered step wrote."""
        return links(self, where)

    def lost(self, where: Union[str, int]) -> List[Link]:
        """Where the tag of what stands there went, as the debugger's `lost` shows it: the steps down to the first whose source had its tag;
        where they end in double words that were copied from a tagged capability, their stores, each with the granule that it comes from."""
        return lost_links(self, where)

    def calls(self) -> List[Call]:
        """Who called whom and has not returned, as the debugger's `calls` shows it, the newest first."""
        return open_calls(self)

    def forget(self) -> None:
        """What was before can't be gone back to: after a write, which is no event."""
        self._kept = {self.n: self.machine.copy()}

    def restart(self) -> None:
        """To the opening state."""
        self.machine, self.n = self._opening.copy(), 0
        self._kept = {0: self._opening}

    # ---- stops

    def read(self, where: Range) -> Optional[bytes]:
        """Bytes of RAM, or None where some lie outside."""
        try:
            return self.machine.mem[where[0]:where[0] + where[1]]
        except OutOfRange:
            return None

    def run_watched(self, most: int, stops: Sequence[int], watched: Sequence[Range]) -> Optional[Range]:
        """Runs at least one step, and so many at most, up to one that changes watched bytes, whose range is the answer, or that comes to a
        stop or the halt."""
        held, end = [(it, self.read(it)) for it in watched], self.n + most
        while True:
            self.step()
            changed = self._changed(held)
            if changed or self.n == end or self.machine.halted is not None or self.machine.pc in stops:
                return changed
            quick = min(end, self._next() - 1) - self.n
            if quick > 0:
                changed = self._quickly(quick, stops, held)
                if changed or self.n == end or self.machine.halted is not None or self.machine.pc in stops:
                    return changed

    def _changed(self, held: Sequence[Tuple[Range, Optional[bytes]]]) -> Optional[Range]:
        """The first of some ranges whose bytes are others than these."""
        return next((it for it, old in held if self.read(it) != old), None)

    def _quickly(self, most: int, stops: Sequence[int], held: Sequence[Tuple[Range, Optional[bytes]]]) -> Optional[Range]:
        """The same of steps before which no byte comes. The library stops for one reason: the others are tried on copies, each up to the
        nearest so far."""
        if stops:
            other = self.fork()
            other.run_to(most, stops)
            most = other.n - self.n
        for it, old in held[1:]:
            other = self.fork()
            other._run_while(most, it, old or b"")
            most = other.n - self.n
        for it, old in held[:1]:
            self._run_while(most, it, old or b"")
        return self._changed(held)

    def _run_while(self, most: int, where: Range, held: bytes) -> None:
        """Runs so many steps at most, before which no byte comes, while RAM has these bytes. Where code can't store to them, they stay, as it
        is proved, up to what ends its stretch; elsewhere they are looked at before each step."""
        machine, stepped, end, tick = self.machine, c.Stepped(), self.n + most, self.schedule.tick
        answer, asked, span = c.Answer(), self.n, _UNASKED
        while self.n < end:
            if asked <= self.n:
                machine._do(lib.cherisim_may_store, *where, byref(answer))
                if not answer.may:
                    self.run(end - self.n, ends=True)
                span = 2 * span if answer.may else _UNASKED
                asked = self.n + span
            mark = min(end, asked, (self.n // tick + 1) * tick if tick else end)
            machine._do(lib.cherisim_step_while, mark - self.n, where[0], held, len(held), byref(stepped))
            machine._note(STEPS, stepped.steps)
            if not stepped.steps:
                return
            self.n += stepped.steps
            if stepped.sent.sends:
                machine.sent.append(stepped.sent.byte)
            if tick and self.n % tick == 0 and machine.halted is None:
                machine.tick()

    def _last_in(self, begin: int, end: int, stops: Sequence[int], watched: Sequence[Range]) -> Optional[Tuple[int, Optional[Range]]]:
        """The last place from `begin` on and before `end` that stands at a stop, or whose step changes watched bytes, with their range."""
        self.go_to(begin)
        last: Optional[Tuple[int, Optional[Range]]] = (begin, None) if self.machine.pc in stops else None
        while self.n < end and self.machine.halted is None:
            changed: Optional[Range] = None
            if watched:
                changed = self.run_watched(end - self.n, stops, watched)
            else:
                self.step()
                if self.n < end and self.machine.pc not in stops:
                    self.run_to(end - self.n, stops)
            if changed:
                last = self.n - 1, changed
            if self.n < end and self.machine.pc in stops:
                last = self.n, None
        return last

    def back_to(self, stops: Sequence[int], watched: Sequence[Range]) -> Optional[Tuple[int, Optional[Range]]]:
        """Goes back to the last place before this one that stands at a stop, or whose step changes watched bytes, and answers it; else to
        the beginning of the past, and None."""
        assert self._kept is not None
        end, span = self.n, _SPAN
        while end > self.begin:
            begin = max(self.begin, end - span)
            last = self._last_in(begin, end, stops, watched)
            if last:
                self.go_to(last[0])
                return last
            end, span = begin, min(8 * span, _EVERY)
        self.go_to(self.begin)
        return None
