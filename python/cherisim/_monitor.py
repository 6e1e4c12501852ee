"""The commands of the debugger that look at a machine, over the library: what GDB's `monitor` answers."""
from __future__ import annotations

import re
from typing import Callable, Dict, Iterable, Iterator, List, Optional, Tuple

from . import (CSRS, PAGE, RAM, REGISTERS, SCRS, SENTRY, UNSEALED, Cap, CherisimError, Door, Machine, OutOfRange, Perms, Reach, ReachMember,
               disassemble)
from ._backtrace import PASSAGES
from ._html import letters
from ._library import RESERVED
from ._objects import capability
from ._objects import line as _line
from ._origins import Place, Told, place_of
from ._replay import Replay
from ._symbols import NAME
from ._why import why_objects

_NO = {False: "no, until the next trap, unsealing or sealed jump\n", True: "no, until the next trap or unsealing\n"}  # through doors
_MOVES = ("step", "tick", "byte", "until", "trap", "go", "changed", "back")
_MOST = 100_000_000  # events, over which `origin` and `lost` are answered
_LONGEST = 255  # bytes of a line
_NUMBER = "-?[0-9]+|0x[0-9a-fA-F]+"
_ADDRESS = re.compile(f"({_NUMBER})|({NAME})(?:([+-])({_NUMBER}))?")
_BANKS = ("regs", "scr", "csr", "caps")
_QUESTIONS = {"store": (2,), "load": (2,), "execute": (2,), "learn": (2,), "keep": (0, 2), "send": (0,), "halt": (0,), "system": (0,),
              "timer": (0,), "hold": (1,)}  # how many operands each has
_ONES = (1 << 64) - 1
_RIGHTS = (("load", Perms.Load), ("load capabilities", Perms.Load | Perms.Load_Capability), ("store", Perms.Store),
           ("execute", Perms.Execute), ("seal", Perms.Seal), ("unseal", Perms.Unseal))
_DEVICES = (("halt", 0x100000), ("mtimecmp", 0x2004000), ("mtime", 0x200BFF8), ("transmit", 0x10000000), ("receive", 0x10000008),
            ("status", 0x10000010), ("control", 0x10000018))

HELP = """why                     what the next step will do, and why; why json: objects
regs, scr, csr          general, special capability, control and status registers
reg R                   a general or special register as a capability
caps                    the capabilities in RAM
mem ADDR [LEN]          bytes of RAM: 16, or at most 4096
dis [ADDR [N]]          words of RAM, or from PCC's address on, as instructions: 8, or at most 1024
reach, reach members    what the code that runs can come to hold, in sum and each; reach doors: through doors, too; reach dot: a graph; reach json: objects
origin R|ADDR           what a place's value was made of
lost R|ADDR             where its tag went
calls                   who called whom and has not returned
may store ADDR LEN      whether it may store there; load, execute, learn and keep likewise
may send                whether it may send a byte; halt, system and timer likewise
may hold TYPE           whether a member is sealed with an object type, or may seal with it
.. through doors        the same with all that sealed jumps lead to
ago                     how many steps were done
stops                   breakpoints and watchpoints
stop HOW                before which traps a run stops: unhandled, trap or never
help COMMAND            its line here; of B1, B2, B3, what they mean
B1, B2, B3              refused: no such command; its operands; a byte outside RAM
"""


class Fault(Exception):
    """A command is refused, by a code of the last line of HELP."""


def _number(word: str, least: int, most: int) -> int:
    """A number in a range."""
    if not re.fullmatch(_NUMBER, word) or not least <= int(word, 16 if "x" in word else 10) <= most:
        raise Fault("B2")
    return int(word, 16 if "x" in word else 10)


def _has(cap: Cap, needs: Perms) -> bool:
    """Whether a member of a reach has rights, which what is sealed has not."""
    return not cap.sealed and needs & cap.perms == needs


def _merged(ranges: Iterable[Tuple[int, int]]) -> Iterator[Tuple[int, int]]:
    """Ranges that lie apart, in ascending order, with the same addresses as these."""
    last: Optional[Tuple[int, int]] = None
    for begin, end in sorted(it for it in ranges if it[0] < it[1]):
        if last and begin <= last[1]:
            last = last[0], max(last[1], end)
            continue
        if last:
            yield last
        last = begin, end
    if last:
        yield last


class Monitor:
    """Answers commands about a machine with its past, with labels and lines of sources where it has them."""

    def __init__(self, replay: Replay) -> None:
        self._replay, self._symbols = replay, replay.machine.symbols
        self._answers: Dict[str, Callable[..., str]] = {
            "reg": self._reg, "mem": self._mem, "dis": self._dis, "reach": self._reach, "may": self._may, "why": self._why,
            "origin": lambda word: Told(replay, self._symbols).origin(self._past(word)),
            "lost": lambda word: Told(replay, self._symbols).lost(self._past(word)), "calls": self._calls, "help": self._help}

    @property
    def _machine(self) -> Machine:
        return self._replay.machine

    def answer(self, line: str) -> str:
        """The reply to a command; a refusal changes nothing."""
        word, *given = re.findall("[^ \t\r]+", line) or [""]
        if len(line) > _LONGEST or not line.isascii():
            return "fault B2\n"
        if word[:1] == "#":
            return ""
        if word in _MOVES:
            return "GDB's own commands move the machine\n"
        if word in _BANKS:
            return self._bank(word) if not given else "fault B2\n"
        try:
            return self._answers[word](*given) if word in self._answers else "fault B1\n"
        except Fault as fault:
            return f"fault {fault}\n"
        except (TypeError, ValueError, CherisimError):
            return "fault B2\n"

    def _help(self, word: str = "") -> str:
        found = [line for line in HELP.splitlines(keepends=True) if not word or word in re.findall(r"\w+", line[:24])]
        return "".join(found) or "fault B2\n"

    def _calls(self) -> str:
        """The calls that have not returned, a line each."""
        shown = self._symbols.shown
        return "".join(f"{self._replay.number(it.step)} {shown(it.source)} {PASSAGES[it.passage]} {shown(it.target)}, to return to "
                       f"{shown(it.back)}\n" for it in self._replay.calls()) or "no call is open\n"

    def _address(self, word: str) -> int:
        """An address: a number, a label, or so far from a label."""
        found = _ADDRESS.fullmatch(word)
        if not found:
            raise Fault("B2")
        if found[1]:
            return _number(word, 0, _ONES)
        far = _number(found[4] or "0", -1 << 63, _ONES)
        return _number(str(self._symbols[found[2]] + (-far if found[3] == "-" else far)), 0, _ONES)

    def _bank(self, word: str) -> str:
        m = self._machine
        rows: List[Tuple[str, object]] = []
        if word == "caps":
            rows = [(self._symbols.shown(at), m.cap_at(at)) for at in m.tags()]
        elif word == "csr":
            rows = [(name, f"{m.csrs[name]:016x}") for name in CSRS]
        else:
            rows = [*(m.regs if word == "regs" else m.scrs).items()]
        return "".join(f"{name} {value}\n" for name, value in rows)

    def _reg(self, name: str) -> str:
        if name in SCRS:
            return f"{name} {self._machine.scrs[name]}\n"
        if name not in REGISTERS:
            raise Fault("B2")
        regs = self._machine.regs
        return f"{list(regs)[REGISTERS[name]]} {regs[name]}\n"

    def _mem(self, address: str, length: str = "16") -> str:
        begin, count = self._address(address), _number(length, 1, 4096)
        try:
            data = self._machine.mem[begin:begin + count]
        except OutOfRange:
            raise Fault("B3") from None
        return "".join(f"{begin + n:016x}: {data[n:n + 16].hex(' ')}\n" for n in range(0, count, 16))

    def _dis(self, address: Optional[str] = None, words: str = "8") -> str:
        m = self._machine
        begin, count = m.pc if address is None else self._address(address), _number(words, 1, 1024)
        if begin % 4:
            raise Fault("B2")
        if not RAM <= begin <= begin + 4 * count <= RAM + m.pages * PAGE:
            raise Fault("B3")
        data, mode = m.mem[begin:begin + 4 * count], m.scrs["pcc"].flag
        text = ""
        for n in range(0, 4 * count, 4):
            word = int.from_bytes(data[n:n + 4], "little")
            text += f"{self._symbols.shown(begin + n)} {word:08x} {disassemble(word, mode)}{self._symbols.line(begin + n)}\n"
        return text

    def _why(self, what: str = "") -> str:
        if what not in ("", "json"):
            raise Fault("B2")
        return why_objects(self._machine, self._symbols) if what else self._machine.why()

    def _past(self, word: str) -> Place:
        """A place whose past is asked for."""
        where = word if word in REGISTERS or word in SCRS else self._address(word)
        if isinstance(where, int) and where % 16 or self._replay.number(self._replay.n) > _MOST:
            raise Fault("B2")
        try:
            return place_of(where, self._machine)
        except OutOfRange:
            raise Fault("B3") from None

    # ---- reach

    def _place(self, member: ReachMember) -> str:
        return member.where if isinstance(member.where, str) else self._symbols.shown(member.where) if isinstance(member.where, int) else ""

    def _place_in(self, reach: Reach, member: ReachMember) -> str:
        """The place of a member, or the door that leads to it."""
        return f"behind {self._place(reach[member.where.sealed])}" if isinstance(member.where, Door) else self._place(member)

    def _shown(self, value: Cap) -> str:
        return f"{letters(value.perms)} {value}"

    def _member(self, it: ReachMember) -> str:
        return f"{it.number} {self._place(it)}{'' if it.from_ is None else f' from {it.from_}'} {self._shown(it.value)}\n"

    def _object(self, it: ReachMember) -> str:
        """A member as an object of JSON (docs/JSON.md)."""
        granule = self._symbols.place(it.where) if isinstance(it.where, int) else None
        return _line({"member": it.number, "from": it.from_, "register": None if granule else self._place(it), "granule": granule,
                      "capability": capability(it.value)})

    def _reach(self, what: str = "") -> str:
        if what not in ("", "members", "dot", "json", "doors"):
            raise Fault("B2")
        reach = self._machine.reach(doors=what == "doors")
        if what == "dot":
            return self._graph(reach)
        if what == "members":
            return "".join(map(self._member, reach))
        if what == "json":
            return "".join(map(self._object, reach))
        kinds = ["door" if isinstance(it.where, Door) else "register" if it.from_ is None else "special" if it.where in SCRS else "memory"
                 for it in reach]
        opened = f", behind doors {kinds.count('door')}" if what else ""
        text = (f"members {len(reach)}: registers {kinds.count('register')}, special registers {kinds.count('special')}, "
                f"memory {kinds.count('memory')}{opened}, sealed {sum(it.value.sealed for it in reach)}\n")
        text += "".join(self._ranges(name, needs, reach) for name, needs in _RIGHTS[:4])
        devices = ((name, self._opens(reach, at, Perms.Load), self._opens(reach, at, Perms.Store)) for name, at in _DEVICES)
        lines = "".join(f"device {name} {'R' if loads else '-'}{'W' if stores else '-'}\n" for name, loads, stores in devices
                        if loads or stores)
        system = any(_has(it.value, Perms.Execute | Perms.Access_System_Registers) for it in reach)
        text += (lines or "device none\n") + f"system registers {'yes' if system else 'no'}\n"
        text += "".join(self._ranges(name, needs, reach) for name, needs in _RIGHTS[4:])
        return text + "".join(self._member(it) for it in reach if it.value.sealed)

    def _graph(self, reach: Reach) -> str:
        """A reach in the language of Graphviz: a node a member, an edge a link with its place; what is sealed is dashed."""
        text = "digraph reach {\n  rankdir=LR;\n  node [shape=box, fontname=monospace];\n  registers [shape=plaintext];\n"
        for it in reach:
            begin, dashed = "registers" if it.from_ is None else f"n{it.from_}", ", style=dashed" * it.value.sealed
            text += f'  n{it.number} [label="{letters(it.value.perms)}\\n{it.value.base:016x} to {it.value.top:017x}"{dashed}];\n'
            text += f'  {begin} -> n{it.number} [label="{self._place(it)}"];\n'
        return text + "}\n"

    @staticmethod
    def _opens(reach: Reach, address: int, right: Perms) -> bool:
        return any(_has(it.value, right) and it.value.in_bounds(address) for it in reach)

    def _ranges(self, name: str, needs: Perms, reach: Reach) -> str:
        """What members open to a right, a line for each range; of types those that can be sealed with."""
        text = ""
        for begin, end in _merged((it.value.base, it.value.top) for it in reach if _has(it.value, needs)):
            if name.endswith("seal"):
                text += f"{name} {begin:05x} to {min(end, RESERVED):05x}\n" if begin < RESERVED else ""
            else:
                text += f"{name} {self._symbols.shown(begin)} to {end:017x}\n"
        return text or f"{name} none\n"

    def _may(self, what: str, *given: str) -> str:
        doors = given[-2:] == ("through", "doors")
        given = given[:-2] if doors else given
        if len(given) not in _QUESTIONS.get(what, ()):
            raise Fault("B2")
        numbers = [_number(given[0], 0, 0x3FFFF)] if what == "hold" else [self._address(word) for word in given[:1]]
        machine, numbers = self._machine, [*numbers, *(_number(word, 1, _ONES) for word in given[1:])]
        answer = getattr(machine, f"may_{what}")(*numbers, doors=doors)
        if answer is None:
            return _NO[doors]
        reach = machine.reach(doors)
        way = " -> ".join(self._place_in(reach, member) for member in answer.way)
        return f"yes: {way} {self._shown(answer.way[-1].value)}\n"


def entry_is_fetched(machine: Machine) -> bool:
    """Whether the first instruction of the trap handler can be fetched: of an exception, whose entry is MTCC's address with its low two
    bits cleared."""
    mtcc = machine.scrs["mtcc"]
    entry = mtcc.address & ~3
    opened = mtcc if mtcc.otype != SENTRY else mtcc.clear_tag()
    there = entry == mtcc.address or opened.is_representable(entry)
    return (mtcc.tag and there and mtcc.otype in (SENTRY, UNSEALED) and Perms.Execute in mtcc.perms and mtcc.in_bounds(entry, 4)
            and RAM <= entry and entry + 4 <= RAM + machine.pages * PAGE)


def next_cause(machine: Machine) -> Optional[int]:
    """What mcause becomes at the next step, where that is a trap or an interrupt."""
    effect = machine.why().rstrip("\n").rpartition("mcause ")
    return int(effect[2][:16], 16) if effect[1] else None
