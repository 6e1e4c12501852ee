"""What a value was made of, and where a tag went, over the steps that a run remembers: `origin` and `lost` of docs/DEBUGGER.md.

A place is a register or a special register, by its name, or a granule, by its address.
"""
from __future__ import annotations

from bisect import bisect_left
from ctypes import byref, c_uint32, create_string_buffer
from functools import lru_cache
from itertools import groupby
from typing import TYPE_CHECKING, Callable, Dict, Iterator, List, NamedTuple, Optional, Sequence, Tuple, TypeVar, Union

from . import RAM, REGISTERS, SCRS, SENTRY, Cap, Insn, Machine, Perms, Stop, Symbols, decode, disassemble
from . import _library as c
from ._library import RESERVED, lib
from ._names import _SHOWN

if TYPE_CHECKING:
    from ._replay import Replay

Place = Union[str, int]
_T = TypeVar("_T")

_SPAN, _LONGEST = 2000, 250_000  # steps that are looked at first, from the last one back, and at most at once
_GRANULE, _ALL = 16, (1 << 64) - 1
_SPECIAL = {number: name for name, number in SCRS.items()}
_VIEWS = {0x305: "mtcc", 0x341: "mepcc"}  # control and status registers that are the address of a special one
_ACCESSES = frozenset(("lc", "sc", "sb", "sh", "sw", "sd"))  # what reads or writes granules
_WAYS = {  # of the rows that make a value of rs1
    "cincoffset": "moved", "cincoffsetimm": "moved", "csetoffset": "moved", "csetaddr": "moved", "csetbounds": "bounded",
    "csetboundsimm": "bounded", "csetboundsexact": "bounded exactly", "candperm": "restricted", "csetflags": "restricted",
    "cseal": "sealed", "cunseal": "unsealed", "csealentry": "made an entry", "cmove": "copied", "ccleartag": "cleared"}


class Making(NamedTuple):
    """How a step makes a value: the way, the place of its source, which a number has none of, that of the authority, and a length, or the
    register that holds it."""

    way: str
    source: Optional[Place] = None
    authority: Optional[Place] = None
    length: Union[int, str] = 0


class Written(NamedTuple):
    """A step that wrote a place: how it made what it wrote, and the machine before and after it."""

    step: int
    place: Place
    making: Making
    before: Machine
    after: Machine


class Link(NamedTuple):
    """What a place held after a step at `pc` that wrote it, and the place that it was made of, which a number or data has none of. What no
    step wrote was there after step `step` already, and has no `pc`."""

    step: int
    pc: Optional[int]
    place: Place
    source: Optional[Place]
    value: Cap


def place_of(where: Union[str, int], machine: Machine) -> Place:
    """A register before a special register before a granule, by its address or a label. Raises OutOfRange where none is there."""
    if isinstance(where, str) and where in REGISTERS:
        return _SHOWN[REGISTERS[where]]
    if isinstance(where, str) and where in SCRS:
        return where
    address = machine.address_of(where)
    machine.cap_at(address)
    return address


def held(machine: Machine, place: Place) -> Cap:
    """What a place holds."""
    return machine.cap_at(place) if isinstance(place, int) else machine.scrs[place] if place in SCRS else machine.regs[place]


# ---- how the next step makes what it writes

_OF_TRAPS: Dict[Place, Making] = {"pcc": Making("resumed", "mtcc"), "mepcc": Making("copied", "pcc")}


class _Next:
    """The next step of a machine that is not halted, again and again: what is read goes into the same room."""

    def __init__(self, machine: Machine) -> None:
        self._do, self._ends, self._cap, self._word = machine._do, c_uint32(), c.Cap(), create_string_buffer(4)

    def _ends_as(self, stop: Stop) -> bool:
        """Whether it ends a stretch so."""
        self._do(lib.cherisim_next_ends, byref(self._ends))
        return self._ends.value == stop

    def is_sealed_jump(self) -> bool:
        """Whether it goes through a sentry or a pair."""
        return self._ends_as(Stop.SEALED_JUMP)

    def _fetched(self) -> Tuple[int, bool]:
        """The word at PCC, and the mode."""
        self._do(lib.cherisim_scr, SCRS["pcc"], byref(self._cap))
        self._do(lib.cherisim_read, self._cap.address, self._word, len(self._word))
        return int.from_bytes(self._word, "little"), _mode(self._cap.upper)

    def row(self) -> Optional[Tuple[str, bool, Insn]]:
        """Its instruction, as `_row` has it, or None where it traps."""
        return None if self._ends_as(Stop.TRAP) else _row(*self._fetched())

    def makings(self) -> Dict[Place, Making]:
        """How it makes what it writes, by places."""
        if self._ends_as(Stop.TRAP):
            return _OF_TRAPS
        word, mode = self._fetched()
        name, through, insn = _row(word, mode)
        if name not in _ACCESSES:
            return _of_row(word, mode)
        self._do(lib.cherisim_reg, insn.rs1, byref(self._cap))
        address = (self._cap.address + insn.imm) & _ALL
        if name == "lc":
            return {_SHOWN[insn.rd]: Making("loaded", address, _SHOWN[insn.rs1] if through else "ddc")} if insn.rd else {}
        if name == "sc":
            return {address: Making("copied", _SHOWN[insn.rs2])}
        return {address // _GRANULE * _GRANULE: Making("number")} if address >= RAM else {}


@lru_cache(maxsize=64)
def _mode(upper: int) -> bool:
    """The mode, by PCC's upper half."""
    return Cap(0, upper).flag


@lru_cache(maxsize=4096)
def _row(word: int, mode: bool) -> Tuple[str, bool, Insn]:
    """The row of an instruction in a mode, by the first part of its name, whether it accesses memory or jumps through a register, and its
    operands."""
    insn = decode(word)
    assert insn is not None
    name, _, form = disassemble(word).split()[0].partition(".")
    return name, form == "cap" or not form and mode, insn


@lru_cache(maxsize=4096)
def _of_row(word: int, mode: bool) -> Dict[Place, Making]:
    """How an instruction in a mode, which neither traps nor accesses memory, makes what it writes."""
    name, through, insn = _row(word, mode)
    one, enters = _SHOWN[insn.rs1], name == "jalr" and through
    found: Dict[Place, Making] = {}
    if name == "cinvoke":
        return {"pcc": Making("entered", one), _SHOWN[31]: Making("opened", _SHOWN[insn.rs2])}
    if enters or name == "mret":
        found["pcc"] = Making("entered", one) if enters else Making("resumed", "mepcc")
    elif name == "cspecialrw" and insn.rs1:
        found[_SPECIAL[insn.rs2]] = Making("copied", one)
    elif name.startswith("csrr") and insn.imm in _VIEWS and (insn.rs1 or name.startswith("csrrw")):
        found[_VIEWS[insn.imm]] = Making("moved", _VIEWS[insn.imm])
    if insn.rd and name != "fence":
        found[_SHOWN[insn.rd]] = _of_register(name, insn, enters, mode)
    return found


def _of_register(name: str, insn: Insn, enters: bool, mode: bool) -> Making:
    """How such an instruction makes what it writes into rd."""
    one, two = _SHOWN[insn.rs1], _SHOWN[insn.rs2]
    if name.startswith("csetbounds"):
        return Making(_WAYS[name], one, None, insn.imm if name == "csetboundsimm" else two)
    if name in _WAYS:
        return Making(_WAYS[name], one, two if name in ("cseal", "cunseal") else None)
    if name == "cspecialrw":
        return Making("copied", _SPECIAL[insn.rs2])
    if enters or name == "jal" and mode:
        return Making("linked", "pcc")
    return Making("moved", "pcc") if name == "auipc" and mode else Making("number")


# ---- the steps that wrote a place, and then its sources

_Rows = Dict[Place, List[Tuple[int, Optional[Place]]]]


def _recorded(run: Replay, end: int) -> _Rows:
    """The steps up to a number of them that wrote places, each with the place that it made the value of."""
    rows: _Rows = {}
    coming = _Next(run.machine)
    while run.n < end:
        found = coming.makings()
        run.step()
        for place, making in found.items():
            rows.setdefault(place, []).append((run.n, making.source))
    return rows


def _chain(rows: _Rows, place: Optional[Place], end: int) -> Tuple[List[Tuple[int, Place]], Optional[Place]]:
    """The steps up to a number of them at which a place and then each source was written, the newest first, and what was not found."""
    found: List[Tuple[int, Place]] = []
    while place is not None:
        steps = rows.get(place, [])
        at = bisect_left(steps, (end + 1,))
        if not at:
            break
        step, onward = steps[at - 1]
        found.append((step, place))
        end, place = step - 1, onward
    return found, place


def _windows(run: Replay, end: int) -> Iterator[Tuple[int, int]]:
    """Stretches of the remembered steps up to a number of them, the last first."""
    span = _SPAN
    while end > run.begin:
        begin = max(run.begin, end - span)
        yield begin, end
        end, span = begin, min(8 * span, _LONGEST)


def _at(run: Replay, step: int, place: Place) -> Written:
    """What a step wrote at a place."""
    before, after = run.fork(step - 1).machine, run.fork(step).machine
    return Written(step, place, _Next(before).makings()[place], before, after)


def _last(run: Replay, place: Place, end: int, does: Callable[[Written], bool] = lambda it: True) -> Optional[Written]:
    """The last of so many steps that wrote a place and does this."""
    for begin, some in _windows(run, end):
        for step, _ in reversed(_recorded(run.fork(begin), some).get(place, [])):
            it = _at(run, step, place)
            if does(it):
                return it
    return None


def _looked_at(run: Replay, steps: List[Tuple[int, Place]]) -> Iterator[Written]:
    """Each of these steps, in ascending order."""
    for step, place in steps:
        run.run(step - 1 - run.n)
        before = run.machine.copy()
        run.step()
        yield Written(step, place, _Next(before).makings()[place], before, run.machine)


def trail(run: Replay, place: Place, tell: Callable[[Written], _T],
          ends: Callable[[_T], bool] = lambda told: False) -> Tuple[List[_T], Optional[Place]]:
    """What is told of the last step that wrote a place and then of the one that wrote its source, the newest first, up to one that ends
    the trail, and the place that no remembered step wrote."""
    told: List[_T] = []
    onward: Optional[Place] = place
    for begin, end in _windows(run, run.n):
        if onward is None:
            break
        found, onward = _chain(_recorded(run.fork(begin), end), onward, end)
        for it in [*map(tell, _looked_at(run.fork(begin), found[::-1]))][::-1]:
            told.append(it)
            if ends(it):
                return told, None
    return told, onward


def _link(it: Written) -> Link:
    """What a step left."""
    return Link(it.step, it.before.pc, it.place, it.making.source, held(it.after, it.place))


def links(run: Replay, where: Union[str, int]) -> List[Link]:
    """The steps of a trail, with what they left; of a place that no step wrote, what it held at first."""
    found, onward = trail(run, place_of(where, run.machine), _link)
    if onward is not None:
        found.append(Link(run.begin, None, onward, None, held(run.fork(run.begin).machine, onward)))
    return found


# ---- where tags went

_DOUBLE = 8


class Half(NamedTuple):
    """A double word that was copied: where from, where to, and its load and its store."""

    source: int
    target: int
    load: Written
    store: Written


class Lost(NamedTuple):
    """The steps down to the one at which a tag went, the newest first; or, where they end in data, those above it and the double words that
    the bits of a tagged capability were copied in, the lower first."""

    steps: List[Written]
    copied: Sequence[Half] = ()


def _had_tag(it: Written) -> bool:
    """Whether the source of what a step wrote had its tag."""
    return it.making.source is not None and held(it.before, it.making.source).tag


def _lost_tag(it: Written) -> bool:
    """Whether the tag went that a place or the source had."""
    return (held(it.before, it.place).tag or _had_tag(it)) and not held(it.after, it.place).tag


def _accessed(it: Written, name: str) -> Optional[Tuple[Insn, int]]:
    """The instruction of a step that does a row of this name, and the address that it accesses."""
    row = _Next(it.before).row()
    if row is None or row[0] != name:
        return None
    insn = row[2]
    return insn, (it.before.regs[_SHOWN[insn.rs1]].address + insn.imm) & _ALL


def _half(run: Replay, store: Optional[Written]) -> Optional[Half]:
    """The double word that a step stored of a register that a load had written last."""
    stored = store and _accessed(store, "sd")
    if not store or not stored or not stored[0].rs2:
        return None
    load = _last(run, _SHOWN[stored[0].rs2], store.step - 1)
    loaded = load and _accessed(load, "ld")
    return Half(loaded[1], stored[1], load, store) if load and loaded else None


def _copied(run: Replay, store: Written, granule: int) -> Sequence[Half]:
    """The double words of a granule that a step wrote last, the lower first, if they were loaded from a granule that held a tagged
    capability of their bits at both loads."""
    one, other = _half(run, _last(run, granule, store.step - 1)), _half(run, store)
    if not one or not other:
        return ()
    lower, upper = sorted((one, other), key=lambda it: it.target)
    if (lower.target, upper.target) != (granule, granule + _DOUBLE) or upper.source != lower.source + _DOUBLE or lower.source % _GRANULE:
        return ()
    value = held(store.after, granule)
    for it in (lower, upper):
        if lower.source not in it.load.before.tags() or held(it.load.before, lower.source).clear_tag() != value:
            return ()
    return lower, upper


def losses(run: Replay, place: Place) -> Lost:
    """Where the tag of what stands at a place went."""
    if held(run.machine, place).tag:
        return Lost([])

    def kept(it: Written) -> Written:
        return it._replace(after=it.after.copy())

    steps, onward = trail(run, place, kept, _had_tag)
    if not steps or _had_tag(steps[-1]):
        return Lost(steps)
    *above, store = steps
    if onward is not None or not isinstance(store.place, int) or store.making.source is not None:
        return Lost([])
    copied = _copied(run, store, store.place)
    if copied:
        return Lost(above, copied)
    overwriting = _last(run, store.place, store.step, _lost_tag)
    return Lost([*above, overwriting] if overwriting else [])


def lost_links(run: Replay, where: Union[str, int]) -> List[Link]:
    """Those steps, with what they left; where double words were copied, their stores, each with the granule that it was loaded from."""
    found = losses(run, place_of(where, run.machine))
    copied = (_link(it.store)._replace(source=it.source // _GRANULE * _GRANULE) for it in found.copied)
    return [*map(_link, found.steps), *copied]


# ---- texts

def notes(source: Cap, value: Cap) -> str:
    """What of a tagged source isn't in the value that is made of it."""
    if not source.tag:
        return ""
    if not value.tag:
        return ", tag cut"
    told = (("bounds cut", (source.base, source.top) != (value.base, value.top)), ("permissions cut", source.perms != value.perms),
            ("sealed", value.sealed and not source.sealed), ("unsealed", source.sealed and not value.sealed))
    return "".join(f", {text}" for text, holds in told if holds)


_Line = Tuple[str, str, str]  # what is told of a link without its step's number and what it wrote, in two parts; and its line


def _counted(told: List[_Line]) -> Iterator[str]:
    """Lines of links: of more than three one after the other that are told alike the newest, those between by their count, the oldest."""
    for (head, step), some in groupby(told, lambda it: it[:2]):
        lines = [line for _, _, line in some]
        yield from lines if len(lines) < 4 else (lines[0], f"{head}, {len(lines) - 2} times: {step}\n", lines[-1])


class Told:
    """The lines of a trail, with labels and lines of sources where a table has them."""

    def __init__(self, run: Replay, symbols: Symbols) -> None:
        self._run, self._symbols = run, symbols

    def name(self, place: Place) -> str:
        """A place, as it is shown."""
        return self._symbols.shown(place) if isinstance(place, int) else place

    def origin(self, place: Place) -> str:
        """What a place's value was made of."""
        found, onward = trail(self._run, place, self._parts)
        told = [*_counted(found)]
        if onward is not None:
            kind = "image" if isinstance(onward, int) else "opening state"
            told.append(f"{kind}: {self.name(onward)} {held(self._run.fork(self._run.begin).machine, onward)}\n")
        return "".join(told)

    def lost(self, place: Place) -> str:
        """Where a place's tag went."""
        found = losses(self._run, place)
        told = "".join(_counted([self._loss(it) for it in found.steps]))
        if found.copied:
            copy, source = found.copied[0].store.place, found.copied[0].source
            told += f"{self.name(copy)} was copied as data from {self.name(source)}, a tagged capability then:\n"
            told += "".join(self._trace_line(it) for half in found.copied for it in (half.load, half.store))
        return told or f"no tag was lost at {self.name(place)}\n"

    def _trace_line(self, it: Written) -> str:
        """A step, as in a trace."""
        return f"{it.before._trace_line(self._run.number(it.step), self._symbols)}\n"

    def _loss(self, it: Written) -> _Line:
        """A step that wrote a place, with the conditions of the tag."""
        head, step, line = self._parts(it)
        return head, step, line + self._conditions(it)

    def _parts(self, it: Written) -> _Line:
        """A step that wrote a place."""
        text = "no capability"
        if it.making.source is not None:
            text = self.name(it.making.source) + notes(held(it.before, it.making.source), held(it.after, it.place))
        head, line = f"{self.name(it.place)} from {text}", it.before._trace_line(self._run.number(it.step), self._symbols)
        return head, line.split(" ", 1)[1].partition(": ")[0], f"{head}: {line}\n"

    def _conditions(self, it: Written) -> str:
        """The conditions of the tag up to the first that is false."""
        text = ""
        for question, holds in self._asked(it):
            text += f"  {'ok' if holds else 'no'} {question}\n"
            if not holds:
                break
        return text

    def _length(self, name: str, cap: Cap, size: int) -> Tuple[str, bool]:
        shown = self._symbols.shown
        return (f"length of {name}: {shown(cap.address)} + {size} in {shown(cap.base)} to {cap.top:017x}",
                cap.in_bounds(cap.address, size))

    def _asked(self, it: Written) -> Iterator[Tuple[str, bool]]:
        """The conditions under which what is made has a tag, in order, and whether they hold."""
        way, source, authority, size = it.making
        if source is None or way == "cleared":
            yield "a capability is written" if source is None else "the instruction keeps the tag", False
            return
        at, v, made = self.name(source), held(it.before, source), held(it.after, it.place)
        moves = way in ("moved", "linked", "entered") or way == "resumed" and v.address != made.address
        yield f"tag of {at}", v.tag
        if authority is not None:
            yield from self._of_authority(way, at, v, self.name(authority), held(it.before, authority))
        elif way == "resumed" and moves:
            yield f"seal of {at}", not v.sealed or v.otype == SENTRY
        elif way not in ("copied", "opened", "entered", "resumed"):
            yield f"seal of {at}", not v.sealed
        if moves:
            yield f"window of {at}: {self._symbols.shown(made.address)}", v.is_representable(made.address)
        length = size if isinstance(size, int) else held(it.before, size).address
        if way.startswith("bounded"):
            yield self._length(at, v, length)
        if way == "bounded exactly":
            yield f"exact bounds: {self._symbols.shown(v.address)} + {length}", v.set_bounds(length)[1]
        if way in ("made an entry", "linked"):
            yield f"permit execute of {at}", Perms.Execute in v.perms

    def _of_authority(self, way: str, at: str, v: Cap, by: str, a: Cap) -> Iterator[Tuple[str, bool]]:
        """The conditions of what is loaded, sealed or unsealed after that of its own tag."""
        if way == "loaded":
            yield f"permit load capability of {by}", Perms.Load_Capability in a.perms
            return
        yield f"tag of {by}", a.tag
        yield f"seal of {at}", v.otype < RESERVED if way == "unsealed" else not v.sealed
        yield f"seal of {by}", not a.sealed
        right, same = (Perms.Unseal, a.address == v.otype) if way == "unsealed" else (Perms.Seal, a.address < RESERVED)
        yield f"permit {way[:-2]} of {by}", right in a.perms
        yield self._length(by, a, 1)
        yield f"type of {by}", same
