"""Who called whom and has not returned, over the steps that a run remembers: `calls` of docs/DEBUGGER.md."""
from __future__ import annotations

from typing import TYPE_CHECKING, Callable, List, NamedTuple, Optional

from . import Insn
from ._origins import _Next

if TYPE_CHECKING:
    from ._replay import Replay

_JUMP, _SENTRY, _PAIR, _TRAP = "jump", "sentry", "pair", "trap"
# How each is told.
PASSAGES = {_JUMP: "called", _SENTRY: "called through a sentry", _PAIR: "called through a pair", _TRAP: "trapped to"}
_JUMPS = frozenset(("jal", "jalr", "cinvoke"))


class Call(NamedTuple):
    """A call that has not returned: its step, how control went (`jump`, `sentry`, `pair` or `trap`), and the addresses that it came from,
    that it went to, and that it is to return to."""

    step: int
    passage: str
    source: int
    target: int
    back: int


def _without(calls: List[Call], ends: Callable[[Call], bool]) -> Optional[List[Call]]:
    """The calls before the newest that is ended, or None where none is."""
    newest = next((n for n in range(len(calls) - 1, -1, -1) if ends(calls[n])), None)
    return None if newest is None else calls[:newest]


def _after_jump(calls: List[Call], name: str, insn: Insn, call: Call) -> List[Call]:
    """The calls, the oldest first, after a jump."""
    left = _without(calls, lambda it: it.back == call.target)
    if left is not None and (name == "cinvoke" or name == "jalr" and not insn.rd):
        return left
    if name != "cinvoke" and not insn.rd or call.target == call.back:
        return calls
    return [*calls, call]


def open_calls(run: Replay) -> List[Call]:
    """The calls that have not returned, the newest first."""
    at = run.fork(run.begin)
    calls: List[Call] = []
    while at.n < run.n:
        coming, here = _Next(at.machine), at.machine.pc
        row, sealed = coming.row(), coming.is_sealed_jump()
        at.step()
        there = at.machine.pc
        if row is None:
            calls = calls if there == here else [*calls, Call(at.n, _TRAP, here, there, here)]
        elif row[0] == "mret":
            left = _without(calls, lambda it: it.passage == _TRAP)
            calls = calls if left is None else left
        elif row[0] in _JUMPS:
            passage = _PAIR if row[0] == "cinvoke" else _SENTRY if sealed else _JUMP
            calls = _after_jump(calls, row[0], row[2], Call(at.n, passage, here, there, (here + 4) % (1 << 64)))
    return calls[::-1]
