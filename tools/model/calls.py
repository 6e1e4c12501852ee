"""The calls that a recorded run leaves open, by the words of docs/DEBUGGER.md: who called whom and has not returned; and all in order."""
from typing import NamedTuple

from model.capabilities import is_unsealed
from model.origins import placed

JUMPS = ("jal", "jalr", "jalr.cap", "cinvoke")
LEVELS = 64  # that are shown of calls around a line
SENTRY, PAIR = "called through a sentry", "called through a pair"


class Call(NamedTuple):
    """A call: the number of its event, how, and the addresses that it comes from, goes to and is to return to."""
    number: int
    how: str
    source: int
    target: int
    back: int

    def __str__(self):
        return f"{self.number} {placed(self.source)} {self.how} {placed(self.target)}, to return to {placed(self.back)}"


def ended(calls, is_ended):
    """The calls, the oldest first, before the newest of which this holds; None where it holds of none."""
    found = [n for n, call in enumerate(calls) if is_ended(call)]
    return calls[:found[-1]] if found else None


def how_called(insn, is_sealed):
    if insn.row == "cinvoke":
        return PAIR
    return SENTRY if is_sealed and insn.row != "jal" else "called"


def after_jump(calls, number, insn, event):
    """The calls after a jump."""
    here, there = event.before.pcc[1], event.after.pcc[1]
    to = event.before.registers[insn.rs1]
    call = Call(number, how_called(insn, to[2] and not is_unsealed(to)), here, there, (here + 4) % 2 ** 64)
    left = ended(calls, lambda it: it.back == there)
    if insn.row == "cinvoke" and left is not None:
        return left
    if insn.row != "cinvoke" and insn.rd == 0:
        return calls if insn.row == "jal" or left is None else left
    return calls if call.target == call.back else [*calls, call]


def after_event(calls, number, event):
    """The calls after an event."""
    if event.step is None:
        return calls
    here, there = event.before.pcc[1], event.after.pcc[1]
    if event.step.trap:
        return calls if here == there else [*calls, Call(number, "trapped to", here, there, here)]
    if event.step.insn.row == "mret":
        left = ended(calls, lambda it: it.how == "trapped to")
        return calls if left is None else left
    return after_jump(calls, number, event.step.insn, event) if event.step.insn.row in JUMPS else calls


def lines(events):
    """What `calls` answers after events."""
    calls = []
    for number, event in enumerate(events, 1):
        calls = after_event(calls, number, event)
    return [str(call) for call in reversed(calls)] or ["no call is open"]


def told(events):
    """The calls and returns of events in order, each after two spaces for each call that is open around it, of LEVELS at most."""
    calls, found = [], []
    for number, event in enumerate(events, 1):
        left = after_event(calls, number, event)
        if len(left) > len(calls):
            found.append("  " * min(len(calls), LEVELS) + str(left[-1]))
        elif len(left) < len(calls):
            found.append("  " * min(len(left), LEVELS) + f"{number} {placed(event.before.pcc[1])} returned to {placed(event.after.pcc[1])}")
        calls = left
    return found
