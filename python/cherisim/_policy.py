"""Policies: rules about what code in some ranges can come to hold (docs/POLICY.md)."""
from __future__ import annotations

import re
from typing import TYPE_CHECKING, Iterator, NamedTuple, Optional, Tuple, Union

from . import _library as c
from ._reach import Reach, ReachMember
from ._symbols import Symbols

if TYPE_CHECKING:
    from . import Ran

_PARTS = {value: name[len("RULE_"):].lower() for name, value in c.CONSTANTS.items() if name.startswith("RULE_")}

_FOUND = re.compile(r"step (\d+), pcc .*\npolicy: line (\d+): (\w+)\n  rule  .*\n  held  (?:.* -> )?(\S+)(?: <\S+>)? \S+ v:.*\n")
"""What an audit tells of a part of a rule that is broken."""


class Breach(NamedTuple):
    """Where a policy stops a run: before step `step`, counted from 1, a reachable capability, `member`, breaks the part of the rule in line
    `line` that has this name; `way` leads to it, a register's member first."""

    step: int
    line: int
    part: str
    member: ReachMember
    way: Tuple[ReachMember, ...]

    @classmethod
    def by(cls, step: int, line: int, part: str, reach: Reach, number: int) -> Breach:
        """That by the member with this number of what is reachable before the step."""
        way = tuple(reach[it] for it in reach.chain(number))
        return cls(step, line, part, way[-1], way)


class Watched(NamedTuple):
    """What a run did that a policy watches, and the breach before which it stopped, or None."""

    ran: Ran
    breach: Optional[Breach]


class Proof(NamedTuple):
    """Whether it is shown of every run that it keeps to a policy, and what is told of that, as `cherisim prove` tells it. What isn't shown
    may hold all the same."""

    shown: bool
    told: str


def found_in(told: str) -> Iterator[Tuple[int, int, str, Union[str, int]]]:
    """Of each part of a rule that an audit tells of: the step, the line, the part, and where what breaks it was found."""
    for step, line, part, place in _FOUND.findall(told):
        yield int(step), int(line), part, int(place, 16) if len(place) == 16 else place


class Policy:
    """Rules, as a text says them; of `symbols`, a table of labels or its text, it may name the labels."""

    __slots__ = ("labels", "text")

    def __init__(self, text: bytes, labels: bytes) -> None:
        self.text, self.labels = text, labels

    @classmethod
    def read(cls, text: str, symbols: Union[None, Symbols, str] = None) -> Policy:
        """That of a text. Raises PolicyFault with the first faulty line, and SymbolsFault with that of the table."""
        from . import Machine  # which is made of this module, too
        table = Symbols.read(symbols) if isinstance(symbols, str) else symbols or Symbols()
        policy = cls(text.encode(), table.table())
        with Machine(text="") as machine:
            machine._breach(policy, c.Timetable(0, 1, 0), b"")
        return policy

    def __repr__(self) -> str:
        return f"<Policy of {len(self.text.splitlines())} lines>"
