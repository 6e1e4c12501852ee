"""What the code that runs can come to hold, and what it may do."""
from __future__ import annotations

from ctypes import byref
from typing import TYPE_CHECKING, Any, Iterable, List, NamedTuple, Optional, Sequence, Tuple, Union, overload

from . import _library as c
from ._faults import in_range
from ._html import reach_html
from ._library import lib

if TYPE_CHECKING:
    from . import Cap


class Door(NamedTuple):
    """What a sealed jump opens: the numbers of the member that is sealed and of the one that is its key, which of a sentry is its own."""

    sealed: int
    key: int


class ReachMember(NamedTuple):
    """A capability that code can come to hold.

    `where` it was found is a register's name, as the debugger shows it, or a granule's address; `from_` is the number of the member that
    leads there, or None in a general register, PCC and DDC. Through doors `where` may be a Door: then the value is the sealed capability's
    without its seal, and `from_` is None.
    """

    number: int
    value: Cap
    where: Union[str, int, Door]
    from_: Optional[int]


class Answer(NamedTuple):
    """That code may do something: the number of the first member that lets it, and the way to it, a register's member first."""

    member: int
    way: Tuple[ReachMember, ...]


class Reach(Sequence[ReachMember]):
    """The members of a reach, in the order in which they are found: the registers', and then what each member in turn opens."""

    __slots__ = ("_members",)

    def __init__(self, members: Iterable[ReachMember]) -> None:
        self._members = tuple(members)

    def __len__(self) -> int:
        return len(self._members)

    @overload
    def __getitem__(self, index: int) -> ReachMember: ...
    @overload
    def __getitem__(self, index: slice) -> Tuple[ReachMember, ...]: ...

    def __getitem__(self, index: Union[int, slice]) -> Union[ReachMember, Tuple[ReachMember, ...]]:
        return self._members[index]

    def chain(self, number: int) -> List[int]:
        """The numbers of the members that lead to one: a register's first, its own last, and each opens the place of the next."""
        member = self._members[number]
        chain = [member.number]
        while member.from_ is not None:
            member = self._members[member.from_]
            chain.append(member.number)
        return chain[::-1]

    def __eq__(self, other: object) -> bool:
        return self._members == other._members if isinstance(other, Reach) else NotImplemented

    def __hash__(self) -> int:
        return hash(self._members)

    def _repr_html_(self) -> str:
        return reach_html(self)

    def __repr__(self) -> str:
        return f"<Reach of {len(self)} members>"


class Questions:
    """Whether the code of a machine may do something, whatever its instructions are, up to the next trap, unsealing or sealed jump; or with
    `doors`, through sealed jumps up to the next trap or unsealing.

    None is *no*. Bytes are given by an address or a label and a length of 1 to 2^64 - 1; OutOfRange is raised for others.
    """

    __slots__ = ()

    def _do(self, call: Any, *given: Any) -> None:
        raise NotImplementedError

    def reach(self, doors: bool = False) -> Reach:
        raise NotImplementedError

    def address_of(self, where: Union[int, str]) -> int:
        raise NotImplementedError

    def _may(self, kind: str, doors: bool, where: Union[int, str] = 0, length: int = 1, otype: int = 0) -> Optional[Answer]:
        in_range("length", length, 64, least=1)
        question = c.Question(self.address_of(where), length, c.CONSTANTS[f"MAY_{kind}"], otype, doors)
        answer = c.Answer()
        self._do(lib.cherisim_may, byref(question), byref(answer))
        if not answer.may:
            return None
        reach = self.reach(doors)
        return Answer(answer.member, tuple(reach[number] for number in reach.chain(answer.member)))

    def may_store(self, address: Union[int, str], length: int, doors: bool = False) -> Optional[Answer]:
        """Whether the code may store to some of these bytes. If not, it is proved that those of RAM stay."""
        return self._may("STORE", doors, address, length)

    def may_load(self, address: Union[int, str], length: int, doors: bool = False) -> Optional[Answer]:
        """Whether the code may load some of these bytes. If not, no member lets it."""
        return self._may("LOAD", doors, address, length)

    def may_execute(self, address: Union[int, str], length: int, doors: bool = False) -> Optional[Answer]:
        """Whether the code may execute some of these bytes. If not, no member lets it."""
        return self._may("EXECUTE", doors, address, length)

    def may_learn(self, address: Union[int, str], length: int, doors: bool = False) -> Optional[Answer]:
        """Whether the code may load or execute some of these bytes. If not, it is proved that it does the same whatever they are."""
        return self._may("LEARN", doors, address, length)

    def may_keep(self, address: Union[int, str] = 0, length: int = (1 << 64) - 1, doors: bool = False) -> Optional[Answer]:
        """Whether the code may keep what is lent without Global in a granule with some of these bytes, or anywhere. If not, it is proved
        that none of these granules comes to hold it."""
        return self._may("KEEP", doors, address, length)

    def may_send(self, doors: bool = False) -> Optional[Answer]:
        """Whether the code may send a byte on the console. If not, it is proved that it sends none."""
        return self._may("SEND", doors)

    def may_halt(self, doors: bool = False) -> Optional[Answer]:
        """Whether the code may halt the machine. If not, it is proved that it doesn't."""
        return self._may("HALT", doors)

    def may_system(self, doors: bool = False) -> Optional[Answer]:
        """Whether the code may use the system registers. If not, it is proved that they stay, but for the counts of cycles and steps."""
        return self._may("SYSTEM", doors)

    def may_timer(self, doors: bool = False) -> Optional[Answer]:
        """Whether the code may set mtimecmp. If not, it is proved that it stays."""
        return self._may("TIMER", doors)

    def may_hold(self, otype: int, doors: bool = False) -> Optional[Answer]:
        """Whether a member is sealed with an object type, 0 to 2^18 - 1, or may seal with it (of sentries any code may)."""
        in_range("object type", otype, 18)
        return self._may("HOLD", doors, otype=otype)
