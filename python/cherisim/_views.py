"""Views of a machine: its banks of registers, and its RAM."""
from __future__ import annotations

import operator
from ctypes import byref, c_uint64, create_string_buffer
from typing import TYPE_CHECKING, Any, Dict, Generic, Iterator, List, Tuple, TypeVar, Union, overload

from . import _library as c
from ._caps import _ALL, Cap
from ._faults import OutOfRange
from ._library import NULL_UPPER, lib
from ._names import _SHOWN, CSRS, PAGE, RAM, REGISTERS, SCRS

if TYPE_CHECKING:
    from . import Machine

_V = TypeVar("_V", Cap, int)


def _index(given: Union[str, int], names: Dict[str, int], most: int) -> int:
    """The number of a register that is named or numbered."""
    if isinstance(given, str):
        if given in names:
            return names[given]
        raise OutOfRange(f"no register {given!r}")
    number = operator.index(given)
    if not 0 <= number <= most:
        raise OutOfRange(f"no register {number}")
    return number


def _value(given: Union[Cap, int]) -> c.Cap:
    """A value as C takes it: a number, modulo 2^64, is null with that address."""
    return given._c if isinstance(given, Cap) else c.Cap(operator.index(given) & _ALL, NULL_UPPER, False)


class _Bank(Generic[_V]):
    """Registers of a machine, by name or number. Going through them gives their names."""

    __slots__ = ("_machine",)
    _shown: Tuple[str, ...] = ()

    def __init__(self, machine: Machine) -> None:
        self._machine = machine

    def __getitem__(self, name: Union[str, int]) -> _V:
        raise NotImplementedError

    def __iter__(self) -> Iterator[str]:
        return iter(self._shown)

    def __len__(self) -> int:
        return len(self._shown)

    def values(self) -> List[_V]:
        """What they hold, in the order of their numbers."""
        return [self[name] for name in self._shown]

    def items(self) -> List[Tuple[str, _V]]:
        """Their names, as the debugger shows them, with what they hold."""
        return list(zip(self._shown, self.values()))


class _Caps(_Bank[Cap]):
    """A bank of capabilities, which the library reads and writes by their numbers, 0 to 31."""

    __slots__ = ()
    _numbers: Dict[str, int]
    _reads: Any
    _writes: Any

    def __getitem__(self, name: Union[str, int]) -> Cap:
        value = c.Cap()
        self._machine._do(self._reads, _index(name, self._numbers, 31), byref(value))
        return Cap._of(value)

    def __setitem__(self, name: Union[str, int], value: Union[Cap, int]) -> None:
        self._machine._do(self._writes, _index(name, self._numbers, 31), _value(value))


class Registers(_Caps):
    """The general registers, by any of their names. One takes a capability or a number; what is put into register 0 is lost."""

    __slots__ = ()
    _shown, _numbers, _reads, _writes = _SHOWN, REGISTERS, lib.cherisim_reg, lib.cherisim_set_reg

    def values(self) -> List[Cap]:
        """What they hold, in the order of their numbers."""
        room = (c.Cap * 32)()
        self._machine._do(lib.cherisim_all_regs, room)
        return [Cap._of(value) for value in room]


class SpecialRegisters(_Caps):
    """The special capability registers. PCC takes an address that is a multiple of 4."""

    __slots__ = ()
    _shown, _numbers, _reads, _writes = tuple(SCRS), SCRS, lib.cherisim_scr, lib.cherisim_set_scr


class StatusRegisters(_Bank[int]):
    """The control and status registers. A write keeps what CSRRW would; one that is only read stays as it is."""

    __slots__ = ()
    _shown = tuple(CSRS)

    def __getitem__(self, name: Union[str, int]) -> int:
        value = c_uint64()
        self._machine._do(lib.cherisim_csr, _index(name, CSRS, 0xFFF), byref(value))
        return value.value

    def __setitem__(self, name: Union[str, int], value: int) -> None:
        self._machine._do(lib.cherisim_set_csr, _index(name, CSRS, 0xFFF), operator.index(value) & _ALL)


class Memory:
    """RAM by addresses or labels: `mem[a]` is a byte and `mem[a:b]` the bytes from a on and below b. What is written loses its granules'
    tags."""

    __slots__ = ("_machine",)

    def __init__(self, machine: Machine) -> None:
        self._machine = machine

    def __len__(self) -> int:
        return self._machine.pages * PAGE

    def _index(self, where: Union[int, str]) -> int:
        return self._machine.symbols[where] if isinstance(where, str) else operator.index(where)

    def _span(self, where: slice) -> Tuple[int, int]:
        if where.step not in (None, 1):
            raise ValueError("bytes of memory stand one after the other")
        begin = RAM if where.start is None else self._index(where.start)
        end = RAM + len(self) if where.stop is None else self._index(where.stop)
        if not 0 <= begin <= end <= 1 << 64:
            raise OutOfRange(f"no addresses from {begin:#x} to {end:#x}")
        return begin, end - begin

    @overload
    def __getitem__(self, where: Union[int, str]) -> int: ...
    @overload
    def __getitem__(self, where: slice) -> bytes: ...

    def __getitem__(self, where: Union[int, str, slice]) -> Union[int, bytes]:
        if not isinstance(where, slice):
            begin = self._index(where)
            return self[begin:begin + 1][0]
        begin, length = self._span(where)
        if begin < RAM or begin + length > RAM + len(self):
            raise OutOfRange(f"not in RAM: {length} bytes from {begin:#x}")
        room = create_string_buffer(max(length, 1))
        self._machine._do(lib.cherisim_read, begin, room, length)
        return room.raw[:length]

    def __setitem__(self, where: Union[int, str, slice], value: Union[int, bytes]) -> None:
        if not isinstance(where, slice):
            begin = self._index(where)
            where, value = slice(begin, begin + 1), bytes([operator.index(value)])  # type: ignore[arg-type]
        data = bytes(memoryview(value))  # type: ignore[arg-type]
        begin, length = self._span(where)
        if len(data) != length:
            raise ValueError(f"{len(data)} bytes don't fit {length} bytes of memory")
        self._machine._do(lib.cherisim_write, begin, data, length)
