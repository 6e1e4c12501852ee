"""Capabilities as values, and instruction words: libcheri-caps."""
from __future__ import annotations

import enum
from ctypes import byref, c_bool, c_uint32, create_string_buffer
from typing import Any, NamedTuple, Optional, Tuple

from . import _library as c
from ._faults import OutOfRange, in_range
from ._html import cap_html
from ._library import NULL_UPPER, UNSEALED, lib

_ALL = (1 << 64) - 1
_ROOT_UPPER = 0xFFFF << 48 | NULL_UPPER


class Perms(enum.IntFlag):
    """Permissions, by their bits in a capability and in `.cap`."""

    Global = 1 << 0
    Execute = 1 << 1
    Load = 1 << 2
    Store = 1 << 3
    Load_Capability = 1 << 4
    Store_Capability = 1 << 5
    Store_Local_Capability = 1 << 6
    Seal = 1 << 7
    CInvoke = 1 << 8
    Unseal = 1 << 9
    Access_System_Registers = 1 << 10
    Set_CID = 1 << 11
    User_0 = 1 << 12
    User_1 = 1 << 13
    User_2 = 1 << 14
    User_3 = 1 << 15


class Cap:
    """A capability, where `tag` is set, or 128 bits of data. It is a value and never changes: what derives another gives a new one.

    What its word says (base, top, perms ..) can be asked of data too. A tag that is asked for is given where the word may have one.
    """

    __slots__ = ("address", "upper", "tag")
    address: int
    upper: int
    tag: bool

    def __init__(self, address: int = 0, upper: int = NULL_UPPER, tag: bool = False) -> None:
        address, upper = address & _ALL, upper & _ALL
        tag = bool(tag) and lib.cheri_is_well_formed(c.Word(address, upper))
        for name, value in (("address", address), ("upper", upper), ("tag", tag)):
            object.__setattr__(self, name, value)

    def __setattr__(self, name: str, value: object) -> None:
        raise AttributeError(f"a Cap doesn't change: make one with another {name}")

    @classmethod
    def _of(cls, value: c.Cap) -> Cap:
        cap = cls.__new__(cls)
        object.__setattr__(cap, "address", value.address)
        object.__setattr__(cap, "upper", value.upper)
        object.__setattr__(cap, "tag", value.tag)
        return cap

    @classmethod
    def root(cls, address: int = 0) -> Cap:
        """The capability to all addresses with all permissions, at this address."""
        return cls(address, _ROOT_UPPER, True)

    @classmethod
    def make(cls, base: int, top: int, *, address: Optional[int] = None, perms: int = 0xFFFF, otype: int = UNSEALED,
             flag: bool = False) -> Cap:
        """The capability with these bounds and fields; its address is its base where none is given.

        Raises OutOfRange where no word has them: bounds that would be rounded, or an address too far from them.
        """
        address, cap = base if address is None else address, c.Cap()
        for what, number, bits in (("base", base, 64), ("top", top, 65), ("address", address, 64), ("perms", perms, 16),
                                   ("otype", otype, 18)):
            in_range(what, number, bits)
        if not lib.cheri_compress(byref(c.Fields(base, top & _ALL, top >> 64, address, otype, perms, flag)), byref(cap)):
            raise OutOfRange(f"no capability has base {base:#x}, top {top:#x}, address {address:#x}, perms {perms:#x}, otype {otype:#x}")
        return cls._of(cap)

    @classmethod
    def from_memory(cls, memory: bytes, tag: bool = False) -> Cap:
        """The value of 16 bytes in memory, the lowest first."""
        if len(memory) != 16:
            raise ValueError("a capability has 16 bytes")
        word = lib.cheri_from_memory(bytes(memory))
        return cls(word.address, word.upper, tag)

    @property
    def memory(self) -> bytes:
        """Its 16 bytes in memory, the lowest first."""
        room = create_string_buffer(16)
        lib.cheri_to_memory(self._word, room)
        return room.raw

    @property
    def _word(self) -> c.Word:
        return c.Word(self.address, self.upper)

    @property
    def _c(self) -> c.Cap:
        return c.Cap(self.address, self.upper, self.tag)

    @property
    def base(self) -> int:
        """The first address of its bounds."""
        return lib.cheri_base(self._word)

    @property
    def top(self) -> int:
        """The address after the last of its bounds: of 65 bits."""
        top = lib.cheri_top(self._word)
        return top.high << 64 | top.low

    @property
    def length(self) -> int:
        """How many addresses lie in its bounds, modulo 2^65: of root 2^64, of which CGetLen gives one less."""
        return (self.top - self.base) % (1 << 65)

    @property
    def offset(self) -> int:
        """Its address less its base, modulo 2^64."""
        return (self.address - self.base) & _ALL

    @property
    def perms(self) -> Perms:
        """Its permissions as a set of bits."""
        return Perms(lib.cheri_perms(self._word))

    @property
    def permissions(self) -> Tuple[str, ...]:
        """The names of its permissions, in the order of their bits."""
        perms = self.perms
        return tuple(str(it.name) for it in Perms if it in perms)

    @property
    def otype(self) -> int:
        """Its object type."""
        return lib.cheri_otype(self._word)

    @property
    def flag(self) -> bool:
        """Its flag: of PCC, whether the machine is in capability mode."""
        return lib.cheri_flag(self._word)

    @property
    def sealed(self) -> bool:
        """Whether it is sealed: by a type or as a sentry."""
        return self.otype != UNSEALED

    def in_bounds(self, address: Optional[int] = None, size: int = 1) -> bool:
        """Whether so many bytes from an address on (its own, where none is given) lie in its bounds."""
        address = self.address if address is None else address
        return self.base <= address and address + size <= self.top

    def is_representable(self, address: int) -> bool:
        """Whether its bounds stay with this address in place of its own."""
        return 0 <= address <= _ALL and lib.cheri_is_representable(self._word, address)

    def set_address(self, address: int) -> Cap:
        """It at another address, as CSetAddr gives it: tagged where it is unsealed and its bounds stay."""
        return self._of(lib.cheri_set_address(self._c, address & _ALL))

    def set_bounds(self, length: int) -> Tuple[Cap, bool]:
        """It with the bounds of so many bytes from its address on, rounded out, as CSetBounds gives it, and whether nothing was rounded.

        Of a range that ends above 2^64, which no capability has, nothing may be rounded either: the result is not tagged.
        """
        in_range("length", length, 64)
        exact = c_bool()
        return self._of(lib.cheri_set_bounds(self._c, length, byref(exact))), exact.value

    def and_perms(self, perms: int) -> Cap:
        """It with those of its permissions that are among these, as CAndPerm gives it."""
        return self._gives(0x0D, Cap(_as_cgetperm(perms)))

    def set_flag(self, flag: bool) -> Cap:
        """It with this flag, as CSetFlags gives it."""
        return self._gives(0x0E, Cap(int(flag)))

    def seal(self, authority: Cap) -> Cap:
        """It sealed with the type that is the authority's address, as CSeal gives it."""
        return self._gives(0x0B, authority)

    def unseal(self, authority: Cap) -> Cap:
        """It unsealed by an authority whose address is its type, as CUnseal gives it."""
        return self._gives(0x0C, authority)

    def seal_entry(self) -> Cap:
        """It as a sentry, as CSealEntry gives it."""
        return self._gives(0x7F, Cap(), rs2=0x11)

    def clear_tag(self) -> Cap:
        """Its bits as data."""
        return Cap(self.address, self.upper)

    def contains(self, other: Cap) -> bool:
        """Whether the tags are equal, and bounds and permissions of the other lie in its own, as CTestSubset gives it."""
        return self._gives(0x20, other).address == 1

    def _gives(self, funct7: int, other: Cap, rs2: int = 12) -> Cap:
        """What the instruction with this funct7 gives of it in register 11 and the other in 12."""
        value = execute(funct7 << 25 | rs2 << 20 | 11 << 15 | 10 << 7 | 0x5B, self, other)
        assert value is not None
        return value

    def __eq__(self, other: object) -> bool:
        if not isinstance(other, Cap):
            return NotImplemented
        return self.address == other.address and self.upper == other.upper and self.tag == other.tag

    def __hash__(self) -> int:
        return hash((self.address, self.upper, self.tag))

    def __reduce__(self) -> Tuple[Any, ...]:
        return Cap, (self.address, self.upper, self.tag)

    def _repr_html_(self) -> str:
        return cap_html(self)

    def __str__(self) -> str:
        """As the debugger shows it."""
        return (f"v:{self.tag:d} a:{self.address:016x} b:{self.base:016x} t:{self.top:017x} p:{_as_cgetperm(self.perms):05x} "
                f"f:{self.flag:d} o:{self.otype:05x}")

    def __repr__(self) -> str:
        return f"Cap({self})"


def _as_cgetperm(perms: int) -> int:
    """Permissions as CGetPerm gives them: the user permissions at bits 15 to 18."""
    return perms & 0xFFF | (perms >> 12 & 0xF) << 15


def execute(word: int, cs1: Cap, cs2: Cap = Cap(), ddc: Cap = Cap()) -> Optional[Cap]:
    """What an instruction over capabilities gives that touches neither memory nor special registers, with these values in its registers.

    None of any other word; CTestSubset alone looks at DDC.
    """
    in_range("word", word, 32)
    value = c.Cap()
    return Cap._of(value) if lib.cheri_execute(word, cs1._c, cs2._c, ddc._c, byref(value)) else None


class Insn(NamedTuple):
    """An instruction: its row's place in the table of instructions, registers, and the immediate modulo 2^64. What a row has not is 0."""

    row: int
    rd: int = 0
    rs1: int = 0
    rs2: int = 0
    imm: int = 0


def decode(word: int) -> Optional[Insn]:
    """The instruction that a word is, or None."""
    in_range("word", word, 32)
    insn = c.Insn()
    return Insn(insn.row, insn.rd, insn.rs1, insn.rs2, insn.imm) if lib.cheri_decode(word, byref(insn)) else None


def encode(insn: Insn) -> Optional[int]:
    """The word of an instruction, or None where its operands don't fit."""
    for name, number, bits in zip(Insn._fields, insn, (16, 8, 8, 8, 64)):
        in_range(name, number, bits)
    word = c_uint32()
    return word.value if lib.cheri_encode(byref(c.Insn(insn.imm, insn.row, insn.rd, insn.rs1, insn.rs2)), byref(word)) else None


def disassemble(word: int, capability_mode: bool = False) -> str:
    """The text of an instruction word in a mode."""
    in_range("word", word, 32)
    room = create_string_buffer(64)
    length = lib.cherisim_disassemble(word, capability_mode, room)
    return room.raw[:length].decode("ascii")
