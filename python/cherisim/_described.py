"""The machine's registers as GDB has them: their numbers, the description of the target, and their bytes."""
from __future__ import annotations

from typing import List, NamedTuple

from . import CSRS, PAGE, RAM, SCRS, Cap, Machine, OutOfRange, Perms
from ._names import _SHOWN as CAPS

INTEGERS = ("zero ra sp gp tp t0 t1 t2 fp s1 a0 a1 a2 a3 a4 a5 a6 a7 s2 s3 s4 s5 s6 s7 s8 s9 s10 s11 t3 t4 t5 t6").split()
"""The general registers as numbers, by the names that GDB asks for."""
PC = 32
"""The number of pc, the last of those that `g` answers."""
SHAPES = ("fields", "raw", "cheri")
"""How capability registers are described: a structure of their fields, the two halves of the word, or by the names of the CHERI fork."""

_POINTERS = {"pc": "code_ptr", "ra": "code_ptr", "sp": "data_ptr", "gp": "data_ptr", "tp": "data_ptr", "fp": "data_ptr"}
_READ_ONLY = ("misa", "mip", "mvendorid", "marchid", "mimpid", "mhartid")
_CODE = ("pcc", "mtcc", "mepcc")
_FIELDS = (("tag", "uint8"), ("flag", "uint8"), ("pad", "uint16"), ("perms", "cap_perms"), ("address", "uint64"), ("base", "uint64"),
           ("top", "uint128"), ("otype", "uint32"), ("pad2", "uint32"))
_HEAD = ('<?xml version="1.0"?>', '<!DOCTYPE target SYSTEM "gdb-target.dtd">', '<target version="1.0">')
_MAP = ('<?xml version="1.0"?>\n<!DOCTYPE memory-map PUBLIC "+//IDN gnu.org//DTD GDB Memory Map V1.0//EN" '
        '"http://sourceware.org/gdb/gdb-memory-map.dtd">\n<memory-map><memory type="ram" start="{:#x}" length="{:#x}"/></memory-map>')


def _as_cgetperm(bit: int) -> int:
    """The bit of a permission in what CGetPerm gives."""
    return bit if bit < 12 else bit + 3


class Described(NamedTuple):
    """A register: its name, which of the machine's registers it is, how many bytes it has and its type in the description."""

    name: str
    kind: str
    bytes: int
    type: str


def registers(shape: str) -> List[Described]:
    """All registers, in the order of their numbers."""
    size, kind = {"fields": (48, "capability"), "raw": (16, "raw_capability"), "cheri": (16, "data_capability")}[shape]
    found = [*(Described(name, "x", 8, _POINTERS.get(name, "int")) for name in INTEGERS), Described("pc", "pc", 8, _POINTERS["pc"]),
             *(Described(name, "csr", 8, "int") for name in CSRS)]
    for name in (*CAPS, *SCRS):
        is_code = shape == "cheri" and name in _CODE
        found.append(Described(name, "scr" if name in SCRS else "cap", size, "code_capability" if is_code else kind))
    return found if shape == "fields" else [*found, Described("cap_valid", "valid", 8, "uint64")]


def _types(shape: str) -> List[str]:
    """The types that a shape needs beside GDB's own."""
    if shape == "cheri":
        return []
    if shape == "raw":
        return ['<struct id="raw_capability"><field name="address" type="uint64"/><field name="upper" type="uint64"/></struct>']
    bits = ((it.name, _as_cgetperm(int(it).bit_length() - 1)) for it in Perms)
    return ['<flags id="cap_perms" size="4">', *(f'<field name="{name}" start="{bit}" end="{bit}"/>' for name, bit in bits), '</flags>',
            '<struct id="capability">', *(f'<field name="{name}" type="{kind}"/>' for name, kind in _FIELDS), '</struct>']


def description(shape: str) -> str:
    """The description of the target. `none` as its system keeps GDB from stepping by breakpoints at where it believes the next instruction
    to be, which it isn't after a jump to a capability, a return from a trap or a trap."""
    text, rows = [*_HEAD, "<architecture>riscv:rv64</architecture>", "<osabi>none</osabi>"], registers(shape)
    for feature, kinds, more in (("cpu", ("x", "pc"), ""), ("csr", ("csr",), ' group="csr"'),
                                 ("cheri", ("cap", "scr", "valid"), ' group="cheri" save-restore="no"')):
        text += [f'<feature name="org.gnu.gdb.riscv.{feature}">', *(_types(shape) if feature == "cheri" else ())]
        text += [f'<reg name="{it.name}" bitsize="{8 * it.bytes}" regnum="{number}" type="{it.type}"{more}/>'
                 for number, it in enumerate(rows) if it.kind in kinds]
        text.append("</feature>")
    return "\n".join([*text, "</target>", ""])


def memory_map(machine: Machine) -> str:
    """RAM, and nothing of the devices: looking at them must take nothing."""
    return _MAP.format(RAM, machine.pages * PAGE)


def _of_cap(cap: Cap, shape: str) -> bytes:
    if shape != "fields":
        return cap.address.to_bytes(8, "little") + cap.upper.to_bytes(8, "little")
    perms = sum(1 << _as_cgetperm(bit) for bit in range(16) if cap.perms >> bit & 1)
    fields = ((cap.tag, 1), (cap.flag, 1), (0, 2), (perms, 4), (cap.address, 8), (cap.base, 8), (cap.top, 16), (cap.otype, 4), (0, 4))
    return b"".join(int(number).to_bytes(size, "little") for number, size in fields)


def value(machine: Machine, it: Described, shape: str) -> bytes:
    """What a register holds, the lowest byte first."""
    if it.kind == "cap":
        return _of_cap(machine.regs[it.name], shape)
    if it.kind == "scr":
        return _of_cap(machine.scrs[it.name], shape)
    if it.kind == "x":
        number = machine.regs[it.name].address
    elif it.kind == "pc":
        number = machine.pc
    elif it.kind == "csr":
        number = machine.csrs[it.name]
    else:
        number = sum(cap.tag << n for n, cap in enumerate([*machine.regs.values(), *machine.scrs.values()]))
    return number.to_bytes(it.bytes, "little")


def is_written(it: Described) -> bool:
    """Whether a register can be written: a capability is read alone."""
    return it.kind in ("x", "pc") or it.kind == "csr" and it.name not in _READ_ONLY


def write(machine: Machine, it: Described, number: int) -> None:
    """Puts a number into a register. pc gets it as CSetAddr gives it to PCC; OutOfRange is raised where it is no multiple of 4."""
    if it.kind == "x":
        machine.regs[it.name] = number
    elif it.kind == "csr":
        machine.csrs[it.name] = number
    elif number % 4:
        raise OutOfRange(f"no multiple of 4: {number:#x}")
    else:
        machine.pc = number
