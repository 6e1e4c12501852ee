"""Where RAM begins, and the names of registers with their numbers. It needs no library."""
from typing import Dict

RAM = 0x80000000
"""Where RAM begins."""
PAGE = 4096
"""The bytes of a page."""

_NAMES = ("zero ra sp gp tp t0 t1 t2 s0 s1 a0 a1 a2 a3 a4 a5 a6 a7 s2 s3 s4 s5 s6 s7 s8 s9 s10 s11 t3 t4 t5 t6").split()
_SHOWN = ("cnull", *("c" + name for name in _NAMES[1:]))
REGISTERS: Dict[str, int] = {
    **{name: number for number, name in enumerate(_NAMES)}, **{name: number for number, name in enumerate(_SHOWN)},
    **{f"{letter}{number}": number for letter in "xc" for number in range(32)}, "fp": 8, "cfp": 8}
"""The names of the general registers, each with its number."""
SCRS: Dict[str, int] = {"pcc": 0, "ddc": 1, "mtcc": 28, "mtdc": 29, "mscratchc": 30, "mepcc": 31}
"""The names of the special capability registers."""
CSRS: Dict[str, int] = {
    "mstatus": 0x300, "misa": 0x301, "mie": 0x304, "mtvec": 0x305, "mscratch": 0x340, "mepc": 0x341, "mcause": 0x342, "mtval": 0x343,
    "mip": 0x344, "mcycle": 0xB00, "minstret": 0xB02, "mvendorid": 0xF11, "marchid": 0xF12, "mimpid": 0xF13, "mhartid": 0xF14}
"""The names of the control and status registers."""
