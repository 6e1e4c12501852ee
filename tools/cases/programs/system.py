"""Control and status registers, and special capability registers."""

from model.rights import LOAD, STORE

from .items import BOTH, CAPABILITY, INTEGER, Table, WITHOUT_SYSTEM_ACCESS, number, shaped


def without(*statements, seen="trap"):
    return [WITHOUT_SYSTEM_ACCESS, *statements], seen


ACCESS = [
    Table("without Access_System_Registers", BOTH, [[]], [
        without("csrrs a0, mscratch, zero", seen="trap; address mepcc"), without("csrrw a0, mcycle, a1"),
        without("csrrs a0, mvendorid, zero"),
        # no such register, and one that is only read, come first
        without("csrrs a0, 0x7c0, zero"), without("csrrw a0, mvendorid, zero"), without("cspecialrw ca0, pcc, cnull"),
        without("cspecialrw ca0, ddc, cnull"), without("cspecialrw ca0, ddc, ca1"),
        without("cspecialrw ca0, mtcc, cnull", seen="trap; address mepcc"), without("cspecialrw ca0, mtdc, ca1"),
        without("cspecialrw ca0, mscratchc, cnull"), without("cspecialrw ca0, mepcc, cnull"),
        # CSpecialRW of register 2, and with a source of PCC
        without("cspecialrw ca0, 2, cnull"), without("cspecialrw ca0, pcc, ca1"),
    ]),
    Table("with it", BOTH, [[]], [
        ["csrrs a0, mscratch, zero"], ["csrrs a0, 0x7c0, zero"], ["cspecialrw ca0, 2, cnull"],
        (["cspecialrw ca1, ddc, cnull", "cspecialrw ca0, pcc, ca1"], "trap; a0"), ["cspecialrw ca0, mtdc, ca1"],
    ]),
    # a1 is 0, and with the field 0 CSRRW writes too
    Table("registers that are only read may not be written", INTEGER, [
        ["csrrw a0, mvendorid, a1"], ["csrrw a0, marchid, zero"], ["csrrwi a0, mimpid, 0"], ["csrrs a0, mhartid, a1"],
        ["csrrs a0, mvendorid, a1"], ["csrrc a0, mvendorid, a1"], ["csrrsi a0, mvendorid, 1"], ["csrrci a0, mvendorid, 1"],
    ], [(["addi a0, zero, 7"], "mcause; address pcc; a0; address mepcc")]),
    Table("registers that are only read are read", INTEGER, [
        ["csrrs a0, mvendorid, zero"], ["csrrc a0, marchid, zero"], ["csrrsi a0, mimpid, 0"], ["csrrci a0, mhartid, 0"],
    ], [(["addi a0, zero, 7"], "trap; a0")]),
]

# 0x3c in a1, and 0xf0 in mscratch.
SCRATCH = ["addi a1, zero, 60", "addi a2, zero, 240", "csrrw zero, mscratch, a2"]
NOTHING = [[f"{row} a0, mscratch, {source}"] for row, source in (("csrrs", "zero"), ("csrrc", "zero"), ("csrrsi", "0"), ("csrrci", "0"))]
ZERO = [["csrrw a0, mscratch, zero"], ["csrrwi a0, mscratch, 0"]]
MINUS_ONE = "addi a0, zero, -1"

FORMS = [
    Table("nothing is written", BOTH, NOTHING, [(SCRATCH, "trap; a0; mscratch")]),
    Table("0 is written", BOTH, ZERO, [(SCRATCH, "trap; a0; mscratch")]),
    *(Table(row.upper(), BOTH, [[f"{row} a0, mscratch, {source}"]], [(SCRATCH, "a0; mscratch")]) for row, source in (
        ("csrrw", "a1"), ("csrrs", "a1"), ("csrrc", "a1"), ("csrrwi", "5"), ("csrrsi", "5"), ("csrrci", "21"))),
    Table("csrrw a1, mscratch, a1", BOTH, [["csrrw a1, mscratch, a1"]], [(SCRATCH, "a1; mscratch")]),
    # a write of a counter stands; the other one counts
    Table("counters", INTEGER, [[]], [
        ([MINUS_ONE, "csrrw a1, mcycle, a0"], "mcycle; minstret; a1"), ([MINUS_ONE, "csrrw a1, minstret, a0"], "minstret; mcycle; a1"),
        ([MINUS_ONE, "csrrw a1, mcycle, a0", "csrrs a2, mcycle, zero", "csrrs a0, minstret, zero"], "a2; a0; mcycle; minstret"),
    ]),
]


def kept(name, value=-1):
    """What a register reads after a write of a number, and after one of zeros."""
    return [f"addi a0, zero, {value}", f"csrrw zero, {name}, a0", f"csrrw a1, {name}, zero", f"csrrs a2, {name}, zero"], "a1; a2"


MASKS = [Table("bits that are kept", INTEGER, [[]], [
    kept("mstatus"), kept("misa"), kept("mie"), kept("mtvec"), kept("mtvec", -3), kept("mepc"), kept("mcause"), kept("mtval"),
    ([MINUS_ONE, "csrrw zero, mip, a0", "csrrw a1, mip, zero"], "trap; a1"),
])]

# Root in a0, and 0x8000_0103 in t0; and the same with a sentry, which loses its tag when its address is set.
ROOT = [number("t0", 0x8000_0103), "cspecialrw ca0, ddc, cnull"]

SPECIAL = [
    Table("mtvec and mepc are views", BOTH, [
        [f"cspecialrw cnull, {name}, ca0", f"csrrw zero, {view}, t0", f"cspecialrw ca1, {name}, cnull", f"csrrs a2, {view}, zero"]
        for name, view in (("mtcc", "mtvec"), ("mepcc", "mepc"))
    ], [(ROOT, "fields a1; a2"), ([*ROOT, "csealentry ca0, ca0"], "fields a1; a2")]),
    # the first is put in, swapped for the second in one register, and read with no write
    Table("swaps", BOTH, [[f"cspecialrw cnull, {name}, ca0", f"cspecialrw ca1, {name}, ca1", f"cspecialrw ca2, {name}, cnull"]
                          for name in ("ddc", "mtcc", "mtdc", "mscratchc", "mepcc")],
          [([shaped("a0", LOAD, 16, 3), shaped("a1", STORE, 32, 4)], "trap; a1; a2")]),
    Table("PCC is read", CAPABILITY, [["nop", "cspecialrw ca2, pcc, cnull"]], [([], "a2")]),
]

TABLES = ACCESS + FORMS + MASKS + SPECIAL
