"""Trap entry and return, and interrupts."""

from model.rights import EXECUTE

from .items import BOTH, DATA, INTEGER, Table, WITHOUT_SYSTEM_ACCESS, number, sealed, shaped

ENTRIES = [
    Table("causes and values", BOTH, [[]], [
        (["nop", "ecall"], "trap; address mepcc; minstret; mcycle"),
        # the second: no row has 0x7e as funct7 and 0 in the place of rd
        *((["nop", f".word {word}"], "trap; address mepcc; minstret") for word in ("0x00100073", "0xfc00005b", "0x00000000")),
    ]),
    # a sentry is opened; another sealed value stays sealed, and loses its tag where its address moves
    Table("MTCC", BOTH, [["cspecialrw cnull, mtcc, ca0", "ecall"]], [
        ([shaped("a0", EXECUTE, 16, 6)], "fields pcc; same mtcc a0"),
        ([shaped("a0", EXECUTE, 16, 6), "csealentry ca0, ca0"], "fields pcc; same mtcc a0"),
        ([shaped("a0", EXECUTE, 16, 4), sealed("a0", 5)], "fields pcc; address mepcc"),
        ([shaped("a0", EXECUTE, 16, 6), sealed("a0", 5)], "fields pcc; address mepcc"),
        ([shaped("a0", EXECUTE, 16, 4), "ccleartag ca0, ca0"], "fields pcc; address mepcc"),
    ]),
]

# MRET stands where mtvec says, and mstatus is written with a0.
CALL = [number("t0", DATA), number("a1", 0x3020_0073), "sw a1, 0(t0)", "csrrw zero, mtvec, t0", "csrrw zero, mstatus, a0", "ecall"]
MASKS = (8, 136, 0, 128)
TO_102 = [number("t0", 0x8000_0102), "cspecialrw ca0, ddc, cnull", "csetaddr ca0, ca0, t0"]


def of_masks(first):
    """The values of mstatus before a call: of the first it is seen too where the machine stands and why."""
    return [([f"addi a0, zero, {mask}"], first if mask == MASKS[0] else "mstatus") for mask in MASKS]


RETURNS = [
    Table("interrupts are off in a trap", INTEGER, [CALL], of_masks("address pcc; mstatus; mcause")),
    Table("interrupts are after it as before", INTEGER, [[*CALL, "@step"]], of_masks("mstatus; mcause; address pcc")),
    Table("a return to 0x80000102", BOTH, [["cspecialrw cnull, mepcc, ca0", "mret"]],
          [([*TO_102, "csealentry ca0, ca0"], "pcc; same mepcc a0"), (TO_102, "pcc; same mepcc a0")]),
    Table("MRET without Access_System_Registers", BOTH, [[WITHOUT_SYSTEM_ACCESS, "mret"]],
          [([], "trap; address mepcc; permissions mepcc")]),
]

# mtimecmp is 1, control lets bytes interrupt, and MIE and both bits of mie are set.
ENABLED = [number("t0", 0x0200_4000), number("t1", 0x1000_0018), "addi a0, zero, 1", "sd a0, 0(t0)", "sd a0, 0(t1)", number("a1", 0x880),
           "csrrw zero, mie, a1", "csrrsi zero, mstatus, 8"]

INTERRUPTS = [
    Table("the timer's", INTEGER, [["@tick", "nop"]], [(ENABLED, "trap; address mepcc; mstatus")]),
    Table("the console's, which comes first", INTEGER, [["@byte 07", "nop"], ["@tick", "@byte 07", "nop"]],
          [(ENABLED, "trap; address mepcc; mstatus")]),
    Table("none", INTEGER, [["nop"], ["csrrci zero, mstatus, 8", "@tick", "@byte 07", "nop"]], [(ENABLED, "trap; mcause")]),
]

TABLES = ENTRIES + RETURNS + INTERRUPTS
