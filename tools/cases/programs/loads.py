"""Loads of data from RAM, the authority of each row, and devices."""

from model.rights import LOAD

from .items import BOTH, CAPABILITY, DATA, ENTRY, INTEGER, Table, number, shaped


def placed(value):
    """A number in memory, and the place in t0, ca1 and, as root, in ca2."""
    return [number("t0", DATA), number("a0", value), "sd.ddc a0, (t0)", shaped("a1", LOAD, 8, 0), "cspecialrw ca2, ddc, cnull",
            "csetaddr ca2, ca2, t0"]


LOADS = ("lb", "lh", "lw", "ld", "lbu", "lhu", "lwu")
STORES = ("sb", "sh", "sw", "sd")
# The bytes 88 87 86 85 84 83 82 81 in memory, and 78 77 76 75 74 73 72 71.
NUMBERS = (0x8182_8384_8586_8788, 0x7172_7374_7576_7778)
LOADED = [Table(row.upper(), BOTH, [[f"{row} a0, 0(a2)"], [f"{row}.ddc a0, (t0)"], [f"{row}.cap a0, (ca1)"]],
                [(placed(value), "trap; a0") for value in NUMBERS]) for row in LOADS]


def through(form, place):
    """Every row of a form, at a place."""
    return [[f"{row}{form} {'c' if row in ('lc', 'sc') else ''}a0, {place}"] for row in (*LOADS, "lc", *STORES, "sc")]


# A number in DDC and in t0, so that each row reports the register without a tag: 33 for DDC, and 5.
UNTAGGED = [([number("t0", DATA), "cspecialrw cnull, ddc, ct0", "addi a0, zero, 7"], "trap; a0; address mepcc")]
EMPTY = [number("a1", ENTRY), "addi a0, zero, 7", "cspecialrw ca2, ddc, cnull", "csetaddr ca2, ca2, a1", "csetbounds ca2, ca2, zero",
         "cspecialrw cnull, ddc, ca2"]
AUTHORITIES = [
    Table("DDC in integer mode", INTEGER, through("", "0(t0)"), UNTAGGED),
    Table("rs1 in capability mode", CAPABILITY, through("", "0(t0)"), UNTAGGED),
    Table("DDC in its explicit forms", BOTH, through(".ddc", "(t0)"), UNTAGGED),
    Table("rs1 in its explicit forms", BOTH, through(".cap", "(ct0)"), UNTAGGED),
    Table("lw a0, 0(a1) with a DDC of no bytes", INTEGER, [["lw a0, 0(a1)"]], [(EMPTY, "trap; a0; address mepcc")]),
]

DEVICES = [
    Table("access faults", INTEGER, [[]], [
        # words and halves of transmit, and what lies in it
        ([number("t0", 0x1000_0000), "sw a0, 0(t0)"], "trap; sent"),
        [number("t0", 0x1000_0000), "sh a0, 0(t0)"], [number("t0", 0x1000_0004), "sb a0, 0(t0)"],
        [number("t0", 0x1000_0000), "lw a0, 0(t0)"], [number("t0", 0x1000_0000), "lbu a0, 0(t0)"],
        # nothing is there
        (["addi a0, zero, 7", "ld a0, 0(zero)"], "trap; a0"),
        [number("t0", 0x8000_1000), "ld a0, 0(t0)"], [number("t0", 0x8000_1000), "sb a0, 0(t0)"],
        [number("t0", 0x1000_0020), "ld a0, 0(t0)"],
        # a word of the timer, and a byte of halt
        [number("t0", 0x0200_bff8), "lwu a0, 0(t0)"], [number("t0", 0x0010_0000), "sb a0, 0(t0)"],
    ]),
    Table("sb and sd into transmit", INTEGER, [["sb a0, 0(t0)"], ["sd a0, 0(t0)"], ["sb.ddc a0, (t0)"]],
          [([number("t0", 0x1000_0000), number("a0", 0x1234_5641)], "trap; sent")]),
    # ld of receive takes a byte, and of status tells whether one waits
    Table("bytes come in", INTEGER, [["@byte e9", "ld a0, 16(t0)", "ld a1, 8(t0)", "ld a2, 8(t0)", "ld ra, 16(t0)"]],
          [([number("t0", 0x1000_0000)], "trap; a0; a1; a2; ra; sent")]),
]

TABLES = LOADED + AUTHORITIES + DEVICES
