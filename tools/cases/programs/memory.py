"""Stores, and loads and stores of capabilities, in RAM."""

from model.rights import GLOBAL, LOAD, LOAD_CAPABILITY, STORE, STORE_CAPABILITY, STORE_LOCAL

from .items import BOTH, CAPABILITY, DATA, INTEGER, Table, number, sealed, shaped

# Everything that a store of a capability needs.
ALL = STORE | STORE_CAPABILITY | STORE_LOCAL
AT_DATA = f"granule {DATA:x}"
PAGE = [number("t0", 0x8000_1000), number("t1", 0xfff), "cspecialrw ca1, ddc, cnull", "csetaddr ca1, ca1, t0", "csetbounds ca1, ca1, t1",
        number("t0", DATA), "sc ca1, 0(t0)"]

WORDS = [
    Table("root is stored with its tag", INTEGER, [["sc ca1, 0(t0)"], ["sc.ddc ca1, (t0)"]],
          [([number("t0", DATA), "cspecialrw ca1, ddc, cnull"], f"trap; {AT_DATA}")]),
    # a byte store takes the tag and changes one byte
    Table("the capability of a page is stored", INTEGER, [[]],
          [(PAGE, AT_DATA), ([*PAGE, "addi t1, zero, 65", "sb t1, 3(t0)", "lc ca2, 0(t0)"], f"trap; {AT_DATA}; bytes a2")]),
]

# Ones in memory, a number in a0, the place as a number in t0, as a capability for stores in ca1, and as root in ca2, which does in both
# modes: 0x1122334455667788 is stored over bytes of ones, the lowest byte first.
ONES = [number("t0", DATA), "addi a0, zero, -1", "sd.ddc a0, (t0)", shaped("a1", STORE, 16, 0), "cspecialrw ca2, ddc, cnull",
        "csetaddr ca2, ca2, t0", number("a0", 0x1122_3344_5566_7788)]
SIZES = [Table(name, BOTH, [[f"{row}.ddc a0, (t0)"], [f"{row}.cap a0, (ca1)"], [f"{row} a0, 0(a2)"]], [(ONES, f"trap; {AT_DATA}")])
         for name, row in (("bytes", "sb"), ("halves", "sh"), ("words", "sw"), ("doubles", "sd"))]


def first_faults(name, row, offset, *needed):
    """Every condition is false from a place on, one place fewer a line: the capability in ca1 has more and more of what is needed. Bytes
    12 to 20 or 28 are neither in 16 bytes nor at a multiple; the last line's offset is good."""
    least = [shaped("a1", 0, 16, 12), sealed("a1", 5)]
    return Table(name, BOTH, [row], [([*least, "ccleartag ca1, ca1"], "trap; address mepcc"), least,
                                     *([shaped("a1", permissions, 16, 12)] for permissions in (0, *needed)),
                                     [shaped("a1", needed[-1], 32, 12)], [shaped("a1", needed[-1], 16, offset)]])


FIRST_FAULTS = [
    first_faults("a store of a capability that is not Global", [shaped("a0", LOAD, 16, 0), "sc.cap ca0, (ca1)"], 0, STORE,
                 STORE | STORE_CAPABILITY, ALL),
    first_faults("a load of a capability", ["lc.cap ca0, (ca1)"], 0, LOAD),
    first_faults("a store of data", ["sd.cap a0, (ca1)"], 8, STORE),
    first_faults("a load of data", ["ld.cap a0, (ca1)"], 8, LOAD),
]


def loaded(permissions):
    """Root stands at DATA, and ca1 may load there."""
    return [number("t0", DATA), "cspecialrw ca2, ddc, cnull", "sc.ddc ca2, (t0)", shaped("a1", permissions, 16, 0)]


# What is stored in ca0 tells what ca1 is to permit; and a load without Load_Capability gives the bits.
TAGS = [
    Table("stores of capabilities and of data by csc ca0, 0(ca1)", CAPABILITY, [["sc ca0, 0(a1)"]], [
        [shaped("a0", LOAD, 16, 0), "ccleartag ca0, ca0", shaped("a1", STORE, 16, 0)],
        ([shaped("a0", LOAD | GLOBAL, 16, 0), shaped("a1", STORE | STORE_LOCAL, 16, 0)], f"trap; {AT_DATA}"),
        [shaped("a0", LOAD | GLOBAL, 16, 0), shaped("a1", STORE | STORE_CAPABILITY, 16, 0)],
        ([shaped("a0", LOAD, 16, 0), shaped("a1", STORE | STORE_CAPABILITY, 16, 0)], f"trap; address mepcc; {AT_DATA}"),
        [shaped("a0", LOAD, 16, 0), shaped("a1", ALL, 16, 0)],
    ]),
    Table("clc ca0, 0(ca1) of root", CAPABILITY, [["lc ca0, 0(a1)"], ["lc.cap ca0, (ca1)"]],
          [(loaded(permissions), f"trap; bytes a0; {AT_DATA}") for permissions in (LOAD, LOAD | LOAD_CAPABILITY)]),
]

MISALIGNED = [[number("t0", 0x8000_0800 + offset)] for offset in range(1, 16)]
# Before RAM, after it, and transmit.
OUTSIDE = (0x8000_1000, 0x7fff_fff0, 0x1000_0000)
LAST = 0xffff_ffff_ffff_fff8
# Capabilities lie at multiples of 16, in RAM alone, up to its last granule.
PLACES = [
    Table("multiples of 16", INTEGER, [["sc ca2, 0(t0)"], ["lc ca0, 0(t0)"], ["sc ca2, 16(t0)"], ["lc ca0, -16(t0)"]],
          [[number("t0", 0x8000_0810), "cspecialrw ca2, ddc, cnull"]]),
    Table("misaligned stores", INTEGER, [["sc ca2, 0(t0)"], ["addi t0, t0, 16", "sc ca2, -16(t0)"]], MISALIGNED),
    Table("misaligned loads", INTEGER, [["lc ca0, 0(t0)"]], MISALIGNED),
    Table("stores at the ends of RAM, and into transmit", INTEGER, [["cspecialrw ca2, ddc, cnull", "sc ca2, 0(t0)"]],
          [([number("t0", 0x8000_0ff0)], "trap; granule 80000ff0"), *([number("t0", place)] for place in OUTSIDE[:2]),
           ([number("t0", OUTSIDE[2])], "trap; sent")]),
    Table("loads at the ends of RAM, and of transmit", INTEGER, [["lc ca0, 0(t0)"]],
          [[number("t0", place)] for place in (0x8000_0ff0, *OUTSIDE)]),
    # past its last bytes, then those, and sums modulo 2 ^ 64
    Table("the end of the address space", INTEGER, [[]], [
        [number("t0", LAST + 4), "ld a0, 0(t0)"], [number("t0", LAST + 4), "sd a0, 0(t0)"], [number("t0", LAST), "lc ca0, 0(t0)"],
        [number("t0", LAST + 7), "lh a0, 0(t0)"],
        [number("t0", LAST), "ld a0, 0(t0)"], [number("t0", LAST), "ld a0, 16(t0)"], ["sb a0, -1(zero)"],
    ]),
]

TABLES = WORDS + SIZES + FIRST_FAULTS + TAGS + PLACES
