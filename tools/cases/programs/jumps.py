"""Branches, jumps, links, and the fetch."""

from model.rights import EXECUTE

from .items import BOTH, CAPABILITY, ENTRY, INTEGER, Table, narrowed, number, sealed, shaped

# -1 in a0, 1 in a1, and a word after which a branch stands at 0x8000_000c.
ONES = ["addi a0, zero, -1", "addi a1, zero, 1", "nop"]
TAKEN = ("bne a0, a1", "blt a0, a1", "bgeu a0, a1", "beq a0, a0", "bge a1, a0", "bltu a1, a0")
NOT_TAKEN = ("beq a0, a1", "bge a0, a1", "bltu a0, a1", "bne a0, a0", "blt a1, a0", "bgeu a1, a0")

BRANCHES = [
    Table("taken", BOTH, [[f"{branch}, .-12"] for branch in TAKEN], [(ONES, "trap; address pcc")]),
    Table("taken to a place that is no multiple of 4", BOTH, [[f"{branch}, .+6"] for branch in TAKEN], [(ONES, "trap; address mepcc")]),
    # where it would go doesn't matter
    Table("not taken", BOTH, [[f"{branch}, .+6"] for branch in NOT_TAKEN], [(ONES, "trap; address pcc")]),
    # beq over a word; then PCC has two words, and the same beq is done again
    Table("beq out of PCC", INTEGER, [["beq zero, zero, .+8", "nop", number("t0", ENTRY), "cspecialrw ca0, pcc, cnull",
                                       "csetaddr ca0, ca0, t0", "csetboundsimm ca0, ca0, 8", "jalr.cap cnull, ca0"]],
          [([], "trap; mepcc")]),
]

# PCC is the 16 bytes from 0x8000_0030 on, where the row stands: 7 words for t0, one for ra, 4 for PCC. t0 is 16 bytes before.
WITHIN = [number("t0", 0x8000_0020), "addi ra, zero, 7", narrowed(16)]

JUMPS_WITHIN = [
    # the last ones go to no multiple of 4, too
    Table("out of PCC", INTEGER, [["jal ra, .+16"], ["jal ra, .-4"], ["jalr ra, 32(t0)"], ["jalr ra, 12(t0)"], ["beq zero, zero, .+16"],
                                  ["beq zero, zero, .-4"], ["jal ra, .+14"], ["jal ra, .+18"], ["jalr ra, 30(t0)"], ["jalr ra, 35(t0)"],
                                  ["beq zero, zero, .+14"]], [(WITHIN, "trap; ra; address mepcc")]),
    Table("in PCC, and no multiple of 4", INTEGER, [["jal ra, .+10"], ["jalr ra, 26(t0)"], ["jalr ra, 27(t0)"], ["beq zero, zero, .+10"]],
          [(WITHIN, "trap; ra; address mepcc")]),
    Table("to PCC's last word, with bit 0 cleared, and a link that is a number", INTEGER,
          [["jal ra, .+12"], ["jalr ra, 28(t0)"], ["jalr ra, 29(t0)"]], [(WITHIN, "trap; ra; address pcc")]),
    Table("jalr a0, 0(a0)", INTEGER, [[number("a0", 0x8000_0041), "jalr a0, 0(a0)"]], [([], "trap; a0; address pcc")]),
    Table("cjal cra, .+8", CAPABILITY, [["jal ra, .+8"]], [([], "trap; pcc; ra; fields ra")]),
    Table("the type of cjal's link", CAPABILITY, [["jal ra, .+8", "nop", "cgettype a0, cra"]], [([], "a0")]),
]

# Every condition is false from a place on, one place fewer a line: bytes 2 to 6 are neither in 4 bytes nor at a multiple of 4.
ENTERED = [
    ([shaped("a0", 0, 4, 2), sealed("a0", 5), "ccleartag ca0, ca0", "addi ra, zero, 7"], "trap; ra; address mepcc"),
    ([shaped("a0", 0, 4, 2), sealed("a0", 5), "addi ra, zero, 7"], "trap; ra"),
    [shaped("a0", 0, 4, 2)], [shaped("a0", EXECUTE, 4, 2)], [shaped("a0", EXECUTE, 8, 2)],
    # bit 0 is cleared; and a sentry is opened
    ([shaped("a0", EXECUTE, 4, 1)], "trap; pcc"), ([shaped("a0", EXECUTE, 4, 0), "csealentry ca0, ca0"], "trap; pcc"),
]
ENTRY_OF_16 = [shaped("a0", EXECUTE, 16, 0), "csealentry ca0, ca0"]

JUMPS_TO_CAPABILITIES = [
    Table("jalr.cap", BOTH, [["jalr.cap cra, ca0"]], ENTERED),
    Table("cjalr", CAPABILITY, [["jalr ra, 0(a0)"]], ENTERED),
    Table("links of jalr.cap in integer mode", INTEGER, [["jalr.cap cra, ca0"]], [([shaped("a0", EXECUTE, 4, 0)], "trap; ra")]),
    Table("links in capability mode", CAPABILITY, [["jalr.cap cra, ca0"], ["jalr ra, 0(a0)"]],
          [([shaped("a0", EXECUTE, 4, 0), "csealentry ca0, ca0"], "trap; ra")]),
    Table("cjalr with an offset", CAPABILITY, [[]], [
        [*ENTRY_OF_16, "jalr ra, 4(a0)"], [*ENTRY_OF_16, "jalr ra, 1(a0)"],
        ([shaped("a0", EXECUTE, 16, 4), "jalr ra, -4(a0)"], "trap; address pcc; ra"),
        ([shaped("a0", EXECUTE, 16, 4), "jalr ra, -3(a0)"], "trap; address pcc"),
        *([shaped("a0", EXECUTE, 16, 0), f"jalr ra, {offset}(a0)"] for offset in (16, 14, 6)),
        ([shaped("a0", EXECUTE, 16, 4), "jalr a0, 0(a0)"], "address pcc; a0"),
    ]),
    # PCC with the flag; the load is then through t0, which is null
    Table("the flag is the mode", BOTH, [["addi a1, zero, 1", "cspecialrw ca0, pcc, cnull", "cincoffsetimm ca0, ca0, 16",
                                          "csetflags ca0, ca0, a1", "jalr.cap cnull, ca0", "ld a0, 0(t0)"]], [([], "trap; mepcc; pcc")]),
]

LAST_WORD = [number("t0", 0x8000_0ffc), "addi a0, zero, 19", "sw a0, 0(t0)", "jalr ra, 0(t0)", "@step"]
AUIPC = [["auipc a0, 0x1", "auipc a1, 0xfffff"]]

FETCHES = [
    Table("AUIPC of a number", INTEGER, AUIPC, [([], "a0; a1")]),
    Table("AUIPC of PCC", CAPABILITY, AUIPC, [([], "a0; a1")]),
    Table("straight code out of PCC", BOTH, [[narrowed(8), "nop", "addi a0, zero, 7", "addi a0, zero, 8"]],
          [([], "trap; address mepcc; fields mepcc; a0; minstret; mcycle")]),
    Table("the last word of RAM, and the one after it", INTEGER, [LAST_WORD], [([], "trap; address pcc")]),
    Table("after the last word of RAM", INTEGER, [[*LAST_WORD, "@step"]], [([], "trap; address mepcc")]),
    # MRET to ca0 where a nop stands; each condition is false from a place on; bytes 4 to 8 are not in 7 bytes
    Table("fetches through PCC", INTEGER, [[number("t0", 0x8000_0804), "addi a1, zero, 19", "sw a1, 0(t0)", "cspecialrw cnull, mepcc, ca0",
                                            "mret", "@step"]], [
        ([shaped("a0", 0, 7, 4), sealed("a0", 5), "ccleartag ca0, ca0"], "trap; same mepcc a0"),
        ([shaped("a0", 0, 7, 4), sealed("a0", 5)], "trap; same mepcc a0"), ([shaped("a0", 0, 7, 4)], "trap; same mepcc a0"),
        ([shaped("a0", EXECUTE, 7, 4)], "trap; same mepcc a0"), ([shaped("a0", EXECUTE, 8, 4)], "trap; address pcc"),
    ]),
]

TABLES = BRANCHES + JUMPS_WITHIN + JUMPS_TO_CAPABILITIES + FETCHES
