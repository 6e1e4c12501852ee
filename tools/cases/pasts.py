"""Conversations of the debugger about what came before, with what is answered by the model of recorded runs."""

from cases.conversations import conversation, modelled, typed
from model.devices import RAM
from model.pasts import LongPast, Past
from model.schedules import Schedule


def session(*given, **how):
    """A conversation by the model of sessions with a past."""
    return modelled(*given, **how, kind=Past)


def after(text, commands):
    """Commands after all statements of a text, which has no directive."""
    return f"step {len(text.split('; '))}; {commands}"


def each(form, names):
    """A form of a command with each of these names."""
    return "; ".join(form.format(name) for name in names.split())


# ---- what makes a value without tag

# In integer mode: root, a number, 16 bytes of RAM, root at type 5, those bytes sealed with it, and an entry; ct0 is tagged.
HAS = ("cspecialrw ca0, ddc, cnull; auipc a1, 0x0; addi a1, a1, 1020; csetaddr ca2, ca0, a1; csetboundsimm ca2, ca2, 16; "
       "addi a3, zero, 5; csetaddr ca3, ca0, a3; cseal ca4, ca2, ca3; csealentry ca5, ca0; cmove ct0, ca0; ")
BYTES = RAM + 0x400

# What leaves ct0 without tag, by the condition that fails.
FALSE = [
    ("CMove: the source has no tag", "cmove ct0, ca1"),
    ("CClearTag keeps no tag", "ccleartag ct0, ca2"),
    ("CClearTag of what has none", "ccleartag ct0, ca1"),
    ("CIncOffset: the source has no tag", "cincoffset ct0, ca1, a3"),
    ("CIncOffset: the source is sealed", "cincoffsetimm ct0, ca4, 4"),
    ("CIncOffset by 0: the source is sealed", "cincoffsetimm ct0, ca4, 0"),
    ("CIncOffset: out of the window", "cincoffset ct0, ca2, a1"),
    ("CIncOffset: the last address in the window, and the next one",
     "lui a6, 0x3; addi a6, a6, 1023; cincoffset ct0, ca2, a6; addi a6, a6, 1; cincoffset ct0, ca2, a6"),
    ("CIncOffset: the first address in the window, and the one before",
     "cincoffsetimm ct0, ca2, -1024; cincoffsetimm ct0, ct0, -2048; cincoffsetimm ct0, ct0, -1"),
    ("CSetOffset: the source is an entry", "csetoffset ct0, ca5, a3"),
    ("CSetOffset: out of the window", "csetoffset ct0, ca2, a1"),
    ("CSetAddr: out of the window", "csetaddr ct0, ca2, a3"),
    ("CSetAddr: the source has no tag", "csetaddr ct0, ca3, a3; csetaddr ct0, ca1, a3"),
    ("CSetBounds: the source has no tag", "csetbounds ct0, ca1, a3"),
    ("CSetBounds: the source is sealed", "csetboundsimm ct0, ca4, 8"),
    ("CSetBounds: one byte too many", "csetboundsimm ct0, ca2, 17"),
    ("CSetBounds: one byte too low", "cincoffsetimm ca6, ca2, -1; csetboundsimm ct0, ca6, 1"),
    ("CSetBounds: 2^64 - 1 bytes", "addi a6, zero, -1; csetbounds ct0, ca2, a6"),
    ("CSetBoundsExact: the source has no tag", "csetboundsexact ct0, ca1, a3"),
    ("CSetBoundsExact: the source is sealed", "csetboundsexact ct0, ca4, a3"),
    ("CSetBoundsExact: out of bounds", "csetboundsexact ct0, ca2, a1"),
    ("CSetBoundsExact: bounds that are rounded", "cincoffsetimm ca7, ca0, 1; lui a6, 0x10; csetboundsexact ct0, ca7, a6"),
    ("CAndPerm: the source has no tag", "candperm ct0, ca1, a3"),
    ("CAndPerm: the source is sealed", "candperm ct0, ca4, a3"),
    ("CSetFlags: the source has no tag", "csetflags ct0, ca1, a3"),
    ("CSetFlags: the source is sealed", "csetflags ct0, ca5, a3"),
    ("CSeal: the source has no tag", "cseal ct0, ca1, ca3"),
    ("CSeal: the authority has no tag", "cseal ct0, ca2, ca1"),
    ("CSeal: the source is sealed", "cseal ct0, ca4, ca3"),
    ("CSeal: the authority is sealed", "cseal ct0, ca2, ca5"),
    ("CSeal: the authority may not seal", "addi a6, zero, 0x3f; candperm ca6, ca3, a6; cseal ct0, ca2, ca6"),
    ("CSeal: the authority's address is its top", "csetboundsimm ca6, ca3, 1; cincoffsetimm ca6, ca6, 1; cseal ct0, ca2, ca6"),
    ("CSeal: the type is reserved", "lui a6, 0x40; addi a6, a6, -4; csetaddr ca6, ca0, a6; cseal ct0, ca2, ca6"),
    ("CUnseal: the source has no tag", "cunseal ct0, ca1, ca3"),
    ("CUnseal: the authority has no tag", "cunseal ct0, ca4, ca1"),
    ("CUnseal: the source is unsealed", "cunseal ct0, ca2, ca3"),
    ("CUnseal: the source is an entry", "cunseal ct0, ca5, ca3"),
    ("CUnseal: the authority is sealed", "cunseal ct0, ca4, ca5"),
    ("CUnseal: the authority may not unseal", "addi a6, zero, 0x3f; candperm ca6, ca3, a6; cunseal ct0, ca4, ca6"),
    ("CUnseal: the authority's address is its top", "csetboundsimm ca6, ca3, 0; cunseal ct0, ca4, ca6"),
    ("CUnseal: another type", "cincoffsetimm ca6, ca3, 1; cunseal ct0, ca4, ca6"),
    ("CSealEntry: the source has no tag", "csealentry ct0, ca1"),
    ("CSealEntry: the source is sealed", "csealentry ct0, ca4"),
    ("CSealEntry: no Execute", "candperm ca6, ca2, a3; csealentry ct0, ca6"),
    ("LC: the granule has no tag", "lc.cap ct0, (ca2)"),
    ("LC: the authority has no Load_Capability", "sc.cap ca3, (ca2); addi a6, zero, 0xf; candperm ca6, ca2, a6; lc.cap ct0, (ca6)"),
    ("LC through DDC without Load_Capability",
     "sc.cap ca3, (ca2); addi a6, zero, 0x407; candperm ca6, ca0, a6; cspecialrw cnull, ddc, ca6; lc ct0, 0(a2)"),
    ("LC.DDC without Load_Capability",
     "sc.cap ca3, (ca2); addi a6, zero, 0x407; candperm ca6, ca0, a6; cspecialrw cnull, ddc, ca6; lc.ddc ct0, (a2)"),
    ("CSpecialRW: the special register has no tag", "cspecialrw ct0, mtdc, cnull"),
    ("A number", "addi t0, zero, 7"),
    ("A number that is loaded", "lbu t0, 0(a1)"),
    ("A number of a row over capabilities", "cgetaddr t0, ca2"),
    ("A link in integer mode", "jal t0, .+4"),
    ("AUIPC in integer mode", "auipc t0, 0x0"),
    ("CSR rows write numbers", "csrrs t0, mstatus, zero"),
]


# What had a tag once: ca1, the granule at ca2 and MTDC.
CLEARED = HAS + "csetaddr ca1, ca0, a1; ccleartag ca1, ca1; sc.cap ca1, (ca2); cspecialrw cnull, mtdc, ca1; "


def false():
    for about, more in FALSE:
        yield session(about, CLEARED + more, after(CLEARED + more, "lost ct0; origin ct0"))


# ---- chains

# What is derived, each from the one before.
DERIVED = ("cspecialrw ca0, ddc, cnull; auipc a1, 0x0; addi a1, a1, 1020; csetaddr ca1, ca0, a1; addi a2, zero, 64; "
           "csetbounds ca2, ca1, a2; csetboundsimm ca3, ca2, 32; cincoffsetimm ca4, ca3, 16; addi a5, zero, 8; cincoffset ca5, ca4, a5; "
           "addi a6, zero, 4; csetoffset ca6, ca5, a6; addi a7, zero, 8; csetboundsexact ca7, ca6, a7; addi s2, zero, 0x17; "
           "candperm cs2, ca7, s2; addi s3, zero, 1; csetflags cs3, cs2, s3; cmove cs4, cs3; csealentry cs5, cs4; addi s6, zero, 9; "
           "csetaddr cs6, ca0, s6; cseal cs7, cs4, cs6; cunseal cs8, cs7, cs6; addi s9, zero, 0x200; candperm cs9, cs6, s9; "
           "cunseal cs10, cs7, cs9; ccleartag cs11, cs10; cincoffsetimm ct3, cs11, 1; cmove ca0, ct3; add a0, a0, zero")
MOVES = ("cspecialrw ca0, ddc, cnull; addi a1, zero, 40; loop: cincoffsetimm ca0, ca0, 3; addi a1, a1, -1; bne a1, zero, loop")


def chains():
    yield session("A chain of every row that derives, up to the opening state", DERIVED, after(DERIVED, "origin cs4; lost cs4"))
    for name in ("cs2", "cs5", "cs7", "cs8", "cs10", "cs11", "ct3", "ca0"):
        yield session(f"The chain of {name}", DERIVED, after(DERIVED, f"origin {name}; lost {name}"))
    yield session("Registers by each kind of name, register 0, and what no event wrote", DERIVED, after(
        DERIVED, each("origin {}", "a1 ca1 x11 c11 fp cfp s0 zero c0 cnull ra t6 pcc mtdc") + "; "
        + each("lost {}", "a1 zero fp pcc mtdc mepcc")))
    yield session("A loop moves a capability on: its first and last time have a line, and those between are counted", MOVES,
                  "step 122; origin ca0; back 62; origin ca0; origin a1")


# ---- stretches of links that are told alike

# A pointer that moves on, four events a round after the first event; one that begins as it was; one that comes from a number.
ROUND_AND_ROUND = "cspecialrw ca0, ddc, cnull; loop: cincoffsetimm ca0, ca0, 16; addi a1, a1, 1; nop; j loop"
FROM_OPENING = "loop: cincoffsetimm ca0, ca0, 16; j loop"
FROM_NUMBER = "addi a0, zero, 5; loop: cincoffsetimm ca0, ca0, 16; j loop"
# Two links that take turns, in registers and through a granule.
TURNS = "cspecialrw ca0, ddc, cnull; loop: cmove ca1, ca0; cmove ca0, ca1; j loop"
THROUGH = ("cspecialrw ca0, ddc, cnull; auipc a1, 0x0; addi a1, a1, 1020; loop: sc ca0, 0(a1); lc ca0, 0(a1); j loop")
# Five times, another instruction or another source, and five times again.
WRITER = ("cspecialrw ca0, ddc, cnull; addi a1, zero, 5; loop: cincoffsetimm ca0, ca0, 16; addi a1, a1, -1; bne a1, zero, loop; {}; "
          "addi a1, zero, 5; j loop")
# Eight rounds of which one cuts.
CUTS = "cspecialrw ca0, ddc, cnull; addi a1, zero, {}; lui a2, {}; csetaddr ca0, ca0, a2; loop: {}; j loop"


def stretches():
    for count in range(1, 8):
        yield session(f"{count} alike", ROUND_AND_ROUND, f"step {4 * count - 2}; origin ca0; step 2; origin ca0")
        yield session(f"{count} alike, down to the opening state", FROM_OPENING, f"step {2 * count - 1}; origin ca0; lost ca0")
        yield session(f"{count} alike, down to a number", FROM_NUMBER, f"step {2 * count}; origin ca0")
    for count in (2, 3, 4, 5, 12, 13):
        yield session(f"Two links take turns: after {count} events", TURNS, f"step {count}; origin ca0; origin ca1")
        yield session(f"Two links take turns through a granule: after {count} events", THROUGH,
                      f"step {count + 3}; origin ca0; origin {BYTES:#x}")
    for about, other in (("another instruction", "csetaddr ca0, ca0, zero"), ("another source", "cincoffsetimm ca0, ca2, 16"),
                         ("the same instruction elsewhere", "cincoffsetimm ca0, ca0, 16"), ("a number", "addi a0, zero, 1")):
        text = WRITER.format(other)
        yield session(f"Stretches with {about} between", text, "step 17; origin ca0; step 1; origin ca0; step 9; origin ca0; step 9; "
                      "origin ca0; step 40; origin ca0; lost ca0")
    for about, number, high, row in (("bounds are cut once", 64, "0x10", "csetboundsimm ca0, ca0, 64"),
                                     ("a tag is cut once", 3, "0x10", "cincoffset ca0, ca0, ca0"),
                                     ("permissions are cut once", 23, "0x10", "candperm ca0, ca0, a1")):
        yield session(f"A loop in which {about}", CUTS.format(number, high, row), "step 9; origin ca0; step 8; origin ca0; step 90; "
                      "origin ca0; lost ca0")
    yield session("The same instruction at six places is no stretch", "cspecialrw ca0, ddc, cnull; "
                  + "; ".join(6 * ["cincoffsetimm ca0, ca0, 16"]), "step 7; origin ca0")
    yield session("Ticks and bytes between alike links count as events", ROUND_AND_ROUND, "step 5; tick 3; step 4; byte 7; step 4; tick 1; "
                  "step 9; origin ca0; back 9; origin ca0")


# ---- memory

# Stores of each size before, at, at the end of and after a granule.
EDGES = [(row, offset) for row, size in (("sb", 1), ("sh", 2), ("sw", 4), ("sd", 8)) for offset in (-size, 0, 16 - size, 16)]
OVER = (HAS + "cincoffsetimm ca6, ca2, 15; sc.cap ca3, (ca2); sb.cap a3, (ca6); sb.cap zero, (ca6); sc.cap ca1, (ca2); "
        "sc.cap cnull, (ca2)")
ALL_BETWEEN = (HAS + "sc.cap ca3, (ca2); " + "; ".join(f"sb zero, {n}(a2); sc.cap ca3, (ca2)" for n in range(1, 15))
               + "; sc.cap ca1, (ca2)")
# Capabilities in the image, data, and code that loads and stores.
IMAGE = (".mode 1; auipcc ca0, 0x0; cincoffsetimm ca0, ca0, 256; clc ca1, 0(ca0); clc ca2, 16(ca0); csc ca1, 48(ca0); csc ca2, 0(ca0); "
         "cld a3, 32(ca0); csd a3, 32(ca0); .org 0x80000100; .cap 0x80000800, 32, 0x3f, 1; .cap 0, 0, 0, 0; "
         ".dword 0x123456789abcdef, -1")


def memory():
    both = f"lost {BYTES:#x}; origin {BYTES:#x}"
    for row, offset in EDGES:
        yield session(f"`{row}` at byte {offset} of a granule", f"{HAS}sc.cap ca3, (ca2); {row} zero, {offset}(a2)",
                      f"step 12; {both}; origin {BYTES + 16 * (offset // 16):#x}")
    yield session("Two stores over a granule, of which the second finds no tag, and then what has none", OVER,
                  "step 12; " + "; step 1; ".join(5 * [both]))
    yield session("Each byte of a granule but the first and the last, and SC of what has no tag over what has one", ALL_BETWEEN,
                  f"step 11; {'; step 1; '.join(29 * [f'lost {BYTES:#x}'])}; step 1; {both}")
    yield session("What the image gave", IMAGE, each("origin {}", "0x80000000 0x80000010 0x80000100 0x80000110 0x80000120 0x80000130 "
                                                     "0x80000ff0") + "; lost 0x80000100")
    yield session("Chains up to the image", IMAGE, "step 4; origin ca1; origin ca2; step 1; origin 0x80000130; step 1; origin 0x80000100; "
                  "origin 0x80000110; lost 0x80000100; step 2; origin 0x80000120; origin a3; lost 0x80000120; origin ca0")


# ---- a tag that a copy of words loses

# A granule at data with a capability, or as it is in the image, and two double words on their way from there to data + 64.
LABELS = {"data": BYTES, "copy": BYTES + 64, "later": BYTES + 128}
WORDS = ("cspecialrw ca0, ddc, cnull; auipc a1, 0x0; addi a1, a1, 1020; csetaddr ca1, ca0, a1; cincoffsetimm ca2, ca1, 64; "
         "csetboundsimm ca3, ca1, 32; sc.cap ca3, (ca1); ")
COPY = "ld t0, 0(a1); sd t0, 64(a1); ld t1, 8(a1); sd t1, 72(a1)"
COPIES = [
    ("one double word after the other", COPY),
    ("both loads first, and the upper half first", "ld t0, 0(a1); ld t1, 8(a1); sd t1, 72(a1); sd t0, 64(a1)"),
    ("through capabilities", "cincoffsetimm ca4, ca1, 8; cincoffsetimm ca5, ca2, 8; ld.cap t0, (ca1); ld.cap t1, (ca4); sd.cap t0, (ca2); "
     "sd.cap t1, (ca5)"),
    ("through DDC", "addi a4, a1, 8; addi a5, a1, 72; addi a6, a1, 64; ld.ddc t0, (a1); sd.ddc t0, (a6); ld.ddc t1, (a4); "
     "sd.ddc t1, (a5)"),
    ("through one register", "ld t0, 0(a1); sd t0, 64(a1); ld t0, 8(a1); sd t0, 72(a1)"),
    ("by a loop", "addi a4, zero, 2; addi a5, a1, 0; again: ld t0, 0(a5); sd t0, 64(a5); addi a5, a5, 8; addi a4, a4, -1; "
     "bne a4, zero, again"),
    ("over another capability", "sc.cap ca2, (ca2); " + COPY),
    ("and the copied one goes then", COPY + "; sd zero, 0(a1)"),
    ("from where they are stored", "ld t0, 0(a1); ld t1, 8(a1); sd t0, 0(a1); sd t1, 8(a1)"),
]
# What cheats: it is no copy of a tagged capability as data, or none of double words.
NO_COPIES = [
    ("the granule had no tag", "sd zero, 24(a1); ld t0, 16(a1); sd t0, 64(a1); ld t1, 24(a1); sd t1, 72(a1)"),
    ("the capability is another one at the second load", "ld t0, 0(a1); sd t0, 64(a1); sc.cap ca2, (ca1); ld t1, 8(a1); sd t1, 72(a1)"),
    ("its tag is gone at the second load", "ld t0, 0(a1); sd t0, 64(a1); sb t0, 0(a1); ld t1, 8(a1); sd t1, 72(a1)"),
    ("the same bits without a tag", COPY + "; ld t0, 64(a1); sd t0, 128(a1); ld t1, 72(a1); sd t1, 136(a1)"),
    ("the halves change places", "ld t0, 8(a1); sd t0, 64(a1); ld t1, 0(a1); sd t1, 72(a1)"),
    ("one half alone", "ld t0, 0(a1); sd t0, 64(a1)"),
    ("one half twice", "ld t0, 0(a1); sd t0, 64(a1); sd t0, 64(a1)"),
    ("halves of two granules", "sc.cap ca3, 0(ca2); ld t0, 0(a1); sd t0, 128(a1); ld t1, 72(a1); sd t1, 136(a1)"),
    ("a number is added", "ld t0, 0(a1); addi t0, t0, 0; sd t0, 64(a1); ld t1, 8(a1); sd t1, 72(a1)"),
    ("words of four bytes", "lw t0, 0(a1); sw t0, 64(a1); lw t0, 4(a1); sw t0, 68(a1); ld t1, 8(a1); sd t1, 72(a1)"),
    ("a byte is stored over them", COPY + "; sb zero, 79(a1)"),
    ("double words of a device", "lui a4, 0x10000; ld t0, 8(a4); sd t0, 64(a1); ld t1, 8(a4); sd t1, 72(a1)"),
]


def copies():
    for about, rows in COPIES + NO_COPIES:
        text = WORDS + rows.replace("sc.cap ca3, 0(ca2)", "sc.cap ca3, (ca2)") + "; lc.cap ca4, (ca2); cmove ca5, ca4"
        where = ("step 5; " if "again" in rows else "") + each("lost {0}; origin {0}", "data copy later ca5")
        yield session(f"Copied as data: {about}", text, after(text, where), None, LABELS)
    text = WORDS + COPY + "; lc.cap ca4, (ca2); " + "; ".join(6 * ["cincoffsetimm ca4, ca4, 8"]) + "; sc.cap ca4, (ca1)"
    yield session("What was copied as data is moved, and stored over the capability", text,
                  after(text, "lost ca4; lost data; back 2; lost data; back 9; lost copy"), None, LABELS)
    text = f"{WORDS}ccleartag ca4, ca3; loop: cincoffsetimm ca4, ca4, 8; j loop"
    for count in (1, 2, 3, 4, 5, 9):
        yield session(f"A tag is cleared and {count} links lead on", text, f"step {8 + 2 * count - 1}; lost ca4; origin ca4")
    text = WORDS + "addi a4, zero, 7; cmove ca5, ca4; sc.cap ca5, (ca2); lc.cap ca6, (ca2); cmove ca3, ca6"
    yield session("A number in the place of a capability, and a number that was handed on", text, after(text, "lost ca3; lost a4; lost data"),
                  None, LABELS)
    text = WORDS + "sc.cap cnull, (ca1); lc.cap ca4, (ca1)"
    yield session("Null is stored over a capability", text, after(text, "lost ca4; lost data; back 2; lost data"), None,
                  LABELS)


# ---- special registers

SPECIALS = ("cspecialrw ca0, mtcc, cnull; cspecialrw ca1, mtcc, ca0; cspecialrw ca1, mscratchc, ca1; cspecialrw ca2, mscratchc, cnull; "
            "cspecialrw ca3, pcc, cnull; cspecialrw cnull, mepcc, ca3; cspecialrw cnull, mtdc, ca3; cspecialrw ca4, mtdc, ca2; "
            "addi a5, zero, 3; cspecialrw ca6, ddc, ca5; cspecialrw cnull, mtdc, ca5; cspecialrw cnull, mscratchc, ca3; "
            "cspecialrw ca3, mscratchc, ca3; cspecialrw cnull, mtcc, cnull")
VIEWS = "auipc a0, 0x0; addi a1, zero, 9; csrrw zero, mtvec, a0; csrrw zero, mepc, a0; "
VIEW_ROWS = ["csrrw a2, mtvec, a1", "csrrs a2, mtvec, a1", "csrrc a2, mtvec, a1", "csrrwi a2, mtvec, 30", "csrrsi a2, mtvec, 2",
             "csrrci a2, mtvec, 0", "csrrs a2, mtvec, zero", "csrrw a2, mepc, a1", "csrrs a2, mepc, a1", "csrrc a2, mepc, zero",
             "csrrwi a2, mepc, 31", "csrrw a2, mscratch, a1"]


def specials():
    yield session("CSpecialRW reads and writes each special register", SPECIALS, after(
        SPECIALS, each("origin {0}; lost {0}", "pcc ddc mtcc mtdc mscratchc mepcc") + "; " + each("origin ca{}", "0 1 2 3 4 6")
        + "; lost ca4"))
    for row in VIEW_ROWS:
        yield session(f"`{row}`", VIEWS + row, "step 5; origin mtcc; origin mepcc; origin a2; lost mtcc; lost mepcc")
    for csr, name in (("mtvec", "mtcc"), ("mepc", "mepcc")):
        yield session(f"A write of {csr} takes the tag: out of the window, of what is sealed; and not of what has none",
                      f"{HAS}cspecialrw cnull, {name}, ca2; csrrw zero, {csr}, a3; cspecialrw cnull, {name}, ca4; csrrw t1, {csr}, a1; "
                      f"csrrwi t1, {csr}, 4",
                      f"step 12; lost {name}; origin {name}; step 2; lost {name}; step 1; lost {name}; origin {name}; origin t1")


# ---- traps

HANDLED = ("auipc a0, 0x0; addi a0, a0, 24; csrrw zero, mtvec, a0; ecall; jal zero, .+0; nop; csrrs a1, mepc, zero; addi a1, a1, 4; "
           "csrrw zero, mepc, a1; mret")
# What MTCC or MEPCC holds as a trap or a return comes: ca2.
KEPT = [
    ("without a tag", "ccleartag ca2, ca2"),
    ("sealed with a type", "cmove ca2, ca4"),
    ("sealed with a type, between two instructions", "cincoffsetimm ca2, ca2, 2; cseal ca2, ca2, ca3"),
    ("an entry", "csetaddr ca2, ca0, a1; csealentry ca2, ca2"),
    ("an entry between two instructions", "csetaddr ca2, ca0, a1; cincoffsetimm ca2, ca2, 3; csealentry ca2, ca2"),
    ("without Execute", "addi a6, zero, 0x15; candperm ca2, ca2, a6"),
    ("between two instructions", "cincoffsetimm ca2, ca2, 2"),
]
# An interrupt of the timer is asked for, with MTCC at an address that is near the end of its window.
INTERRUPTED = (HAS + "lui a6, 0x3; addi a6, a6, {}; cincoffset ca2, ca2, a6; cspecialrw cnull, mtcc, ca2; lui a1, 0x2004; "
               "addi a6, zero, 128; csrrs zero, mie, a6; csrrsi zero, mstatus, 8; sd zero, 0(a1); nop")


def traps():
    yield session("A trap, and the return from it", HANDLED, "step 3; origin pcc; origin mepcc; step 1; origin pcc; origin mepcc; "
                  "lost pcc; step 3; origin mepcc; step 1; origin pcc; origin mepcc; lost pcc; lost mepcc; step 2; origin pcc")
    yield session("A word that is no instruction, and then fetches where there is no RAM", "addi a0, zero, 1",
                  "step 2; origin pcc; origin mepcc; step 3; origin pcc; origin mepcc; lost pcc; lost mepcc; ago")
    yield session("A trap writes no register and no granule", f"{HAS}lb.cap ct0, (ca4)",
                  f"step 10; origin ct0; step 1; origin ct0; lost ct0; origin {BYTES:#x}; origin mepcc; origin mtcc")
    yield session("A capability store that traps", f"{HAS}sc.cap ca3, (ca4)", f"step 11; origin {BYTES:#x}; origin pcc")
    for about, text in KEPT:
        for special, does in (("MTCC", "ecall"), ("MEPCC", "mret")):
            whole = f"{HAS}{text}; cspecialrw cnull, {special.lower()}, ca2; {does}"
            yield session(f"{special} is {about}", whole, after(
                whole, "origin pcc; lost pcc; origin mepcc; step 1; origin pcc; lost pcc; origin mepcc; lost mepcc"))
    for about, distance in (("out of its window", 0x3FD), ("in its window", 0x3E1), ("where it isn't vectored", 0x3FC)):
        yield session(f"An interrupt goes from MTCC to its vector: {about}", INTERRUPTED.format(distance), "step 19; origin mtcc; step 1; "
                      "origin pcc; lost pcc; origin mepcc; step 1; origin mepcc; lost mepcc")


# ---- jumps

PAIR = ("cspecialrw ca0, ddc, cnull; addi a1, zero, 7; csetaddr ca1, ca0, a1; cspecialrw ca2, pcc, cnull; cincoffsetimm ca2, ca2, 32; "
        "cseal ca2, ca2, ca1; cincoffsetimm ca4, ca1, {}; addi a3, zero, 0x13d; candperm ca3, ca0, a3; cseal ca3, ca3, ca4; "
        "cinvoke ca2, {}; nop; nop")
ENTRY = ("cspecialrw ca0, pcc, cnull; cincoffsetimm ca0, ca0, 20; csealentry ca0, ca0; jalr.cap cra, ca0; nop; jalr.cap cra, cra; nop")
IN_CAPABILITY_MODE = (".mode 1; cjal cra, .+12; auipcc ca1, 0x1; cjal cnull, .+16; cjalr cra, 0(cra); nop; cjalr cs0, 4(cra); "
                      "csetoffset ca1, ca1, a0; cspecialrw ca2, pcc, cnull; lui a0, 0x1; cincoffset ca2, ca2, a0; candperm ca2, ca2, a0")


def jumps():
    yield session("CInvoke: PCC from the code, register 31 from the data, unsealed", PAIR.format(0, "ca3"),
                  "step 11; origin pcc; origin ct6; lost pcc; lost ct6; step 1; origin pcc; origin cra")
    for about, *parts in (("data that isn't sealed", 0, "ca0"), ("a pair of two types", 1, "ca3")):
        yield session(f"CInvoke of {about} traps", PAIR.format(*parts), "step 11; origin ct6; origin pcc; lost pcc; lost ct6")
    yield session("Entries and links in integer mode", ENTRY, "step 4; origin pcc; origin cra; lost pcc; lost cra; step 1; origin pcc; "
                  "origin cra; origin ca0; step 1; origin pcc")
    yield session("Links of JAL and JALR in integer mode are numbers, and PCC stays", "jal ra, .+8; nop; jalr a0, 0(ra); jal zero, .+8",
                  "step 1; origin ra; origin pcc; step 1; origin a0; origin ra; origin pcc; lost pcc")
    yield session("Links, AUIPCC and jumps in capability mode", IN_CAPABILITY_MODE, "step 1; origin cra; origin pcc; step 1; origin cra; "
                  "origin pcc; step 1; origin ca1; step 1; origin cnull; origin pcc; step 3; origin ca1; origin ca2; lost ca1; lost ca2")
    yield session("A jump to a capability without a tag traps", f"{HAS}jalr.cap cra, ca1", "step 11; origin pcc; origin cra; lost pcc")
    yield session("A fence writes no register, whatever stands in the place of rd", ".mode 1; cspecialrw ca0, ddc, cnull; fence a0, a1, 255",
                  "step 2; origin ca0; lost ca0")
    yield session("PCC where no event wrote it", ".mode 1; nop", "origin pcc; lost pcc; step 1; origin pcc; origin mepcc")


# ---- back and forth

FIRST = "lui a1, 0x10000; addi a0, zero, 65; sb a0, 0(a1); lui a1, 0x100; sd zero, 0(a1)"
RECEIVES = "lui a1, 0x10000; ld a0, 8(a1); ld a2, 8(a1); nop; nop"
# A capability goes round: into memory, and back without its tag.
ROUND = ("cspecialrw ca0, ddc, cnull; auipc a1, 0x0; addi a1, a1, 1020; sc ca0, 0(a1); lc ca2, 0(a1); sb zero, 3(a1); lc ca2, 0(a1); "
         "cmove ca3, ca2; lui a4, 0x10000; sb a1, 0(a4); lui a4, 0x100; sd zero, 0(a4)")
LOOP = "addi a0, zero, 3; loop: addi a1, a1, 1; bne a1, a0, loop; addi a1, zero, 0; j loop"


def back_and_forth():
    yield session("How many events were given; back to each boundary, and beyond", FIRST,
                  "ago; back 1; back 0; step 1; ago; back 2; ago; back 1; ago; back 1; step 5; ago; back 6; back 5; ago; reg a0; step 5; "
                  "back 4; step 4; ago; back 18446744073709551615; back 0x1; step 1")
    for count in range(1, 7):
        yield session(f"Back by {count} of 6 events, over the halt", FIRST, f"step 6; back {count}; ago; reg a0; reg a1; step 7; ago")
    yield session("Steps of a halted machine are events, ticks and bytes too", FIRST,
                  "step 8; ago; origin a1; tick 2; byte 7; ago; origin a0; lost a1; back 3; ago; back 3; ago; step 1; back 5; origin a1; "
                  "changed a1 9")
    yield session("Numbers of lines count ticks and bytes, and what is taken back counts no more", RECEIVES,
                  "tick 3; byte 0x41; byte 0x42; step 2; origin a1; origin a0; back 1; tick 1; step 1; origin a0; back 6; ago; step 2; "
                  "origin a0; reg a0; back 2; byte 0x43; step 3; origin a2; reg a0; reg a2")
    for place in (f"{BYTES:#x}", "ca2", "pcc"):
        yield session(f"Back and forth over what {place} holds", ROUND, "changed {0} 1; changed {0} 100; changed {0} 100; changed {0} 100; "
                      "ago; back 2; changed {0} 1; changed {0} 3; origin {0}; lost {0}; back 1; origin {0}; lost {0}".format(place))
    yield session("`changed` up to the halt, with what is sent; on a halted machine it gives nothing", ROUND,
                  "changed mtcc 1000000; changed ca0 5; ago; back 3; changed 0x80000000 2; changed a4 10; changed a4 10; changed zero 1")
    yield session("`changed` that doesn't stop, and where it does", LOOP, "changed zero 7; changed a2 0x10; changed mepcc 1; "
                  "changed 0x80000ff0 3; changed a1 1; changed a1 100; changed a1 100; changed a0 100; changed pcc 5; ago")
    yield session("`changed` where the same value is written, and a tag alone differs", f"{HAS}cmove ct0, ca0; ccleartag ct0, ca0",
                  "step 10; changed ct0 5; reg ct0; back 1; changed mepcc 5; origin mepcc")
    yield session("A step that is a jump to itself changes nothing", "jal zero, .+0", "changed pcc 9; step 3; back 2; ago; origin pcc")
    yield session("`until`, `go`, `trap`, `tick` and `byte` are taken back as steps are; stops stay", LOOP,
                  "until 0x8000000c 100; ago; back 3; origin a1; stop at 0x80000004; go; go; ago; back 7; stops; go; tick 5; byte 1; go; "
                  "back 4; ago; trap 10; back 10; until 0x80000010 20; origin a1; lost a1")
    yield session("`trap`, and then back", HANDLED,
                  "trap 10; step 1; back 1; trap 10; origin mtcc; step 5; back 2; origin pcc; ago")


# ---- back to a stop

# Calls without an end; the handler at 0x80000018 goes on after the call.
CALLS = ("auipc a0, 0x0; addi a0, a0, 24; csrrw zero, mtvec, a0; loop: addi a1, a1, 1; ecall; j loop; csrrs a2, mepc, zero; "
         "addi a2, a2, 4; csrrw zero, mepc, a2; mret")
TO_STOP = "back to stop; ago"


def times(count, command=TO_STOP):
    """A command so many times."""
    return "; ".join(count * [command])


def to_stops():
    yield session("Without a stop, without an event, and where none holds at a place before", FIRST,
                  f"back to stop; stop at 0x80000000; {TO_STOP}; step 2; stop off; {TO_STOP}; stop at 0x80000008; {TO_STOP}; step 1; "
                  f"{TO_STOP}; step 1; {TO_STOP}; {TO_STOP}; stop at 0x10; {TO_STOP}; stops")
    yield session("The opening state is a place too", FIRST, f"stop at 0x80000000; step 1; {TO_STOP}; step 4; {TO_STOP}; {TO_STOP}")
    yield session("One place after the other, up to the first", LOOP,
                  f"step 13; stop at 0x80000004; {times(6)}; reg a1; step 13; stops; {TO_STOP}; reg a1")
    yield session("Where a stop holds now is no place before", LOOP, f"stop at 0x80000008; go; go; go; ago; {times(3)}; go; {times(3)}")
    yield session("More stops, the last of them wherever it is", LOOP,
                  f"stop at 0x8000000c; stop at 0x80000004; stop at 0x80000010; step 16; {times(9)}; go; {TO_STOP}")
    yield session("The places at which `go` stopped, in the other order", CALLS,
                  f"stop at 0x80000014; stop at 0x80000018; {times(7, 'go; ago')}; {times(7)}")
    yield session("Before a trap", CALLS, f"stop trap; step 30; {times(3)}; reg pcc; step 1; reg pcc; {times(4)}; go; ago")
    yield session("Before a trap and at an address, which is where it traps too", CALLS,
                  f"stop trap; stop at 0x80000010; stop at 0x80000024; step 20; {times(5)}")
    yield session("After events were taken back, and after others in their place", LOOP,
                  f"stop at 0x80000008; step 12; back 5; {TO_STOP}; step 1; back 1; {TO_STOP}; step 4; tick 1; back 2; {TO_STOP}; back 1; "
                  f"{TO_STOP}")
    yield session("Ticks and bytes beside the steps come before a place, and none of them is one", RECEIVES,
                  f"stop at 0x80000004; step 1; tick 2; byte 0x41; tick 1; {TO_STOP}; step 1; {TO_STOP}; {TO_STOP}; step 2; reg a0; "
                  f"byte 0x42; tick 3; {TO_STOP}")
    yield session("Stops hold nowhere after the halt, whose steps change nothing", FIRST,
                  f"stop at 0x80000014; step 5; {TO_STOP}; step 4; {TO_STOP}; stop at 0x80000010; {TO_STOP}; go; {TO_STOP}; step 9; "
                  f"stop trap; {TO_STOP}; {TO_STOP}")
    yield session("`until`, `trap`, `go` and `changed` are gone back over as steps are", CALLS,
                  f"until 0x80000010 100; trap 9; changed mepcc 9; go 4; stop at 0x8000000c; ago; {times(2)}; changed a1 9; {TO_STOP}")
    yield session("A refused one changes nothing", ROUND,
                  f"step 7; stop at 0x80000020; back to stop; ago; origin ca2; step 9; back to stop; back to stop; reg ca3; ago")


def to_stops_on_schedules():
    for address in range(0x8000_0000, 0x8000_0020, 4):
        yield session(f"On a schedule to {address:#x}: after the byte that comes before the step", KEEPS,
                      f"stop at {address:#x}; step 11; {TO_STOP}; reg a0; {TO_STOP}; go 9; ago; {TO_STOP}", BY_SECONDS)
    yield session("A byte before each step and a tick after each", KEEPS,
                  f"stop at 0x80000010; stop at 0x80000014; step 12; ago; {TO_STOP}; {TO_STOP}; step 1; ago; {TO_STOP}; {TO_STOP}",
                  (1, 1, b"ABCDEFGHIJ"))
    for count in range(1, 5):
        yield session(f"After `back {count}`, which parts a step from its tick and from the byte before it", KEEPS,
                      f"stop at 0x80000010; stop at 0x80000014; step 7; back {count}; {TO_STOP}; {TO_STOP}; step 1; ago",
                      (1, 1, b"ABCDEFGHIJ"))
    yield session("Between a step and its tick", KEEPS,
                  f"stop at 0x80000010; changed a0 100; ago; {TO_STOP}; go; changed a0 100; step 1; ago; stop at 0x80000014; {TO_STOP}; "
                  f"{TO_STOP}", (1, 1, b"AB"))
    yield session("Where `go` stopped after a byte", KEEPS,
                  f"stop at 0x80000010; go; ago; {TO_STOP}; go; ago; {TO_STOP}; back 1; {TO_STOP}; step 1; {TO_STOP}",
                  (1, 0, b"ABCDEFGHIJ"))
    yield session("Before an interrupt that a tick asks for", WAITS, f"stop trap; trap 1000; ago; {TO_STOP}; step 4; ago; {times(3)}; "
                  "step 1; reg pcc", (1000, 5, b""))
    yield session("The halt", FIRST, f"stop at 0x80000010; stop at 0x80000014; step 9; ago; {TO_STOP}; {TO_STOP}; go; ago; {TO_STOP}",
                  (2, 1, b"A"))
    yield session("Over all of a schedule, and over ticks and bytes beside it", KEEPS,
                  f"stop at 0x8000000c; step 4; tick 1; byte 0x5a; step 30; tick 2; {TO_STOP}; step 2; reg a0; ago", BY_SECONDS)


# ---- stops at changes

# A capability to 64 bytes at 0x80000400, which a loop stores and takes apart, byte by byte, and by a word that is what stands there.
WRITES = ("cspecialrw ca0, ddc, cnull; auipc a1, 0x0; addi a1, a1, 1020; csetaddr ca2, ca0, a1; csetboundsimm ca2, ca2, 64; "
          "loop: sc.cap ca2, (ca2); ld a3, 0(a1); sd a3, 0(a1); addi a4, a4, 1; sb a4, 20(a1); sb a4, 20(a1); sh a4, 31(a1); j loop")
ON = "go 60; ago"


def changes():
    yield session("A register, each time that it holds another value", LOOP, f"stop changed a1; {times(4, ON)}; reg a1; {times(3)}; reg a1")
    yield session("The step that changes it is the one before; the first step of `go` may be that", LOOP,
                  f"stop changed a1; step 2; {times(3, 'go 1; reg a1')}; go 1; back to stop; dis; step 1; reg a1")
    yield session("What is written again as it was has not changed", "addi a0, zero, 5; addi a0, zero, 5; loop: addi a0, zero, 6; j loop",
                  f"stop changed a0; {ON}; {ON}; go 50; {TO_STOP}; {TO_STOP}; {TO_STOP}")
    yield session("Register 0 and what the program doesn't touch never change", LOOP,
                  f"stop changed zero; stop changed cs11; stop changed mtdc; stop changed 0x80000800 16; go 40; {TO_STOP}; stops")
    yield session("PCC changes with each step", LOOP, f"stop changed pcc; {times(3, ON)}; {times(4)}")
    yield session("A special register", CALLS,
                  f"stop changed mepcc; {times(3, ON)}; {times(3)}; stop off; stop changed mtcc; go 30; {TO_STOP}")
    yield session("A tag that goes: of the register, and of a granule whose bytes stay", WRITES,
                  f"stop changed 0x80000400; {times(4, ON)}; caps; {times(4)}; caps; stop off; stop changed 0x80000400 16; step 5; "
                  f"{times(3, 'go 40')}; {TO_STOP}")
    yield session("A tag that goes from a register", HAS + "ccleartag ct0, ct0; cmove ct0, ca2; nop",
                  f"step 10; stop changed ct0; go 60; reg ct0; go 60; reg ct0; go 9; {times(3)}; reg ct0")
    yield session("Bytes: of a store of eight the one that is watched, at both ends of what is stored, and across granules", WRITES,
                  "; ".join(f"stop off; stop changed {place} {size}; go 60; ago; go 60; ago; back to stop; ago" for place, size in (
                      ("0x80000413", 1), ("0x80000414", 1), ("0x80000415", 1), ("0x8000041f", 1), ("0x8000041e", 1), ("0x80000420", 1),
                      ("0x80000421", 1), ("0x80000410", 4), ("0x8000040c", 9), ("0x80000400", 4096 - 1024), ("0x80000000", 4096),
                      ("0x80000ff0", 16), ("0x80000fff", 1), ("0x80000000", 1))))
    yield session("Sixteen bytes from what is no granule's address", WRITES,
                  "; ".join(f"stop off; stop changed {place}; stop changed {place} 16; go 60; ago; go 60; ago; back to stop; ago" for place in (
                      "0x80000404", "0x80000405", "0x8000040f", "0x80000411", "0x80000420", "0x80000421", "2147484673"))
                  + "; stops; stop changed 0x80000ff0; stop changed 0x80000ff1; stop changed 0x7fffffff; stop changed 0x7ffffff1; stop changed 1; "
                  "stop changed 0xfffffffffffffff1; stop changed 0xffffffffffffffff; stops")
    yield session("Code that a program stores over", "auipc a1, 0x0; addi a0, zero, 19; sw a0, 12(a1); ebreak; nop",
                  f"stop changed 0x8000000c 4; go 60; dis; go 1; {TO_STOP}; dis 0x8000000c 1")
    yield session("More stops: an address, a trap and changes, the first of them wherever it is", CALLS,
                  f"stop changed a1; stop trap; stop at 0x80000014; stop changed mepcc; {times(12, ON)}; {times(13)}")
    yield session("Addresses on both sides of where the program stands, one twice", LOOP,
                  f"stop at 0x8000000c; stop at 0x80000004; stop at 0x8000000c; stop trap; stops; {times(9, ON)}; {times(10)}")
    yield session("`until`, `trap` and `step` ask for no stop of the session", CALLS,
                  f"stop changed a1; step 9; until 0x80000014 50; trap 9; ago; {times(3)}")
    yield session("What is watched is as it is where the command begins: also after `back`, `changed` and `step`", LOOP,
                  f"stop changed a1; step 7; go 60; ago; back 3; go 60; ago; changed a1 9; go 60; ago; {TO_STOP}; {TO_STOP}")
    yield session("No stop holds after the halt", FIRST, f"stop changed a0; go 60; ago; go 60; ago; go 60; ago; {times(3)}")
    yield session("Which stops are one", LOOP, "stop changed ca0; stop changed a0; stop changed x10; stop changed c10; stop changed ddc; "
                  "stop changed pcc; stop changed 0x80000400; stop changed 0x80000400 16; stop changed 2147484672 0x10; "
                  "stop changed 0x80000400 15; stop at 0x80000400; stop trap; stop trap; stops; stop off; stops")
    yield session("On a schedule, between bytes and ticks", KEEPS,
                  f"stop changed a0; {times(4, ON)}; {times(4)}; stop off; stop changed 0x80000404 1; {times(3, ON)}; reg a0; {times(3)}",
                  (1, 1, b"ABCAAB"))
    yield session("Between a step and its tick", KEEPS, f"stop changed a0; changed a0 100; {ON}; {TO_STOP}; {ON}", (1, 1, b"AB"))
    yield session("Ticks and bytes beside the steps change nothing that is watched", RECEIVES,
                  f"stop changed a0; step 1; byte 0x41; tick 3; {ON}; {TO_STOP}; {ON}")
    yield session("Before a trap whose entry can't be fetched, and at a change that comes with it", "addi a0, a0, 1; ecall; nop",
                  f"stop changed a0; go 60; go 60; go 60; stop changed mepcc; go 60; ago; {times(2)}")
    yield session("Labels", LOOP, "stop changed data; stop changed data 3; stop changed data+1 3; stop changed data+1; stop changed data-16; stop changed ca0; "
                  "stops; go 9", None, {"data": BYTES, "loop": RAM + 4})
    yield session("Bytes outside RAM", FIRST, "step 2; " + each("stop changed {0}", OUTSIDE) + "; stops; "
                  + "; ".join(f"stop changed {it}" for it in BEYOND) + "; stops; step 1")


# ---- calls

# f calls itself three times and returns; then it is called once more.
RECURSES = ("addi a0, zero, 3; jal ra, f; jal ra, f; nop; f: beq a0, zero, out; addi a0, a0, -1; addi t0, ra, 0; jal ra, f; "
            "back: addi ra, t0, 0; out: jalr zero, 0(ra)")
# g leaves h and itself at once, to where its caller is to go on.
LEAVES = "jal ra, f; nop; f: jal t1, g; nop; g: jal t2, h; nop; h: jalr zero, 0(ra); nop"
# Links in one register and in another, a tail call, and a jump into the middle.
TAILS = "jal t0, f; nop; f: auipc t1, 0x0; jalr ra, 16(t1); jal zero, .+0; nop; h: jalr zero, 8(t1); nop"
# The next instruction is where it is to return to.
NEXT = "jal ra, .+4; auipc t0, 0x0; jalr t1, 8(t0); jal ra, f; nop; f: nop"
# An address that was computed is that where an open call is to return to.
COMPUTED = "jal ra, f; nop; f: jal t1, g; nop; g: auipc t2, 0x0; jalr zero, -12(t2); nop"
# A handler that calls; it traps itself in what it called, once.
NESTED = ("auipc a0, 0x0; addi a0, a0, 24; csrrw zero, mtvec, a0; ecall; nop; nop; jal t0, f; csrrs a2, mepc, zero; addi a2, a2, 4; "
          "csrrw zero, mepc, a2; mret; f: bne a3, zero, out; addi a3, zero, 1; ecall; out: jalr zero, 0(t0)")
# A pair whose code goes back by another pair, to the instruction after the first one.
PAIRS = ("cspecialrw ca0, ddc, cnull; addi a1, zero, 7; csetaddr ca1, ca0, a1; addi a3, zero, 0x13d; candperm ca3, ca0, a3; "
         "cseal ca3, ca3, ca1; cspecialrw ca2, pcc, cnull; cincoffsetimm ca4, ca2, 36; cincoffsetimm ca5, ca2, 24; cseal ca4, ca4, ca1; "
         "cseal ca5, ca5, ca1; cinvoke ca4, ca3; nop; jal zero, .+0; nop; cinvoke ca5, ca3; nop")
ENTRY_MISSING = "addi a0, zero, 1; ecall; nop"


def every_step(steps):
    """`calls` after each of so many steps, and then some back."""
    return "calls; " + "; ".join(steps * ["step 1; calls"]) + "; back 2; calls"


def calls():
    for about, text, steps in (
            ("A function that calls itself", RECURSES, 30), ("A return that leaves more than one call", LEAVES, 6),
            ("Links in several registers; a tail call; a jump that calls nothing", TAILS, 6), ("Where it is to return to is the next step", NEXT, 5),
            ("A jump to a computed address returns as one to a link does", COMPUTED, 6), ("A handler that calls and traps", NESTED, 26),
            ("A trap whose entry can't be fetched is told once", ENTRY_MISSING, 6), ("A trap that is taken, and MRET", CALLS, 17),
            ("MRET without a trap", "auipc a0, 0x0; addi a0, a0, 12; csrrw zero, mepc, a0; mret; jal ra, .+8; nop; mret; nop", 7),
            ("An interrupt", INTERRUPTED.format(0x3E1), 22), ("Through a pair, and back by a pair", PAIRS, 18),
            ("Through a pair", PAIR.format(0, "ca3"), 13), ("Through sentries", ENTRY, 7), ("In capability mode", IN_CAPABILITY_MODE, 9),
            ("Loops and branches call nothing", LOOP, 9), ("The halt", FIRST, 7)):
        yield session(about, text, every_step(steps))
    yield session("Ticks and bytes count as events, and call nothing", LEAVES, "tick 2; calls; step 1; byte 3; calls; step 2; calls; ago")
    yield session("On a schedule", WAITS, "calls; step 30; calls; step 40; calls; trap 100; calls; step 1; calls; back 3; calls", (1000, 5, b""))
    yield session("With bytes", LEAVES, "step 2; calls; step 3; calls; step 4; calls", (1, 1, b"AB"))
    yield session("With labels", RECURSES, "step 14; calls; step 30; calls", None, TABLE | {"f": RAM + 16, "out": RAM + 36})
    yield session("Pairs with labels", PAIRS, "step 12; calls; step 3; calls", None, TABLE | {"there": RAM + 60, "here": RAM + 40})


# ---- refusals

REFUSED = [
    "calls 1", "calls a0", "calls calls", "calls to stop", "ago 1", "ago x", "back", "back 1 1", "back x", "back -1", "back -0", "back 00", "back a0", "back 18446744073709551616",
    "back to", "back stop", "back to 1", "back to stops", "back To stop", "back to Stop", "back to trap", "back stop to",
    "back to stop 1", "back 1 stop", "back 1 to stop", "back to stop to", "back to to stop", "back tostop",
    *(f"stop changed{rest}" for rest in (
        "", " x", " x32", " a0 1", " ca0 16", " pcc 1", " mstatus", " mtvec", " -16", " .text",
        " 0x80000000 0", " 0x80000000 4097", " 0x80000000 -1", " 0x80000000 x", " 0x80000000 16 1", " 0x80000000 a0",
        " 0x10000000000000000", " 0x10000000000000000 1", " -1 1", " x 1", " PCC", " A0", " (ca0)", " changed", " at 0x80000000")),
    "stop Changed a0", "stop change a0", "stop changes a0", "stop at changed", "stop trap changed",
    *(f"{name}{rest}" for name in ("origin", "lost") for rest in (
        "", " a0 a1", " a0 1", " 0x80000008", " 0x80000001", " 0x8000000f", " 8", " x", " x32", " A0", " PCC", " mstatus", " mtvec",
        " .text", " 0x10000000000000000", " -16", " 0xffffffffffffffff", " pc", " c", " (ca0)")),
    *(f"changed{rest}" for rest in (
        "", " a0", " a0 0", " a0 1000001", " a0 -1", " a0 x", " a0 1 1", " 1 a0", " 0x80000008 1", " x 1", " x32 1", " mstatus 1",
        " pcc", " 0x80001000 0", " 0x80001008 1", " 0x80001000", " 0 1000001")),
]
NO_COMMANDS = ["Ago", "agos", "backs 1", "BACK 1", "origins a0", "origi a0", "change a0 1", "Changed a0 1", "losts a0", "lose a0", "call", "Calls",
               "forth 1"]
BEYOND = ("0x7fffffff 1", "0x7fffffff 2", "0x80000fff 2", "0x80000ff0 17", "0x80001000 1", "0 1", "0xffffffffffffffff 1",
          "0xfffffffffffff000 4096", "0xffffffffffffffff 4096", "0x10000000 1", "0x100000 8", "0x80000001 4096")
OUTSIDE = "0 16 0x10000000 0x7ffffff0 0x80001000 0xfffffffffffffff0 0x80000ff0 2147483648"

def refusals():
    lines = [f"{typed(line)}\nfault {code}" for code, refused in (("B2", REFUSED), ("B1", NO_COMMANDS)) for line in refused]
    yield "Operands and names that are refused; then nothing has changed", FIRST, "\n".join([
        "> step 2\nevents 2 out - pc 0000000080000008 running", *lines,
        "> ago\nevents 2\n> step 1\nevents 1 out 41 pc 000000008000000c running"])
    yield session("Granules outside RAM", FIRST, "step 2; " + each("origin {0}; lost {0}; changed {0} 1", OUTSIDE))


# ---- schedules

# Receives without an end, and keeps each byte over a capability.
KEEPS = ("cspecialrw ca3, ddc, cnull; auipc a2, 0x0; addi a2, a2, 1020; lui a1, 0x10000; loop: ld a0, 8(a1); sc ca3, 0(a2); sb a0, 0(a2); "
         "lc ca4, 0(a2); j loop")
# Lets the timer interrupt at its third tick, and waits.
WAITS = ("lui a1, 0x2004; addi a0, zero, 3; sd a0, 0(a1); addi a2, zero, 128; csrrs zero, mie, a2; csrrsi zero, mstatus, 8; "
         "loop: addi a3, a3, 1; j loop")
BY_SECONDS = (2, 3, b"ABCDE")


def schedules():
    yield session("A byte before each second step and a tick after each third", KEEPS,
                  "step 1; ago; step 1; ago; step 1; ago; step 9; ago; origin a0; origin ca4; lost 0x80000400", BY_SECONDS)
    for count in range(1, 14):
        yield session(f"Back by {count} of the 13 events of 7 steps", KEEPS, f"step 7; back {count}; ago; step 1; ago; step 1; step 7; ago",
                      BY_SECONDS)
    for count in range(1, 6):
        yield session(f"Back by {count}, and then to a place: it is looked for after the tick and the byte", KEEPS,
                      f"step 9; back {count}; until 0x80000014 20; back 1; until 0x80000014 20; ago", BY_SECONDS)
    yield session("A byte and a tick around each step: events one by one, by `changed`", KEEPS, "; ".join(8 * ["changed mtdc 1"])
                  + "; step 1; changed mtdc 1; step 1; ago; back 3; changed mtdc 4; step 2; ago", (1, 1, b"ABC"))
    yield session("`changed` stops between a step and its tick", KEEPS, "changed a0 100; step 1; changed a0 100; tick 2; changed a0 100; "
                  "origin a0; back 1; changed a0 100; ago; changed ca4 100; until 0x80000010 9; lost ca4", (1, 1, b"AB"))
    yield session("Between a step and its tick: to where it stands, to a trap, and on", KEEPS,
                  "changed a1 100; until 0x80000010 5; back 1; trap 1; back 4; changed a1 9; stop at 0x80000014; go; changed mtcc 5; go; "
                  "ago", (3, 1, b"AB"))
    yield session("Ticks and bytes beside the schedule are taken back with it", KEEPS,
                  "step 2; tick 2; step 2; byte 0x5a; step 2; ago; back 3; step 2; back 4; step 1; byte 0x59; back 1; step 5; reg a0; "
                  "origin a0; ago; back 7; step 7; reg a0", BY_SECONDS)
    yield session("All of a schedule is taken back: it begins anew", KEEPS, "step 20; ago; back 32; back 31; ago; step 20; ago; reg a0",
                  BY_SECONDS)
    yield session("The halt: what stands between the last step and its tick", FIRST,
                  "step 9; ago; back 1; step 1; step 1; back 2; ago; step 1; go; ago; changed a0 5; back 9; back 10; go", (2, 1, b"A"))
    yield session("An interrupt that a tick asks for comes after it, also where it was taken back", WAITS,
                  "trap 1000; ago; step 1; origin pcc; back 2; ago; trap 5; step 1; origin mepcc; back 3; step 1; origin pcc; ago",
                  (1000, 5, b""))
    yield session("`go` to a stop, and back", KEEPS, "stop at 0x80000010; go; go; ago; back 2; go; back 3; go; go; stops; ago",
                  (3, 4, b"ABCDE"))
    yield session("Without bytes", KEEPS, "step 10; back 3; step 3; ago; origin a0", (1, 2, b""))
    yield session("Without ticks", KEEPS, "step 10; back 3; step 3; ago; origin a0; reg a0", (1, 0, b"ABC"))


# ---- far back

# A way of more events than LONG is long: the program keeps a machine SHORT before its end, from which the next begins
# (crates/past/src/past.rt).
LONG, SHORT = 1 << 14, 1 << 13
COUNTS = "auipc a1, 0x0; addi a1, a1, 1024; loop: addi a0, a0, 1; sd a0, 0(a1); j loop"
HALTS = (".pages {}; auipc a1, 0x0; addi a1, a1, 1020; lui a2, {}; loop: addi a0, a0, 1; sd a0, 4(a1); bne a0, a2, loop; lui a4, 0x100; "
         "sd zero, 0(a4)")
# Adds the time and what is received.
ADDS = "lui a1, 0x200c; lui a2, 0x10000; loop: ld a0, -8(a1); ld a3, 8(a2); add a4, a4, a0; add a4, a4, a3; j loop"
SHOWN = "ago; reg a0; mem 0x80000400 8"
# Bytes and ticks, often enough for a place between a step and either.
SELDOM = (97, 89, bytes(range(256)))


def far(about, text, commands, schedule=None):
    return modelled(about, text, commands.replace("?", SHOWN), schedule, kind=LongPast)


def phases(text, schedule, steps):
    """How many events to take back so that a place of each kind is SHORT before: beside a byte, and beside a tick."""
    run = LongPast(text, Schedule(*schedule))
    run.answer(f"step {steps}")
    kinds = [kind for kind, _, _ in run.given]
    for before, after in (("byte", "step"), ("step", "tick"), ("tick", "step"), ("step", "byte"), ("step", "step")):
        yield before, after, run.count - max(n for n in range(LONG + 1, run.count)
                                             if (kinds[n - SHORT - 1], kinds[n - SHORT]) == (before, after))


def far_back():
    for count in (LONG, LONG + 1):
        yield far(f"To the first {count} events, and further", COUNTS, f"step {count + 1}; back 1; ?; back 1; ?; step 3; back 2; ?")
    yield far("Again and again", COUNTS, f"step {LONG + 900}; " + times(9, "back 1; ?") + f"; step 4; back 7; ?; back {SHORT // 2}; ?")
    for more in (-1, 0, 1):
        yield far(f"To where a machine is kept: {more:+}", COUNTS,
                  f"step {LONG + 500}; back 1; ?; back {SHORT + more}; ?; back 1; ?; step 2; ?; back {LONG // 4}; ?")
    yield far("Far back, and on in another way: a byte that wasn't there", KEEPS,
              f"step {LONG + 700}; back 1; reg a0; back {SHORT + 700}; byte 0x5a; step {SHORT + 1400}; back 1; ?; back {SHORT + 690}; ?; "
              "back 9; byte 0x41; step 9; ?")
    yield far("A way shorter than that to the kept machine, and on in another way after it", KEEPS,
              f"step {LONG + 700}; back 1; back {SHORT // 2}; byte 0x5a; step {SHORT}; ?; back 1; ?; back {SHORT}; ?; step 9; ?")
    for count in (1, 2, 3, 5, 6):
        yield far(f"Ticks and bytes beside the steps: the kept machine stands among them, {count} before the last", ADDS,
                  f"step 9; tick {SHORT - 5}; byte 7; step 2; byte 9; tick 2; step {SHORT}; back {count}; ?; back {SHORT - 3}; ?; step 9; "
                  f"reg a4; back 9; ?; back 3; ?; tick {SHORT + 9}; step 2; ?; back 3; step 4; ?; reg a4")
    yield far("Back to a stop", COUNTS, f"step {LONG + 800}; stop at 0x8000000c; {times(4)}; reg a0; back 1; {times(3)}; step 9; ?")
    yield far("The halt, and steps after it", HALTS.format(1, "0x1"),
              f"step 20000; ?; back 2500; ?; back 5200; ?; {times(4, 'back 3; ?')}; step 20000; ?; back 8000; ?")
    for pages in (17, 18, 40):
        yield far(f"A machine of {pages} pages", HALTS.format(pages, "0x4"),
                  f"step {LONG + 900}; " + times(3, "back 1; ?") + "; step 1; ?")
    for before, after, count in phases(KEEPS, SELDOM, LONG + 900):
        yield far(f"On a schedule: the kept machine stands between a {before} and a {after}", KEEPS,
                  f"step {LONG + 900}; back {count}; ?; back 1; ?; back {SHORT - 1}; ?; step 1; ?; step 300; back 1; ?", SELDOM)


# ---- tables of symbols

# Stores of data beside and over a capability, of both kinds to RAM and of one to a device.
STORES = (HAS + "sc.cap ca3, (ca2); sd a1, 16(a2); sb zero, 15(a2); lc.cap ct1, (ca2); lui a6, 0x10000; sb a3, 0(a6)")
DEVICES = ("lui a1, 0x10000; ld a0, 8(a1); ld zero, 8(a1); cspecialrw ca2, ddc, cnull; addi a1, a1, 8; csetaddr ca2, ca2, a1; "
           "ld.cap a3, (ca2); nop")
TABLE = {"start": RAM, "begin": RAM, "loop": RAM + 0x14, "data": BYTES, "data_end": BYTES + 16, "console": 0x1000_0000}


def named():
    def labelled(about, text, commands, labels, schedule=None):
        return session(about, text, commands, schedule, labels)

    yield labelled("Labels after the addresses of steps, of granules and of stores; a label in place of a granule's address", STORES,
                   "step 13; origin data; lost data; step 3; origin ct1; lost data; lost ct1; lost 0x80000400; origin data_end; "
                   "lost data_end; back 4; origin data; changed data 3; lost ct0; origin 0x80000800; step 9; lost data", TABLE)
    yield labelled("Of several labels at one address the first, whichever comes first in the table", STORES,
                   "step 12; origin data; origin a1", {"begin": RAM, "data_end": BYTES + 16, "other": BYTES, "data": BYTES, "start": RAM})
    for about, labels in (
            ("A table without a line: no label", {}), ("The first label is above each address", {"high": BYTES + 17}),
            ("4095 bytes above a label", {"far": RAM + 32 - 4095}), ("4096 bytes above a label", {"farther": RAM + 36 - 4096}),
            ("Labels at 0 and at 2^64 - 1", {"last": 2 ** 64 - 1, "null": 0})):
        yield labelled(about, STORES, "step 13; origin ct0; origin 0x80000400; step 1; lost 0x80000400; lost 0x80000410; origin pcc",
                       labels)
    for about, more in (
            ("A window", "csetaddr ct0, ca2, a3"), ("A window, far away", "csetoffset ct0, ca2, a1"),
            ("A length", "cincoffsetimm ca6, ca2, -1; csetboundsimm ct0, ca6, 1"), ("A length from 0 on", "csetboundsexact ct0, ca2, a1"),
            ("Bounds that are rounded", "cincoffset ca7, ca0, a1; addi a6, a1, 1; csetboundsexact ct0, ca7, a6"),
            ("The length of an authority", "csetboundsimm ca6, ca3, 0; cunseal ct0, ca4, ca6"),
            ("A type", "cincoffsetimm ca6, ca3, 1; cunseal ct0, ca4, ca6"), ("A permission", "candperm ca6, ca2, a3; csealentry ct0, ca6"),
            ("The tag of a granule", "lc.cap ct0, (ca2)")):
        yield labelled(f"A condition with labels. {about}", HAS + more, after(HAS + more, "lost ct0; origin ct0"),
                       TABLE | {"five": 5, "here": RAM + 0x28})
    yield labelled("Loads of device registers", DEVICES,
                   "byte 0x41; byte 0x42; byte 0x43; step 8; origin a0; origin a3; origin zero; lost a3", TABLE)
    yield labelled("Jumps, branches and links", LOOP, "step 8; origin a1; origin pcc; until loop 5; origin a0; back 3; origin a1",
                   TABLE | {"loop": RAM + 4})
    yield labelled("Links and jumps to capabilities", ENTRY,
                   "step 4; origin pcc; origin cra; lost pcc; lost cra; step 1; origin pcc; origin cra", TABLE)
    yield labelled("CInvoke", PAIR.format(0, "ca3"), "step 11; origin pcc; origin ct6; lost pcc; lost ct6", TABLE)
    yield labelled("Numbers of traps and of system registers have no labels", HANDLED,
                   "step 4; origin pcc; origin mepcc; lost pcc; step 6; origin pcc; origin mepcc; lost mepcc; origin a1; origin mtcc",
                   TABLE)
    yield labelled("Back to a stop at a label", LOOP, "stop at loop; step 9; back to stop; back to stop; stop at loop+4; back to stop",
                   TABLE | {"loop": RAM + 4})
    yield labelled("On a schedule", KEEPS, "step 9; origin ca4; lost data; back 3; until loop 9; lost data; ago; stop at start; stops",
                   TABLE | {"loop": RAM + 16}, BY_SECONDS)


def conversations():
    for part in (chains, stretches, false, memory, copies, specials, traps, jumps, back_and_forth, to_stops, changes, calls, refusals,
                 schedules,
                 to_stops_on_schedules, far_back, named):
        yield from part()


def cases():
    yield "# A conversation with the machine of a program about what came before"
    for about, text, lines in conversations():
        yield from conversation(about, text, lines)


def files():
    yield "pasts.txt", cases()
