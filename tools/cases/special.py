"""Cases of control and status registers, special capability registers, traps and interrupts.

A case is a script: what the registers begin with, and calls. After a call stands what it is to answer.
"""

from cases.values import text
from model.capabilities import capability, untagged
from model.faults import CHERI, EXTERNAL_INTERRUPT, TIMER_INTERRUPT
from model.rights import ALL, NO_SYSTEM_ACCESS, SENTRY, UNSEALED
from model.words import ONES, SPACE

OWN_TYPE = 5
PCC_ADDRESS = 0x80000040
# control registers with another number in each: MIE, MPIE, mie, mscratch, mcause, mtval, mcycle, minstret
NUMBERED = "1 0 880 3 4 5 6 7"
WRITABLE = (0x300, 0x301, 0x304, 0x305, 0x340, 0x341, 0x342, 0x343, 0x344, 0xB00, 0xB02)
# mvendorid, marchid, mimpid and mhartid
READ_ONLY = (0xF11, 0xF12, 0xF13, 0xF14)
# numbers of no register, next to those that there are, and the counters that user mode would read
ABSENT = (0x000, 0x2FF, 0x302, 0x303, 0x306, 0x33F, 0x345, 0x7C0, 0xAFF, 0xB01, 0xB03, 0xB04, 0xB1F, 0xC00, 0xC01, 0xC02, 0xF10,
          0xF15, 0xFFF, 0x1300, 0xFFFF)


def root(address, otype=UNSEALED, perms=ALL):
    """A capability of all addresses."""
    return capability(0, SPACE, address, perms, 0, otype)


def small(address, otype=UNSEALED):
    """A capability of the addresses 0x80001002 to 0x80001ffe, with the flag; its window is 0x80000800 to 0x80004800."""
    return capability(0x80001002, 0x80001FFE, address, ALL, 1, otype)


PCC = root(PCC_ADDRESS)
MTCC = root(0x80000100)
OTHER = untagged(small(0x80001002))


def script(calls, mtcc=MTCC, other=OTHER, perms=ALL):
    """A case: PCC with these permissions, one value in DDC, MTCC and MEPCC and another in MTDC and MScratchC, and calls."""
    begin = " ".join(map(text, (root(PCC_ADDRESS, UNSEALED, perms), mtcc, other)))
    return f"{begin}; {'; '.join(call for call, _ in calls)} => {'; '.join(answer for _, answer in calls)}"


def scrs(*values):
    """All special registers, from PCC to MEPCC."""
    return "scrs", ", ".join(map(text, values))


NUMBERED_SET = (f"set {NUMBERED}", "ok")
NUMBERED_STILL = ("csrs", NUMBERED)


def csr_access():
    still = scrs(root(PCC_ADDRESS, UNSEALED, NO_SYSTEM_ACCESS), MTCC, MTCC, OTHER, OTHER, MTCC)
    yield "# with access all are read, and all but four are written"
    for number, value in zip(WRITABLE, ("1808", "8000000000001100", "880", "80000100", "3", "80000100", "4", "5", "0", "6", "7")):
        yield script((NUMBERED_SET, (f"check {number:x} 0", "ok"), (f"check {number:x} 1", "ok"), (f"read {number:x} 0", value),
                      (f"write {number:x} 0", "ok")))
    for number in READ_ONLY:
        yield script((NUMBERED_SET, (f"check {number:x} 0", "ok"), (f"read {number:x} 0", "0"), (f"check {number:x} 1", "S1"),
                      (f"write {number:x} 0", "S1")))
    yield "# without access none is read or written"
    for number in WRITABLE:
        yield script((NUMBERED_SET, (f"check {number:x} 0", "S2"), (f"check {number:x} 1", "S2"), (f"read {number:x} 0", "S2"),
                      (f"write {number:x} 0", "S2"), NUMBERED_STILL, still), perms=NO_SYSTEM_ACCESS)
    for number in READ_ONLY:
        yield script((NUMBERED_SET, (f"read {number:x} 0", "S2"), (f"write {number:x} 0", "S1")), perms=NO_SYSTEM_ACCESS)
    yield "# there is no register beside those that are listed"
    for perms in (ALL, NO_SYSTEM_ACCESS):
        for number in ABSENT:
            yield script((NUMBERED_SET, (f"read {number:x} 0", "S1"), (f"write {number:x} 0", "S1"), NUMBERED_STILL), perms=perms)


def written(number, value, read, kept):
    """A write, what the register reads then, and what all control registers are then."""
    return script((NUMBERED_SET, (f"write {number:x} {value:x}", "ok"), (f"read {number:x} 0", f"{read:x}"), ("csrs", kept)))


def csr_values():
    yield "# they begin as zeros, and counters go round and leave each other"
    yield script((("csrs", "0 0 0 0 0 0 0 0"),))
    yield script((("set 0 0 0 0 0 0 ffffffffffffffff 0", "ok"), ("cycle", "ok"), ("csrs", "0 0 0 0 0 0 0 0"),
                  ("cycle", "ok"), ("csrs", "0 0 0 0 0 0 1 0")))
    yield script((("set 0 0 0 0 0 0 1 ffffffffffffffff", "ok"), ("instruction", "ok"), ("csrs", "0 0 0 0 0 0 1 0"),
                  ("instruction", "ok"), ("csrs", "0 0 0 0 0 0 1 1")))
    yield "# mstatus keeps two bits and reads machine mode"
    for value, on, before, read in ((0, 0, 0, 0x1800), (0x8, 1, 0, 0x1808), (0x80, 0, 1, 0x1880), (0x88, 1, 1, 0x1888),
                                    (ONES, 1, 1, 0x1888), (0xFFFFFFFFFFFFFF77, 0, 0, 0x1800)):
        yield written(0x300, value, read, f"{on} {before} 880 3 4 5 6 7")
    yield "# misa stays"
    for value in (0, ONES):
        yield written(0x301, value, 0x8000000000001100, NUMBERED)
    yield "# mie keeps the bits of two interrupts"
    for value, mie in ((0, 0), (0x80, 0x80), (0x800, 0x800), (ONES, 0x880), (0xFFFFFFFFFFFFF77F, 0)):
        yield written(0x304, value, mie, f"1 0 {mie:x} 3 4 5 6 7")
    yield "# five registers keep a whole number"
    for place, number in enumerate((0x340, 0x342, 0x343, 0xB00, 0xB02)):
        kept = NUMBERED.split()
        kept[3 + place] = "fedcba9876543213"
        yield written(number, 0xFEDCBA9876543213, 0xFEDCBA9876543213, " ".join(kept))
    yield "# mip reads what devices ask for"
    for mip in (0, 0x80, 0x800, 0x880):
        yield script((NUMBERED_SET, (f"read 344 {mip:x}", f"{mip:x}"), ("write 344 77", "ok"), (f"read 344 {mip:x}", f"{mip:x}"),
                      NUMBERED_STILL))


def views():
    yield "# mtvec and mepc set an address without its low bits, but that mtvec keeps them where they are 1"
    given, other = root(0x80000800), small(0x80001002)
    for value, want in ((0x80000103, 0x80000100), (0x80000102, 0x80000100), (0x80000101, 0x80000100), (0x80000104, 0x80000104),
                        (ONES, ONES - 3), (1, 0), (ONES - 2, ONES - 3)):
        for number, kept in ((0x305, want + (value % 4 == 1)), (0x341, want)):
            moved = root(kept)
            now = scrs(PCC, given, *((moved, other, other, given) if number == 0x305 else (given, other, other, moved)))
            yield script((NUMBERED_SET, (f"write {number:x} {value:x}", "ok"), (f"read {number:x} 0", f"{kept:x}"), now, NUMBERED_STILL),
                         given, other)
    yield "# of low bits that MTCC and MEPCC have, mtvec reads 1 alone"
    for address, mtvec in ((0x80000101, 0x80000101), (0x80000102, 0x80000100)):
        yield script((("read 305 0", f"{mtvec:x}"), ("read 341 0", "80000100"), ("look 305 0", f"{mtvec:x}")), root(address))
    yield "# they read without the low bits, and a debugger needs no access"
    given = root(0x80000103)
    for perms, answer in ((ALL, "80000100"), (NO_SYSTEM_ACCESS, "S2")):
        yield script((("read 305 0", answer), ("read 341 0", answer), ("look 341 0", "80000100"), ("look 345 0", "none")),
                     given, given, perms)
    yield "# a write of the same address takes the tag of a sealed value"
    for otype in (OWN_TYPE, SENTRY):
        sealed = root(0x80000100, otype)
        yield script((("write 305 80000100", "ok"), ("get 28", text(untagged(sealed))), ("get 31", text(sealed)),
                      ("write 341 80000100", "ok"), ("get 31", text(untagged(sealed)))), sealed, sealed)
    yield "# a write out of the window takes the tag"
    outside = small(0x80001004)[0], 0x80004800, False
    yield script((("write 305 800047ff", "ok"), ("get 28", text(small(0x800047FC))), ("write 305 80004800", "ok"),
                  ("get 28", text(outside))), small(0x80001004), root(0))


def interrupts():
    yield "# with interrupts off there is none"
    for mip in (0, 0x80, 0x800, 0x880, ONES):
        yield script((("set 0 0 880 0 0 0 0 0", "ok"), (f"pending {mip:x}", "none")))
    yield "# the external interrupt comes before the timer's; a cause has bit 63 and no value"
    external, timer = "800000000000000b 0", "8000000000000007 0"
    for mie, mip, want in (
            (0x880, 0x880, external), (0x880, 0x800, external), (0x880, 0x080, timer), (0x800, 0x880, external), (0x080, 0x880, timer),
            (0x800, 0x080, "none"), (0x080, 0x800, "none"), (0x880, 0, "none"), (0, 0x880, "none"),
            # no other bit asks
            (ONES, 0xFFFFFFFFFFFFF77F, "none"), (0xFFFFFFFFFFFFF77F, ONES, "none"), (ONES, ONES, external)):
        yield script(((f"set 1 0 {mie:x} 0 0 0 0 0", "ok"), (f"pending {mip:x}", want)))


def csrs():
    yield "# PCC, the value of DDC, MTCC and MEPCC and that of MTDC and MScratchC; calls => what each answers"
    for group in (csr_access, csr_values, views, interrupts):
        yield from group()


def special():
    yield "# PCC, the value of DDC, MTCC and MEPCC and that of MTDC and MScratchC; calls => what each answers"
    yield "# the registers begin as given"
    given, null = root(0), OTHER
    yield script((scrs(PCC, given, given, null, null, given),), given, null)
    yield "# each register is read by its number"
    values = {number: root(number, OWN_TYPE) for number in (1, 28, 29, 30, 31)}
    held = {1: MTCC, 28: MTCC, 29: OTHER, 30: OTHER, 31: MTCC}
    fill = [(f"swap {number} {text(value)}", text(held[number])) for number, value in values.items()]
    for number, value in {0: PCC, **values}.items():
        yield script((*fill, (f"checkscr {number} 0", text(value)), (f"get {number}", text(value)), scrs(PCC, *values.values())))
    yield "# a replaced register holds the new value, and the others stay"
    new = small(0x80001004, OWN_TYPE)
    for place, number in enumerate((1, 28, 29, 30, 31)):
        now = [PCC, MTCC, MTCC, OTHER, OTHER, MTCC]
        now[1 + place] = new
        yield script(((f"checkscr {number} 1", text(held[number])), (f"swap {number} {text(new)}", text(held[number])), scrs(*now)))
    new = root(0x80000200)
    for perms in (ALL, NO_SYSTEM_ACCESS):
        still = scrs(root(PCC_ADDRESS, UNSEALED, perms), MTCC, MTCC, OTHER, OTHER, MTCC)
        yield "# PCC is never replaced, and there are no other registers"
        yield script((("checkscr 0 1", "S1"), (f"swap 0 {text(new)}", "S1"), still), perms=perms)
        for number in range(2, 28):
            yield script(((f"get {number}", "S1"), (f"swap {number} {text(new)}", "S1"), still), perms=perms)
        for number in range(32, 256):
            yield script(((f"checkscr {number} 0", "S1"),), perms=perms)
    yield "# without access PCC and DDC are read and DDC is replaced"
    new, pcc = root(0x80000200, OWN_TYPE), root(PCC_ADDRESS, UNSEALED, NO_SYSTEM_ACCESS)
    for number in (28, 29, 30, 31):
        yield script(((f"checkscr {number} 0", "S2"), (f"get {number}", "S2"), (f"swap {number} {text(new)}", "S2")),
                     perms=NO_SYSTEM_ACCESS)
    yield script((("get 0", text(pcc)), (f"swap 1 {text(new)}", text(MTCC)), scrs(pcc, new, MTCC, OTHER, OTHER, MTCC)),
                 perms=NO_SYSTEM_ACCESS)


TRAP = ("trap 1c 421", "ok")


def entered():
    yield "# a trap saves PCC and goes to MTCC"
    other = small(0x80001002)
    for on, before in ((1, 0), (0, 1)):
        yield script(((f"set {on} {before} 880 3 4 5 6 7", "ok"), TRAP, scrs(MTCC, MTCC, MTCC, other, other, PCC),
                      ("csrs", f"0 {on} 880 3 1c 421 6 7")), MTCC, other)
    yield "# it unseals the sentry that it goes to"
    for address in (0x80000100, 0x80000101, 0x80000102, 0x80000103):
        mtcc = root(address, SENTRY)
        yield script((TRAP, ("get 0", text(root(0x80000100))), ("get 28", text(mtcc))), mtcc, mtcc)
    yield "# it leaves another seal, and takes its tag with the low bits"
    for otype in (OWN_TYPE, 0x3FFFD, 0x3FFFC):
        sealed, askew = root(0x80000100, otype), root(0x80000102, otype)
        yield script((TRAP, ("get 0", text(sealed))), sealed, sealed)
        yield script((TRAP, ("get 0", text(untagged(sealed)))), askew, askew)


def entry(cause):
    """A trap of this cause."""
    return f"trap {cause:x} 0", "ok"


def vectored():
    yield "# where MTCC's low bits are 1 an interrupt goes 4 bytes a number past the base, and an exception to it"
    for otype in (UNSEALED, SENTRY):
        mtcc = root(0x80000101, otype)
        for cause, place in ((TIMER_INTERRUPT, 0x8000011C), (EXTERNAL_INTERRUPT, 0x8000012C), (7, 0x80000100), (11, 0x80000100),
                             (CHERI, 0x80000100)):
            yield script((entry(cause), ("get 0", text(root(place))), ("get 28", text(mtcc)), ("read 305 0", "80000101")), mtcc)
    yield "# with other low bits every trap goes to the base"
    for address in (0x80000100, 0x80000102, 0x80000103):
        for cause in (TIMER_INTERRUPT, EXTERNAL_INTERRUPT, 11):
            yield script((entry(cause), ("get 0", text(root(0x80000100)))), root(address))
    yield "# an entry lies modulo 2^64"
    for cause, place in ((TIMER_INTERRUPT, 24), (EXTERNAL_INTERRUPT, 40), (11, ONES - 3)):
        yield script((entry(cause), ("get 0", text(root(place)))), root(ONES - 2))
    yield "# an entry out of the bounds keeps the tag inside the window, and loses it past the window"
    for cause, place, tag in ((TIMER_INTERRUPT, 0x800047FC, True), (EXTERNAL_INTERRUPT, 0x8000480C, False), (3, 0x800047E0, True)):
        entered = small(0x80001004)[0], place, tag
        yield script((entry(cause), ("get 0", text(entered))), small(0x800047E1))
    yield "# another seal takes the tag with the address, and keeps it where the address is the entry's"
    for cause, address, place in ((TIMER_INTERRUPT, 0x80000101, 0x8000011C), (11, 0x80000101, 0x80000100),
                                  (TIMER_INTERRUPT, 0x80000100, 0x80000100)):
        sealed = root(address, OWN_TYPE)
        entered = sealed[0], place, address == place
        yield script((entry(cause), ("get 0", text(entered)), ("get 28", text(sealed))), sealed)
    yield "# a return goes to no entry"
    yield script((entry(EXTERNAL_INTERRUPT), ("leave", "ok"), ("get 0", text(PCC))), root(0x80000101))


def targets():
    yield "# low bits are cleared inside and outside the bounds; a window begins and ends at multiples of 4"
    for address, cleared in ((0x80001007, 0x80001004), (0x80001002, 0x80001000), (0x80000803, 0x80000800), (0x800047FF, 0x800047FC),
                             (0x80001004, 0x80001004)):
        for otype in (UNSEALED, SENTRY):
            yield script(((f"target {text(small(address, otype))}", text(small(cleared))),))
    yield "# an untagged sentry stays as it is but for the low bits"
    bare = untagged(small(0x80001004, SENTRY))
    for value in (bare, untagged(small(0x80001006, SENTRY))):
        yield script(((f"target {text(value)}", text(bare)),))


def left():
    yield "# a return goes to MEPCC"
    mepcc, other = root(0x80000200), small(0x80001002)
    for on, before in ((1, 0), (0, 1), (0, 0), (1, 1)):
        yield script(((f"set {on} {before} 880 3 4 5 6 7", "ok"), ("returns", "ok"), ("leave", "ok"),
                      scrs(mepcc, mepcc, mepcc, other, other, mepcc), ("csrs", f"{before} 1 880 3 4 5 6 7")), mepcc, other)
    yield "# it unseals the sentry that it goes to"
    mepcc = root(0x80000102, SENTRY)
    yield script((("returns", "unseals"), ("leave", "ok"), ("get 0", text(root(0x80000100))), ("get 31", text(mepcc))), mepcc, mepcc)
    yield "# it leaves another seal and an untagged sentry"
    for mepcc in (root(0x80000100, OWN_TYPE), root(0x80000100, 0x3FFFD), untagged(root(0x80000100, SENTRY))):
        yield script((("returns", "ok"), ("leave", "ok"), ("get 0", text(mepcc))), mepcc, mepcc)
    yield "# without access there is no return, and a trap is entered all the same"
    pcc = root(PCC_ADDRESS, UNSEALED, NO_SYSTEM_ACCESS)
    yield script((NUMBERED_SET, ("returns", "S2"), ("leave", "S2"), scrs(pcc, MTCC, MTCC, OTHER, OTHER, MTCC), NUMBERED_STILL, TRAP,
                  scrs(MTCC, MTCC, MTCC, OTHER, OTHER, pcc)), perms=NO_SYSTEM_ACCESS)


def traps():
    yield "# PCC, the value of DDC, MTCC and MEPCC and that of MTDC and MScratchC; calls => what each answers"
    for group in (entered, vectored, targets, left):
        yield from group()


def files():
    yield "csrs.txt", list(csrs())
    yield "special.txt", list(special())
    yield "traps.txt", list(traps())
