"""Worked rows over capabilities, written by hand: what each row is to give.

A value is a number, or a name for bits 127..64 of its word, an address and a tag. What is in the second parentheses is the value in
rs2, or the immediate; after it may stand the number of rs1 and the value in DDC. The names that every group has are in NAMES.
"""

import re
from typing import NamedTuple, Optional, Union

from model.capabilities import IMMEDIATE, integer

NAMES = {
    # sixteen zero bytes; every permission over all addresses
    "NULL": 0x00001ffffc018004,
    "ROOT": 0xffff1ffffc018004,
    # every permission, over [0x80001000, 0x80001fff), whose window is [0x80000800, 0x80004800); as a sentry; and with the flag
    "PAGE": 0xffff1ffffbffd000,
    "ENTRY": 0xffff1ffff3ffd000,
    "FLAGGED": 0xffff3ffffbffd000,
}

ADDRESSES_NAMES = {
    # every permission, over [0, 16)
    "SIXTEEN": 0xffff1ffff8040000,
    # every permission, over the last page but its last byte
    "LAST": 0xffff1ffffbfff000,
}
ADDRESSES = """\
# at the ends of the window
csetaddr (PAGE 80001000 1) (800047ff) => PAGE 800047ff 1
cgetbase (PAGE 800047ff 1) (0) => 80001000
cgetlen (PAGE 800047ff 1) (0) => fff
csetaddr (PAGE 80001000 1) (80000800) => PAGE 80000800 1
cgetbase (PAGE 80000800 1) (0) => 80001000
cgetlen (PAGE 80000800 1) (0) => fff
csetaddr (PAGE 80001000 1) (80004800) => PAGE 80004800 0
cgetbase (PAGE 80004800 0) (0) => 80005000
csetaddr (PAGE 80001000 1) (800007ff) => PAGE 800007ff 0
cgetbase (PAGE 800007ff 0) (0) => 7fffd000
# a window round the end of the address space
csetbounds (ROOT 0 1) (10) => SIXTEEN 0 1
csetaddr (SIXTEEN 0 1) (ffffffffffffffff) => SIXTEEN ffffffffffffffff 1
cgetbase (SIXTEEN ffffffffffffffff 1) (0) => 0
csetaddr (SIXTEEN 0 1) (fffffffffffff7ff) => SIXTEEN fffffffffffff7ff 0
csetaddr (5) (7) => 7
# address + rs2
cincoffset (PAGE 80001800 1) (2fff) => PAGE 800047ff 1
cincoffset (PAGE 80001800 1) (3000) => PAGE 80004800 0
cincoffset (PAGE 80001800 1) (fffffffffffff7ff) => PAGE 80000fff 1
cincoffset (ROOT ffffffffffffffff 1) (2) => ROOT 1 1
cincoffset (ROOT 5 1) (PAGE 80001000 1) => ROOT 80001005 1
cincoffset (ffffffffffffffff) (1) => 0
# address + imm
cincoffsetimm (PAGE 80004000 1) (7ff) => PAGE 800047ff 1
cincoffsetimm (PAGE 80004001 1) (7ff) => PAGE 80004800 0
cincoffsetimm (PAGE 80001000 1) (fffffffffffff800) => PAGE 80000800 1
cincoffsetimm (ROOT ffffffffffffffff 1) (2) => ROOT 1 1
cincoffsetimm (0) (ffffffffffffffff) => ffffffffffffffff
# base + rs2
csetoffset (PAGE 80001800 1) (37ff) => PAGE 800047ff 1
csetoffset (PAGE 80001800 1) (3800) => PAGE 80004800 0
csetoffset (PAGE 80001800 1) (fffffffffffff800) => PAGE 80000800 1
csetoffset (LAST fffffffffffff000 1) (1001) => LAST 1 1
csetoffset (ROOT ffffffffffffffff 1) (2) => ROOT 2 1
csetoffset (5) (7) => 7
# a sealed capability even at its own address
csetaddr (ENTRY 80001000 1) (80001000) => ENTRY 80001000 0
cincoffset (ENTRY 80001000 1) (0) => ENTRY 80001000 0
cincoffsetimm (ENTRY 80001000 1) (0) => ENTRY 80001000 0
csetoffset (ENTRY 80001000 1) (0) => ENTRY 80001000 0
cgetaddr (ROOT 5 1) (0) => 5
cgetaddr (PAGE 80004800 0) (0) => 80004800
# address - base
cgetoffset (PAGE 80001000 1) (0) => 0
cgetoffset (PAGE 800047ff 1) (0) => 37ff
cgetoffset (PAGE 80000800 1) (0) => fffffffffffff800
cgetoffset (LAST 1 1) (0) => 1001
cgetoffset (ROOT 5 1) (0) => 5
# address - address
csub (ROOT 7 1) (ROOT 3 1) => 4
csub (ROOT 3 1) (ROOT 7 1) => fffffffffffffffc
csub (ROOT 0 1) (ROOT ffffffffffffffff 1) => 1
csub (PAGE 80001000 1) (1) => 80000fff
csub (PAGE 80001000 1) (PAGE 80001000 0) => 0
cmove (ROOT 5 1) (7) => ROOT 5 1
cmove (ENTRY 80001000 1) (7) => ENTRY 80001000 1
cmove (PAGE 80001000 0) (7) => PAGE 80001000 0
ccleartag (ROOT 5 1) (7) => ROOT 5 0
ccleartag (ENTRY 80001000 1) (7) => ENTRY 80001000 0
ccleartag (PAGE 80001000 0) (7) => PAGE 80001000 0"""

BOUNDS_NAMES = {
    # every permission, over [0x80001000, 0x80002008)
    "ROUNDED": 0xffff1ffffc021000,
    # every permission, over [0, 8192) with an exponent of 1
    "RAISED": 0xffff1ffffc000001,
    # every permission, over [0x80001000, 0x80002000)
    "ALIGNED": 0xffff1ffffc001000,
    # every permission, over no byte at the page's top
    "EMPTY": 0xffff1ffffbffdfff,
    # every permission, over the byte that begins at the page's top
    "OUTSIDE": 0xffff1ffff8001fff,
    # every permission, from 0xff80000000000000 to 0: what all addresses from the last one on are rounded out to
    "PAST": 0xffff1ffffc018ffc,
}
BOUNDS = """\
# fewer than 4096 bytes as they are
csetbounds (ROOT 80001000 1) (fff) => PAGE 80001000 1
csetboundsexact (ROOT 80001000 1) (fff) => PAGE 80001000 1
csetboundsimm (ROOT 80001000 1) (fff) => PAGE 80001000 1
cgetbase (PAGE 80001000 1) (0) => 80001000
cgetlen (PAGE 80001000 1) (0) => fff
# from 4096 on rounded out, which is not exact
csetbounds (ROOT 80001001 1) (1000) => ROUNDED 80001001 1
csetboundsexact (ROOT 80001001 1) (1000) => ROUNDED 80001001 0
cgetbase (ROUNDED 80001001 1) (0) => 80001000
cgetlen (ROUNDED 80001001 1) (0) => 1008
csetboundsexact (ROOT 80001000 1) (1000) => ALIGNED 80001000 1
csetbounds (ROOT 1 1) (1fff) => RAISED 1 1
cgetbase (RAISED 1 1) (0) => 0
cgetlen (RAISED 1 1) (0) => 2000
# at the top: no byte, and one too many
csetbounds (PAGE 80001fff 1) (0) => EMPTY 80001fff 1
csetboundsexact (PAGE 80001fff 1) (0) => EMPTY 80001fff 1
csetboundsimm (PAGE 80001fff 1) (0) => EMPTY 80001fff 1
cgetlen (EMPTY 80001fff 1) (0) => 0
csetbounds (PAGE 80001fff 1) (1) => OUTSIDE 80001fff 0
csetboundsexact (PAGE 80001fff 1) (1) => OUTSIDE 80001fff 0
csetboundsimm (PAGE 80001fff 1) (1) => OUTSIDE 80001fff 0
cgetbase (OUTSIDE 80001fff 0) (0) => 80001fff
cgetlen (OUTSIDE 80001fff 0) (0) => 1
# past the last address
csetbounds (ROOT ffffffffffffffff 1) (ffffffffffffffff) => PAST ffffffffffffffff 0
cgetbase (PAST ffffffffffffffff 0) (0) => ff80000000000000
cgetlen (PAST ffffffffffffffff 0) (0) => ffffffffffffffff
# bounds of what is sealed, and of what has no tag
csetbounds (ENTRY 80001000 1) (10) => ffff1ffff0041000 80001000 0
csetboundsimm (ENTRY 80001000 1) (10) => ffff1ffff0041000 80001000 0
csetboundsexact (PAGE 80001000 0) (10) => ffff1ffff8041000 80001000 0
crrl (0) (0) => 0
crrl (fff) (0) => fff
crrl (1000) (0) => 1000
crrl (1fff) (0) => 2000
crrl (100001) (0) => 100800
crrl (ffffffffffffffff) (0) => 0
crrl (PAGE 80001001 1) (0) => 80400000
cram (0) (0) => ffffffffffffffff
cram (fff) (0) => ffffffffffffffff
cram (1000) (0) => fffffffffffffff8
cram (1ff8) (0) => fffffffffffffff8
cram (1fff) (0) => fffffffffffffff0
cram (100001) (0) => fffffffffffff800
cram (ffffffffffffffff) (0) => ff80000000000000
cram (PAGE 80001001 1) (0) => ffffffffffc00000"""

COMPARISONS_NAMES = {
    # every permission, over no byte at the page's top, above it and below the page
    "EMPTY": 0xffff1ffffbffdfff,
    "EMPTY_ABOVE": 0xffff1ffff8002000,
    "EMPTY_BELOW": 0xffff1ffffbffcfff,
    # the page with permissions 0x5a31
    "FEWER": 0x5a311ffffbffd000,
    # every permission, over the page's bounds a byte lower
    "LOWER": 0xffff1ffffbff8fff,
    # every permission, over the page's bounds a byte higher
    "HIGHER": 0xffff1ffff8001001,
    # every permission, over the page's bounds without the first and the last byte
    "INNER": 0xffff1ffffbff9001,
}
COMPARISONS = """\
ctestsubset (ROOT 5 1) (PAGE 80001000 1) => 1
ctestsubset (PAGE 80001000 1) (ROOT 5 1) => 0
ctestsubset (PAGE 80001000 1) (PAGE 800047ff 1) => 1
ctestsubset (PAGE 80001000 1) (INNER 80001001 1) => 1
ctestsubset (PAGE 80001000 1) (LOWER 80001000 1) => 0
ctestsubset (PAGE 80001000 1) (HIGHER 80001001 1) => 0
ctestsubset (PAGE 80001000 1) (FEWER 80001000 1) => 1
ctestsubset (FEWER 80001000 1) (PAGE 80001000 1) => 0
ctestsubset (PAGE 80001000 1) (ENTRY 80001000 1) => 1
ctestsubset (PAGE 80001000 1) (PAGE 80001000 0) => 0
ctestsubset (PAGE 80001000 0) (PAGE 80001000 1) => 0
ctestsubset (PAGE 80001000 0) (INNER 80001001 0) => 1
ctestsubset (3) (4) => 1
# no byte: at the end of the bounds, and out of them
ctestsubset (PAGE 80001000 1) (EMPTY 80001fff 1) => 1
ctestsubset (PAGE 80001000 1) (EMPTY_ABOVE 80002000 1) => 0
ctestsubset (PAGE 80001000 1) (EMPTY_BELOW 80000fff 1) => 0
# of register 0, which is DDC, and of register 1
ctestsubset (0) (PAGE 80001000 1) 0 (ROOT 0 1) => 1
ctestsubset (0) (ROOT 0 1) 0 (PAGE 80001000 1) => 0
ctestsubset (0) (0) 0 (ROOT 0 1) => 0
ctestsubset (0) (0) 0 (0) => 1
ctestsubset (0) (PAGE 80001000 1) 1 (ROOT 0 1) => 0
ctestsubset (0) (0) 1 (ROOT 0 1) => 1
csetequalexact (PAGE 80001000 1) (PAGE 80001000 1) => 1
csetequalexact (PAGE 80001000 0) (PAGE 80001000 0) => 1
csetequalexact (PAGE 80001000 1) (PAGE 80001000 0) => 0
csetequalexact (PAGE 80001000 1) (PAGE 80001001 1) => 0
csetequalexact (PAGE 80001000 1) (FEWER 80001000 1) => 0
csetequalexact (PAGE 80001000 1) (FLAGGED 80001000 1) => 0
csetequalexact (PAGE 80001000 1) (ENTRY 80001000 1) => 0
csetequalexact (PAGE 80001001 1) (INNER 80001001 1) => 0
# the reserved bits too
csetequalexact (NULL 5 0) (c0001ffffc018004 5 0) => 0
csetequalexact (5) (5) => 1
csetequalexact (5) (6) => 0"""

FIELDS_NAMES = {
    # the page with permissions 0x5a31, the flag and type 0x12345
    "MARKED": 0x5a31291a2bffd000,
    # the page with type 0
    "LEAST_TYPE": 0xffff000003ffd000,
    # the page with type 0x3fffb
    "GREATEST_TYPE": 0xffff1fffdbffd000,
    # the page with type 0x3fffc
    "RESERVED_TYPE": 0xffff1fffe3ffd000,
    # every permission, over the lower half of the address space
    "LOWER": 0xffff1ffffc018003,
    # every permission, over the upper half of the address space
    "UPPER": 0xffff1ffffc019003,
    # every permission, over all but the first 2^55 addresses
    "LONGEST": 0xffff1ffffc018013,
}
FIELDS = """\
# sixteen zero bytes
cgetbase (0) (0) => 0
cgetlen (0) (0) => ffffffffffffffff
cgettype (0) (0) => ffffffffffffffff
cgetperm (0) (0) => 0
cgettag (0) (0) => 0
cgetsealed (0) (0) => 0
cgetflags (0) (0) => 0
cgetoffset (0) (0) => 0
cgetaddr (0) (0) => 0
# every field
cgetbase (MARKED 80001004 1) (0) => 80001000
cgetlen (MARKED 80001004 1) (0) => fff
cgettype (MARKED 80001004 1) (0) => 12345
cgetperm (MARKED 80001004 1) (0) => 28a31
cgettag (MARKED 80001004 1) (0) => 1
cgetsealed (MARKED 80001004 1) (0) => 1
cgetflags (MARKED 80001004 1) (0) => 1
cgetoffset (MARKED 80001004 1) (0) => 4
cgetaddr (MARKED 80001004 1) (0) => 80001004
cgetperm (ROOT 0 1) (0) => 78fff
cgetflags (ROOT 0 1) (0) => 0
# types
cgettype (LEAST_TYPE 80001000 1) (0) => 0
cgettype (GREATEST_TYPE 80001000 1) (0) => 3fffb
cgettype (RESERVED_TYPE 80001000 1) (0) => fffffffffffffffc
cgettype (ENTRY 80001000 1) (0) => fffffffffffffffe
cgettype (PAGE 80001000 1) (0) => ffffffffffffffff
cgetsealed (LEAST_TYPE 80001000 1) (0) => 1
cgetsealed (RESERVED_TYPE 80001000 0) (0) => 1
cgetsealed (ENTRY 80001000 1) (0) => 1
cgetsealed (PAGE 80001000 1) (0) => 0
# lengths from 2^63 on
cgetlen (ROOT 0 1) (0) => ffffffffffffffff
cgetlen (LOWER 0 1) (0) => 8000000000000000
cgetlen (UPPER 8000000000000000 1) (0) => 8000000000000000
cgetlen (LONGEST 80000000000000 1) (0) => ff80000000000000
# by bits 0 to 11 and 15 to 18 of the mask
candperm (ROOT 5 1) (ffffffffffffffff) => ROOT 5 1
candperm (ROOT 5 1) (78fff) => ROOT 5 1
candperm (ROOT 5 1) (fffffffffff87000) => NULL 5 1
candperm (ROOT 5 1) (8002) => 10021ffffc018004 5 1
candperm (ROOT 5 1) (40800) => 88001ffffc018004 5 1
cgetperm (88001ffffc018004 5 1) (0) => 40800
candperm (5a313ffffbffd000 80001000 1) (10a11) => a113ffffbffd000 80001000 1
candperm (MARKED 80001004 1) (ffffffffffffffff) => MARKED 80001004 0
# by bit 0
csetflags (PAGE 80001000 1) (0) => PAGE 80001000 1
csetflags (PAGE 80001000 1) (1) => FLAGGED 80001000 1
csetflags (PAGE 80001000 1) (2) => PAGE 80001000 1
csetflags (FLAGGED 80001000 1) (fffffffffffffffe) => PAGE 80001000 1
csetflags (FLAGGED 80001000 1) (ffffffffffffffff) => FLAGGED 80001000 1
csetflags (MARKED 80001004 1) (1) => MARKED 80001004 0"""

SEALS_NAMES = {
    # root with type 0x3fffb
    "GREATEST_SEAL": 0xffff1fffdc018004,
    # root with type 0x3fffc
    "RESERVED_SEAL": 0xffff1fffe4018004,
    # root as a sentry
    "ROOT_ENTRY": 0xffff1ffff4018004,
    # the page with type 7
    "SEALED": 0xffff00003bffd000,
    # the page with type 0x1000
    "SEALED_PAST_THE_KEY": 0xffff008003ffd000,
    # every permission, over the types from 0 to 0xfff
    "KEY": 0xffff1ffffc000000,
    # the key without Global
    "LOCAL_KEY": 0xfffe1ffffc000000,
    # the key without Seal
    "NO_SEAL": 0xff7f1ffffc000000,
    # the key without Unseal
    "NO_UNSEAL": 0xfdff1ffffc000000,
}
SEALS = """\
# the types that are not reserved
cseal (ROOT 0 1) (ROOT 3fffb 1) => GREATEST_SEAL 0 1
cgettype (GREATEST_SEAL 0 1) (0) => 3fffb
cunseal (GREATEST_SEAL 0 1) (ROOT 3fffb 1) => ROOT 0 1
cseal (ROOT 0 1) (ROOT 3fffc 1) => RESERVED_SEAL 0 0
cgettype (RESERVED_SEAL 0 0) (0) => fffffffffffffffc
cunseal (ROOT_ENTRY 0 1) (ROOT 3fffe 1) => ROOT 0 0
# by a key, which gives Global back only if it has it
cseal (PAGE 80001000 1) (KEY 7 1) => SEALED 80001000 1
cunseal (SEALED 80001000 1) (KEY 7 1) => PAGE 80001000 1
cunseal (SEALED 80001000 1) (LOCAL_KEY 7 1) => fffe1ffffbffd000 80001000 1
# seals that may not be made
cseal (PAGE 80001000 1) (KEY 1000 1) => SEALED_PAST_THE_KEY 80001000 0
cseal (PAGE 80001000 1) (NO_SEAL 7 1) => SEALED 80001000 0
cseal (PAGE 80001000 1) (KEY 7 0) => SEALED 80001000 0
cseal (PAGE 80001000 1) (7) => SEALED 80001000 0
cseal (PAGE 80001000 0) (KEY 7 1) => SEALED 80001000 0
cseal (SEALED 80001000 1) (KEY 7 1) => SEALED 80001000 0
cunseal (SEALED 80001000 1) (KEY 8 1) => PAGE 80001000 0
cunseal (SEALED 80001000 1) (NO_UNSEAL 7 1) => PAGE 80001000 0
cunseal (SEALED 80001000 1) (KEY 7 0) => PAGE 80001000 0
cunseal (SEALED 80001000 0) (KEY 7 1) => PAGE 80001000 0
cunseal (SEALED_PAST_THE_KEY 80001000 1) (KEY 1000 1) => PAGE 80001000 0
cunseal (PAGE 80001000 1) (KEY 7 1) => PAGE 80001000 0
# entries to code
csealentry (ROOT 0 1) (0) => ROOT_ENTRY 0 1
cgettype (ROOT_ENTRY 0 1) (0) => fffffffffffffffe
csealentry (PAGE 80001000 1) (0) => ENTRY 80001000 1
csealentry (FLAGGED 80001000 1) (0) => ffff3ffff3ffd000 80001000 1
csealentry (PAGE 80001000 0) (0) => ENTRY 80001000 0
csealentry (ENTRY 80001000 1) (0) => ENTRY 80001000 0
csealentry (fffd1ffffbffd000 80001000 1) (0) => fffd1ffff3ffd000 80001000 0"""

GROUPS = (
    ("addresses set, added and told", ADDRESSES_NAMES, ADDRESSES),
    ("bounds set and lengths rounded", BOUNDS_NAMES, BOUNDS),
    ("values compared", COMPARISONS_NAMES, COMPARISONS),
    ("fields told and fields set", FIELDS_NAMES, FIELDS),
    ("seals and entries", SEALS_NAMES, SEALS),
)

IMMEDIATES = [name.lower() for name in IMMEDIATE]


class Worked(NamedTuple):
    """A mnemonic, the value in rs1, that in rs2 or the immediate as it stands, the number of rs1 and DDC where they count, the result."""
    row: str
    first: tuple
    second: Union[tuple, str]
    rs1: Optional[int]
    ddc: Optional[tuple]
    result: tuple


def value(words, names):
    """The value that some words are: a number, or a name or a high half, an address and a tag."""
    words = words.split()
    if len(words) == 1:
        return integer(int(words[0], 16))
    high, address, tag = words
    return names[high] if high in names else int(high, 16), int(address, 16), tag == "1"


def worked(line, names):
    """A row of a table, with the names of its group."""
    names = NAMES | names
    row, first, second, rs1, ddc, result = re.fullmatch(r"(\w+) \((.*?)\) \((.*?)\)(?: (\d+) \((.*?)\))? => (.*)", line).groups()
    second = second if row in IMMEDIATES else value(second, names)
    counted = (None, None) if rs1 is None else (int(rs1), value(ddc, names))
    return Worked(row, value(first, names), second, *counted, value(result, names))
