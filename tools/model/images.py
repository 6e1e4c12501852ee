"""Image files, byte by byte, by the format's description: what both versions are made of, and the files that cases begin with."""

from model.devices import RAM

# The ends of RAM of one page and of 4096.
END, LAST_END = 0x80001000, 0x81000000
# The most pages that version 2 has, where RAM ends then, and where it ends with a page more than version 1 has.
MOST = 65536
MOST_END = RAM + 4096 * MOST
NEXT_END = LAST_END + 4096


def number(value, size):
    return value.to_bytes(size, "little")


def header(pages, entry, count, mode):
    """The 32 bytes in front."""
    return b"CHERIIMG" + number(1, 4) + number(pages, 4) + number(entry, 8) + number(count, 4) + number(mode, 4)


def section(address, contents):
    return number(address, 8) + number(len(contents), 8) + contents


def capability(place, base, length, perms, flag):
    """The 32 bytes of a capability."""
    return number(place, 8) + number(base, 8) + number(length, 8) + number(perms, 4) + number(flag, 4)


def file_v2(pages, entry, mode, capabilities, sections=()):
    front = b"CHERIIMG" + number(2, 4) + number(pages, 4) + number(entry, 8) + number(len(sections), 4) + number(mode, 4)
    return (front + b"".join(section(*one) for one in sections) + number(len(capabilities), 4)
            + b"".join(capability(*one) for one in capabilities))


def granted(place=RAM + 0x100, base=0x80001000, length=4095, perms=0xFFFF, flag=0):
    return place, base, length, perms, flag


def patched(file, changes):
    changed = bytearray(file)
    for place, byte in changes.items():
        changed[place] = byte
    return bytes(changed)


# five instructions that print `A` and halt
FIRST = bytes.fromhex(
    "4348455249494d47" "01000000" "01000000" "0000008000000000" "01000000" "00000000"
    "0000008000000000" "1400000000000000" "b7050010" "13051004" "2380a500" "b7051000" "23b00500")
# cincoffset ca0, ca0, a1
ONE_INSN = bytes.fromhex(
    "4348455249494d47" "01000000" "01000000" "0000008000000000" "01000000" "00000000" "0000008000000000" "0400000000000000" "5b05b522")
# 4096 pages, and no section
NO_SECTION = bytes.fromhex("4348455249494d47" "01000000" "00100000" "fcffff8000000000" "00000000" "00000000")
# two sections of four bytes, one right after the other
TWO = bytes.fromhex(
    "4348455249494d47" "01000000" "02000000" "0400008000000000" "02000000" "01000000"
    "1000008000000000" "0400000000000000" "01020304" "1400008000000000" "0400000000000000" "05060708")
# the null-derived word with every right, as it stands in memory
ROOT = bytes(14) + b"\xff\xff"
# the capability of 4095 bytes at 0x80001000 with every right, at 0x80000100
GRANTED = (RAM + 0x100, 0x80001000, 4095, 0xFFFF, 0)
ONE_CAPABILITY = bytes.fromhex(
    "4348455249494d47" "02000000" "01000000" "0000008000000000" "00000000" "01000000"
    "01000000" "0001008000000000" "0010008000000000" "ff0f000000000000" "ffff0000" "00000000")
