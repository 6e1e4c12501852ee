"""Cases of images: what is built, what files are read and what they are written back as, and each fault."""

from cases.values import bytes_text as text
from model.devices import RAM
from model.images import (END, FIRST, GRANTED, LAST_END, MOST, MOST_END, NEXT_END, NO_SECTION, ONE_CAPABILITY, ONE_INSN, ROOT, TWO, file_v2,
                          granted, header, number, patched, section)
from model.words import ONES, SPACE

ONES32 = 2**32 - 1


def build(pages, entry, mode, sections, answer):
    given = "".join(f" {address:x}:{text(contents)}" for address, contents in sections)
    return f"build {pages:x} {entry:x} {mode:x}{given} => {answer}"


def built(pages, entry, mode, sections=()):
    """A build that answers what it was built of."""
    given = "".join(f" {address:x}:{text(contents)}" for address, contents in sections)
    return build(pages, entry, mode, sections, f"{pages:x} {entry:x} {mode:x}{given}")


def headers():
    yield "# pages are 1 to 4096"
    for pages in (1, 2, 4095, 4096):
        yield built(pages, RAM, 0)
    for pages in (0, 4097, ONES32):
        yield build(pages, RAM, 0, (), "L4")
    yield "# the entry is a word of RAM"
    for entry in (RAM, RAM + 4, END - 4):
        yield built(1, entry, 0)
    for entry in (0, 2, RAM - 4, RAM + 1, RAM + 2, RAM + 3, END - 2, END, ONES - 3):
        yield build(1, entry, 0, (), "L4")
    yield built(4096, LAST_END - 4, 0)
    yield build(4095, LAST_END - 4, 0, (), "L4")
    yield build(4096, LAST_END, 0, (), "L4")
    yield "# the mode is 0 or 1"
    for mode in (0, 1):
        yield built(1, RAM, mode)
    for mode in (2, 3, ONES32):
        yield build(1, RAM, mode, (), "L4")


def sections():
    yield "# sections are at most 64"
    yield built(1, RAM, 0, [(RAM, b"")] * 64)
    yield build(1, RAM, 0, [(RAM, b"")] * 65, "L5")
    yield "# a section lies in RAM"
    for address, contents, fault in (
            (RAM, b"\7\10", None), (END - 2, b"\7\10", None), (END - 1, b"\7\10", "L6"), (END - 1, b"\7", None), (END, b"\7", "L6"),
            (END, b"", None), (END + 1, b"", "L6"), (RAM - 1, b"\7\10", "L6"), (RAM - 1, b"\7", "L6"), (RAM - 1, b"", "L6"), (0, b"", "L6"),
            (ONES, b"\7\10", "L6")):
        given = [(address, contents)]
        yield build(1, RAM, 0, given, fault) if fault else built(1, RAM, 0, given)
    yield "# a section begins at the end of the one before or later"
    four = b"\1\2\3\4"
    for address, contents, fault in (
            (RAM + 0x14, four, None), (RAM + 0x15, four, None), (RAM + 0x14, b"", None), (RAM + 0x13, b"\7", "L7"), (RAM + 0x13, b"", "L7"),
            (RAM + 0x10, four, "L7"), (RAM, b"\7", "L7")):
        given = [(RAM + 0x10, four), (address, contents)]
        yield build(1, RAM, 0, given, fault) if fault else built(1, RAM, 0, given)


def first_faults():
    outside, good, before = (RAM - 1, b""), (RAM + 4, b"\1\2\3\4"), (RAM, b"\1\2\3\4")
    yield "# the header's fault before the count of sections, and that before the sections"
    yield build(0, RAM, 0, [outside] * 65, "L4")
    yield build(1, END, 0, [outside] * 65, "L4")
    yield build(1, RAM, 2, [outside] * 65, "L4")
    yield build(1, RAM, 0, [outside] * 65, "L5")
    yield "# of one section outside RAM before after the one before it; of two the first"
    yield build(1, RAM, 0, [good, outside], "L6")
    yield build(1, RAM, 0, [good, before, outside], "L7")
    yield build(1, RAM, 0, [good, outside, before], "L6")
    yield build(1, RAM, 0, [outside, good, before], "L6")


def read_and_written():
    yield "# an image answers what it was built of"
    yield built(3, RAM + 8, 1, [(RAM + 8, bytes.fromhex("b7050010")), (RAM + 0x2FFF, b"\x41")])
    yield built(1, RAM, 0)
    yield "# files are read, and written back the same"
    for file in (FIRST, ONE_INSN, TWO, NO_SECTION):
        yield f"copy {text(file)} => {text(file)}"
    yield f"read {text(FIRST)} => 1 80000000 0 80000000:{FIRST[48:].hex()}"
    yield f"read {text(ONE_INSN)} => 1 80000000 0 80000000:5b05b522"
    yield f"read {text(TWO)} => 2 80000004 1 80000010:01020304 80000014:05060708"
    yield f"read {text(NO_SECTION)} => 1000 80fffffc 0"
    yield "# bytes like a capability are bytes"
    file = header(1, RAM, 1, 1) + section(RAM + 0x100, ROOT)
    assert len(file) == 64
    yield f"file 1 {RAM:x} 1 {RAM + 0x100:x}:{text(ROOT)} => {text(file)}"
    yield f"read {text(file)} => 1 80000000 1 80000100:{text(ROOT)}"
    yield "# a section of any length is read as its bytes"
    for size in (1, 2, 3, 4097):
        front = header(2, RAM, 1, 0) + number(RAM, 8) + number(size, 8)
        contents = text(b"\xaa" * size)
        yield f"read {front.hex()}+{contents} => 2 80000000 0 80000000:{contents}"
        yield f"read {front.hex()}+aa*{size - 1} => L8"
        yield f"read {front.hex()}+aa*{size + 1} => L9"
        yield f"file 2 80000000 0 80000000:{contents} => {front.hex()}{'aa' * size}"


def cut_short():
    yield "# a file that is cut short or too long is refused"
    for length, fault in ((0, "L1"), (31, "L1"), (32, "L8"), (47, "L8"), (48, "L8"), (51, "L8"), (52, None)):
        yield f"read {text(ONE_INSN[:length])} => {fault or '1 80000000 0 80000000:5b05b522'}"
    yield f"read {text(ONE_INSN + bytes(1))} => L9"
    yield "# the image of five instructions, cut after each of its bytes"
    assert len(FIRST) == 68
    yield from (f"read {text(FIRST[:length])} => {'L1' if length < 32 else 'L8'}" for length in range(68))


def limits():
    yield "# as many sections as 32 bits count; a section of 2^64 - 1 bytes, of which none comes; two sections at one place"
    yield f"read {text(header(1, RAM, ONES32, 0))} => L5"
    yield f"read {text(header(1, RAM, 1, 0) + number(RAM, 8) + number(ONES, 8))} => L6"
    two = header(1, RAM, 2, 0) + section(RAM, bytes.fromhex("01020304")) + section(RAM, bytes.fromhex("05"))
    yield f"read {text(two)} => L7"
    yield "# an entry at RAM's last word, and at RAM's end"
    yield f"read {text(header(1, END - 4, 0, 0))} => 1 80000ffc 0"
    yield f"read {text(header(1, END, 0, 0))} => L4"


def faults():
    yield "# each fault of a file, by its bytes"
    for changes, fault in (
            ({0: ord("c")}, "L2"), ({7: 0}, "L2"), ({8: 0}, "L3"), ({11: 1}, "L3"),
            # pages 0 and 4097; an entry that is no multiple of 4, is at RAM's end, below RAM and above all RAM; a mode of 2
            ({12: 0}, "L4"), ({13: 0x10}, "L4"), ({16: 2}, "L4"), ({17: 0x10}, "L4"), ({19: 0x7F}, "L4"), ({20: 1}, "L4"), ({28: 2}, "L4"),
            ({31: 1}, "L4"), ({24: 65}, "L5"), ({27: 0x80}, "L5"),
            # a section below RAM, above it, longer than it, and round the address space
            ({35: 0x7F}, "L6"), ({33: 0x20}, "L6"), ({41: 0x10}, "L6"), ({44: 0xFF, 45: 0xFF, 46: 0xFF, 47: 0xFF}, "L6"),
            # a second section is wanting; no section is wanted
            ({24: 2}, "L8"), ({24: 0}, "L9")):
        yield f"read {text(patched(FIRST, changes))} => {fault}"
    yield "# the first fault of two"
    for changes, length, fault in (
            ({0: 0}, 31, "L1"), ({0: 0, 8: 3}, 72, "L2"), ({8: 3, 12: 0}, 72, "L3"), ({28: 2, 24: 65}, 72, "L4"),
            ({24: 65, 35: 0x7F}, 72, "L5"),
            ({24: 65}, 40, "L5"),
            # of one section: its 16 bytes, outside RAM, after the one before it, its bytes
            ({35: 0x7F}, 47, "L8"), ({35: 0x7F}, 49, "L6"), ({55: 0x7F}, 72, "L6"), ({52: 0x13}, 72, "L7"), ({52: 0x13}, 70, "L7"),
            ({52: 0x13}, 67, "L8"),
            # of two sections the first
            ({35: 0x7F, 52: 0x13}, 72, "L6"), ({24: 1, 52: 0x13}, 72, "L9")):
        yield f"read {text(patched(TWO, changes)[:length])} => {fault}"


# ---- version 2

def asked_v2(what, pages, entry, mode, capabilities, sections, answer):
    words = "".join(" " + " ".join(f"{part:x}" for part in parts) for parts in capabilities)
    given = "".join(f" {address:x}:{text(contents)}" for address, contents in sections)
    return f"{what} {pages:x} {entry:x} {mode:x} {len(capabilities):x}{words}{given} => {answer}"


def shown_v2(pages, entry, mode, capabilities, sections=()):
    """An image of version 2 as an answer has it."""
    given = "".join(f" {address:x}:{text(contents)}" for address, contents in sections)
    return f"v2 {pages:x} {entry:x} {mode:x}{given}" + "".join(" @" + ":".join(f"{part:x}" for part in parts) for parts in capabilities)


def both(capabilities, fault=None, pages=1, entry=RAM, mode=0, sections=()):
    """A build and a file of the same parts: the image, or the same fault."""
    answer = fault or shown_v2(pages, entry, mode, capabilities, sections)
    yield asked_v2("build2", pages, entry, mode, capabilities, sections, answer)
    yield f"read {text(file_v2(pages, entry, mode, capabilities, sections))} => {answer}"


def over_zeros():
    """Images that a text makes: capabilities over zeros of sections, before, between and after other bytes; none, and more pages than
    version 1 has."""
    yield "# version 2: capabilities over zeros of sections, built, written, and written back the same"
    around = b"\1" * 16 + bytes(16) + b"\2" * 16 + bytes(32) + b"\3"
    three = [granted(RAM + 16, 0, 1 << 13, 0x8001, 1), granted(RAM + 48, ONES, 1, 1, 0), granted(RAM + 64, 0, 0, 0, 1)]
    for pages, entry, mode, capabilities, given in (
            (1, RAM, 1, [GRANTED], [(RAM + 0x100, bytes(16))]), (4097, NEXT_END - 4, 0, three, [(RAM, around)]),
            (2, RAM + 4, 0, [granted(RAM), granted(END - 16)],
             [(RAM, bytes(16)), (RAM + 16, b"\4"), (END - 32, bytes(32))]),
            (4097, RAM, 1, [], [(RAM, b"\5\6")]), (MOST, RAM, 0, [], [])):
        file = file_v2(pages, entry, mode, capabilities, given)
        yield asked_v2("file2", pages, entry, mode, capabilities, given, file.hex())
        yield f"copy {file.hex()} => {file.hex()}"
        yield from both(capabilities, pages=pages, entry=entry, mode=mode, sections=given)


def versions(pages, entry, mode, given, answer=None):
    """A build of both versions without capabilities: what it is built of, or another answer."""
    words = "".join(f" {address:x}:{text(contents)}" for address, contents in given)
    same = f"{pages:x} {entry:x} {mode:x}{words}"
    return f"versions {same} => {answer.format(same) if answer else same}"


def either_version():
    """Without capabilities both versions say the same, but for how many pages there are at most."""
    yield "# and either version of the same parts"
    yield versions(1, RAM, 0, [])
    yield versions(1, RAM, 0, [(RAM, FIRST[48:])])
    yield versions(2, RAM + 4, 1, [(RAM + 0x10, b"\1\2\3\4"), (RAM + 0x14, b""), (RAM + 0x14, b"\5")])
    yield versions(4096, LAST_END - 4, 1, [(LAST_END - 2, b"\7\10")])
    yield versions(1, RAM, 0, [(RAM, b"")] * 64)
    yield versions(4097, NEXT_END - 4, 0, [(NEXT_END - 1, b"\7")], "L4 / {}")
    for pages, entry, mode, given, fault in (
            (0, RAM, 0, [], "L4"), (MOST + 1, RAM, 0, [], "L4"), (1, RAM, 2, [], "L4"), (1, END, 0, [], "L4"),
            (1, RAM, 0, [(RAM, b"")] * 65, "L5"), (1, RAM, 0, [(END - 1, b"\7\10")], "L6"),
            (1, RAM, 0, [(RAM + 4, b"\1\2"), (RAM + 5, b"\3")], "L7")):
        yield versions(pages, entry, mode, given, fault)


def second_version():
    yield from over_zeros()
    yield "# one capability, written back and read; cut at every byte, and a byte too long"
    yield f"copy {ONE_CAPABILITY.hex()} => {ONE_CAPABILITY.hex()}"
    yield from both([GRANTED], mode=1)
    for length in range(len(ONE_CAPABILITY)):
        yield f"read {text(ONE_CAPABILITY[:length])} => {'L1' if length < 32 else 'L8'}"
    yield f"read {text(ONE_CAPABILITY + bytes(1))} => L9"
    yield f"read {text(patched(ONE_CAPABILITY, {8: 3}))} => L3"
    yield f"read {text(patched(ONE_CAPABILITY, {8: 0}))} => L3"
    yield "# the same bytes as version 1 have bytes after the last section"
    yield f"read {text(patched(ONE_CAPABILITY, {8: 1}))} => L9"
    yield "# none at all, and what sections version 1 may have"
    yield from both([])
    yield from both([], sections=[(RAM, b"\1\2\3\4"), (RAM + 4, b"\5")])
    yield from either_version()
    yield from places()
    yield from parts_of_capabilities()
    yield from pairs()


def places():
    yield "# pages are 1 to 65536"
    for pages in (4096, 4097, MOST):
        yield from both([], pages=pages, entry=RAM + 4096 * pages - 4)
    for pages in (0, MOST + 1, ONES32):
        yield from both([], "L4", pages=pages)
    yield "# a place is a granule of RAM"
    for place, pages, fault in (
            (RAM, 1, None), (END - 16, 1, None), (MOST_END - 16, MOST, None), (END - 8, 1, "L12"), (END, 1, "L12"), (MOST_END, MOST, "L12"),
            (RAM - 16, 1, "L12"), (0, 1, "L12"), (RAM + 0x108, 1, "L12"), (RAM + 0x101, 1, "L12"), (ONES - 15, 1, "L12"), (ONES, 1, "L12")):
        yield from both([granted(place)], fault, pages=pages)
    yield "# and above the one before"
    yield from both([granted(RAM), granted(RAM + 16), granted(END - 16)])
    yield from both([granted(RAM + 16), granted(RAM + 16)], "L12")
    yield from both([granted(RAM + 16), granted(RAM)], "L12")
    yield "# it may touch sections, which end before it, cover it, or begin in it"
    for address, contents in ((RAM + 0xF8, b"\7" * 8), (RAM + 0x100, b"\7" * 16), (RAM + 0x108, b"\7" * 16), (RAM + 0x110, b"\7")):
        yield from both([GRANTED], sections=[(address, contents)])


def parts_of_capabilities():
    yield "# bounds are those of a capability, and end at 2^64 at most"
    for base, length, fault in (
            (0, 0, None), (ONES, 0, None), (ONES, 1, None), (ONES, 2, "L13"), (ONES, ONES, "L13"), (1, ONES, "L13"), (0, ONES, "L13"),
            (1 << 63, 1 << 63, None), (1 << 63, (1 << 63) + 1, "L13"), (0x80001001, 4095, None), (0x80001001, 4096, "L13"),
            (0x80001000, 4096, None), (0x80001000, 4097, "L13"), (0x80001000, 4104, None), (0x80001008, 4096, None), (1, 8191, "L13"),
            (0, 8192, None), (SPACE - 8192, 8192, None), (SPACE - 4096, 4097, "L13")):
        yield from both([granted(base=base, length=length)], fault)
    yield "# permissions have 16 bits, and a flag one"
    for perms, flag, fault in (
            (0, 0, None), (0, 1, None), (0xFFFF, 1, None), (0x8001, 0, None), (0x10000, 0, "L14"), (ONES32, 0, "L14"), (0, 2, "L14"),
            (0, ONES32, "L14"), (0x10000, 2, "L14")):
        yield from both([granted(perms=perms, flag=flag)], fault)
    yield "# capabilities are at most 1024"
    many = [granted(RAM + 16 * k, 16 * k, k, k, k % 2) for k in range(1025)]
    yield from both(many[:1024], pages=5)
    yield from both(many, "L15", pages=5)
    yield f"read {text(patched(ONE_CAPABILITY, {34: 1}))} => L15"
    yield f"read {text(patched(ONE_CAPABILITY, {32: 1, 33: 4}))} => L15"
    yield f"read {text(patched(ONE_CAPABILITY, {32: 0, 33: 4}))} => L8"
    yield f"read {text(patched(ONE_CAPABILITY, {32: 0}))} => L9"
    yield f"read {text(patched(ONE_CAPABILITY, {32: 2}))} => L8"


# What is wrong with a capability, under its code: the parts of an entry that have other values.
PLACES = ({"place": RAM + 0x108}, {"place": RAM - 16}, {"place": END}, {"place": RAM})
RANGES = ({"length": 4097}, {"base": ONES, "length": 2})
RIGHTS = ({"perms": 0x10000}, {"flag": 2})
WRONG = {"L12": PLACES, "L13": RANGES, "L14": RIGHTS}


def pairs():
    """Two faults, and which is told: of one entry by the order of its checks, of two by the order of the entries, and what is asked of the
    header, the sections and the count before any entry."""
    yield "# the first fault of two of one capability, after a sound one"
    sound = granted(RAM)
    for first, second in (("L12", "L13"), ("L12", "L14"), ("L13", "L14")):
        for one in WRONG[first]:
            for other in WRONG[second]:
                yield from both([sound, granted(**one, **other)], first)
    yield "# the first fault of two capabilities, whichever is first"
    for first, some in WRONG.items():
        for second, others in WRONG.items():
            for other in others[:2]:
                yield from both([sound, granted(**some[0]), granted(**{"place": RAM + 0x200, **other})], first)
    yield "# too many of them is told before what is wrong with any"
    for some in WRONG.values():
        yield from both([granted(**some[0])] * 1025, "L15")
    yield "# and what is wrong with the header and the sections before that"
    outside, before = (RAM - 1, b""), [(RAM + 4, b"\1"), (RAM, b"")]
    earlier = {"L4": {"mode": 2}, "L5": {"sections": [outside] * 65}, "L6": {"sections": [outside]}, "L7": {"sections": before}}
    for fault, others in earlier.items():
        for some in WRONG.values():
            yield from both([granted(**some[0])], fault, **others)
    for fault, others in {**earlier, "L4": {"pages": MOST + 1}}.items():
        file = file_v2(**{"pages": 1, "entry": RAM, "mode": 0, "capabilities": [], **others})
        yield f"read {text(file[:-4] + number(1025, 4))} => {fault}"
    yield asked_v2("build2", MOST + 1, RAM, 0, [granted(0)] * 1025, (), "L4")
    yield "# a capability that is cut short is that before it is anything else, a sound one is read before what is after the last"
    for some in WRONG.values():
        for fault, wrong in ((fault, one) for fault, ones in WRONG.items() for one in ones):
            file = file_v2(1, RAM, 0, [sound, granted(**wrong), granted(**{"place": RAM + 0x200, **some[0]})])
            yield f"read {text(file[:-33])} => L8"
            yield f"read {text(file[:-1])} => {fault}"
    for fault, ones in WRONG.items():
        for wrong in ones:
            yield f"read {text(file_v2(1, RAM, 0, [sound, granted(**wrong)]) + bytes(1))} => {fault}"
    for count, behind, fault in ((1025, b"", "L15"), (1025, bytes(1), "L15"), (ONES32, b"", "L15")):
        yield f"read {text(file_v2(1, RAM, 0, [])[:-4] + number(count, 4) + behind)} => {fault}"
    yield f"read {text(file_v2(1, RAM, 0, [])[:-4] + number(1025, 4)[:3])} => L8"


def lines():
    yield "# a file's bytes, or pages, entry, mode and sections => the image or, of copy and file, its bytes; or the fault"
    yield "# versions: the image of either version without its mark, or those of version 1 and of version 2"
    for group in (headers, sections, first_faults, read_and_written, cut_short, limits, faults, second_version):
        yield from group()


def failures():
    file = text(FIRST)
    yield "# the file is read a byte a call: a call for each byte and one that meets the end, and any of them may fail"
    for call in range(len(FIRST) + 1):
        yield f"read {call:x} {file} => 1 L10"
    yield f"read {len(FIRST) + 1:x} {file} => 0 ok"
    yield "# the image is written a byte a call, and any of them may fail"
    for call in range(len(FIRST)):
        yield f"write {call:x} {file} => 1 L10 {text(FIRST[:call])}"
    yield f"write {len(FIRST):x} {file} => 0 ok {file}"
    yield "# and the same of a file of version 2"
    second = text(ONE_CAPABILITY)
    for call in range(len(ONE_CAPABILITY) + 1):
        yield f"read {call:x} {second} => 1 L10"
    yield f"read {len(ONE_CAPABILITY) + 1:x} {second} => 0 ok"
    for call in range(len(ONE_CAPABILITY)):
        yield f"write {call:x} {second} => 1 L10 {text(ONE_CAPABILITY[:call])}"
    yield f"write {len(ONE_CAPABILITY):x} {second} => 0 ok {second}"
    yield "# a reader of std that is interrupted once: that call fails and is counted, and the next one goes on"
    yield "interrupted - 6162 => 1 0 61;1 0 62;0 0 00;0 0 00;"
    yield "interrupted 0 6162 => failed 1 00;1 1 61;1 1 62;0 1 00;"
    yield "interrupted 1 6162 => 1 0 61;failed 1 00;1 1 62;0 1 00;"
    yield "interrupted 2 6162 => 1 0 61;1 0 62;failed 1 00;0 1 00;"
    yield "# a writer of std of which a call fails, or takes no byte: the same, and that byte isn't written; it is never flushed"
    for failure in ("interrupted", "nobyte"):
        yield f"broken - {failure} 616263 => 1 0;1 0;1 0; 616263"
        yield f"broken 0 {failure} 616263 => failed 1;1 1;1 1; 6263"
        yield f"broken 1 {failure} 616263 => 1 0;failed 1;1 1; 6163"
        yield f"broken 2 {failure} 616263 => 1 0;1 0;failed 1; 6162"
        yield f"brokenall - {failure} - => 0 0 -"
        yield f"brokenall 0 {failure} - => 0 0 -"
        yield f"brokenall - {failure} 616263 => 3 0 616263"
        yield from (f"brokenall {call} {failure} 616263 => failed 1 {b'abc'[:call].hex() or '-'}" for call in range(3))
    yield "# fewer bytes than there is room for"
    yield "part 3 74657874 => 3 0 746578"


def files():
    yield "images.txt", list(lines())
    yield "failures.txt", list(failures())
