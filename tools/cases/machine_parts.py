"""Cases of the devices and of memory: scripts of calls, and what each is to answer."""

from model.devices import CONTROL, HALT, RAM, RECEIVE, STATUS, TIMER, TIMER_COMPARE, TRANSMIT
from model.words import NULL_HIGH, ONES, ROOT_HIGH

# each register, and what a load gives at the beginning
REGISTERS = {HALT: 0, TIMER_COMPARE: ONES, TIMER: 0, TRANSMIT: 0, RECEIVE: 0, STATUS: 0, CONTROL: 0}
# addresses at which no register begins: inside and after them, in RAM and at both ends of the address space
NOWHERE = (0, HALT + 4, HALT + 8, TIMER_COMPARE + 8, TIMER + 4, TRANSMIT - 8, TRANSMIT + 1, TRANSMIT + 4, CONTROL + 8, RAM, ONES)
# mtime, mtimecmp, the bytes that wait, overrun, control and halt, as they begin
BEGINNING = "0 ffffffffffffffff - 0 0 -"


def script(*calls, begin=()):
    """A case of calls, each with its answer."""
    return f"{'; '.join([*begin, *(call for call, _ in calls)])} => {'; '.join(answer for _, answer in calls)}"


def map_of_devices():
    yield "# loads are of 8 bytes"
    for address, value in REGISTERS.items():
        yield script((f"gives 8 {address:x}", "1"), (f"peek {address:x}", f"{value:x}"), (f"read 8 {address:x}", f"{value:x}"))
        for size in (1, 2, 4):
            yield script((f"gives {size} {address:x}", "0"), (f"read {size} {address:x}", "V2"))
    yield "# stores are of 8 bytes, and into transmit of 1"
    for address in REGISTERS:
        yield script((f"takes 8 {address:x}", "1"))
        for size in (1, 2, 4):
            sent = (address, size) == (TRANSMIT, 1)
            yield script((f"takes {size} {address:x}", str(int(sent))), (f"write {size} {address:x} {ONES:x}", "byte ff" if sent else "V2"),
                         ("state", BEGINNING))
    yield "# where there is no register the size does not count"
    for address in NOWHERE:
        yield script((f"peek {address:x}", "V1"), (f"sends {address:x} 41", "none"))
        for size in (1, 2, 4, 8):
            yield script((f"gives {size} {address:x}", "0"), (f"takes {size} {address:x}", "0"), (f"read {size} {address:x}", "V1"),
                         (f"write {size} {address:x} 7", "V1"), ("state", BEGINNING))


def stores():
    number = 0x8877665544332211
    yield "# a store has its effect, and is loaded again"
    for address, value, effect, loaded, state in (
            (HALT, number, f"halt {number:x}", 0, f"0 ffffffffffffffff - 0 0 {number:x}"),
            (TIMER_COMPARE, number, "ok", number, f"0 {number:x} - 0 0 -"),
            (TIMER, number, "ok", number, f"{number:x} ffffffffffffffff - 0 0 -"),
            (TRANSMIT, number, "byte 11", 0, BEGINNING),
            (RECEIVE, number, "ok", 0, BEGINNING),
            (STATUS, number, "ok", 0, BEGINNING),
            (CONTROL, number, "ok", 1, "0 ffffffffffffffff - 0 1 -"),
            (CONTROL, number - 1, "ok", 0, BEGINNING)):
        yield script((f"write 8 {address:x} {value:x}", effect), (f"read 8 {address:x}", f"{loaded:x}"), ("state", state))
    yield "# a halted machine's console still sends"
    yield script((f"write 8 {HALT:x} 3", "halt 3"), (f"sends {TRANSMIT:x} 141", "41"), (f"write 1 {TRANSMIT:x} 141", "byte 41"),
                 ("state", "0 ffffffffffffffff - 0 0 3"))


def console():
    take = f"read 8 {RECEIVE:x}"
    status = f"read 8 {STATUS:x}"
    yield "# bytes are taken in the order in which they came"
    yield script(("receive 0a14", "ok"), (take, "a"), ("receive 1e", "ok"), ("state", "0 ffffffffffffffff 141e 0 0 -"), (take, "14"),
                 (take, "1e"), (take, "0"), ("receive 28", "ok"), (take, "28"))
    yield "# only a load of 8 bytes from receive takes a byte"
    yield script(("receive 0a", "ok"), (f"peek {RECEIVE:x}", "a"), (status, "1"), (f"read 1 {RECEIVE:x}", "V2"),
                 (f"write 8 {RECEIVE:x} 7", "ok"), ("state", "0 ffffffffffffffff 0a 0 0 -"), (take, "a"), (status, "0"))
    numbers = "".join(f"{byte:02x}" for byte in range(1, 65))
    yield "# the 65th byte is lost"
    yield script((f"receive {numbers}", "ok"), ("state", f"0 ffffffffffffffff {numbers} 0 0 -"), (status, "1"), ("receive 41", "ok"),
                 ("state", f"0 ffffffffffffffff {numbers} 1 0 -"), (status, "3"), *((take, f"{byte:x}") for byte in range(1, 65)),
                 (take, "0"), (status, "2"))
    yield "# a 66th byte changes nothing more"
    yield script((f"receive {numbers}", "ok"), ("receive 41", "ok"), ("receive 42", "ok"),
                 ("state", f"0 ffffffffffffffff {numbers} 1 0 -"), (status, "3"), (take, "1"), ("receive 43", "ok"),
                 ("state", f"0 ffffffffffffffff {numbers[2:]}43 1 0 -"))
    yield "# bit 1 stored into status clears the overrun"
    for stored, told in ((0, 3), (1, 3), (2, 1), (3, 1), (4, 3), (ONES, 1)):
        yield script(("receive 07*65", "ok"), (f"write 8 {STATUS:x} {stored:x}", "ok"), (status, str(told)),
                     ("state", f"0 ffffffffffffffff 07*64 {told >> 1} 0 -"))
    yield "# a byte that waits interrupts where control allows it"
    yield script(("receive 07", "ok"), ("interrupts", "0"), (f"write 8 {CONTROL:x} 1", "ok"), ("state", "0 ffffffffffffffff 07 0 1 -"),
                 ("interrupts", "800"), (take, "7"), ("interrupts", "0"))


def timer():
    yield "# a tick counts modulo 2^64"
    for before, after in ((0, 1), (0xFFFFFFFF, 0x100000000), (ONES, 0)):
        yield script((f"write 8 {TIMER:x} {before:x}", "ok"), ("tick", "ok"), ("state", f"{after:x} ffffffffffffffff - 0 0 -"))
    yield "# the timer interrupts from mtimecmp on"
    for mtime, mtimecmp, wanted in ((0, ONES, 0), (5, 6, 0), (6, 6, 0x80), (7, 6, 0x80), (0, 0, 0x80),
                                    (ONES, ONES, 0x80), (ONES - 1, ONES, 0)):
        yield script((f"write 8 {TIMER:x} {mtime:x}", "ok"), (f"write 8 {TIMER_COMPARE:x} {mtimecmp:x}", "ok"),
                     ("interrupts", f"{wanted:x}"))
    yield "# both may interrupt"
    yield script(("receive 07", "ok"), (f"write 8 {CONTROL:x} 1", "ok"), (f"write 8 {TIMER_COMPARE:x} 1", "ok"), ("interrupts", "800"),
                 ("tick", "ok"), ("interrupts", "880"))


def devices():
    yield "# calls => what each answers; the state is mtime, mtimecmp, the bytes that wait, overrun, control and halt"
    for group in (map_of_devices, stores, console, timer):
        yield from group()


# the memory form of a capability word with address 0x80001000, and the word's halves
BYTES = "00100080000000000450fe070000ffff"
HIGH = 0xFFFF000007FE5004 ^ NULL_HIGH
WORD = f"{HIGH:016x} 80001000"
ROOT = f"{ROOT_HIGH:016x} 0"


def memory_script(*calls, pages=1):
    return script(*calls, begin=[f"{pages:x}"])


def tagged(addresses):
    return [(f"writec {address:x} {ROOT} 1", "ok") for address in addresses]


def granule(number):
    """The address of a granule, by its number from 0."""
    return RAM + 16 * number


def planes(granules, pages):
    """The words of tags of so many pages of which these granules are tagged."""
    words = [0] * (4 * pages)
    for number in granules:
        words[number // 64] |= 1 << number % 64
    return " ".join(f"{word:x}" for word in words)


def numbers():
    yield "# memory begins as zeros"
    yield memory_script(("read 8 80001ff8", "0"), ("readc 80001ff0", "00001ffffc018004 0 0"), ("tagged 0 ffffffffffffffff", "none"),
                        pages=2)
    yield "# misaligned comes before outside"
    for call, answer in (
            (f"writec 80000108 {ROOT} 1", "M4"), ("readc 80000108", "M4"), ("readc 80001000", "M3"), (f"writec 7ffffff0 {ROOT} 1", "M3"),
            ("read 2 80001001", "M4"), ("read 8 7ffffffc", "M4"), ("read 8 7ffffff8", "M3"), ("read 1 7fffffff", "M3"),
            ("read 1 80001000", "M3"), ("write 1 ffffffffffffffff 1", "M3"), ("write 8 fffffffffffffff8 1", "M3"),
            ("read 1 80000fff", "0")):
        yield memory_script((call, answer))
    yield "# numbers lie lowest byte first, and only the low bytes of a number are written"
    yield memory_script(
        ("write 8 80000010 1122334455667788", "ok"), ("read 1 80000010", "88"), ("read 1 80000017", "11"), ("read 2 80000010", "7788"),
        ("read 2 80000012", "5566"), ("read 4 80000010", "55667788"), ("read 4 80000014", "11223344"),
        ("read 8 80000010", "1122334455667788"))
    yield memory_script(
        ("write 8 80000010 1122334455667788", "ok"), ("write 4 80000014 ffffffff0a0b0c0d", "ok"), ("read 8 80000010", "a0b0c0d55667788"),
        ("write 2 80000012 fffbeef", "ok"), ("read 8 80000010", "a0b0c0dbeef7788"), ("write 1 80000011 1234", "ok"),
        ("read 8 80000010", "a0b0c0dbeef3488"), ("read 8 80000008", "0"), ("read 8 80000018", "0"))


def granules():
    yield "# a byte takes the tag of its granule"
    left = f"{HIGH & ~(0xFF << 56):016x} 80001000 0"
    yield memory_script(
        *((f"writec {address:x} {WORD} 1", "ok") for address in (0x800000F0, 0x80000100, 0x80000110)), ("readc 80000100", f"{WORD} 1"),
        ("write 1 8000010f 0", "ok"), ("readc 80000100", left), ("read 8 80000100", "80001000"), ("read 4 80000108", "7fe5004"),
        ("read 2 8000010c", "0"), ("read 1 8000010e", "ff"), ("read 1 8000010f", "0"), ("readc 800000f0", f"{WORD} 1"),
        ("readc 80000110", f"{WORD} 1"))
    yield "# a word lies in memory by its bytes, and bytes are a word"
    yield memory_script((f"fill 80000100 {BYTES}", "ok"), ("readc 80000100", f"{WORD} 0"))
    yield "# a word is written with its tag"
    yield memory_script((f"writec 80000ff0 {ROOT} 1", "ok"), ("readc 80000ff0", f"{ROOT} 1"), (f"writec 80000ff0 {ROOT} 0", "ok"),
                        ("readc 80000ff0", f"{ROOT} 0"), ("read 8 80000ff8", "ffff000000000000"))
    yield "# tagged granules come in order"
    for bounds, answer in (
            ("80000010 80002ff0", "80001ff0 80002000"), ("0 ffffffffffffffff", "80000000 80001ff0 80002000 80002ff0"),
            ("80001ff1 80002000", "none"), ("80001ff1 80002001", "80002000"), ("80002ff0 80000000", "none")):
        yield memory_script(*tagged((0x80002000, 0x80000000, 0x80002FF0, 0x80001FF0)), (f"tagged {bounds}", answer), pages=3)


def filled():
    yield "# filling takes the tags that it touches: from the last byte of a granule to the first of the next but one"
    yield "# no byte touches none"
    five = tagged((0x80000000, 0x80000010, 0x80000020, 0x80000030, 0x80000040))
    yield memory_script(
        *five, ("fill 8000001f 07*18", "ok"), ("tagged 0 ffffffffffffffff", "80000000 80000040"), ("read 1 8000001e", "ff"),
        ("read 1 8000001f", "7"), ("read 2 80000030", "7"), ("fill 80000048 -", "ok"), ("readc 80000040", f"{ROOT} 1"))


def planes_of_tags():
    yield "# tags are bits, 64 granules a word, the first granule's the lowest of the first word"
    yield memory_script(("planes", planes([], 1)))
    for pages, some in ((1, (0, 63, 64, 255)), (2, (256 + 1,)), (3, (11 * 64,))):
        yield memory_script(*tagged(map(granule, some)), ("planes", planes(some, pages)),
                            ("tagged 0 ffffffffffffffff", " ".join(f"{granule(number):x}" for number in some)), pages=pages)
    yield memory_script(*tagged(map(granule, (0, 1, 2))), ("write 1 8000001f 0", "ok"), ("planes", planes((0, 2), 1)),
                        (f"writec 80000000 {ROOT} 0", "ok"), ("planes", planes((2,), 1)))
    yield "# filling takes the tags of whole words and of the words that it begins and ends in"
    among = (62, 63, 64, 127, 128, 191, 192, 193)
    for begins, ends in ((63, 192), (64, 191), (63, 127), (128, 192), (62, 62), (191, 193)):
        left = [number for number in among if not begins <= number <= ends]
        count = max(16 * (ends - begins) - 14, 1)
        yield memory_script(*tagged(map(granule, among)), (f"fill {granule(begins) + 15:x} 07*{count}", "ok"), ("planes", planes(left, 1)))
    yield "# of all RAM that there can be, one granule: the last"
    yield memory_script(*tagged((0x80FFFFF0,)), ("tagged 0 ffffffffffffffff", "80fffff0"), pages=0x1000)
    yield memory_script(*tagged((0x80000FF0,)), ("tagged 80000000 80001000", "80000ff0"))
    yield "# there is no place past the end"
    for call, answer in (("fill 80001000 -", "ok"), ("fill 80001001 -", "M3"), ("fill 80000fff 0102", "M3"), ("fill 7fffffff 0102", "M3")):
        yield memory_script((call, answer), ("read 1 80000fff", "0"))


def memory():
    yield "# pages, of 4096 bytes; calls => what each answers"
    yield "# pages are 1 to 4096"
    yield from ("0 => M1", "10001 => M1", "1 => 1", "1000 => 1000", "1001 => 1001", "2 => 2")
    for group in (numbers, granules, filled, planes_of_tags):
        yield from group()


def searches():
    """Words as hexadecimal digits, and the place of the first that isn't 0, or how many they are."""
    yield "# words => the index of the first that isn't 0, or how many there are"
    for count in (1, 7, 8, 9, 15, 16, 17, 24):
        yield f"{' '.join(['0'] * count)} => {count}"
        for place in sorted({0, count // 2, count - 1}):
            words = ["0"] * count
            words[place] = f"{1 << (place * 7 % 64):x}"
            yield f"{' '.join(words)} => {place}"
            if place + 1 < count:
                yield f"{' '.join(words[:place + 1] + ['ffffffffffffffff'] * (count - place - 1))} => {place}"
    yield f"{' '.join(['0'] * 7 + ['8000000000000000'])} => 7"


def files():
    yield "searches.txt", list(searches())
    yield "devices.txt", list(devices())
    yield "memory.txt", list(memory())
