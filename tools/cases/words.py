"""Cases of words and windows: capability words, what they decode to, and the addresses with which their bounds stay.

The values are those of the model's formulas (tools/model/words.py), but for the windows that are worked by hand.
"""

from cases.sequences import Numbers
from model.rights import ALL, SENTRY, UNSEALED
from model.words import (NULL_HIGH, ONES, ROOT_HIGH, SPACE, canonical, decoded, exponent_and_mantissas, fields, is_well_formed, kept,
                         memory)


def known():
    """The words that are worked by hand."""
    yield NULL_HIGH, 0
    yield ROOT_HIGH, 0
    yield ROOT_HIGH, ONES
    yield 0xFFFF000007FE5004 ^ NULL_HIGH, 0x80001000
    yield 0xFFFF000000039004 ^ NULL_HIGH, 0x80001001
    yield 0xFFFF000000018005 ^ NULL_HIGH, 1
    yield 0x00001FFFF8003FFF ^ NULL_HIGH, 0


def shape(numbers):
    """Any permissions, flag and type."""
    perms = numbers.choice([ALL, 0, numbers.below(1 << 16)])
    otype = numbers.choice([UNSEALED, UNSEALED, UNSEALED, SENTRY, numbers.below(1 << 18)])
    return perms, numbers.below(2), otype


def capability(numbers, e, ie, address_at):
    """A capability of an exponent, with the address at an end of the window or in the bounds."""
    perms, flag, otype = shape(numbers)
    while True:
        unit = 1 << e + 3 if ie else 1
        length = (1 << e + 12) + numbers.below(1 << 9) * unit if ie else numbers.below(4096)
        base = numbers.below(SPACE // unit) * unit
        if numbers.below(4) == 0:
            base = numbers.choice([0, (SPACE - length) % SPACE])
        if base + length > SPACE:
            continue
        high = canonical(base, base + length, perms, 0, flag, otype)
        # a base is an address in its own window
        first, last = kept(high, base)
        inside = (base + numbers.below(max(length, 1))) % SPACE
        return high, [first, last, inside, base][address_at]


def of_every_exponent(numbers):
    for e in range(53):
        for address_at in range(3):
            yield capability(numbers, e, 1, (address_at + e) % 4)
    for k in range(16):
        yield capability(numbers, 0, 0, k % 4)


def out_of_their_windows(numbers):
    """Words one address out of their windows."""
    for e in list(range(0, 50, 3)):
        high, address = capability(numbers, e, e % 2, 0)
        yield high, (address - 1) % SPACE
        yield high, (kept(high, address)[1] + 1) % SPACE


def of_every_field(numbers):
    """Any mantissas under every exponent field."""
    for field in range(64):
        for k in range(2):
            perms, flag, otype = shape(numbers)
            b, t = numbers.below(1 << 11) << 3, numbers.below(1 << 9) << 3
            reserved = numbers.choice([0, 0, 0, numbers.below(4)])
            high = perms << 48 | reserved << 46 | flag << 45 | otype << 27 | 1 << 26 | (t | field >> 3) << 14 | b | field & 7
            address = numbers.below(SPACE)
            first, last = kept(high, address)
            yield high, [0, ONES, address, first, last][(2 * field + k) % 5]


def past_the_end(numbers):
    """Bounds that go past the end of the address space."""
    for e in range(0, 53, 2):
        perms, flag, otype = shape(numbers)
        base = (SPACE >> e + 3) - 1 - numbers.below(256) << e + 3
        base = base % SPACE
        top = base + (4096 + (numbers.below(512) << 3) << e)
        t = top >> e & 0xFF8 | e >> 3
        high = perms << 48 | flag << 45 | otype << 27 | 1 << 26 | t << 14 | base >> e & 0x3FF8 | e & 7
        yield high, [base, ONES, 0][e // 2 % 3]


def without_exponent(numbers):
    """Any mantissas with no exponent."""
    for k in range(12):
        perms, flag, otype = shape(numbers)
        high = perms << 48 | flag << 45 | otype << 27 | numbers.below(1 << 26)
        yield high, [0, ONES, numbers.below(SPACE)][k % 3]


def words():
    numbers = Numbers(0x43484552)
    yield from known()
    for group in (of_every_exponent, out_of_their_windows, of_every_field, past_the_end, without_exponent):
        yield from group(numbers)


def distinct_words():
    return list(dict.fromkeys(words()))


def word_line(high, address, tag):
    """What a word decodes to, as data or as a capability."""
    base, top = decoded(high, address)
    e = exponent_and_mantissas(high)[0]
    length = (top - base) % (2 * SPACE)
    # the length's mantissa stands at the exponent
    assert e > 50 or length % (1 << e) == 0 and (length >> e) // 4096 == high >> 26 & 1
    parts = f"{high >> 48:x} {high >> 45 & 1} {high >> 27 & 0x3FFFF:x} {high >> 26 & 1} {high >> 14 & 0xFFF:x} {high & 0x3FFF:x}"
    well_formed = int(is_well_formed(high, address))
    return f"{memory(high, address)} {int(tag)} => {high:016x} {address:x} {int(tag)} {well_formed} {parts} {base:x} {top:x}"


def word_lines():
    yield "# a word's bytes in memory and a tag"
    yield "# => its high half, address and tag, whether it is well-formed, perms, flag, otype, IE, T, B, base, top"
    for high, address in distinct_words():
        yield word_line(high, address, False)
        if is_well_formed(high, address):
            yield word_line(high, address, True)


def window_line(high, address, tag, new):
    """What another address leaves of a value."""
    stays = decoded(high, new) == decoded(high, address)
    unsealed = fields(high)[2] == UNSEALED
    base, top = decoded(high, new)
    left = f"{high:016x} {new:x} {int(tag and stays and unsealed)}"
    return f"{high:016x} {address:x} {int(tag)} {new:x} => {int(stays)} {left} {base:x} {top:x}"


WORKED_WINDOWS = """\
# 4095 bytes from 0x8000_1000, whose window is 0x8000_0800 to 0x8000_47ff
ffff1ffffbffd000 80001000 1 800047ff => 1 ffff1ffffbffd000 800047ff 1 80001000 80001fff
ffff1ffffbffd000 80001000 1 80000800 => 1 ffff1ffffbffd000 80000800 1 80001000 80001fff
ffff1ffffbffd000 80001000 1 80004800 => 0 ffff1ffffbffd000 80004800 0 80005000 80005fff
ffff1ffffbffd000 80001000 1 800007ff => 0 ffff1ffffbffd000 800007ff 0 7fffd000 7fffdfff
# 16 bytes at 0, whose window goes round the end of the address space
ffff1ffff8040000 0 1 ffffffffffffffff => 1 ffff1ffff8040000 ffffffffffffffff 1 0 10
ffff1ffff8040000 0 1 fffffffffffff7ff => 0 ffff1ffff8040000 fffffffffffff7ff 0 ffffffffffffc000 ffffffffffffc010
# a sentry at its own address
ffff1ffff3ffd000 80001000 1 80001000 => 1 ffff1ffff3ffd000 80001000 0 80001000 80001fff""".splitlines()


def window_lines():
    yield "# a value, and an address => whether its bounds stay with that address, and the value with it, its base and its top"
    yield from WORKED_WINDOWS
    yield "# each word with the first and the last address of its window, its own, and those next to the ends"
    lines = []
    for high, address in distinct_words():
        first, last = kept(high, address)
        for new in (first, last, address, (first - 1) % SPACE, (last + 1) % SPACE):
            lines.append(window_line(high, address, is_well_formed(high, address), new))
    yield from dict.fromkeys(lines)


def part_line(high, address):
    """The parts of a word: E, B, T, the edge, the corrections of base and top, and whether bit 64 of the top is inverted."""
    e, b, t = exponent_and_mantissas(high)
    ah, bh, th = address >> e + 11 & 7, b >> 11 & 7, t >> 11 & 7
    edge = bh - 1 & 7
    base_step, top_step = (bh < edge) - (ah < edge), (th < edge) - (ah < edge)
    base, top = decoded(high, address)
    flip = ((address >> e + 14) + top_step << e + 14) + (t << e) - top & SPACE != 0
    return f"{high:016x} {address:x} => {e} {b:x} {t:x} {edge} {base_step} {top_step} {int(flip)}"


def part_lines():
    yield "# a word's high half and its address => E, B, T, the edge, the corrections of base and top, whether the top's bit 64 is inverted"
    yield "# 4095 bytes from 0x8000_1000, with an address below them; 16 bytes at 0, with the last address of all"
    yield part_line(0xFFFF000007FE5004 ^ NULL_HIGH, 0x800007FF)
    yield part_line(0xFFFF1FFFF8040000, ONES)
    yield "# each word"
    yield from (part_line(high, address) for high, address in distinct_words())


def files():
    yield "words.txt", list(word_lines())
    yield "parts.txt", list(part_lines())
    yield "windows.txt", list(window_lines())
