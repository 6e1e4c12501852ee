"""Capability words: what they decode to, and the addresses with which their bounds stay.

The decoding is that of CHERI Concentrate (UCAM-CL-TR-987, 128-bit format), by its own formulas: the three top bits of the
address, of B and of T against an edge, the corrections of base and top, and bit 64 of the top inverted. It shares nothing with
the definitions of cap_bounds, which go by windows.

A word is its high half and its address; in memory it is exclusive-ored with the word of null.
"""

from functools import lru_cache

# The end of the address space, and its last address.
SPACE = 1 << 64
ONES = SPACE - 1
# The high halves of null, which is sixteen zero bytes in memory, and of every permission over all addresses.
NULL_HIGH = 0x00001FFFFC018004
ROOT_HIGH = 0xFFFF1FFFFC018004


def exponent_and_mantissas(high):
    """E, B and T (14 bits each) of a word's high half."""
    b, t, ie = high & 0x3FFF, high >> 14 & 0xFFF, high >> 26 & 1
    e = 0
    if ie:
        e = min((t & 7) << 3 | b & 7, 52)
        b, t = b & ~7, t & ~7
    carry = 1 if t < b & 0xFFF else 0
    return e, b, ((b >> 12) + carry + ie & 3) << 12 | t


@lru_cache(maxsize=1 << 16)
def decoded(high, address):
    """The base and the top of a word."""
    e, b, t = exponent_and_mantissas(high)
    ah, bh, th = address >> e + 11 & 7, b >> 11 & 7, t >> 11 & 7
    edge = bh - 1 & 7
    a_high, b_high, t_high = ah < edge, bh < edge, th < edge
    a = address >> e + 14
    base = ((a + b_high - a_high << e + 14) + (b << e)) % SPACE
    top = ((a + t_high - a_high << e + 14) + (t << e)) % (2 * SPACE)
    if e < 51 and (top >> 63) - (base >> 63) & 3 > 1:
        top ^= SPACE
    return base, top


def canonical(base, top, perms, reserved, flag, otype):
    """The high half of the word of a capability, or None where its bounds have none."""
    length = top - base
    e, ie = 0, 0
    if length >= 4096:
        e, ie = length.bit_length() - 13, 1
        if base % (1 << e + 3) or top % (1 << e + 3):
            return None
    b, t = base >> e & 0x3FFF, top >> e & 0xFFF
    if ie:
        b, t = b & ~7 | e & 7, t & ~7 | e >> 3
    return perms << 48 | reserved << 46 | flag << 45 | otype << 27 | ie << 26 | t << 14 | b


def fields(high):
    """The permissions, the flag and the object type of a word's high half."""
    return high >> 48, high >> 45 & 1, high >> 27 & 0x3FFFF


def is_well_formed(high, address):
    base, top = decoded(high, address)
    if not base <= top <= SPACE:
        return False
    perms, flag, otype = fields(high)
    return high == canonical(base, top, perms, 0, flag, otype)


def kept(high, address):
    """The first and the last of the addresses from this one on, downwards and upwards, with which the bounds stay."""
    e = exponent_and_mantissas(high)[0]
    # the formulas read no bit of an address below this one
    block = 1 << min(e + 11, 64)
    bounds = decoded(high, address)
    first = address // block * block
    last = first + block - 1
    while decoded(high, (first - 1) % SPACE) == bounds and last - first < ONES:
        first -= block
    while decoded(high, (last + 1) % SPACE) == bounds and last - first < ONES:
        last += block
    return (0, ONES) if last - first == ONES else (first % SPACE, last % SPACE)


def memory(high, address):
    """A word's bytes in memory, the lowest first, as hexadecimal digits."""
    return ((high ^ NULL_HIGH) << 64 | address).to_bytes(16, "little").hex()
