"""What setting bounds gives.

Bounds are set by the published formula of CHERI Concentrate (UCAM-CL-TR-987, 128-bit format; setCapBounds in the Sail
model of CHERI-RISC-V): the exponent comes from the leading zeros of the length, and is raised by one where rounding carries.
The bounds expected are those that the word decodes to, by the formulas of words.py. It shares nothing with the
definitions of cap_bounds, which take the least exponent that serves; that this rule agrees is asserted of every request.
"""

from model.rights import UNSEALED
from model.words import SPACE, decoded, fields, is_well_formed

# the fields that setting bounds leaves: permissions, flag and object type
KEPT_FIELDS = 0xFFFF << 48 | 1 << 45 | 0x3FFFF << 27


def in_granules(base, top, e):
    """Base and top in granules of 2^(e+3) bytes (11 bits each), rounded out, and whether that changed nothing."""
    below = (1 << e + 3) - 1
    carry = top & below != 0
    return base >> e + 3 & 0x7FF, (top >> e + 3) + carry & 0x7FF, base & below == 0 and not carry


def mantissas(base, top):
    """E, IE, B and T (14 bits each) for a requested range, and whether they say it exactly."""
    length = top - base
    # 52 less the leading zeros of the length's bits 64..13
    e = (length >> 13).bit_length()
    if e == 0 and not length >> 12 & 1:
        return 0, 0, base & 0x3FFF, top & 0x3FFF, True
    b, t, exact = in_granules(base, top, e)
    if t - b & 0x400:
        e += 1
        b, t, exact = in_granules(base, top, e)
    return e, 1, b << 3, t << 3, exact


def high_of(kept, e, ie, b, t):
    """The high half of a word with the fields of this one and these mantissas; the reserved bits are 0."""
    t &= 0xFFF
    if ie:
        b, t = b | e & 7, t | e >> 3
    return kept & KEPT_FIELDS | ie << 26 | t << 14 | b


def by_the_least_exponent(base, top):
    """The mantissas, and the rounded bounds, by trying exponents until fewer than 1024 granules are touched."""
    e, ie, granule = 0, 0, 1
    if top - base >= 4096:
        e = next(e for e in range(53) if -(-top // 2 ** (e + 3)) - base // 2 ** (e + 3) < 1024)
        ie, granule = 1, 2 ** (e + 3)
    low, up = base // granule * granule, -(-top // granule) * granule
    found = e, ie, low // 2**e % 2**14, up // 2**e % 2**14, (low, up) == (base, top)
    return found, (low, up % (2 * SPACE))


def bounded(high, address, tag, length):
    """The result's high half and tag, whether rounding changed nothing, and the result's base and top."""
    assert is_well_formed(high, address) or not tag
    top = address + length
    found = mantissas(address, top)
    result = high_of(high, *found[:4])
    new_base, new_top = decoded(result, address)
    assert (found, (new_base, new_top)) == by_the_least_exponent(address, top)
    base, end = decoded(high, address)
    unsealed = fields(high)[2] == UNSEALED
    result_tag = tag and unsealed and base <= address and top <= end
    if result_tag:
        assert is_well_formed(result, address) and base <= new_base and new_top <= end
    return result, result_tag, found[4], new_base, new_top


def high_around(kept, base, top):
    """The high half of the word with the fields of this one whose bounds are this range, rounded out."""
    return high_of(kept, *mantissas(base, top)[:4])


def alignment_mask(length):
    """The mask of the addresses at which so many bytes begin exactly."""
    e, has_exponent, *_ = mantissas(0, length)
    return SPACE - (1 << e + 3 if has_exponent else 1)
