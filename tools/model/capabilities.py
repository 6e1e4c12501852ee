"""Values, and what each row over capabilities gives of them, by the rows of CHERI-RISC-V.

A value is its word's high half, its address and its tag, and rows change bits of the high half in place, so what a row does not
name stays, reserved bits too. Bounds are decoded by the formulas of words.py and set by the formula of bounds.py. It shares
nothing with the definitions of cap_insns, cap_rights and cap_bounds.
"""

from model.bounds import alignment_mask, bounded
from model.rights import ALL, EXECUTE, GLOBAL, GREATEST_SEALING_TYPE, SEAL, SENTRY, UNSEAL, UNSEALED
from model.words import NULL_HIGH, ONES, SPACE, canonical, decoded, is_well_formed


def capability(base, top, address, perms=ALL, flag=0, otype=UNSEALED):
    """The capability of these bounds and fields."""
    high = canonical(base, top, perms, 0, flag, otype)
    assert decoded(high, address) == (base, top) and is_well_formed(high, address)
    return high, address, True


def untagged(value):
    """The bits of a value without the tag."""
    return value[0], value[1], False


def bits(v, low, count):
    return v[0] >> low & (1 << count) - 1


def with_bits(v, low, count, number):
    return v[0] & ~((1 << count) - 1 << low) | number << low, v[1], v[2]


def with_fields(value, perms=None, flag=None, otype=None, tag=None):
    """The value with some fields replaced in place."""
    for field, low, count in ((perms, 48, 16), (flag, 45, 1), (otype, 27, 18)):
        if field is not None:
            value = with_bits(value, low, count, field)
    return value if tag is None else (value[0], value[1], tag)


def perms(v): return bits(v, 48, 16)
def flag(v): return bits(v, 45, 1)
def otype(v): return bits(v, 27, 18)
def has(v, permission): return perms(v) & permission != 0
def is_unsealed(v): return otype(v) == UNSEALED
def base(v): return decoded(v[0], v[1])[0]
def top(v): return decoded(v[0], v[1])[1]
def in_bounds(v): return base(v) <= v[1] < top(v)


def integer(number): return NULL_HIGH, number % SPACE, False
def tag_if(may, v): return v[0], v[1], v[2] and may


def set_address(v, address):
    """The tag stays where the same mantissas give the same bounds at the new address."""
    address %= SPACE
    return v[0], address, v[2] and is_unsealed(v) and decoded(v[0], address) == decoded(v[0], v[1])


def set_bounds(v, length):
    """The value with new bounds, and whether they are those asked for."""
    high, tag, exact, *_ = bounded(*v, length)
    return (high, v[1], tag), exact


def seal(v, by):
    may = (v[2] and by[2] and is_unsealed(v) and is_unsealed(by) and has(by, SEAL) and in_bounds(by)
           and by[1] <= GREATEST_SEALING_TYPE)
    return tag_if(may, with_bits(v, 27, 18, by[1] % 2**18))


def unseal(v, by):
    may = (v[2] and by[2] and otype(v) <= GREATEST_SEALING_TYPE and is_unsealed(by) and has(by, UNSEAL) and in_bounds(by)
           and by[1] == otype(v))
    kept = perms(v) if has(by, GLOBAL) else perms(v) & ~GLOBAL
    return tag_if(may, with_bits(with_bits(v, 27, 18, UNSEALED), 48, 16, kept))


def and_perms(v, number):
    mask = number & 0xFFF | (number >> 15 & 0xF) << 12
    return tag_if(is_unsealed(v), with_bits(v, 48, 16, perms(v) & mask))


def is_subset(outer, v):
    return outer[2] == v[2] and base(outer) <= base(v) and top(v) <= top(outer) and perms(v) & ~perms(outer) == 0


def set_bounds_exact(v, length):
    narrowed, exact = set_bounds(v, length)
    return tag_if(exact, narrowed)


IMMEDIATE = {
    "CIncOffsetImm": lambda a, imm: set_address(a, a[1] + imm),
    "CSetBoundsImm": lambda a, imm: set_bounds(a, imm)[0],
}
NUMBER = {
    "CSetBounds": lambda a, n: set_bounds(a, n)[0],
    "CSetBoundsExact": set_bounds_exact,
    "CAndPerm": and_perms,
    "CSetFlags": lambda a, n: tag_if(is_unsealed(a), with_bits(a, 45, 1, n & 1)),
    "CSetOffset": lambda a, n: set_address(a, base(a) + n),
    "CSetAddr": set_address,
    "CIncOffset": lambda a, n: set_address(a, a[1] + n),
    "CSub": lambda a, n: integer(a[1] - n),
}
AUTHORITY = {
    "CSeal": seal,
    "CUnseal": unseal,
}
COMPARISON = {
    "CTestSubset": lambda a, b: integer(is_subset(a, b)),
    "CSetEqualExact": lambda a, b: integer(a == b),
}
ONE = {
    "CGetPerm": lambda a: integer(perms(a) & 0xFFF | perms(a) >> 12 << 15),
    "CGetType": lambda a: integer(otype(a) - 2**18 if otype(a) > GREATEST_SEALING_TYPE else otype(a)),
    "CGetBase": lambda a: integer(base(a)),
    "CGetLen": lambda a: integer(min((top(a) - base(a)) % (2 * SPACE), ONES)),
    "CGetTag": lambda a: integer(a[2]),
    "CGetSealed": lambda a: integer(not is_unsealed(a)),
    "CGetOffset": lambda a: integer(a[1] - base(a)),
    "CGetFlags": lambda a: integer(flag(a)),
    "Crrl": lambda a: integer((a[1] + ONES - alignment_mask(a[1])) & alignment_mask(a[1])),
    "Cram": lambda a: integer(alignment_mask(a[1])),
    "CMove": lambda a: a,
    "CClearTag": lambda a: (a[0], a[1], False),
    "CGetAddr": lambda a: integer(a[1]),
    "CSealEntry": lambda a: tag_if(is_unsealed(a) and has(a, EXECUTE), with_bits(a, 27, 18, SENTRY)),
}
