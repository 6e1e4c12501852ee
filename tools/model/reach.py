"""What code can reach, by the words of docs/AUTHORITY.md: the members of a reach with the place where each was found, and what is asked
of them.

A place is what it is in and a number: a root's (the general registers, then PCC and DDC), a special register's (MTCC, MTDC, MScratchC,
MEPCC), a granule's address, or a door's.
"""

from typing import NamedTuple, Optional

from model.capabilities import base, has, is_unsealed, otype, perms, top, with_fields
from model.devices import CONTROL, HALT, RAM, RECEIVE, STATUS, TIMER, TIMER_COMPARE, TRANSMIT
from model.rights import (ACCESS_SYSTEM_REGISTERS, CINVOKE, EXECUTE, GREATEST_SEALING_TYPE, LOAD, LOAD_CAPABILITY, SEAL, SENTRY, STORE,
                          STORE_CAPABILITY, STORE_LOCAL, UNSEAL, UNSEALED)
from model.words import NULL_HIGH

ROOT, SPECIAL, GRANULE, DOOR = "root", "special", "granule", "door"
WORD = 16


class State(NamedTuple):
    """What a reach looks at: the values of registers, RAM's bytes from its beginning on, and the addresses of its tagged granules."""
    registers: list
    pcc: tuple
    ddc: tuple
    specials: list
    ram: bytes
    tags: frozenset

    def granule(self, address):
        """The capability that a tagged granule holds: in memory null is sixteen zero bytes."""
        word = self.ram[address - RAM:][:WORD]
        return int.from_bytes(word[8:], "little") ^ NULL_HIGH, int.from_bytes(word[:8], "little"), True

    def held(self):
        """The tagged values by their places: roots, special registers, and granules in ascending order."""
        registers = [*((ROOT, n, value) for n, value in enumerate([*self.registers, self.pcc, self.ddc])),
                     *((SPECIAL, n, value) for n, value in enumerate(self.specials))]
        return {**{(kind, n): value for kind, n, value in registers if value[2]},
                **{(GRANULE, address): self.granule(address) for address in sorted(self.tags)}}


class Member(NamedTuple):
    """A capability that code can come to hold, where it was found, and the number of the member that leads there; a root needs none."""
    value: tuple
    place: tuple
    source: Optional[int]


def opens_system(value):
    return is_unsealed(value) and has(value, EXECUTE) and has(value, ACCESS_SYSTEM_REGISTERS)


def opens(value, place):
    """Whether what lies at a place can be had through a value. Nothing leads to a root."""
    kind, n = place
    if kind == SPECIAL:
        return opens_system(value)
    return (kind == GRANULE and is_unsealed(value) and has(value, LOAD) and has(value, LOAD_CAPABILITY)
            and base(value) <= n and n + WORD <= top(value))


def members(state, behind=()):
    """The roots and what is behind doors, and then what each member in turn opens that was not found before."""
    held = state.held()
    found = [Member(value, place, None) for place, value in held.items() if place[0] == ROOT]
    found += [Member(value, (DOOR, n), None) for n, value in enumerate(behind)]
    for number, member in enumerate(found):
        before = {other.place for other in found}
        found += [Member(value, place, number) for place, value in held.items() if place not in before and opens(member.value, place)]
    return found


def chain(found, number):
    """The numbers of the members that lead to one, a root's first."""
    source = found[number].source
    return [number] if source is None else [*chain(found, source), number]


# ---- doors

def is_pair(code, datum):
    """Whether CInvoke accepts two tagged values as code and data."""
    target = code[1] & ~1
    return (otype(code) == otype(datum) <= GREATEST_SEALING_TYPE and has(code, CINVOKE) and has(datum, CINVOKE) and has(code, EXECUTE)
            and not has(datum, EXECUTE) and target % 4 == 0 and base(code) <= target and target + 4 <= top(code))


def is_key(key, value):
    """Whether a sealed jump may open a sealed value for code that holds it and the key."""
    if otype(value) == SENTRY or is_pair(value, key) or is_pair(key, value):
        return True
    return has(value, CINVOKE) and is_unsealed(key) and has(key, SEAL) and base(key) <= otype(value) < top(key)


def through_doors(state):
    """The members, and the doors in the order in which they are opened: the places of what is sealed. Where members have a door that isn't
    open, all of those are opened and the members are looked for anew."""
    doors, behind = [], []
    while True:
        found = members(state, behind)
        new = [member for member in found if not is_unsealed(member.value) and member.place not in doors
               and any(is_key(key.value, member.value) for key in found)]
        if not new:
            return found, doors
        doors += [member.place for member in new]
        behind += [with_fields(member.value, otype=UNSEALED) for member in new]


# ---- what is asked

# what a capability needs through which one without Global is stored
KEEPING = STORE | STORE_CAPABILITY | STORE_LOCAL


def opens_bytes(value, permission, address, size):
    """Whether it is unsealed, has the permission, and has one of the bytes from an address on in its bounds."""
    return is_unsealed(value) and has(value, permission) and max(base(value), address) < min(top(value), address + size)


def learns(value, address, size):
    return opens_bytes(value, LOAD, address, size) or opens_bytes(value, EXECUTE, address, size)


def keeps(value, address, size):
    """Whether it is unsealed, has Store, Store_Capability and Store_Local_Capability, and a granule with one of the bytes lies wholly in
    its bounds: the first from its base on that ends above the address, if any."""
    granule = next(16 * n for n in (-(-base(value) // 16), address // 16) if 16 * n >= base(value) and 16 * n + 16 > address)
    return is_unsealed(value) and perms(value) & KEEPING == KEEPING and granule + 16 <= top(value) and granule < address + size > address


def may_seal(value, number):
    """Whether values may be sealed with the type through it; of sentries code makes its own."""
    if not is_unsealed(value):
        return False
    return has(value, EXECUTE) if number == SENTRY else has(value, SEAL) and base(value) <= number < top(value)


QUESTIONS = {
    "store": lambda value, address, size: opens_bytes(value, STORE, address, size),
    "load": lambda value, address, size: opens_bytes(value, LOAD, address, size),
    "execute": lambda value, address, size: opens_bytes(value, EXECUTE, address, size),
    "learn": learns,
    "keep": keeps,
    "send": lambda value: opens_bytes(value, STORE, TRANSMIT, 1),
    "halt": lambda value: opens_bytes(value, STORE, HALT, 1),
    "system": opens_system,
    "timer": lambda value: opens_bytes(value, STORE, TIMER_COMPARE, 1),
    "hold": lambda value, number: not is_unsealed(value) and otype(value) == number or may_seal(value, number),
}


def first(found, question, *numbers):
    """The number of the first member that lets code do it, or None."""
    return next((n for n, member in enumerate(found) if QUESTIONS[question](member.value, *numbers)), None)


# ---- in sum

# What opens numbers, and the permissions that it takes: bytes, and object types.
BYTES = {"load": LOAD, "load capabilities": LOAD | LOAD_CAPABILITY, "store": STORE, "execute": EXECUTE}
TYPES = {"seal": SEAL, "unseal": UNSEAL}

# The devices' registers in the order of their addresses.
REGISTERS = {"halt": HALT, "mtimecmp": TIMER_COMPARE, "mtime": TIMER, "transmit": TRANSMIT, "receive": RECEIVE, "status": STATUS,
             "control": CONTROL}


def opened(found, permissions):
    """The numbers in the bounds of the unsealed members with all of these permissions, as pairs of the first and the one after the last:
    over the ends of all bounds in ascending order, how many bounds a number lies in, and where that begins or ends to be none. Of two at
    one number the beginning comes first, so that bounds that touch are one range."""
    values = [member.value for member in found if is_unsealed(member.value) and perms(member.value) & permissions == permissions]
    ends = sorted((number, is_end) for value in values if base(value) < top(value)
                  for number, is_end in ((base(value), False), (top(value), True)))
    depth, outer = 0, []
    for number, is_end in ends:
        before, depth = depth, depth + (-1 if is_end else 1)
        outer += [number] if 0 in (before, depth) else []
    return list(zip(outer[::2], outer[1::2]))


def sealing(found, permission):
    """Those of object types, up to the greatest that values are sealed with."""
    return [(first, min(end, GREATEST_SEALING_TYPE + 1)) for first, end in opened(found, permission) if first <= GREATEST_SEALING_TYPE]


def accesses(found):
    """The registers of which some member opens the first byte to loads or to stores, each with whether one does to either."""
    asked = {name: [any(opens_bytes(member.value, permission, address, 1) for member in found) for permission in (LOAD, STORE)]
             for name, address in REGISTERS.items()}
    return {name: given for name, given in asked.items() if any(given)}
