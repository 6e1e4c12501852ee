"""What code can reach: states that are worked by hand, and small ones of every shape against the least set that is closed under links."""

import unittest
from itertools import product
from random import Random

from model.capabilities import ONE, capability, integer, is_unsealed, seal, untagged, with_fields
from model.devices import HALT, RAM, TIMER, TIMER_COMPARE, TRANSMIT
from model.reach import (DOOR, GRANULE, ROOT, SPECIAL, Member, State, accesses, chain, first, is_key, members, opened, opens, sealing,
                         through_doors)
from model.rights import ALL, CINVOKE, EXECUTE, LOAD, LOAD_CAPABILITY, SEAL, STORE, UNSEAL, UNSEALED
from model.tests.begun import in_memory, root
from model.words import ONES

NULL = integer(0)
# Execute and Access_System_Registers; Global, Load and Load_Capability.
KERNEL, TABLE = 0x402, 0x15


def state(registers=None, pcc=NULL, ddc=NULL, specials=(NULL,) * 4, granules=None, size=4096):
    """Registers by their numbers and granules by their addresses, and else null and nothing."""
    held, ram = [(registers or {}).get(n, NULL) for n in range(32)], bytearray(size)
    for address, value in (granules or {}).items():
        ram[address - RAM:address - RAM + 16] = value[1].to_bytes(8, "little") + in_memory(value).to_bytes(8, "little")
    return State(held, pcc, ddc, list(specials), bytes(ram), frozenset(granules or {}))


def places(found):
    return [(*member.place, member.source) for member in found]


def paged(base, perms, address=None):
    return capability(base, base + 4096, base if address is None else address, perms)


class Worked(unittest.TestCase):
    """States whose members are worked by hand."""

    def test_a_machine_begins_with_root_in_four_places(self):
        found = members(state(pcc=root(RAM), ddc=root(0), specials=(root(0), NULL, NULL, root(0))))
        self.assertEqual(places(found), [(ROOT, 32, None), (ROOT, 33, None), (SPECIAL, 0, 0), (SPECIAL, 3, 0)])
        self.assertEqual([first(found, question) for question in ("send", "halt", "system", "timer")], [0, 0, 0, 0])

    def test_a_chain_leads_from_a_root(self):
        def table(place):
            return capability(place, place + 16, place, TABLE)
        granules = {RAM: table(RAM + 32), RAM + 32: table(RAM + 16), RAM + 16: table(RAM)}
        found = members(state({1: NULL, 2: table(RAM)}, granules=granules))
        self.assertEqual(places(found), [(ROOT, 2, None), (GRANULE, RAM, 0), (GRANULE, RAM + 32, 1), (GRANULE, RAM + 16, 2)])
        self.assertEqual(chain(found, 3), [0, 1, 2, 3])

    def test_the_special_registers_come_before_granules_and_these_ascend(self):
        table = capability(RAM, RAM + 48, RAM, TABLE | KERNEL)
        granules = {RAM + 32: root(1), RAM: NULL[:2] + (True,), RAM + 48: root(2)}
        found = members(state({5: table}, specials=(untagged(root(0)), NULL, table, NULL), granules=granules))
        self.assertEqual(places(found)[:4], [(ROOT, 5, None), (SPECIAL, 2, 0), (GRANULE, RAM, 0), (GRANULE, RAM + 32, 0)])
        self.assertEqual(places(found)[4:], [(GRANULE, RAM + 48, 3)])


class Compartments(unittest.TestCase):
    """Four states of examples/compartments.s, by what its text says of pages, frames and doors: as A begins, as A has called B, as B has
    trapped into the kernel, and as B has come back."""

    KERNEL_CODE, DEVICES, A_FRAME, B_FRAME = RAM + 0x1000, RAM + 0x2000, RAM + 0x2040, RAM + 0x2260
    B_CODE, B_DATA, A_CODE, A_DATA = (RAM + number * 0x1000 for number in (3, 4, 5, 6))
    CODE, DATA, FRAME, STORES, LOADS = 0x107, 0x13D, 0x7C, 0x8, 0x4

    def doors(self, code, data, otype):
        return [seal(paged(code, self.CODE, code + 4), root(otype)), seal(paged(data, self.DATA), root(otype))]

    def kernels(self):
        """What the kernel keeps: the special registers, and the granules of its data."""
        a, b = self.doors(self.A_CODE, self.A_DATA, 1), self.doors(self.B_CODE, self.B_DATA, 2)
        frames = [(self.A_FRAME, self.A_CODE, self.A_DATA, a, b, self.B_FRAME),
                  (self.B_FRAME, self.B_CODE, self.B_DATA, b, a, self.A_FRAME)]
        granules = {}
        for frame, code, data, own, others, other in frames:
            held = [paged(code, self.CODE), paged(data, self.DATA), *others, *own, capability(other, other + 544, other, self.FRAME)]
            granules |= {frame + offset: value for offset, value in zip((0, 48, 128, 144, 288, 304, 512), held)}
        for number, (address, perms) in enumerate(((TRANSMIT, self.STORES), (HALT, self.STORES), (TIMER_COMPARE, self.STORES),
                                                   (TIMER, self.LOADS))):
            granules[self.DEVICES + 16 * number] = capability(address, address + 8, address, perms)
        return granules, [paged(self.KERNEL_CODE, KERNEL, self.KERNEL_CODE + 1),
                          capability(self.DEVICES, self.DEVICES + 64, self.DEVICES, 0x14),
                          capability(self.A_FRAME, self.A_FRAME + 544, self.A_FRAME, self.FRAME), paged(self.B_CODE, self.CODE)]

    def begun(self, registers, pcc, finds=members):
        granules, specials = self.kernels()
        return finds(state(registers, pcc=pcc, specials=specials, granules=granules, size=16 * 4096))

    def called(self, data, pcc):
        """Both doors in the registers that A passes, and the data of whoever runs."""
        passed = self.doors(self.A_CODE, self.A_DATA, 1) + self.doors(self.B_CODE, self.B_DATA, 2)
        return self.begun({**dict(zip(range(12, 16), passed)), 31: paged(data, self.DATA)}, pcc)

    def test_a_begins_with_its_page_the_doors_and_pcc(self):
        given = dict(zip((8, 9, 18, 19), self.doors(self.B_CODE, self.B_DATA, 2) + self.doors(self.A_CODE, self.A_DATA, 1)))
        found = self.begun({3: paged(self.A_DATA, self.DATA), **given}, paged(self.A_CODE, self.CODE))
        self.assertEqual(places(found), [(ROOT, n, None) for n in (3, 8, 9, 18, 19, 32)])
        self.assertEqual([first(found, question) for question in ("send", "halt", "system", "timer")], [None] * 4)
        self.assertEqual([first(found, "hold", otype) for otype in (0, 1, 2, 3)], [None, 3, 1, None])
        self.assertEqual([first(found, "store", RAM + number * 4096, 4096) for number in range(8)], [None] * 6 + [0, None])
        self.assertEqual([first(found, "learn", RAM + number * 4096, 4096) for number in range(8)], [None] * 5 + [5, 0, None])
        pages = [(self.A_CODE, self.A_DATA + 4096)], [(self.A_DATA, self.A_DATA + 4096)]
        self.assertEqual([opened(found, perms) for perms in (LOAD, LOAD | LOAD_CAPABILITY, STORE)], [*pages, pages[1]])
        self.assertEqual((opened(found, EXECUTE), sealing(found, SEAL), accesses(found)), ([(self.A_CODE, self.A_DATA)], [], {}))

    def test_through_its_doors_a_reaches_the_code_and_the_data_of_both_and_nothing_of_the_kernel(self):
        given = dict(zip((8, 9, 18, 19), self.doors(self.B_CODE, self.B_DATA, 2) + self.doors(self.A_CODE, self.A_DATA, 1)))
        found, doors = self.begun({3: paged(self.A_DATA, self.DATA), **given}, paged(self.A_CODE, self.CODE), through_doors)
        self.assertEqual(places(found), [*((ROOT, n, None) for n in (3, 8, 9, 18, 19, 32)), *((DOOR, n, None) for n in range(4))])
        self.assertEqual(doors, [(ROOT, n) for n in (8, 9, 18, 19)])
        self.assertEqual([first(found, question) for question in ("send", "halt", "system", "timer")], [None] * 4)
        self.assertEqual([first(found, "store", RAM + number * 4096, 4096) for number in range(8)], [None] * 4 + [7, None, 0, None])
        self.assertEqual([first(found, "execute", RAM + number * 4096, 4096) for number in range(8)],
                         [None] * 3 + [6, None, 5, None, None])

    def test_b_is_called_and_a_is_come_back_to_with_the_doors_alone(self):
        for code, data in ((self.B_CODE, self.B_DATA), (self.A_CODE, self.A_DATA)):
            found = self.called(data, paged(code, self.CODE, code + 4))
            self.assertEqual(places(found), [(ROOT, n, None) for n in (12, 13, 14, 15, 31, 32)])
            self.assertEqual([first(found, question) for question in ("send", "halt", "system", "timer")], [None] * 4)

    def test_the_kernel_reaches_its_devices_and_both_frames(self):
        found = self.called(self.B_DATA, paged(self.KERNEL_CODE, KERNEL))
        frame = (0, 48, 128, 144, 288, 304, 512)
        expected = [*((ROOT, n, None) for n in (12, 13, 14, 15, 31, 32)), *((SPECIAL, n, 5) for n in range(4)),
                    *((GRANULE, self.DEVICES + offset, 7) for offset in (0, 16, 32, 48)),
                    *((GRANULE, self.A_FRAME + offset, 8) for offset in frame), *((GRANULE, self.B_FRAME + offset, 20) for offset in frame)]
        self.assertEqual((places(found), len(found)), (expected, 28))
        self.assertEqual([first(found, question) for question in ("send", "halt", "system", "timer")], [10, 11, 5, 12])
        self.assertEqual([chain(found, 10), chain(found, 27)], [[5, 7, 10], [5, 8, 20, 27]])


class Opening(unittest.TestCase):
    """What a capability opens."""

    def test_a_granule_lies_wholly_in_the_bounds(self):
        given = [(RAM, 16), (RAM, 15), (RAM + 1, 15), (RAM - 1, 17), (RAM, 17), (RAM - 16, 16), (RAM + 16, 16)]
        self.assertEqual([opens(capability(base, base + length, base, TABLE), (GRANULE, RAM)) for base, length in given],
                         [True, False, False, True, True, False, False])

    def test_each_permission_is_asked_for(self):
        for perms in range(ALL + 1):
            if perms & ~(LOAD | LOAD_CAPABILITY | KERNEL) == 0:
                value = capability(RAM, RAM + 16, RAM, perms)
                self.assertEqual(opens(value, (GRANULE, RAM)), perms & 0x14 == 0x14)
                self.assertEqual(opens(value, (SPECIAL, 1)), perms & KERNEL == KERNEL)

    def test_what_is_sealed_opens_nothing(self):
        for sealed in (seal(root(RAM), root(7)), ONE["CSealEntry"](root(RAM))):
            found = members(state({1: sealed}, specials=[root(0)] * 4, granules={RAM: root(0)}))
            self.assertEqual(places(found), [(ROOT, 1, None)])
            self.assertEqual([first(found, question) for question in ("send", "system")], [None, None])

    def test_nothing_leads_to_a_root(self):
        self.assertFalse(opens(root(0), (ROOT, 1)))

    def test_a_device_is_opened_by_its_registers_first_byte(self):
        for question, address in (("send", TRANSMIT), ("halt", HALT), ("timer", TIMER_COMPARE)):
            for base, top, perms, answer in ((address, address + 1, STORE, 0), (address + 1, address + 8, STORE, None),
                                             (address, address, STORE, None), (address, address + 8, ALL ^ STORE, None)):
                found = members(state({4: capability(base, top, base, perms)}))
                self.assertEqual(first(found, question), answer)

    def test_the_bytes_asked_about_may_end_past_all_addresses(self):
        found = members(state({4: capability(ONES, ONES + 1, ONES, STORE)}))
        self.assertEqual([first(found, "store", ONES, ONES), first(found, "store", 0, ONES), first(found, "load", ONES, 1)],
                         [0, None, None])


class Keys(unittest.TestCase):
    """Which key opens what is sealed."""

    CODE = CINVOKE | EXECUTE

    def opened_by(self, key, perms=CODE, address=RAM, base=RAM, top=RAM + 8, otype=7):
        return is_key(key, seal(capability(base, top, address, perms), root(otype)))

    def test_cinvoke_accepts_code_and_data_of_one_type(self):
        datum = seal(capability(RAM, RAM + 16, RAM, CINVOKE | STORE), root(7))
        self.assertTrue(self.opened_by(datum) and is_key(seal(capability(RAM, RAM + 4, RAM, self.CODE), root(7)), datum))
        self.assertFalse(self.opened_by(datum, otype=8) or self.opened_by(datum, CINVOKE) or self.opened_by(datum, EXECUTE))
        for other in (CINVOKE | EXECUTE, STORE):
            self.assertFalse(self.opened_by(seal(capability(RAM, RAM + 16, RAM, other), root(7))))

    def test_the_target_lies_in_the_codes_bounds_and_is_a_multiple_of_4(self):
        datum = seal(capability(RAM, RAM + 16, RAM, CINVOKE), root(7))
        given = [(RAM, RAM, RAM + 4), (RAM, RAM, RAM + 3), (RAM + 1, RAM, RAM + 4), (RAM + 2, RAM, RAM + 8), (RAM + 4, RAM, RAM + 8),
                 (RAM + 4, RAM, RAM + 7), (RAM + 5, RAM + 5, RAM + 9)]
        self.assertEqual([self.opened_by(datum, address=address, base=base, top=top) for address, base, top in given],
                         [True, False, True, False, True, False, False])

    def test_any_key_opens_a_sentry_and_what_seals_with_a_type_opens_what_has_cinvoke(self):
        self.assertTrue(is_key(integer(0), ONE["CSealEntry"](root(RAM))))
        seals = capability(7, 8, 7, SEAL)
        self.assertTrue(self.opened_by(seals) and self.opened_by(seals, CINVOKE))
        self.assertFalse(self.opened_by(seals, EXECUTE) or self.opened_by(seals, otype=8) or self.opened_by(capability(7, 8, 7, UNSEAL))
                         or self.opened_by(seal(capability(7, 8, 7, SEAL), root(9))))


def holding(*values):
    """Members of these values."""
    return [Member(value, (ROOT, number), None) for number, value in enumerate(values)]


def bounds(first, end, perms):
    return capability(first, end, first, perms)


class Opened(unittest.TestCase):
    """The ranges that members open."""

    def test_ranges_have_the_numbers_in_some_bounds_and_are_apart(self):
        dice = Random(0)
        for _ in range(2000):
            values = [(first, first + dice.randrange(6), dice.choice([LOAD, LOAD, STORE]))
                      for first in (dice.randrange(24) for _ in range(dice.randrange(7)))]
            ranges = opened(holding(*(bounds(*value) for value in values)), LOAD)
            numbers = {number for first, end, perms in values if perms == LOAD for number in range(first, end)}
            self.assertEqual({number for first, end in ranges for number in range(first, end)}, numbers)
            ends = [number for pair in ranges for number in pair]
            self.assertTrue(all(before < after for before, after in zip(ends, ends[1:])))

    def test_all_permissions_are_asked_for_and_what_is_sealed_opens_nothing(self):
        found = holding(bounds(0, 4, LOAD), bounds(8, 12, LOAD | LOAD_CAPABILITY), bounds(16, 20, LOAD_CAPABILITY),
                     seal(bounds(24, 28, ALL), root(7)))
        self.assertEqual([opened(found, perms) for perms in (LOAD, LOAD | LOAD_CAPABILITY, EXECUTE)], [[(0, 4), (8, 12)], [(8, 12)], []])

    def test_reserved_types_are_left_out(self):
        for first, end, ranges in ((0x3FFF0, 0x40010, [(0x3FFF0, 0x3FFFC)]), (0x3FFFB, 0x3FFFC, [(0x3FFFB, 0x3FFFC)]),
                                   (0x3FFFC, 0x40000, []), (1, 3, [(1, 3)])):
            self.assertEqual(sealing(holding(bounds(first, end, SEAL)), SEAL), ranges)

    def test_a_register_is_opened_by_its_first_byte(self):
        found = holding(bounds(TIMER, TIMER + 8, LOAD), bounds(TRANSMIT, TRANSMIT + 1, STORE), bounds(HALT + 1, HALT + 8, LOAD | STORE),
                     bounds(TRANSMIT, TRANSMIT + 8, EXECUTE), bounds(TIMER_COMPARE, TIMER_COMPARE, ALL))
        self.assertEqual(accesses(found), {"mtime": [True, False], "transmit": [False, True]})


def least_closed(held):
    """The least set of places that has the roots, and with a place every one that its value opens."""
    closed = {place for place in held if place[0] == ROOT}
    while True:
        more = {place for place, by in product(held, closed) if place not in closed and opens(held[by], place)}
        if not more:
            return closed
        closed |= more


def least_with_doors(held):
    """The least set of values that has those of the roots, and with values what they open and what they are a key to, without its seal."""
    closed = {value for place, value in held.items() if place[0] == ROOT}
    while True:
        more = {value for (place, value), by in product(held.items(), closed) if place[0] != ROOT and opens(by, place)}
        more |= {unseal_any(value) for value, key in product(closed, closed) if not is_unsealed(value) and is_key(key, value)}
        if more <= closed:
            return closed
        closed |= more


def unseal_any(value):
    return with_fields(value, otype=UNSEALED)


def thrown_from(dice, value):
    """A state of such values: some granules, two registers, PCC and the special registers."""
    granules = {RAM + 16 * n: value()[:2] + (True,) for n in range(8) if dice.random() < 0.6}
    registers = {n: value() for n in dice.sample(range(1, 32), 2)}
    return state(registers, pcc=value(), specials=[value() for _ in range(4)], granules=granules)


class Closed(unittest.TestCase):
    """The members are what the definition says, in states that are thrown."""

    def thrown(self, dice):
        """Some capabilities to a few granules and of a few permissions."""
        def value():
            base = RAM + 16 * dice.randrange(6) + dice.choice([0, 0, 0, 1])
            made = capability(base, base + 16 * dice.randrange(4), base, dice.choice([TABLE, TABLE, TABLE, 0x5, KERNEL, 0xC]))
            return dice.choice([made, made, made, seal(made, root(9)), untagged(made)])
        return thrown_from(dice, value)

    def test_the_members_are_the_least_closed_set_and_each_is_opened_by_an_earlier_one(self):
        sizes = set()
        for seed in range(400):
            given = self.thrown(Random(seed))
            found, held = members(given), given.held()
            sizes.add(len(found))
            self.assertEqual(len({member.place for member in found}), len(found))
            self.assertEqual({member.place for member in found}, least_closed(held))
            for number, member in enumerate(found):
                self.assertEqual(member.value, held[member.place])
                self.assertEqual(member.source is None, member.place[0] == ROOT)
                # the first of the members that open it
                opening = [n for n, other in enumerate(found) if opens(other.value, member.place)]
                self.assertEqual(member.source, opening[0] if opening else None)
                self.assertLess(-1 if member.source is None else member.source, number)
        self.assertGreater(len(sizes), 8)

    def thrown_with_doors(self, dice):
        """Some sealed capabilities too, which lead to a few granules and to one another."""
        def value():
            base = RAM + 16 * dice.randrange(6)
            made = capability(base, base + 16 * dice.randrange(1, 4), base, dice.choice([TABLE, TABLE | CINVOKE, 0x102, 0x117]))
            return dice.choice([made, seal(made, root(dice.choice([8, 9]))), ONE["CSealEntry"](made), capability(8, 9, 8, SEAL)])
        return thrown_from(dice, value)

    def test_through_doors_they_are_the_least_set_with_doors(self):
        opened_doors = set()
        for seed in range(400):
            given = self.thrown_with_doors(Random(seed))
            found, doors = through_doors(given)
            opened_doors.add(len(doors))
            self.assertEqual({member.value for member in found}, least_with_doors(given.held()))
            self.assertEqual(len(set(doors)), len(doors))
            self.assertEqual([member.value for member in found if member.place[0] == DOOR],
                             [unseal_any(given.held()[place]) for place in doors])
        self.assertGreater(len(opened_doors), 4)
