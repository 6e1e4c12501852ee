"""Origins of small runs that are worked by hand: events, what each wrote, and what is said of it."""

import unittest

from model.capabilities import capability, integer, seal, untagged, with_fields
from model.devices import RAM
from model.names import SPECIALS
from model.origins import (GRANULE, LABEL, NUMBER, REGISTER, SPECIAL, WAYS, Event, Making, conditions, losses, lost, notes, origin)
from model.reach import State
from model.rights import ALL, EXECUTE, SEAL, SENTRY, UNSEAL
from model.tests.begun import in_memory, root
from model.words import SPACE

NULL = integer(0)
A0, A1, A2, AT = (REGISTER, 10), (REGISTER, 11), (REGISTER, 12), (GRANULE, RAM)


def state(registers=None, granules=None, **special):
    """Registers by their numbers, granules by their addresses, and special registers by their names; else null and nothing."""
    ram = bytearray(64)
    for address, value in (granules or {}).items():
        ram[address - RAM:address - RAM + 16] = value[1].to_bytes(8, "little") + in_memory(value).to_bytes(8, "little")
    specials = [special.get(name, NULL) for name in SPECIALS]
    return State([(registers or {}).get(n, NULL) for n in range(32)], special.get("pcc", root(RAM)), special.get("ddc", root(0)), specials,
                 bytes(ram), frozenset(address for address, value in (granules or {}).items() if value[2]))


class Chains(unittest.TestCase):
    """A capability is made, cut, stored, cleared and loaded."""

    def setUp(self):
        narrow = capability(0, 16, 0)
        far = untagged(narrow)[:1] + (1 << 40, False)
        states = [state(), state({10: root(0)}), state({10: root(0), 11: narrow}), state({10: root(0), 11: narrow}, {RAM: narrow}),
                  state({10: root(0), 11: far}, {RAM: narrow}), state({10: root(0), 11: far}, {RAM: untagged(far)}),
                  state({10: integer(7), 11: far}, {RAM: untagged(far)})]
        writes = [{A0: Making("copied", (SPECIAL, "ddc"))}, {A1: Making("bounded", A0, number=16)}, {AT: Making("copied", A1)},
                  {A1: Making("moved", A1, number=1 << 40)}, {AT: Making("copied", A1)}, {A0: NUMBER}]
        self.events = [Event(before, after, wrote, f"step {number}")
                       for number, (before, after, wrote) in enumerate(zip(states, states[1:], writes), 1)]
        self.opening = states[0]

    def test_a_chain_goes_to_the_opening_state(self):
        self.assertEqual(origin(self.events[:5], self.opening, AT), [
            f"{RAM:016x}{LABEL} from ca1: 5 step 5", "ca1 from ca1, tag cut: 4 step 4", "ca1 from ca0, bounds cut: 2 step 2",
            "ca0 from ddc: 1 step 1",
            f"opening state: ddc v:1 a:{0:016x} b:{0:016x} t:{SPACE:017x} p:78fff f:0 o:3ffff"])

    def test_it_ends_at_a_number(self):
        self.assertEqual(origin(self.events, self.opening, A0), ["ca0 from no capability: 6 step 6"])

    def test_what_no_event_wrote(self):
        for place, kind in ((A2, "opening state: ca2"), ((GRANULE, RAM + 16), f"image: {RAM + 16:016x}{LABEL}")):
            self.assertEqual(origin(self.events, self.opening, place), [
                f"{kind} v:0 a:{0:016x} b:{0:016x} t:{SPACE:017x} p:00000 f:0 o:3ffff"])

    def test_of_more_than_three_links_that_are_alike_those_between_are_counted(self):
        """A capability moves on: at one instruction, elsewhere once, and at the first again."""
        states = [state({10: (root(0)[0], 16 * n, True)}) for n in range(12)]
        lines = 5 * ["move: on"] + ["other: on"] + 5 * ["move: on"]
        events = [Event(before, after, {A0: Making("moved", A0, number=0)}, line) for before, after, line in zip(states, states[1:], lines)]
        for count in range(1, 4):
            self.assertEqual(origin(events[:count], states[0], A0)[:-1],
                             [f"ca0 from ca0: {number} move: on" for number in range(count, 0, -1)])
        self.assertEqual(origin(events[:4], states[0], A0)[:-1],
                         ["ca0 from ca0: 4 move: on", "ca0 from ca0, 2 times: move", "ca0 from ca0: 1 move: on"])
        self.assertEqual(origin(events, states[0], A0)[:-1], [
            "ca0 from ca0: 11 move: on", "ca0 from ca0, 3 times: move", "ca0 from ca0: 7 move: on", "ca0 from ca0: 6 other: on",
            "ca0 from ca0: 5 move: on", "ca0 from ca0, 3 times: move", "ca0 from ca0: 1 move: on"])

    def test_a_tag_is_lost_where_the_address_leaves_the_window(self):
        self.assertEqual(lost(self.events, AT), [
            f"{RAM:016x}{LABEL} from ca1: 5 step 5", "  no tag of ca1", "ca1 from ca1, tag cut: 4 step 4", "  ok tag of ca1",
            "  ok seal of ca1", f"  no window of ca1: {1 << 40:016x}{LABEL}"])

    def test_a_number_loses_a_tag_and_what_had_none_loses_nothing(self):
        self.assertEqual(lost(self.events, A0), ["no tag was lost at ca0"])
        self.assertEqual((losses(self.events, A2), lost(self.events[:3], AT)), ([], [f"no tag was lost at {RAM:016x}{LABEL}"]))


class Notes(unittest.TestCase):
    """What is cut."""

    def test_each_and_all(self):
        source = capability(RAM, RAM + 64, RAM)
        for value, expected in ((source, ""), ((source[0], RAM + 4, True), ""), (with_fields(source, flag=1), ""),
                                (untagged(source), ", tag cut"), (capability(RAM, RAM + 32, RAM), ", bounds cut"),
                                (with_fields(source, perms=ALL ^ EXECUTE), ", permissions cut"),
                                (with_fields(source, otype=SENTRY), ", sealed"),
                                (with_fields(capability(RAM, RAM + 32, RAM), perms=1, otype=5), ", bounds cut, permissions cut, sealed")):
            self.assertEqual(notes(source, value), expected)
            self.assertEqual(notes(untagged(source), value), "")
        self.assertEqual(notes(with_fields(source, otype=5), with_fields(source, perms=0)), ", permissions cut, unsealed")
        self.assertEqual(notes(with_fields(source, otype=5), with_fields(source, otype=5)), "")


class Conditions(unittest.TestCase):
    """How many conditions of each way hold."""

    def count(self, way, value, authority=None, number=0):
        """The conditions that are shown, and whether the last holds."""
        *_, (text, holds) = shown = list(conditions(Making(way, A0, A1, number), state({10: value, 11: authority or NULL})))
        return len(shown), holds, text.split(":")[0]

    def test_all_hold_of_root(self):
        sealed = with_fields(root(0), otype=7)
        for way, words in WAYS.items():
            if way in ("number", "cleared"):
                self.assertEqual(self.count(way, root(0))[:2], (1, False))
                continue
            if way == "loaded":
                *shown, = conditions(Making(way, AT, A1), state({11: root(0)}, {RAM: root(0)}))
                self.assertEqual(shown, [(f"tag of {RAM:016x}{LABEL}", True), ("permit load capability of ca1", True)])
                continue
            value = sealed if way == "unsealed" else root(0)
            self.assertEqual(self.count(way, value, root(7), 4)[:2], (len(words.split()), True), way)

    def test_the_first_that_is_false(self):
        narrow, key = capability(RAM, RAM + 16, RAM), root(7)
        sealed = seal(narrow, key)
        for expected, way, value, authority, number in (
                (1, "moved", NULL, None, 0), (2, "moved", sealed, None, RAM), (3, "moved", narrow, None, 0),
                (3, "bounded", narrow, None, 17), (3, "bounded exactly", narrow, None, 17),
                (4, "bounded exactly", capability(0, SPACE, 1), None, 65536),
                (3, "entry", with_fields(narrow, perms=ALL ^ EXECUTE), None, 0),
                (2, "sealed", narrow, NULL, 0), (3, "sealed", sealed, key, 0), (4, "sealed", narrow, sealed, 0),
                (5, "sealed", narrow, with_fields(key, perms=ALL ^ SEAL), 0), (6, "sealed", narrow, capability(0, 7, 7), 0),
                (7, "sealed", narrow, root(0x3FFFC), 0), (3, "unsealed", narrow, key, 0),
                (5, "unsealed", sealed, with_fields(key, perms=ALL ^ UNSEAL), 0), (7, "unsealed", sealed, root(8), 0),
                (2, "resumed", sealed, None, RAM + 4), (3, "resumed", with_fields(narrow, otype=SENTRY), None, 0)):
            self.assertEqual(self.count(way, value, authority, number)[:2], (expected, False), (way, expected))

    def test_what_is_resumed_where_it_is_keeps_its_tag(self):
        sealed = seal(capability(RAM, RAM + 16, RAM), root(7))
        self.assertEqual(self.count("resumed", sealed, number=RAM), (1, True, "tag of ca0"))


if __name__ == "__main__":
    unittest.main()
