"""Policies: texts that are read or refused as the grammar says, what breaks a part at its edges, and what a call lends."""

import unittest
from random import Random

from model.capabilities import ONE, capability, seal, set_address
from model.devices import HALT, RAM, TIMER_COMPARE, TRANSMIT
from model.policy import (PARTS, REGISTERS, SPOKEN_OF, Breach, breaches, breaks, entry, first_breach, is_called, lent, lies_within, listed, range_text, read,
                          read_all, refused, stopped, terms_after)
from model.reach import KEEPING, ROOT, Member
from model.rights import (ACCESS_SYSTEM_REGISTERS, ALL, EXECUTE, GREATEST_SEALING_TYPE, LOAD, SEAL, STORE, STORE_CAPABILITY, STORE_LOCAL,
                          UNSEAL)
from model.tests.begun import root
from model.words import ONES, SPACE

LABELS = {"code": RAM, "data": RAM + 16}


def bounds(first, end, perms):
    return capability(first, end, first, perms)


def fault_of(text):
    return read(text, LABELS)[1]


def members(*values):
    return [Member(value, (ROOT, n), None) for n, value in enumerate(values)]


class Texts(unittest.TestCase):
    """What a text says, or its first fault."""

    def test_names_are_those_of_earlier_lines_and_a_rule_has_its_line_bare(self):
        rules, fault = read("# one\nA = code..+4 0x10..32\r\n\n \twhen pc in A code..data: \thalt no,types 1 0x2 # A:\r\n", LABELS)
        self.assertEqual([(rule.line, rule.text) for rule in rules], [(4, "when pc in A code..data: \thalt no,types 1 0x2")])
        self.assertEqual(rules[0].code, [(RAM, RAM + 4), (16, 32), (RAM, RAM + 16)])
        self.assertEqual((rules[0].allowed, fault), ({"halt": False, "types": [1, 2]}, None))

    def test_what_parts_allow(self):
        rules, _ = read("when pc in 0..1: store no, load within 0..1 5..+2, execute within code..data, transmit yes, types none", LABELS)
        self.assertEqual(rules[0].allowed, {"store": SPOKEN_OF, "load": [(0, 1), (5, 7)], "execute": [(RAM, RAM + 16)], "transmit": True,
                                            "types": []})

    def test_or_caller_stands_in_any_place_and_is_no_part_that_is_broken(self):
        for said in ("or caller, halt no, load no", "halt no,or\tcaller ,load no", "halt no, load no, or caller # or"):
            rules, fault = read(f"or = 0..1\nwhen pc in or: {said}", {})
            self.assertEqual((rules[0].allowed, rules[0].or_caller, fault), ({"halt": False, "load": []}, True, None))
        self.assertEqual(read("when pc in 0..1: or caller", {})[0][0][3:], ({}, True))
        self.assertFalse(read("when pc in 0..1: load no # or caller", {})[0][0].or_caller)

    def test_lines_name_ranges_of_any_code(self):
        rules, any_code, fault = read_all("A = 0..4 8..12\nany code in A code..+8 # all\nwhen pc in A: halt no\n\tany code in 5..6\n", LABELS)
        self.assertEqual(([rule.line for rule in rules], fault), ([3], None))
        self.assertEqual(any_code, [(0, 4), (8, 12), (RAM, RAM + 8), (5, 6)])
        for code, text in (("P1", "any code in"), ("P1", "any code at 0..4"), ("P1", "any code in 0..4: halt no"), ("P2", "any code in A"),
                           ("P5", "any code in 4..4")):
            self.assertEqual(fault_of(text), (code, 1))

    def test_texts_without_a_word_say_nothing(self):
        self.assertEqual([read(text, {}) for text in ("", "\n\r\n \t\n", "# when\n#\n")], [([], None)] * 3)

    def test_each_code_is_that_of_the_first_faulty_line(self):
        for code, text in (("P1", "halt no"), ("P1", "when pc in 0..1 halt no"), ("P2", "A = B"), ("P2", "A = B..0x10"), ("P2", "A = 0..B"),
                           ("P3", "A = 0..1\nA = 0..1"), ("P4", "A = 0..1x"), ("P4", "A = 0..18446744073709551616"), ("P4", "A = 0..+0x"),
                           ("P4", "A = 2..+0xffffffffffffffff"), ("P4", "when pc in 0..1: types 262140"), ("P5", "A = 4..4"),
                           ("P5", "A = 4..+0"), ("P6", "when pc in 0..1:"), ("P6", "when pc in 0..1: halt no,"),
                           ("P6", "when pc in 0..1: send no"), ("P7", "when pc in 0..1: seal no, seal no"),
                           ("P8", "when pc in 0..1: seal"), ("P8", "when pc in 0..1: load yes"),
                           ("P8", "when pc in 0..1: types"), ("P8", "when pc in 0..1: store within"),
                           ("P6", "when pc in 0..1: caller"), ("P6", "when pc in 0..1: or caller, Or caller"),
                           ("P7", "when pc in 0..1: or caller, or callers"), ("P8", "when pc in 0..1: or callers, or caller"),
                           ("P8", "when pc in 0..1: or"), ("P8", "when pc in 0..1: or caller yes")):
            self.assertEqual(fault_of(text), (code, text.count("\n") + 1))
            self.assertEqual(fault_of(f"#\n{text}\nx"), (code, text.count("\n") + 2))

    def test_a_range_may_end_with_the_address_space(self):
        for text in ("A = 0xffffffffffffffff..+1", "A = 1..+18446744073709551615"):
            self.assertIsNone(fault_of(text))
        rules, _ = read("when pc in 5..+0xfffffffffffffffb: halt no", {})
        self.assertEqual(rules[0].code, [(5, SPACE)])


class Parts(unittest.TestCase):
    """What breaks a part."""

    def test_ranges_hold_all_addresses_or_leave_one_out(self):
        dice = Random(0)
        for _ in range(3000):
            spans = [(first, first + dice.randrange(1, 7)) for first in (dice.randrange(20) for _ in range(dice.randrange(5)))]
            first, length = dice.randrange(22), dice.randrange(8)
            held = {number for start, end in spans for number in range(start, end)}
            self.assertEqual(lies_within(spans, first, first + length), set(range(first, first + length)) <= held)

    def test_bytes_of_ram_count_by_the_permission(self):
        for name, perms in (("store", STORE), ("load", LOAD), ("execute", EXECUTE)):
            for first, end, allowed, broken in ((RAM, RAM + 8, [], True), (RAM, RAM + 8, [(RAM, RAM + 8)], False),
                                                (RAM - 8, RAM, [], False), (RAM - 8, RAM + 1, [], True), (RAM, RAM, [], False),
                                                (RAM - 8, RAM + 1, [(RAM, RAM + 1)], False), (RAM, RAM + 8, [(RAM, RAM + 7)], True),
                                                (RAM, RAM + 8, [(RAM + 1, RAM + 8)], True), (ONES, SPACE, [(RAM, ONES)], True)):
                self.assertEqual(breaks(bounds(first, end, perms), name, allowed), broken)
                self.assertFalse(breaks(bounds(first, end, ALL ^ perms), name, allowed))
            self.assertFalse(breaks(seal(bounds(RAM, RAM + 8, perms), root(7)), name, []))

    def test_what_is_lent_is_kept_in_whole_granules_by_three_permissions(self):
        for first, end, allowed, broken in ((RAM, RAM + 16, [], True), (RAM, RAM + 15, [], False), (RAM + 1, RAM + 31, [], False),
                                            (RAM + 1, RAM + 32, [], True), (RAM - 16, RAM, [], False), (RAM - 1, RAM + 16, [], True),
                                            (RAM, RAM + 16, [(RAM, RAM + 16)], False), (RAM, RAM + 16, [(RAM, RAM + 15)], True),
                                            (RAM, RAM + 31, [(RAM, RAM + 16)], False), (RAM + 1, RAM + 48, [(RAM + 16, RAM + 48)], False),
                                            (RAM, RAM + 32, [(RAM, RAM + 8), (RAM + 8, RAM + 32)], False),
                                            (RAM, RAM + 32, [(RAM + 16, RAM + 32)], True)):
            self.assertEqual(breaks(bounds(first, end, KEEPING), "keep", allowed), broken)
            self.assertFalse(breaks(seal(bounds(first, end, KEEPING), root(7)), "keep", []))
        for one in (STORE, STORE_CAPABILITY, STORE_LOCAL):
            self.assertFalse(breaks(bounds(RAM, RAM + 16, ALL ^ one), "keep", []))

    def test_a_part_for_stores_or_loads_is_about_device_registers_that_begin_in_the_bounds(self):
        for [(place, _)] in REGISTERS.values():
            for name, perms in (("store", STORE), ("load", LOAD), ("execute", EXECUTE)):
                for first, end, allowed, broken in ((place, place + 1, [], name != "execute"), (place + 1, place + 8, [], False),
                                                    (place - 4, place + 4, [(place, place + 1)], False),
                                                    (place, place + 8, [(place + 1, place + 8)], name != "execute")):
                    self.assertEqual(breaks(bounds(first, end, perms), name, allowed), broken)
        self.assertEqual([read(f"when pc in 0..1: store {said}", {})[0][0].allowed["store"] for said in ("within mtime", "no")],
                         [REGISTERS["mtime"] + SPOKEN_OF, SPOKEN_OF])

    def test_entering_takes_a_seal_and_execute_and_an_instruction_in_ram(self):
        def entries(address, perms=EXECUTE, first=RAM, end=RAM + 64, make=ONE["CSealEntry"]):
            return make(set_address(bounds(first, end, perms), address))
        for value, allowed, broken in ((entries(RAM + 8), [], True), (entries(RAM + 11), [(RAM + 8, RAM + 9)], False),
                                       (entries(RAM + 8), [(RAM, RAM + 8), (RAM + 9, RAM + 64)], True),
                                       (entries(RAM + 60), [], True), (entries(RAM + 64), [], False),
                                       (entries(RAM - 4, first=RAM - 8), [], False),
                                       (entries(RAM + 8, ALL, make=lambda it: seal(it, root(7))), [], True),
                                       (entries(RAM + 8, ALL ^ EXECUTE, make=lambda it: seal(it, root(7))), [], False),
                                       (entries(RAM + 8, make=lambda it: it), [], False)):
            self.assertEqual(breaks(value, "enter", allowed), broken)
        rules, _ = read(f"when pc in 0..1: enter no\nwhen pc in 0..1: enter no, execute within {RAM}..+8", {})
        self.assertEqual([one.rule.line for place in (RAM, RAM + 8) for one in breaches(rules, 0, members(entries(place)))], [2])

    def test_a_device_counts_by_its_first_byte(self):
        for name, place in (("transmit", TRANSMIT), ("halt", HALT), ("timer", TIMER_COMPARE)):
            for first, end, perms, broken in ((place, place + 1, STORE, True), (place + 1, place + 8, STORE, False),
                                              (place, place + 8, ALL ^ STORE, False)):
                self.assertEqual([breaks(bounds(first, end, perms), name, allowed) for allowed in (False, True)], [broken, False])

    def test_system_registers_take_two_permissions(self):
        given = [EXECUTE, ACCESS_SYSTEM_REGISTERS, EXECUTE | ACCESS_SYSTEM_REGISTERS]
        self.assertEqual([breaks(bounds(0, 0, perms), "system", False) for perms in given], [False, False, True])
        self.assertFalse(breaks(root(0), "system", True))

    def test_sealing_takes_a_type_that_values_are_sealed_with(self):
        most = GREATEST_SEALING_TYPE
        for first, end, perms, broken in ((0, 1, SEAL, True), (most, most + 5, UNSEAL, True), (most + 1, most + 5, SEAL, False),
                                          (7, 7, SEAL | UNSEAL, False), (0, 8, ALL ^ SEAL ^ UNSEAL, False)):
            self.assertEqual(breaks(bounds(first, end, perms), "seal", False), broken)
        self.assertFalse(breaks(seal(root(0), root(7)), "seal", False))

    def test_types_are_those_of_what_is_sealed_but_for_sentries(self):
        sealed = seal(root(0), root(7))
        self.assertEqual([breaks(sealed, "types", allowed) for allowed in ([], [6, 8], [7])], [True, True, False])
        self.assertFalse(breaks(ONE["CSealEntry"](root(0)), "types", []) or breaks(root(0), "types", []))


class Breaches(unittest.TestCase):
    """Which breach is told, and how."""

    def test_the_first_rule_then_the_first_member_then_the_first_part(self):
        text = "when pc in 8..9: halt no\nwhen pc in 4..6: store within 0x80000000..+8\nwhen pc in 0..8: seal no, load no, store no\n"
        rules, _ = read(text, {})
        found = members(bounds(5, 6, SEAL), bounds(RAM, RAM + 9, STORE), root(0))
        self.assertEqual(first_breach(rules, 5, found), Breach(rules[1], 1, "store"))
        self.assertEqual(first_breach(rules, 6, found), Breach(rules[2], 0, "seal"))
        self.assertEqual(first_breach(rules, 7, found[1:]), Breach(rules[2], 0, "store"))
        self.assertIsNone(first_breach(rules, 9, found))

    def test_all_of_them_by_rule_and_part_each_with_the_first_member(self):
        rules, _ = read("when pc in 0..9: seal no, store within 0x80000000..+8, types none\nwhen pc in 5..6: halt no, load no\n", {})
        found = members(bounds(RAM, RAM + 8, STORE), bounds(RAM, RAM + 9, LOAD | STORE), root(0))
        both = [Breach(rules[0], 1, "store"), Breach(rules[0], 2, "seal")]
        self.assertEqual(breaches(rules, 4, found), both)
        self.assertEqual(breaches(rules, 5, found), [*both, Breach(rules[1], 1, "load"), Breach(rules[1], 2, "halt")])
        self.assertEqual((breaches(rules, 9, found), breaches(rules, 5, [])), ([], []))

    def test_lines(self):
        rules, _ = read("\nwhen pc in 4..6: halt no # why\n", {})
        self.assertEqual(stopped(Breach(rules[0], 0, "halt"), 12, f"{RAM:016x} <start>", "pcc GX"), (
            "cherisim: not halted\ncherisim: steps 12, pcc 0000000080000000 <start>\ncherisim: policy: line 2: halt\n"
            "  rule  when pc in 4..6: halt no\n  held  pcc GX\n"))
        self.assertEqual(listed(Breach(rules[0], 0, "halt"), 13, f"{RAM:016x} <start>", "pcc GX"), (
            "step 13, pcc 0000000080000000 <start>\npolicy: line 2: halt\n  rule  when pc in 4..6: halt no\n  held  pcc GX\n"))
        self.assertEqual(refused("P4", 7, "a.policy"), "cherisim: line 7: P4 number\n  a.policy:7\n")


class Calls(unittest.TestCase):
    """What a call lends."""

    def allowed(self, said, *values):
        """What the parts of a rule allow after a call by code that reaches so much."""
        rules, fault = read(f"when pc in 8..16: {said}, or caller", {})
        self.assertIsNone(fault)
        return lent(rules[0], members(*values)).allowed

    def test_a_call_comes_from_outside_the_code(self):
        rule, = read("when pc in 8..16 20..24: or caller", {})[0]
        self.assertEqual([is_called(rule, before, after) for before, after in ((4, 8), (16, 20), (24, 12), (8, 12), (12, 20), (4, 16))],
                         [True, True, True, False, False, False])

    def test_ranges_by_right_of_what_is_unsealed(self):
        given = (bounds(RAM, RAM + 8, STORE), bounds(RAM + 4, RAM + 32, LOAD | EXECUTE), seal(bounds(RAM, RAM + 64, ALL), root(7)),
                 bounds(RAM + 16, RAM + 40, KEEPING))
        self.assertEqual(self.allowed("store no, load within 5..6, execute no, keep no, enter within 8..9", *given),
                         {"store": SPOKEN_OF + [(RAM, RAM + 8), (RAM + 16, RAM + 40)], "load": [(5, 6), (RAM + 4, RAM + 32)],
                          "execute": [(RAM + 4, RAM + 32)], "keep": [(RAM + 16, RAM + 40)],
                          "enter": [(8, 9), (RAM, RAM + 1)]})

    def test_what_opens_it_allows_all_of_a_part_that_says_no(self):
        most = GREATEST_SEALING_TYPE
        for name, opens, not_quite in (("transmit", bounds(TRANSMIT, TRANSMIT + 1, STORE), bounds(TRANSMIT + 1, TRANSMIT + 8, STORE)),
                                       ("halt", bounds(HALT, HALT + 8, STORE), bounds(HALT, HALT + 8, ALL ^ STORE)),
                                       ("timer", bounds(TIMER_COMPARE, TIMER_COMPARE + 1, ALL), bounds(TIMER_COMPARE, TIMER_COMPARE, ALL)),
                                       ("system", bounds(0, 0, EXECUTE | ACCESS_SYSTEM_REGISTERS), bounds(0, 8, EXECUTE)),
                                       ("seal", bounds(most, most + 5, UNSEAL), bounds(most + 1, most + 5, SEAL))):
            self.assertEqual([self.allowed(f"{name} no", *given) for given in ((opens,), (not_quite,), ())],
                             [{name: True}, {name: False}, {name: False}])
            self.assertEqual(self.allowed(f"{name} yes"), {name: True})

    def test_types_of_what_is_sealed(self):
        given = seal(root(0), root(7)), seal(root(0), root(0)), ONE["CSealEntry"](root(0)), root(0)
        self.assertEqual(self.allowed("types 5 7", *given), {"types": [5, 7, 7, 0]})

    def test_parts_that_are_not_there_stay_so(self):
        self.assertEqual(self.allowed("types none", root(0)), {"types": []})
        self.assertEqual(list(self.allowed("halt no, load no")), ["halt", "load"])

    def test_nothing_of_what_the_caller_reaches_breaks_the_rule(self):
        said = ", ".join(f"{name} no" for name in PARTS[:-1]) + ", types none"
        rules, _ = read(f"when pc in 0..1: {said}, or caller", {})
        found = members(root(0), bounds(RAM, RAM + 8, STORE), seal(root(RAM), root(7)), bounds(RAM - 8, RAM + 8, ALL))
        self.assertEqual(len(breaches(rules, 0, found)), len(PARTS))
        self.assertEqual(breaches([lent(rules[0], found)], 0, found), [])

    def test_each_call_replaces_the_terms_of_the_rules_that_have_it(self):
        rules, _ = read("when pc in 8..16: store no\nwhen pc in 8..16: store no, or caller\nwhen pc in 0..16: store no, or caller", {})
        first = terms_after(rules, rules, 0, 8, members(bounds(RAM, RAM + 8, STORE)))
        self.assertEqual([rule.allowed["store"] for rule in first], [SPOKEN_OF, SPOKEN_OF + [(RAM, RAM + 8)], SPOKEN_OF])
        self.assertEqual(terms_after(rules, first, 8, 12, members(root(0))), first)
        self.assertEqual(terms_after(rules, first, 12, 16, members(root(0))), first)
        second = terms_after(rules, first, 20, 12, members(bounds(RAM + 8, RAM + 16, STORE)))
        self.assertEqual([rule.allowed["store"] for rule in second], [SPOKEN_OF, *[SPOKEN_OF + [(RAM + 8, RAM + 16)]] * 2])
        self.assertEqual([rule.text for rule in second], [rule.text for rule in rules])


class Entries(unittest.TestCase):
    """The rules of what a run enters."""

    def test_ranges_end_with_all_addresses_by_a_length(self):
        self.assertEqual(range_text(16, 32), "0x0000000000000010..0x0000000000000020")
        self.assertEqual(range_text(16, ONES), "0x0000000000000010..0xffffffffffffffff")
        self.assertEqual(range_text(ONES, SPACE), "0xffffffffffffffff..+0x0000000000000001")
        self.assertEqual(range_text(0, SPACE), "0x0000000000000000..0x8000000000000000 0x8000000000000000..+0x8000000000000000")
        for span in ((16, 32), (0, SPACE), (1, SPACE)):
            spans = read(f"A = {range_text(*span)}\nwhen pc in A: halt no", {})[0][0].code
            self.assertEqual((spans[0][0], spans[-1][1], [end for _, end in spans[:-1]]), (*span, [first for first, _ in spans[1:]]))

    def test_a_rule_allows_what_is_reachable_and_no_more(self):
        nothing = entry((16, 32), [])
        self.assertEqual(nothing, "when pc in 0x0000000000000010..0x0000000000000020: store no, load no, execute no, keep no, "
                         "enter no, transmit no, halt no, timer no, system no, seal no, types none\n")
        found = members(bounds(HALT, HALT + 1, KEEPING), bounds(8, 16, LOAD | SEAL), bounds(16, 24, LOAD), seal(root(0), root(9)),
                        seal(root(0), root(4)), seal(root(0), root(9)))
        text = entry((16, 32), found)
        self.assertEqual(text.partition(": ")[2], (
            "store within 0x0000000000100000..0x0000000000100001, load within 0x0000000000000008..0x0000000000000018, execute no, "
            "keep within 0x0000000000100000..0x0000000000100001, enter no, transmit no, halt yes, timer no, system no, seal yes, types 4 9\n"))
        rules, fault = read(text, {})
        self.assertEqual((fault, breaches(rules, 16, found)), (None, []))
