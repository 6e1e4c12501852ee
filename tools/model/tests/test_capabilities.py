"""Permissions, types and seals, and the rows over capabilities that are worked by hand."""

import unittest

from model.capabilities import (AUTHORITY, COMPARISON, IMMEDIATE, NUMBER, ONE, capability, otype, perms, seal, set_bounds, unseal, untagged,
                                with_fields)
from model.rights import (ACCESS_SYSTEM_REGISTERS, ALL, CINVOKE, EXECUTE, GLOBAL, LOAD, LOAD_CAPABILITY, NO_SYSTEM_ACCESS, SEAL, SET_CID,
                          STORE, STORE_CAPABILITY, STORE_LOCAL, UNSEAL, UNSEALED, USER0, USER1, USER2, USER3)
from model.tests.begun import page, read, root
from model.words import ONES
from model.worked import GROUPS, worked

TABLES = (IMMEDIATE, NUMBER, AUTHORITY, COMPARISON, ONE)
ROWS = {name.lower(): row for table in TABLES for name, row in table.items()}
OF_NUMBERS, OF_IMMEDIATES, OF_ONE = ({name.lower() for name in table} for table in (NUMBER, IMMEDIATE, ONE))


def given(case):
    """What the model gives of a worked row. CTestSubset's outer capability is DDC where rs1 is 0."""
    first = case.ddc if case.rs1 == 0 else case.first
    if case.row in OF_ONE:
        return ROWS[case.row](first)
    if case.row in OF_IMMEDIATES:
        return ROWS[case.row](first, int(case.second, 16))
    return ROWS[case.row](first, case.second[1] if case.row in OF_NUMBERS else case.second)


class Rights(unittest.TestCase):
    """Permissions, types and seals."""

    def test_root_seals_with_what_is_not_reserved(self):
        sealed = seal(root(0), root(0x3FFFB))
        self.assertEqual((sealed[2], read("CGetType", sealed)), (True, 0x3FFFB))
        sealed = seal(root(0), root(0x3FFFC))
        self.assertEqual((sealed[2], read("CGetType", sealed)), (False, 0xFFFFFFFFFFFFFFFC))

    def test_an_authority_seals_with_the_types_from_its_base_to_before_its_top(self):
        self.assertEqual([seal(page(), capability(base, base + 1, 7))[2] for base in (6, 7, 8)], [False, True, False])

    def test_nothing_unseals_a_sentry(self):
        self.assertFalse(unseal(ONE["CSealEntry"](root(0x80000000)), root(0x3FFFE))[2])

    def test_what_is_sealed_opens_to_itself(self):
        sealed = seal(page(), root(7))
        self.assertEqual((read("CGetSealed", sealed), unseal(sealed, root(7))), (1, page()))
        self.assertFalse(unseal(sealed, root(8))[2])

    def test_an_entry_has_the_sentrys_type_and_needs_execute(self):
        entry = ONE["CSealEntry"](page())
        self.assertEqual((entry[2], otype(entry), read("CGetType", entry)), (True, UNSEALED - 1, ONES - 1))
        self.assertFalse(ONE["CSealEntry"](NUMBER["CAndPerm"](page(), ONES ^ 2))[2])

    def test_the_user_permissions_stand_from_bit_15_on(self):
        self.assertEqual(perms(NUMBER["CAndPerm"](root(0), 0x78000)), 0xF000)
        self.assertEqual(perms(NUMBER["CAndPerm"](root(0), 0xFFFFFFFFFFF87000)), 0)

    def test_fields_are_replaced_in_place(self):
        value = 0x8001E00028080010, 7, True
        self.assertEqual(with_fields(value), value)
        self.assertEqual(with_fields(value, perms=0xFFFF), (0xFFFFE00028080010, 7, True))
        self.assertEqual(with_fields(value, flag=0), (0x8001C00028080010, 7, True))
        self.assertEqual(with_fields(value, otype=0x3FFFF), (0x8001FFFFF8080010, 7, True))
        self.assertEqual(with_fields(value, tag=False), (0x8001E00028080010, 7, False))

    def test_a_capability_has_all_permissions_no_flag_and_no_seal(self):
        self.assertEqual(capability(0x80001000, 0x80001FFF, 0x80001000), page())

    def test_permissions_stand_by_their_bits(self):
        bits = (GLOBAL, EXECUTE, LOAD, STORE, LOAD_CAPABILITY, STORE_CAPABILITY, STORE_LOCAL, SEAL, CINVOKE, UNSEAL,
                ACCESS_SYSTEM_REGISTERS, SET_CID, USER0, USER1, USER2, USER3)
        self.assertEqual(bits, (1, 2, 4, 8, 0x10, 0x20, 0x40, 0x80, 0x100, 0x200, 0x400, 0x800, 0x1000, 0x2000, 0x4000, 0x8000))
        self.assertEqual((sum(bits), NO_SYSTEM_ACCESS), (ALL, 0xFBFF))

    def test_a_subset_has_the_same_tag_and_lies_within(self):
        def is_subset(outer, inner):
            return COMPARISON["CTestSubset"](outer, inner)[1]
        self.assertEqual([is_subset(root(0), page()), is_subset(page(), root(0)), is_subset(page(), untagged(page()))], [1, 0, 0])
        self.assertEqual([is_subset(page(), set_bounds(page(0x80001FFF), 0)[0]), is_subset(page(), page(0x800047FF))], [1, 1])


class Rows(unittest.TestCase):
    """The rows that are worked by hand: the model gives what stands there."""

    def test_each_row_gives_what_is_worked(self):
        for topic, names, table in GROUPS:
            for line in table.splitlines():
                if not line.startswith("#"):
                    with self.subTest(topic, line=line):
                        self.assertEqual(given(worked(line, names)), worked(line, names).result)

    def test_every_row_is_worked(self):
        rows = {worked(line, names).row for _, names, table in GROUPS for line in table.splitlines() if not line.startswith("#")}
        self.assertEqual(rows, {name.lower() for table in TABLES for name in table})
