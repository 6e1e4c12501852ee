"""What words decode to, and the addresses with which their bounds stay."""

import unittest

from model.capabilities import capability, integer, set_address, set_bounds
from model.rights import SENTRY
from model.tests.begun import page, read, root
from model.words import NULL_HIGH, ONES, ROOT_HIGH, SPACE, canonical, decoded, exponent_and_mantissas, fields, is_well_formed, kept, memory


class Words(unittest.TestCase):
    """What words decode to."""

    def test_zeros_are_null(self):
        null = integer(0)
        self.assertEqual(memory(*null[:2]), "00" * 16)
        answers = {"CGetBase": 0, "CGetLen": ONES, "CGetType": ONES, "CGetPerm": 0, "CGetTag": 0, "CGetSealed": 0, "CGetFlags": 0}
        self.assertEqual({name: read(name, null) for name in answers}, answers)
        self.assertEqual((decoded(*null[:2]), exponent_and_mantissas(null[0])[0]), ((0, SPACE), 52))

    def test_root_is_null_with_every_permission(self):
        self.assertEqual(memory(ROOT_HIGH, 0), "0000000000000000" "000000000000ffff")
        self.assertEqual(decoded(ROOT_HIGH, 0), (0, SPACE))
        self.assertEqual(read("CGetPerm", root(0)), 0x78FFF)

    def test_a_page_less_a_byte_in_memory(self):
        self.assertEqual(memory(*page()[:2]), "0010008000000000" "0450fe070000ffff")
        self.assertEqual(memory(0x1234C00000005678, 0x0123456789ABCDEF), "efcdab8967452301" "7cd601fcffdf3412")

    def test_an_exponent_of_51_inverts_no_bit_of_the_top(self):
        high = NULL_HIGH ^ 0x00001FFFF8003FFF
        self.assertEqual(exponent_and_mantissas(high), (51, 0x3FF8, 0x1000))
        self.assertEqual(decoded(high, 0), (0xFFC0000000000000, 0x8000000000000000))
        self.assertFalse(is_well_formed(high, 0))

    def test_fields_stand_where_the_format_has_them(self):
        self.assertEqual(canonical(0x10, 0x20, 0x8001, 0, 1, 5), 0x8001200028080010)
        self.assertEqual(canonical(0x10, 0x20, 0x8001, 3, 1, 5), 0x8001E00028080010)
        self.assertEqual(canonical(0x80000000, 0x80100000, 0xFFFF, 0, 0, 0x3FFFF), 0xFFFF1FFFFC004000)
        self.assertEqual(fields(0x8001E00028080010), (0x8001, 1, 5))
        self.assertEqual(fields(0xFFFFFFFFFFFFFFFF), (0xFFFF, 1, 0x3FFFF))

    def test_a_capability_up_to_the_last_address_ends_at_2_to_the_64(self):
        self.assertEqual(decoded(0xFFFF1FFFFC01B002, 0xC000000000000000), (0xC000000000000000, 1 << 64))
        self.assertEqual(decoded(0xFFFF1FFFFC019003, 0x8000000000000000), (0x8000000000000000, 1 << 64))

    def test_exponents_above_52_are_read_as_52(self):
        for field in range(53, 64):
            high = 1 << 26 | field >> 3 << 14 | field & 7
            self.assertEqual(exponent_and_mantissas(high)[0], 52)

    def test_the_least_exponent_that_holds_a_length_is_canonical(self):
        self.assertEqual(canonical(0, 4095, 0, 0, 0, 0) >> 26 & 1, 0)
        self.assertEqual(canonical(0, 4096, 0, 0, 0, 0) >> 26 & 1, 1)
        self.assertIsNone(canonical(0, 4097, 0, 0, 0, 0))
        self.assertIsNone(canonical(4, 4100, 0, 0, 0, 0))


class Windows(unittest.TestCase):
    """The addresses with which bounds stay."""

    def test_a_page_less_a_byte_stays_in_16_KiB(self):
        self.assertEqual(kept(page()[0], 0x80001000), (0x80000800, 0x800047FF))

    def test_roots_window_is_every_address(self):
        for address in (0, 5, ONES):
            self.assertEqual(kept(ROOT_HIGH, address), (0, ONES))

    def test_inside_the_window_the_tag_and_the_bounds_stay(self):
        for address in (0x800047FF, 0x80000800, 0x80001FFE):
            moved = set_address(page(), address)
            self.assertTrue(moved[2])
            self.assertEqual(decoded(*moved[:2]), (0x80001000, 0x80001FFF))

    def test_outside_they_go(self):
        for address, base in ((0x80004800, 0x80005000), (0x800007FF, 0x7FFFD000)):
            moved = set_address(page(), address)
            self.assertEqual((moved[2], read("CGetBase", moved)), (False, base))

    def test_a_window_goes_round_the_end_of_the_addresses(self):
        sixteen = set_bounds(root(0), 16)[0]
        self.assertEqual(decoded(*set_address(sixteen, ONES)[:2]), (0, 16))
        self.assertTrue(set_address(sixteen, ONES)[2])
        self.assertFalse(set_address(sixteen, SPACE - 0x801)[2])

    def test_a_sealed_capability_loses_its_tag_at_its_own_address(self):
        self.assertFalse(set_address(capability(0x80001000, 0x80001FFF, 0x80001000, otype=SENTRY), 0x80001000)[2])
