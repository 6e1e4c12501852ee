"""What setting bounds gives."""

import unittest

from model.bounds import alignment_mask, high_around
from model.capabilities import capability, integer, set_bounds, set_bounds_exact, untagged
from model.tests.begun import in_memory, page, read, root
from model.words import ONES, SPACE, decoded, exponent_and_mantissas


class Bounds(unittest.TestCase):
    """What setting bounds gives."""

    def test_fewer_than_4096_bytes_are_exact(self):
        value, exact = set_bounds(root(0x80001000), 4095)
        self.assertEqual((decoded(*value[:2]), value[2], exact), ((0x80001000, 0x80001FFF), True, True))
        self.assertEqual(in_memory(value), 0xFFFF000007FE5004)

    def test_4096_bytes_at_an_odd_address_are_rounded_to_eights(self):
        value, exact = set_bounds(root(0x80001001), 4096)
        self.assertEqual((decoded(*value[:2]), value[2], exact), ((0x80001000, 0x80002008), True, False))
        self.assertEqual(in_memory(value), 0xFFFF000000039004)
        self.assertEqual(set_bounds_exact(root(0x80001001), 4096), untagged(value))

    def test_a_carry_raises_the_exponent(self):
        value, exact = set_bounds(root(1), 8191)
        self.assertEqual((decoded(*value[:2]), value[2], exact), ((0, 8192), True, False))
        self.assertEqual((in_memory(value), exponent_and_mantissas(value[0])[0]), (0xFFFF000000018005, 1))

    def test_permissions_flag_and_type_stay_and_reserved_bits_go(self):
        flagged = capability(0, 0x100, 0x10, 0x8001, 1)
        self.assertEqual(set_bounds(flagged, 16), ((0x80013FFFF8080010, 0x10, True), True))
        self.assertEqual(set_bounds((0x8001E00028080010, 0x10, False), 16), ((0x8001200028080010, 0x10, False), True))

    def test_a_word_around_a_range_has_the_bounds_that_are_set(self):
        self.assertEqual(high_around(root(0)[0], 0x80001000, 0x80001FFF), page()[0])
        self.assertEqual(high_around(root(0)[0], 0x80001001, 0x80002001), set_bounds(root(0x80001001), 4096)[0][0])

    def test_past_the_last_address(self):
        value, _ = set_bounds(root(ONES), ONES)
        self.assertEqual((value[2], decoded(*value[:2]), read("CGetLen", value)), (False, (0xFF80000000000000, 0), ONES))

    def test_at_the_top_no_byte_fits(self):
        at_top = page(0x80001FFF)
        for length, tag in ((0, True), (1, False)):
            value, _ = set_bounds(at_top, length)
            self.assertEqual((value[2], read("CGetBase", value), read("CGetLen", value)), (tag, 0x80001FFF, length))

    def test_representable_lengths_and_masks(self):
        rows = ((0, 0, ONES), (4095, 4095, ONES), (4096, 4096, SPACE - 8), (8184, 8184, SPACE - 8), (8191, 8192, SPACE - 16),
                (0x100001, 0x100800, 0xFFFFFFFFFFFFF800), (ONES, 0, 0xFF80000000000000))
        for length, rounded, mask in rows:
            self.assertEqual((read("Crrl", integer(length)), alignment_mask(length)), (rounded, mask))

    def test_a_length_so_rounded_at_a_base_so_aligned_is_exact(self):
        for shift in range(64):
            for length in (1 << shift, (1 << shift) + 1, (1 << shift) * 3 // 2):
                base = 0x123456789ABCDEF0 & alignment_mask(length)
                rounded = read("Crrl", integer(length))
                if rounded and base + rounded <= SPACE:
                    value, exact = set_bounds(root(base), rounded)
                    self.assertTrue(exact)
                    self.assertEqual(decoded(*value[:2]), (base, base + rounded))
