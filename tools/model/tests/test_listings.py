"""Listings with names, line by line."""

import unittest

from model.listings import name_of, named, table_text

ROWS = """0000000080000000 0040006f jal zero, .+4
0000000080000004 00c58513 addi a0, a1, 12
0000000080000008 .byte 0x01
"""


class Listings(unittest.TestCase):
    """What a table adds to a listing."""

    def test_without_names_nothing_is_added(self):
        self.assertEqual(named(ROWS, []), ROWS)

    def test_each_label_has_a_line_in_the_order_of_the_table(self):
        table = [(0x80000008, "b"), (0x80000004, "second"), (0x80000004, "first"), (0x80000008, "a")]
        jump, word, byte = ROWS.splitlines(keepends=True)
        self.assertEqual(named(ROWS, table), jump[:-1] + " <second>\nsecond:\nfirst:\n" + word + "b:\na:\n" + byte)

    def test_a_place_is_named_by_a_label_fewer_than_4096_bytes_below_it(self):
        table = [(0x1000, "x"), (0x1000, "y")]
        places = [name_of(address, table) for address in (0xfff, 0x1000, 0x1001, 0x1fff, 0x2000)]
        self.assertEqual(places, ["", " <x>", " <x+1>", " <x+4095>", ""])

    def test_a_table_is_a_line_a_name(self):
        self.assertEqual(table_text([(0x80000004, "b"), (0, "a")]), "0000000080000004 b\n0000000000000000 a\n")
