"""The arithmetic of the unprivileged manual."""

import unittest

from model.integers import BASE, BRANCH, MULTIPLICATION
from model.words import ONES, SPACE

LEAST = 1 << 63


class Integers(unittest.TestCase):
    """The rows of the unprivileged manual that have an answer of their own."""

    def test_sums_comparisons_and_bits(self):
        rows = (("Add", 7, 5, 12), ("Add", ONES, 1, 0), ("Sub", 12, 5, 7), ("Sub", 5, 7, ONES - 1), ("Slt", ONES, 0, 1),
                ("Slt", 0, ONES, 0), ("Slt", 5, 5, 0), ("Sltu", ONES, 0, 0), ("Sltu", 0, ONES, 1), ("Sltu", 5, 5, 0),
                 ("Xor", 12, 10, 6), ("Or", 12, 10, 14),
                ("And", 12, 10, 8), ("Sll", 1, 63, LEAST), ("Srl", LEAST, 63, 1), ("Sra", LEAST, 63, ONES), ("Sra", LEAST, 64, LEAST),
                ("Addw", 0xFFFFFFFF00000007, 5, 12), ("Subw", 12, 5, 7), ("Subw", 0, 1, ONES), ("Subw", 0x80000000, 1, 0x7FFFFFFF),
                ("Sllw", 1, 31, 0xFFFFFFFF80000000), ("Sllw", 1, 33, 2), ("Srlw", 0x80000000, 31, 1), ("Srlw", 4, 33, 2),
                ("Sraw", 0x80000000, 31, ONES), ("Sraw", 4, 33, 2))
        for name, a, b, answer in rows:
            self.assertEqual(BASE[name](a, b), answer, name)

    def test_products_and_quotients(self):
        rows = (("Mul", ONES, 3, SPACE - 3), ("Mulhsu", ONES, 2, ONES), ("Mulhsu", 2, ONES, 1), ("Mulw", 0x7FFFFFFF, 2, ONES - 1),
                ("Mulw", 0x80000000, 2, 0), ("Div", 7, SPACE - 2, SPACE - 3), ("Div", SPACE - 7, SPACE - 2, 3), ("Rem", 7, SPACE - 2, 1),
                ("Divu", 7, 2, 3), ("Remu", 7, 2, 1), ("Divw", 7, 0, ONES), ("Divw", SPACE - 7, 2, SPACE - 3), ("Remw", 7, 0, 7),
                ("Remw", SPACE - 7, 2, ONES), ("Divuw", 7, 0, ONES), ("Divuw", 0x80000000, 1, 0xFFFFFFFF80000000), ("Divuw", 7, 1, 7),
                ("Divuw", 0xFFFFFFFF80000000, 2, 0x40000000), ("Divuw", 7, 0x100000002, 3), ("Remuw", 0x80000005, 0, 0xFFFFFFFF80000005),
                ("Remuw", 0x100000007, 4, 3), ("Remuw", 7, 0x100000004, 3), ("Remuw", 7, 1, 0))
        for name, a, b, answer in rows:
            self.assertEqual(MULTIPLICATION[name](a, b), answer, name)

    def test_division(self):
        rows = (("Div", LEAST, ONES, LEAST), ("Divu", 7, 0, ONES), ("Rem", 7, 0, 7), ("Rem", LEAST, ONES, 0), ("Remu", 7, 0, 7),
                ("Div", 7, 0, ONES), ("Divw", SPACE - (1 << 31), ONES, 0xFFFFFFFF80000000), ("Remw", SPACE - (1 << 31), ONES, 0),
                ("Div", SPACE - 7, 2, SPACE - 3), ("Rem", SPACE - 7, 2, ONES))
        for name, a, b, answer in rows:
            self.assertEqual(MULTIPLICATION[name](a, b), answer, name)

    def test_high_halves_of_products(self):
        self.assertEqual(MULTIPLICATION["Mulh"](LEAST, LEAST), 0x4000000000000000)
        self.assertEqual(MULTIPLICATION["Mulhu"](ONES, ONES), 0xFFFFFFFFFFFFFFFE)
        self.assertEqual(MULTIPLICATION["Mulhsu"](ONES, ONES), ONES)

    def test_words_are_extended_by_their_sign(self):
        self.assertEqual(BASE["Addw"](0x7FFFFFFF, 1), 0xFFFFFFFF80000000)
        self.assertEqual(BASE["Sraw"](0x80000000, 31), ONES)
        self.assertEqual(BASE["Srlw"](0xFFFFFFFF80000000, 31), 1)

    def test_shifts_take_the_low_bits_of_their_amount(self):
        self.assertEqual((BASE["Sll"](1, 64), BASE["Srl"](LEAST, 127), BASE["Sllw"](1, 32)), (1, 1, 1))

    def test_signed_and_unsigned_branches(self):
        self.assertEqual([int(BRANCH[name](ONES, 0)) for name in ("Blt", "Bltu", "Bge", "Bgeu")], [1, 0, 0, 1])

    def test_branches_by_order(self):
        for a, b, taken in ((5, 5, "Beq Bge Bgeu"), (3, 5, "Bne Blt Bltu"), (5, 3, "Bne Bge Bgeu")):
            self.assertEqual({name for name in BRANCH if BRANCH[name](a, b)}, set(taken.split()))
