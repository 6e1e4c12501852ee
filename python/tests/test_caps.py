"""Capabilities: worked rows of the standard's arithmetic, and that a Cap is a value."""
import copy
import pickle
import random
import unittest

import support
from cherisim import NULL_UPPER, REGISTERS, SENTRY, UNSEALED, Cap, Insn, OutOfRange, Perms, decode, disassemble, encode, execute


class Arithmetic(unittest.TestCase):
    def test_root_and_null(self):
        root, null = Cap.root(), Cap()
        self.assertEqual((root.base, root.top, root.length, root.address), (0, 1 << 64, 1 << 64, 0))
        self.assertTrue(root.tag and not root.sealed and not root.flag)
        self.assertEqual(root.memory, bytes(14) + b"\xff\xff")
        self.assertEqual((null.base, null.top, null.perms, null.otype, null.tag), (0, 1 << 64, 0, UNSEALED, False))
        self.assertEqual(null.memory, bytes(16))
        self.assertEqual(str(root), "v:1 a:0000000000000000 b:0000000000000000 t:10000000000000000 p:78fff f:0 o:3ffff")
        self.assertEqual(str(null), "v:0 a:0000000000000000 b:0000000000000000 t:10000000000000000 p:00000 f:0 o:3ffff")

    def test_bounds(self):
        third, exact = Cap.root(0x80001000).set_bounds(4095)
        self.assertEqual((third.base, third.top, third.tag, exact), (0x80001000, 0x80001FFF, True, True))
        self.assertEqual(third.memory[8:], bytes.fromhex("0450fe070000ffff"))
        fourth, exact = Cap.root(0x80001001).set_bounds(4096)
        self.assertEqual((fourth.base, fourth.top, fourth.address, fourth.tag, exact), (0x80001000, 0x80002008, 0x80001001, True, False))
        last = third.set_address(0x80001FFF)
        self.assertEqual([last.set_bounds(n)[0].tag for n in (0, 1)], [True, False])
        self.assertEqual((third.offset, last.offset, third.length), (0, 0xFFF, 4095))
        for length in (-1, 1 << 64):
            self.assertRaises(OutOfRange, third.set_bounds, length)

    def test_addresses(self):
        third = Cap.root(0x80001000).set_bounds(4095)[0]
        for address, stays in ((0x800047FF, True), (0x80000800, True), (0x80004800, False), (0x800007FF, False)):
            self.assertEqual((third.is_representable(address), third.set_address(address).tag), (stays, stays))
        self.assertEqual(third.set_address(0x80004800).base, 0x80005000)
        self.assertEqual(third.set_address(0x80001000 - (1 << 64)), third)
        self.assertTrue(third.in_bounds() and third.in_bounds(0x80001FFE) and not third.in_bounds(0x80001FFF))
        self.assertTrue(third.in_bounds(0x80001FFE, 1) and not third.in_bounds(0x80001FFE, 2) and third.in_bounds(0x80001FFF, 0))

    def test_made(self):
        cap = Cap.make(0x1000, 0x1100, address=0x1010, perms=Perms.Load | Perms.User_3, otype=5, flag=True)
        self.assertEqual((cap.base, cap.top, cap.address, cap.perms, cap.otype, cap.flag, cap.tag),
                         (0x1000, 0x1100, 0x1010, 0x8004, 5, True, True))
        self.assertEqual(cap.permissions, ("Load", "User_3"))
        self.assertTrue(cap.sealed)
        self.assertEqual(Cap.make(0, 1 << 64), Cap.root())
        for base, top in ((0x80001001, 0x80002001), (16, 8), (-1, 4), (0, (1 << 64) + 1), (1 << 64, 1 << 64)):
            self.assertRaises(OutOfRange, Cap.make, base, top)

    def test_a_tag_is_tested(self):
        self.assertFalse(Cap(0, 1 << 46, True).tag)
        self.assertTrue(Cap(0x1234, Cap.root().upper, True).tag)
        third = Cap.root(0x80001000).set_bounds(4095)[0]
        self.assertEqual(Cap.from_memory(third.memory, True), third)
        self.assertRaises(ValueError, Cap.from_memory, bytes(15))


class Derivations(unittest.TestCase):
    def test_permissions(self):
        some = Cap.root().and_perms(Perms.Global | Perms.Store | Perms.User_0)
        self.assertEqual((some.permissions, some.tag), (("Global", "Store", "User_0"), True))
        self.assertIn("p:08009", str(some))
        self.assertEqual(Cap.root().and_perms(0xFFFF), Cap.root())
        self.assertTrue(Cap.root().contains(some) and not some.contains(Cap.root()) and not some.contains(some.clear_tag()))

    def test_seals(self):
        type_5 = Cap.root(5).set_bounds(1)[0]
        sealed = Cap.root(0x1000).seal(type_5)
        self.assertEqual((sealed.otype, sealed.tag, sealed.sealed), (5, True, True))
        self.assertEqual(sealed.unseal(type_5), Cap.root(0x1000))
        self.assertFalse(sealed.unseal(Cap.root(6)).tag or sealed.set_address(0x1000).tag or sealed.and_perms(0xFFFF).tag)
        self.assertEqual([Cap.root().seal(Cap.root(it)).tag for it in (0x3FFFB, 0x3FFFC)], [True, False])
        sentry = Cap.root().seal_entry()
        self.assertEqual((sentry.otype, sentry.tag), (SENTRY, True))
        self.assertFalse(sentry.unseal(Cap.root(SENTRY)).tag or Cap.root().and_perms(Perms.Load).seal_entry().tag)

    def test_flags_and_tags(self):
        self.assertTrue(Cap.root().set_flag(True).flag and not Cap.root().set_flag(True).set_flag(False).flag)
        self.assertEqual(Cap.root().clear_tag(), Cap(0, Cap.root().upper))

    def test_execute(self):
        self.assertEqual(execute(0xFE05855B, Cap.root()), Cap(0x78FFF))  # cgetperm a0, ca1
        self.assertEqual(execute(0xFE85855B, Cap(8191)), Cap(8192))  # crrl a0, a1
        self.assertIsNone(execute(0x00000013, Cap.root()))
        self.assertRaises(OutOfRange, execute, 1 << 32, Cap.root())


class Values(unittest.TestCase):
    def test_a_cap_is_a_value(self):
        third = Cap.root(0x80001000).set_bounds(4095)[0]
        self.assertEqual(len({third, Cap(third.address, third.upper, True), third.clear_tag()}), 2)
        self.assertEqual(pickle.loads(pickle.dumps(third)), third)
        self.assertEqual(copy.deepcopy(third), third)
        self.assertNotEqual(third, third.address)
        with self.assertRaises(AttributeError):
            third.tag = True
        self.assertEqual(Cap(-1), Cap((1 << 64) - 1, NULL_UPPER))
        self.assertEqual(repr(Cap(5)), "Cap(v:0 a:0000000000000005 b:0000000000000000 t:10000000000000000 p:00000 f:0 o:3ffff)")

    def test_names(self):
        self.assertEqual(len({number for number in REGISTERS.values()}), 32)
        for names in (("zero", "cnull", "x0", "c0"), ("s0", "cs0", "fp", "cfp", "x8", "c8"), ("a0", "ca0", "x10"), ("t6", "ct6", "c31")):
            self.assertEqual(len({REGISTERS[name] for name in names}), 1)
        self.assertFalse({"czero", "cx5", "x32", "A0", "null"} & set(REGISTERS))

    def test_decode(self):
        """Every row of docs/PROGRAMMING.md is another, and each word comes back."""
        drawn, rows = random.Random(3), set()
        for mask, value, form, _ in support.encodings():
            for _ in range(50):
                word = value | drawn.getrandbits(32) & ~mask
                insn = decode(word)
                self.assertEqual(encode(insn), word)
            rows.add(insn.row)
            fields = insn.rd, insn.rs1, insn.rs2
            given = {"Upper": 4, "Jump": 4, "Immediate": 6, "Unsigned": 6, "Store": 3, "Branch": 3, "Shift6": 6, "Shift5": 6, "Register": 7,
                     "Whole": 0, "Unary": 6, "Pair": 3}[form]
            self.assertEqual(fields, tuple((word >> at & 31) * (given >> bit & 1) for at, bit in ((7, 2), (15, 1), (20, 0))))
        self.assertEqual(rows, set(range(133)))
        self.assertEqual([decode(word) for word in (0, 0xFFFFFFFF, 0xFC00005B)], [None] * 3)
        self.assertEqual(decode(0xFE000FE3).imm, (1 << 64) - 2)  # beq zero, zero, .-2
        self.assertEqual([encode(Insn(133)), encode(Insn(insn.row, rd=32))], [None, None])
        self.assertRaises(OutOfRange, encode, Insn(0, rd=-1))

    def test_disassemble(self):
        self.assertEqual(disassemble(0x22B5055B), "cincoffset ca0, ca0, a1")
        self.assertEqual([disassemble(0x00850503, mode) for mode in (False, True)], ["lb a0, 8(a0)", "clb a0, 8(ca0)"])
        self.assertEqual(disassemble(0), ".word 0x00000000")
        self.assertRaises(OutOfRange, disassemble, -1)


if __name__ == "__main__":
    unittest.main()
