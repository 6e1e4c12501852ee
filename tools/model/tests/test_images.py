"""Image files, byte by byte."""

import unittest

from model.images import (END, FIRST, GRANTED, LAST_END, MOST_END, NEXT_END, NO_SECTION, ONE_CAPABILITY, ONE_INSN, ROOT, TWO, file_v2,
                          granted, header, patched, section)


class Images(unittest.TestCase):
    """The files that cases of images begin with, byte by byte."""

    def test_the_image_that_sends_a_letter(self):
        header = "4348455249494d47" "01000000" "01000000" "0000008000000000" "01000000" "00000000"
        section = "0000008000000000" "1400000000000000" "b7050010" "13051004" "2380a500" "b7051000" "23b00500"
        self.assertEqual(FIRST.hex(), header + section)

    def test_an_image_of_one_instruction_has_52_bytes(self):
        self.assertEqual((len(ONE_INSN), ONE_INSN[-4:]), (52, (0x22B5055B).to_bytes(4, "little")))

    def test_an_image_of_one_capability(self):
        header = "4348455249494d47" "02000000" "01000000" "0000008000000000" "00000000" "01000000"
        entry = "01000000" "0001008000000000" "0010008000000000" "ff0f000000000000" "ffff0000" "00000000"
        self.assertEqual(ONE_CAPABILITY.hex(), header + entry)

    def test_parts_of_the_first_version_make_these_files(self):
        self.assertEqual(header(1, 0x80000000, 1, 0) + section(0x80000000, FIRST[48:]), FIRST)
        self.assertEqual(header(1, 0x80000000, 1, 0) + section(0x80000000, bytes([0x5B, 0x05, 0xB5, 0x22])), ONE_INSN)
        self.assertEqual(header(4096, 0x80FFFFFC, 0, 0), NO_SECTION)
        two = section(0x80000010, bytes([1, 2, 3, 4])) + section(0x80000014, bytes([5, 6, 7, 8]))
        self.assertEqual(header(2, 0x80000004, 2, 1) + two, TWO)

    def test_parts_of_the_second_version_make_these_files(self):
        self.assertEqual(file_v2(1, 0x80000000, 1, [granted()]), ONE_CAPABILITY)
        self.assertEqual((granted(), granted(0x80000000, 1, 2, 3, 1)), (GRANTED, (0x80000000, 1, 2, 3, 1)))
        more = file_v2(2, 0x80000004, 1, [(0x80000020, 0, 16, 5, 1), GRANTED], [(0x80000010, bytes([7]))])
        front = "4348455249494d47" "02000000" "02000000" "0400008000000000" "01000000" "01000000"
        one = "1000008000000000" "0100000000000000" "07" "02000000"
        entry = "2000008000000000" "0000000000000000" "1000000000000000" "05000000" "01000000"
        self.assertEqual(more.hex(), front + one + entry + ONE_CAPABILITY[36:].hex())

    def test_ram_ends_after_its_pages(self):
        self.assertEqual((END, LAST_END, MOST_END, NEXT_END), (0x80001000, 0x81000000, 0x90000000, 0x81001000))

    def test_root_has_every_permission_in_memory(self):
        self.assertEqual(ROOT.hex(), "0000000000000000" "000000000000ffff")

    def test_a_patch_changes_its_bytes_alone(self):
        self.assertEqual(patched(bytes([1, 2, 3]), {1: 9}), bytes([1, 9, 3]))
