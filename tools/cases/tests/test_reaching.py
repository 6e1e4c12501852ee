"""The texts of what is reachable after programs, by hand."""

import unittest

from cases.reaching import answered, bounded, cap, narrowed, place_name, text
from model.capabilities import capability
from model.devices import RAM
from model.reach import GRANULE
from model.tests.begun import root
from model.texts import machine_of


class Texts(unittest.TestCase):
    """How members and answers are shown."""

    def test_root_has_every_letter(self):
        self.assertEqual(text(root(RAM)), "GXRWcCLsiuSd v:1 a:0000000080000000 b:0000000000000000 t:10000000000000000 p:78fff f:0 o:3ffff")

    def test_each_permission_has_its_letter(self):
        shown = [text(capability(0, 1, 0, 1 << bit))[:12].strip("-") for bit in range(16)]
        self.assertEqual(shown, [*"GXRWcCLsiuSd", "", "", "", ""])

    def test_a_granule_has_the_nearest_label_below_it(self):
        labels = [(RAM + 16, "b"), (RAM, "a"), (RAM + 16, "c"), (RAM + 8192, "d")]
        shown = [place_name((GRANULE, RAM + place), labels).partition(" ")[2] for place in (-16, 0, 16, 32, 4096, 4111, 4112, 8192)]
        self.assertEqual(shown, ["", "<a>", "<b>", "<b+16>", "<b+4080>", "<b+4095>", "", "<d>"])

    def test_an_answer_has_the_chain_from_a_register(self):
        program, steps = narrowed(*bounded("ca3", 0x100, 16, 0x15), keep=("ca3",), data=[cap(0x10000000, 1, 0x8)])
        machine = machine_of(program, steps)
        held = "---W-------- v:1 a:0000000010000000 b:0000000010000000 t:00000000010000001 p:00008 f:0 o:3ffff"
        self.assertEqual(answered(machine, "may send"), [f"yes: ca3 -> 0000000080000100 {held}"])
        self.assertEqual(answered(machine, "may store table 4096", [(0x10000000, "table"), (0x80000100, "entry")]),
                         [f"yes: ca3 -> 0000000080000100 <entry> {held}"])
        self.assertEqual(answered(machine, "may halt"), ["no, until the next trap, unsealing or sealed jump"])
        self.assertEqual(answered(machine, "may halt through doors"), ["no, until the next trap or unsealing"])
        self.assertEqual(answered(machine, "reach members")[3], f"3 0000000080000100 from 1 {held}")

    def test_a_summary_has_counts_ranges_registers_types_and_what_is_sealed(self):
        program, steps = narrowed("csealentry ca2, ca0", *bounded("ca3", 0x100, 32, 0x15), keep=("ca2", "ca3"),
                                  data=[cap(0x10000000, 1, 0x8), cap(1, 2, 0x80)])
        machine = machine_of(program, steps)
        self.assertEqual(answered(machine, "reach", [(0x80000000, "start")]), [
            "members 6: registers 4, special registers 0, memory 2, sealed 1",
            "load 0000000080000000 <start> to 00000000080000120",
            "load capabilities 0000000080000100 <start+256> to 00000000080000120",
            "store 0000000010000000 to 00000000010000001",
            "execute 0000000080000000 <start> to 00000000080000100",
            "device transmit -W",
            "system registers no",
            "seal 00001 to 00003",
            "unseal none",
            "1 ca2 GXRWcCLsiuSd v:1 a:0000000080000000 b:0000000000000000 t:10000000000000000 p:78fff f:0 o:3fffe",
        ])

    def test_through_doors_a_place_is_that_of_what_is_sealed(self):
        program, steps = narrowed(*bounded("ca3", 0x100, 16, 0x17), "csealentry ca3, ca3", keep=("ca3",), data=[cap(0x10000000, 1, 0x8)])
        machine = machine_of(program, steps)
        held = "---W-------- v:1 a:0000000010000000 b:0000000010000000 t:00000000010000001 p:00008 f:0 o:3ffff"
        self.assertEqual(answered(machine, "may send through doors"), [f"yes: behind ca3 -> 0000000080000100 {held}"])
        self.assertEqual(answered(machine, "may send"), ["no, until the next trap, unsealing or sealed jump"])
        self.assertEqual(answered(machine, "reach doors")[0],
                         "members 5: registers 3, special registers 0, memory 1, behind doors 1, sealed 1")
