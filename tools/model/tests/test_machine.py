"""The model machine beside what is worked by hand: rows of programs, the order of faults, traps and interrupts, devices, stretches."""

import unittest

from model.capabilities import capability, with_fields
from model.devices import CONTROL, RAM
from model.faults import CHERI, EXTERNAL_INTERRUPT, TIMER_INTERRUPT
from model.machine import NULL, SEALED_JUMP, TRAP, UNSEAL, Machine
from model.rights import SENTRY
from model.tests.begun import root
from model.texts import machine_of

A0, A1, RA, T6 = 10, 11, 1, 31


def done(text):
    """The machine of statements after a step for each."""
    return machine_of(text, len(text.split("; ")))


def fault(text):
    """The trap of the last of statements, and its machine."""
    machine = machine_of(text, len(text.split("; ")) - 1)
    return machine.step().trap, machine


# ca0 is root at 0x80000100, and ca1 its capability of 16 bytes.
BOUNDED = ("auipc t0, 0x0; addi t0, t0, 256; cspecialrw ca0, ddc, cnull; csetaddr ca0, ca0, t0; csetboundsimm ca1, ca0, 16")
# A sealed pair of types 5 and {}: code in ca0, data in ca1.
PAIR = (BOUNDED + "; addi t1, zero, 5; csetaddr ct1, ca0, t1; cincoffsetimm ct2, ct1, {}; addi t3, zero, 0x105; candperm ca1, ca1, t3; "
        "cseal ca0, ca0, ct1; cseal ca1, ca1, ct2; cinvoke ca0, ca1")


class Rows(unittest.TestCase):
    """What statements leave."""

    def test_a_machine_begins_with_root_in_four_places(self):
        machine = Machine()
        self.assertEqual(machine.special, {"pcc": root(RAM), "ddc": root(0), "mtcc": root(0), "mtdc": NULL, "mscratchc": NULL,
                                           "mepcc": root(0)})
        self.assertEqual((machine.registers, machine.memory.tags, machine.csr("mstatus")), ([NULL] * 32, set(), 0x1800))

    def test_the_first_image_sends_a_letter_and_halts(self):
        machine = done("lui a1, 0x10000; addi a0, zero, 65; sb a0, 0(a1); lui a1, 0x100; sd zero, 0(a1)")
        for _ in range(2):
            self.assertEqual((machine.devices.sent, machine.halted, machine.csr("minstret"), machine.pc), (b"A", 0, 5, RAM + 20))
            machine.step()

    def test_a_byte_stored_over_a_capability_takes_its_tag(self):
        machine = done(BOUNDED + "; sc.cap ca1, (ca0); lc.cap ca2, (ca0); addi t1, zero, 65; sb t1, 3(t0); lc.cap ca3, (ca0)")
        self.assertEqual((machine.registers[12], machine.memory.tags), (capability(RAM + 256, RAM + 272, RAM + 256), set()))
        self.assertEqual(machine.registers[13], (machine.registers[12][0], 0x41000100, False))

    def test_a_jump_leaves_a_sentry_as_link(self):
        machine = done("cspecialrw ca0, pcc, cnull; addi a1, zero, 1; csetflags ca0, ca0, a1; cincoffsetimm ca0, ca0, 20; "
                       "jalr.cap cra, ca0")
        self.assertEqual(machine.registers[RA], with_fields(root(RAM + 20), otype=SENTRY))
        self.assertEqual(machine.special["pcc"], with_fields(root(RAM + 20), flag=1))

    def test_a_word_that_is_stored_is_the_next_instruction(self):
        machine = done("auipc s1, 0x0; lw t0, 16(s1); sw t0, 12(s1); addi a0, a0, 1; addi a0, a0, 2")
        self.assertEqual(machine.registers[A0], (NULL[0], 4, False))

    def test_ram_holds_the_capabilities_of_a_text(self):
        machine = machine_of(".pages 2; nop; .org 0x80001000; .cap 0x80000100, 64, 0x15, 1; .cap 0, 0, 0, 0")
        self.assertEqual((machine.memory.tags, len(machine.memory.ram)), ({RAM + 0x1000, RAM + 0x1010}, 8192))
        self.assertEqual(machine.memory.value(RAM + 0x1000), capability(RAM + 256, RAM + 320, RAM + 256, 0x15, 1))

    def test_counters_leave_each_other_where_they_are_written(self):
        machine = done("addi a0, zero, -1; csrrw a1, mcycle, a0; csrrs a2, mcycle, zero; csrrw zero, minstret, a0")
        self.assertEqual((machine.registers[12][1], machine.csr("mcycle"), machine.csr("minstret")), (2**64 - 1, 1, 2**64 - 1))


class Faults(unittest.TestCase):
    """Traps, each the first condition that is false."""

    def test_an_empty_default_capability_forbids_loads_in_integer_mode(self):
        trap, machine = fault(BOUNDED + "; csetbounds ca2, ca0, zero; cspecialrw cnull, ddc, ca2; lw a0, 0(t0)")
        self.assertEqual((trap, machine.csr("mcause"), machine.csr("mtval"), machine.pc), ((CHERI, 0x421), CHERI, 0x421, 0))
        self.assertEqual((machine.registers[A0], machine.special["mepcc"]), (root(RAM + 256), root(RAM + 28)))

    def test_an_invocation_needs_one_type(self):
        self.assertEqual(fault(PAIR.format(1))[0], (CHERI, 0x144))
        self.assertEqual(fault(BOUNDED + "; ccleartag ca0, ca0; ccleartag ca1, ca1; cinvoke ca0, ca1")[0], (CHERI, 0x142))
        machine = done(PAIR.format(0))
        self.assertEqual((machine.special["pcc"], machine.registers[T6]),
                         (root(RAM + 256), capability(RAM + 256, RAM + 272, RAM + 256, 0x105)))

    def test_a_sentry_is_entered_at_no_offset_alone(self):
        begun = ".mode 1; cspecialrw ca0, pcc, cnull; csealentry ca0, ca0; cjalr cra, {}(ca0)"
        machine = machine_of(begun.format(4), 2)
        self.assertEqual(machine.step().trap, (CHERI, 0x143))
        machine = machine_of(begun.format(0), 3)
        self.assertEqual(machine.special["pcc"], with_fields(root(RAM), flag=1))

    def test_system_registers_need_access_where_there_are_such(self):
        begun = ("cspecialrw ca0, pcc, cnull; cincoffsetimm ca0, ca0, 20; addi a1, zero, -1025; candperm ca0, ca0, a1; "
                 "jalr.cap cnull, ca0; ")
        for statement, trap in (("csrrs a0, mscratch, zero", (CHERI, 0x418)), ("cspecialrw ca0, mtcc, cnull", (CHERI, 0x798)),
                                ("csrrs a0, 0x7c0, zero", (2, 0x7C002573)), ("csrrw a0, mvendorid, zero", (2, 0xF1101573)),
                                ("cspecialrw ca0, 2, cnull", (2, 0x0220055B)), ("mret", (CHERI, 0x418)),
                                ("cspecialrw ca0, ddc, cnull", None)):
            self.assertEqual(fault(begun + statement)[0], trap, statement)

    def test_branches_stay_in_pcc(self):
        narrowed = "cspecialrw ca0, pcc, cnull; csetboundsimm ca0, ca0, 24; cincoffsetimm ca0, ca0, 16; jalr.cap cnull, ca0; "
        self.assertEqual(fault(narrowed + "nop; beq zero, zero, .+8")[0], (CHERI, 0x401))
        self.assertEqual(fault(narrowed + "nop; nop; nop")[0], (CHERI, 0x401))
        self.assertEqual(fault("beq zero, zero, .+2")[0], (0, RAM + 2))

    def test_the_map_comes_after_the_alignment(self):
        for statement, trap in (("sd zero, 4(zero)", (6, 4)), ("sb zero, 0(zero)", (7, 0)), ("ld a0, 0(zero)", (5, 0)),
                                ("lc ca0, 8(zero)", (4, 8)), (".word 0", (2, 0)), ("ecall", (11, 0)), ("ebreak", (3, RAM))):
            self.assertEqual(fault(statement)[0], trap, statement)


class Interrupts(unittest.TestCase):
    """The console's interrupt before the timer's, and the entries of both."""

    HANDLER = RAM + 0x100

    def prepared(self, low=0):
        """Interrupts are on, mtimecmp is 2, and the handler takes a byte."""
        machine = machine_of(f"nop; nop; .org {self.HANDLER:#x}; ld a0, 0(a1); mret")
        machine.csrs |= {"mstatus": 0x1808, "mie": 0x880}
        machine.devices.mtimecmp, machine.devices.control = 2, 1
        machine.special["mtcc"] = root(self.HANDLER + low)
        machine.registers[A1] = (NULL[0], 0x10000008, False)
        return machine

    def seen(self, machine):
        return machine.csr("mcause"), machine.pc, machine.csr("mstatus"), machine.csr("mip")

    def test_they_are_taken_in_order(self):
        machine = self.prepared()
        machine.byte(0x41)
        machine.tick()
        machine.tick()
        machine.step()
        self.assertEqual(self.seen(machine), (EXTERNAL_INTERRUPT, self.HANDLER, 0x1880, 0x880))
        machine.step()
        machine.step()
        self.assertEqual((machine.registers[A0][1], *self.seen(machine)), (0x41, EXTERNAL_INTERRUPT, RAM, 0x1888, 0x80))
        self.assertEqual(machine.step().trap, (TIMER_INTERRUPT, 0))

    def test_they_have_entries_of_their_own_where_the_low_bits_are_one(self):
        for event, place in (("byte", 0x12C), ("tick", 0x11C)):
            machine = self.prepared(low=1)
            machine.devices.mtimecmp = 1
            machine.byte(1) if event == "byte" else machine.tick()
            machine.step()
            self.assertEqual((machine.pc, machine.csr("mtvec")), (RAM + place, self.HANDLER + 1))


class Devices(unittest.TestCase):
    """The console's queue."""

    def test_the_byte_after_the_64th_is_lost(self):
        machine = machine_of("lui a1, 0x10000; ld a0, 16(a1); addi a2, zero, 2; sd a2, 16(a1); ld a3, 16(a1)")
        for byte in range(65):
            machine.byte(byte)
        for _ in range(5):
            machine.step()
        self.assertEqual((machine.devices.queue, machine.registers[A0][1], machine.registers[13][1]), (bytearray(range(64)), 3, 1))
        self.assertIsNone(machine.devices.load(CONTROL, 4))


class Stretches(unittest.TestCase):
    """Why steps end a stretch."""

    def test_calls_unsealings_and_traps_do(self):
        begun = "cspecialrw ca0, pcc, cnull; cincoffsetimm ca0, ca0, 12; csealentry ca0, ca0; "
        unseals = BOUNDED + "; addi t1, zero, 5; csetaddr ct1, ca0, t1; cseal ca1, ca1, ct1; {}cunseal ca2, ca1, ct1"
        for text, why in ((PAIR.format(0), SEALED_JUMP), (PAIR.format(1), TRAP), (begun + "jalr.cap cra, ca0", SEALED_JUMP),
                          (begun + "cspecialrw cnull, mepcc, ca0; mret", SEALED_JUMP), (begun + "mret", None), ("jal ra, .+8", None),
                          (unseals.format(""), UNSEAL), (unseals.format("cincoffsetimm ct1, ct1, 1; "), None)):
            machine = machine_of(text, len(text.split("; ")) - 1)
            before = machine.state()
            self.assertEqual((machine.next_ends(), machine.state(), machine.step().why), (why, before, why), text)


if __name__ == "__main__":
    unittest.main()
