"""Random programs that are lent something without Global: what they leave in registers and RAM is what a model of the machine leaves that
shares nothing with it (tools/model/machine.py), and of the loan nothing is kept but where a capability with Store_Local_Capability lies.
And the compartments: when the kernel has cleared the registers, nothing of a loan is reachable."""
import unittest
from random import Random

import support  # where tools/ is found
from cherisim import Machine, Perms, Stop

from cases.policed import CALL, DATA, HALTS, program
from model import reach
from model.capabilities import has, perms
from model.rights import GLOBAL, LOAD, LOAD_CAPABILITY, STORE, STORE_CAPABILITY, STORE_LOCAL
from model.texts import Program
from trying.kernel import kernel_and_pieces

COUNT, STATEMENTS, MOST = 1500, 12, 80
OWN = GLOBAL | LOAD | STORE | LOAD_CAPABILITY | STORE_CAPABILITY
# What is held, by its register: the loan, data of the borrower's own, a stack where loans may be kept, data that takes numbers alone, and
# code to call; and the bytes of RAM that all of it lies in.
HELD = (("ca1", "loan", 64, OWN ^ GLOBAL), ("ca2", "own", 64, OWN), ("ca3", "stack", 48, OWN | STORE_LOCAL),
        ("ca4", "numbers", 32, LOAD | STORE), ("cs1", "code", 0x80, CALL))
LABELS = [f".org {DATA + 64:#x}", "loan: .zero 64", "own: .zero 64", "stack: .zero 64", "numbers: .zero 32"]
SPACE = range(DATA, DATA + 0x140)
NAMES = ("ca1", "ca2", "ca3", "ca4", "cs1", "cs2", "cs3", "ct3")


def statement(dice):
    """A statement over capabilities in the registers of `NAMES`; t3 holds the permissions that are left."""
    target, source, other = (dice.choice(NAMES) for _ in range(3))
    place = f"{16 * dice.randrange(-1, 5)}({source})"
    kinds = ((6, f"csc {other}, {place}"), (3, f"clc {target}, {place}"), (3, f"cmove {target}, {source}"),
             (2, f"csetboundsimm {target}, {source}, {dice.choice((16, 32))}"),
             (2, f"cincoffsetimm {target}, {source}, {16 * dice.randrange(-1, 3)}"), (1, f"candperm {target}, {source}, t3"),
             (1, f"addi t3, zero, {dice.choice((-2, 0x3f, 0x7d, 0x3d))}"), (1, f"ccleartag {target}, {source}"),
             (1, f"csealentry {target}, cs1"), (1, f"csd zero, {place}"))
    return dice.choices([text for _, text in kinds], [weight for weight, _ in kinds])[0]


def drawn(dice):
    """A random program, which ends with an ECALL if it comes so far."""
    return program(HALTS, *HELD, then=[*(statement(dice) for _ in range(STATEMENTS)), "ecall"], data=LABELS)


def modelled(text):
    """The model's machine after the trap, and its state where the code begins that is lent to."""
    made = Program(text)
    machine, begun = made.machine(), None
    for _ in range(MOST):
        if begun is None and machine.pc == made.labels["code"]:
            begun = machine.state()
        if machine.step().trap:
            return machine, begun
    raise AssertionError("no trap")


def word_of(cap):
    return cap.upper, cap.address, cap.tag


def held_in(state):
    """The tagged granules of a state, and what they hold."""
    return {place: state.granule(place) for place in sorted(state.tags)}


class Lent(unittest.TestCase):
    def test_what_a_borrower_leaves_is_what_the_model_leaves(self):
        dice = Random(81)
        for number in range(COUNT):
            text = drawn(dice)
            machine, begun = modelled(text)
            with self.subTest(number=number, text=text):
                self.compare(machine, text)
                self.kept(machine, begun)

    def compare(self, model, text):
        machine = Machine(text=text)
        machine.run(MOST, until=0)
        self.assertEqual([word_of(machine.regs[n]) for n in range(32)], [tuple(value) for value in model.registers])
        for name in ("ddc", "mepcc"):
            self.assertEqual(word_of(machine.scrs[name]), tuple(model.special[name]))
        self.assertEqual((machine.csrs["mcause"], machine.csrs["mtval"]), (model.csrs["mcause"], model.csrs["mtval"]))
        self.assertEqual(machine.mem[SPACE.start:SPACE.stop], model.memory.read(SPACE.start, len(SPACE)))
        self.assertEqual([place for place in machine.tags() if place in SPACE],
                         sorted(place for place in model.memory.tags if place in SPACE))

    def kept(self, model, begun):
        """Each granule that holds something without Global that it didn't hold lies where a member may keep it."""
        before, members = held_in(begun), [member.value for member in reach.members(begun)]
        for place, value in held_in(model.state()).items():
            if not has(value, GLOBAL) and before.get(place) != value:
                self.assertTrue(any(reach.keeps(member, place, 16) for member in members), f"{place:x}")
            elif before.get(place) != value:
                self.assertTrue(any(has(member, GLOBAL) and perms(value) & ~perms(member) == 0 for member in members), f"{place:x}")

    def test_what_a_lends_b_is_cleared_when_the_kernel_returns(self):
        kernel, pieces = kernel_and_pieces()
        names = ("b-start", "b-keeper", "a-start", "a-lend", "a-not-global", "a-call", "a-lent")
        machine = Machine(text="".join([kernel, *(pieces[name] for name in names)]))

        def lent():
            return [member.value for member in machine.reach(doors=True) if not member.value.perms & Perms.Global]
        self.assertEqual(machine.run(1000, until="b_door").stop, Stop.ADDRESS)
        loan, = lent()
        self.assertEqual((loan.base, loan.length), (machine.symbols["a_data"], 8))
        # B's store of it traps; what goes on at last is B, whose code begins on a page of its own.
        self.assertEqual(machine.run(10, until=Stop.TRAP).stop, Stop.TRAP)
        trapped = machine.copy()
        trapped.step()
        self.assertIn(loan, trapped.regs.values())
        self.assertEqual(machine.run(10000, until="b_code").stop, Stop.ADDRESS)
        self.assertEqual(lent(), [])


if __name__ == "__main__":
    unittest.main()
