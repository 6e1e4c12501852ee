"""What code can come to hold, and what it may do: the compartments of examples/ against tools/model/reach.py, and worked rows."""
import copy
import unittest
from unittest import mock

from support import read
import cherisim
from cherisim import REGISTERS, SENTRY, UNSEALED, Cap, Closed, Door, Machine, OutOfRange, Perms, Reach, ReachMember
from model import reach as model

# The steps of the compartments after which they are looked at, and how many members there are: as the machine begins, where A and B run
# and in the kernel.
MEMBERS = {0: 4, 181: 6, 192: 6, 196: 28, 289: 6}
SPECIALS = ["mtcc", "mtdc", "mscratchc", "mepcc"]
ROOMS = [(0, 1), (0, (1 << 64) - 1), (0x80004000, 4096), (0x80005FFF, 1), (0x80006000, 8), (0x80006FFF, 2), (0x10000000, 8),
         ((1 << 64) - 1, (1 << 64) - 1)]


def compartments():
    """The states of a run, with their steps."""
    machine, done = Machine(text=read("examples", "compartments.s")), 0
    for steps in MEMBERS:
        machine.step(steps - done)
        done = steps
        yield steps, machine


def state(machine):
    """A machine's state as the model sees it."""
    def value(cap):
        return cap.upper, cap.address, cap.tag

    registers, special = map(value, machine.regs.values()), {name: value(cap) for name, cap in machine.scrs.items()}
    return model.State([*registers], special["pcc"], special["ddc"], [special[name] for name in SPECIALS], machine.mem[:],
                       frozenset(machine.tags()))


def named(machine, found, doors=()):
    """The model's members as the module gives them."""
    names = {model.ROOT: [*machine.regs, "pcc", "ddc"], model.SPECIAL: SPECIALS, model.DOOR: doors}
    return [ReachMember(number, Cap(value[1], value[0], value[2]), names[kind][n] if kind in names else n, source)
            for number, (value, (kind, n), source) in enumerate(found)]


class AgainstTheModel(unittest.TestCase):
    def test_members_and_chains(self):
        for steps, machine in compartments():
            found, reach = model.members(state(machine)), machine.reach()
            self.assertEqual((len(reach), list(reach)), (MEMBERS[steps], named(machine, found)), steps)
            self.assertEqual([reach.chain(n) for n in range(len(reach))], [model.chain(found, n) for n in range(len(found))])

    def test_doors(self):
        """Each door has a key that opens it, the first but where it is its own."""
        most = 0
        for steps, machine in compartments():
            (found, places), reach = model.through_doors(state(machine)), machine.reach(doors=True)
            numbers, doors = {member.place: number for number, member in enumerate(found)}, []
            for place in places:
                sealed = found[numbers[place]].value
                keys = [n for n, member in enumerate(found) if model.is_key(member.value, sealed)]
                doors.append(Door(numbers[place], numbers[place] if numbers[place] in keys else keys[0]))
            self.assertEqual(list(reach), named(machine, found, doors), steps)
            self.assertEqual([reach.chain(n) for n in range(len(reach))], [model.chain(found, n) for n in range(len(found))])
            most = max(most, len(doors))
        self.assertGreater(most, 3)

    def test_answers(self):
        for steps, machine in compartments():
            self.answers(steps, machine, model.members(state(machine)), False)
            self.answers(steps, machine, model.through_doors(state(machine))[0], True)

    def answers(self, steps, machine, found, doors):
        """Each question, of these members."""
        seen = 0
        asked = [*((what, *room) for what in ("store", "load", "execute", "learn", "keep") for room in ROOMS),
                 *((what,) for what in ("send", "halt", "system", "timer")),
                 *(("hold", otype) for otype in (0, 1, 2, 3, SENTRY, UNSEALED))]
        for what, *given in asked:
            first, answer = model.first(found, what, *given), getattr(machine, f"may_{what}")(*given, doors=doors)
            self.assertEqual(None if answer is None else answer.member, first, (steps, what, given, doors))
            if answer:
                seen += 1
                self.assertEqual([member.number for member in answer.way], model.chain(found, first))
        self.assertTrue(0 < seen)


class Worked(unittest.TestCase):
    def at(self, steps):
        return next(machine for done, machine in compartments() if done == steps)

    def test_a_compartment(self):
        machine = self.at(181)
        reach = machine.reach()
        self.assertEqual([member.where for member in reach], ["cgp", "cs0", "cs1", "cs2", "cs3", "pcc"])
        self.assertEqual([member.value for member in reach[:5]], [machine.regs[member.where] for member in reach[:5]])
        self.assertEqual((reach[0].value.base, reach[0].value.top, reach[1].value.otype), (0x80006000, 0x80007000, 2))
        self.assertEqual((reach[-1].number, reach[-1].from_, reach.chain(-1)), (5, None, [5]))
        self.assertEqual([machine.may_store(0x80004000, 4096), machine.may_learn(0x80004000, 4096), machine.may_send(),
                          machine.may_halt(), machine.may_system(), machine.may_timer(), machine.may_hold(3), machine.may_keep()], [None] * 8)
        self.assertEqual(machine.may_hold(2), (1, (reach[1],)))
        self.assertEqual((machine.may_store(0x80006000, 8).member, machine.may_execute(0x80005000, 4).member), (0, 5))

    def test_a_compartment_through_doors(self):
        """docs/REACH.md: A comes to B's data by B's door, and to no device."""
        machine = self.at(181)
        reach, answer = machine.reach(doors=True), machine.may_store(0x80004000, 4096, doors=True)
        self.assertEqual((answer.way[0].where, answer.way), (Door(2, 1), (reach[answer.member],)))
        self.assertEqual((reach[2].where, answer.way[0].value.base, answer.way[0].value.sealed), ("cs1", 0x80004000, False))
        self.assertEqual([machine.may_send(doors=True), machine.may_keep(doors=True)], [None, None])
        self.assertIn("behind 2", reach._repr_html_())

    def test_the_kernel(self):
        answer = self.at(196).may_send()
        self.assertEqual([member.where for member in answer.way], ["pcc", "mtdc", 0x80002000])
        self.assertEqual((answer.way[-1].number, answer.way[-1].value.base), (answer.member, 0x10000000))
        self.assertIn(self.at(196).may_keep().way[-1].value.base, (0x80002040, 0x80002260))

    def test_a_program_that_gives_up_root(self):
        machine = Machine(text="nop\n")
        machine.scrs["ddc"] = 0
        machine.scrs["pcc"] = machine.scrs["pcc"].and_perms(Perms.Execute)
        self.assertEqual([(member.where, member.value.perms) for member in machine.reach()], [("pcc", Perms.Execute)])
        self.assertIsNone(machine.may_system())
        machine.regs["t6"] = Cap.make(0x10000000, 0x10000001, perms=Perms.Store)
        self.assertEqual((machine.may_send().way[0].where, machine.may_halt()), ("ct6", None))
        for name in REGISTERS:
            machine.regs[name] = 0
        machine.scrs["pcc"] = machine.scrs["pcc"].clear_tag()
        self.assertEqual((len(machine.reach()), machine.may_execute(0, (1 << 64) - 1)), (0, None))


class Forms(unittest.TestCase):
    def test_reach_is_a_sequence(self):
        reach = Machine(text="nop\n").reach()
        self.assertEqual((reach, len({reach, copy.copy(reach)}), repr(reach)), (Reach(list(reach)), 1, "<Reach of 4 members>"))
        self.assertEqual((reach[1:3], reach[3] in reach), ((reach[1], reach[2]), True))
        self.assertEqual([member.where for member in reach], ["pcc", "ddc", "mtcc", "mepcc"])
        self.assertRaises(IndexError, reach.chain, 4)

    def test_few_rooms(self):
        for rooms in (0, 1, 3, 4):
            with mock.patch.dict(cherisim._ROOM, reach=rooms):
                self.assertEqual(len(Machine(text="nop\n").reach()), 4)
                self.assertEqual(len(Machine(text="nop\n").reach(doors=True)), 4)

    def test_operands_out_of_range(self):
        machine = Machine(text="nop\n")
        for call in (machine.may_store, machine.may_load, machine.may_execute, machine.may_learn, machine.may_keep):
            for given in ((-1, 1), (1 << 64, 1), (0, 0), (0, -1), (0, 1 << 64)):
                self.assertRaises(OutOfRange, call, *given)
        for otype in (-1, 1 << 18):
            self.assertRaises(OutOfRange, machine.may_hold, otype)

    def test_a_closed_machine(self):
        machine = Machine(text="nop\n")
        machine.close()
        self.assertRaises(Closed, machine.reach)
        self.assertRaises(Closed, machine.may_send)


if __name__ == "__main__":
    unittest.main()
