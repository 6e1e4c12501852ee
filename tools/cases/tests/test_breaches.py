"""The kernel with its compartments: step by step, and what the policy says of each case."""

import unittest

from cases.breaches import CALLED, FILLED, HONEST, LENT, PLANTED, UNCALLED, lines
from model import reach
from model.devices import RAM
from model.texts import machine_of
from trying.paths import KERNEL


class Compartments(unittest.TestCase):
    """The kernel with its compartments."""

    def test_the_example_sends_what_its_page_says_and_halts(self):
        with open(KERNEL, encoding="utf-8") as text:
            machine = machine_of(text.read())
        counts, steps = {}, 0
        while machine.halted is None:
            if steps in (0, 181, 192, 196, 289):
                counts[machine.pc] = len(reach.members(machine.state()))
            machine.step()
            steps += 1
        self.assertEqual((machine.devices.sent, machine.halted, steps), (b"cabbb", 0, 1089))
        # root, A as it begins, B's door, the kernel, and A's door
        self.assertEqual(counts, {RAM: 4, RAM + 0x5000: 6, RAM + 0x3004: 6, RAM + 0x1000: 28, RAM + 0x5004: 6})

    def test_the_policy_lets_them_run_and_refuses_each_mistake(self):
        statuses = dict(line.split(" => ") for line in lines() if not line.startswith("#"))
        for given, status in ((HONEST, "0"), (PLANTED, "1"), (FILLED[:1], "0"), (FILLED[1:], "1"), (LENT, "1"), (CALLED, "0"),
                              (UNCALLED, "1")):
            self.assertEqual([statuses[inputs][0] for inputs in given], [status] * len(given))
