"""Recorded runs: what is taken back, what events wrote, and examples' replies."""

import unittest

from cases import pasts
from model import recorded
from model.devices import RAM
from model.names import SCRS
from model.origins import GRANULE, PCC, REGISTER, SPECIAL, WAYS, conditions, held
from model.pasts import Past
from model.schedules import Schedule
from model.texts import machine_of
from trying.paths import below

EXAMPLES = ("window", "narrow", "copy")


def example(name):
    with open(below("examples", name), encoding="utf-8") as file:
        return file.read()


class Sessions(unittest.TestCase):
    """What is taken back comes again."""

    def test_back_by_all_and_the_same_again_is_the_same(self):
        text = "cspecialrw ca0, ddc, cnull; addi a1, zero, 64; csetbounds ca0, ca0, a1; csetaddr ca0, ca0, a1; nop; nop; nop; nop"
        for schedule in (None, (2, 3, b"AB"), (1, 1, b"ABC")):
            past = Past(text, schedule and Schedule(*schedule))
            told = past.answers(["step 3", "changed ca0 9", "step 2", "origin ca0", "lost ca0", "ago"])
            count = past.count
            for back in range(1, count + 1):
                past.answers([f"back {back}", f"changed zero {back}"])
                self.assertEqual(past.count, count)
            past.answer(f"back {count}")
            self.assertEqual(past.answers(["step 3", "changed ca0 9", "step 2", "origin ca0", "lost ca0", "ago"]), told)


    def test_back_to_stop_goes_to_where_go_stopped(self):
        for schedule in (None, (2, 3, b"AB"), (1, 1, b"ABCDEFGHIJKLMNOP"), (3, 2, b"")):
            for stops in (["at 0x80000010"], ["at 0x80000010", "at 0x80000018"], ["trap"], ["trap", "at 0x80000014"]):
                past, places = Past(pasts.CALLS, schedule and Schedule(*schedule)), []
                past.answers([f"stop {stop}" for stop in stops])
                for _ in range(5):
                    past.answer("go")
                    places.append(past.count)
                past.answer("step 1")
                for place in reversed(places):
                    past.answer("back to stop")
                    self.assertEqual(past.count, place, f"{schedule} {stops}")
                self.assertEqual((past.answer("back to stop"), past.count), ("fault B2\n", places[0]))


class Writes(unittest.TestCase):
    """What events of the texts of all cases, and of the examples, wrote."""

    PLACES = [*((REGISTER, n) for n in range(32)), *((SPECIAL, name) for name in SCRS)]

    def events(self):
        for text in [*dict.fromkeys(text for _, text, _ in pasts.conversations()), *(example(f"{name}.s") for name in EXAMPLES)]:
            machine = machine_of(text)
            yield from ((text, recorded.event(machine)) for _ in range(60))

    def test_what_differs_was_written_and_a_tag_is_there_where_its_conditions_hold(self):
        ways = set()
        for text, (before, after, writes, line, _) in self.events():
            granules = {(GRANULE, RAM + at) for at in range(0, len(after.ram), 16)
                        if before.ram[at:at + 16] != after.ram[at:at + 16] or (RAM + at in before.tags) != (RAM + at in after.tags)}
            changed = {place for place in self.PLACES if held(before, place) != held(after, place)} | granules
            # a step moves PCC's address on
            if before.pcc[0::2] == after.pcc[0::2]:
                changed.discard(PCC)
            self.assertLessEqual(changed, set(writes), line)
            self.assertNotIn((REGISTER, 0), writes)
            for place, making in writes.items():
                ways.add(making.way)
                told = list(conditions(making, before))
                self.assertEqual(all(holds for _, holds in told), held(after, place)[2], f"{text}: {line}")
        self.assertEqual(ways, set(WAYS))


class Examples(unittest.TestCase):
    """Sessions of examples."""

    def test_replies_are_those_of_the_model(self):
        for name in EXAMPLES:
            past = Past(example(f"{name}.s"))
            self.assertEqual(past.answers(example(f"{name}.commands").splitlines()), example(f"{name}.replies"), name)

    def test_what_they_send(self):
        for name in EXAMPLES:
            past = Past(example(f"{name}.s"))
            self.assertRegex(past.answer("step 1000"), rf"^events 1000 out {example(f'{name}.out').encode().hex()} pc \w+ halted 0\n$")


if __name__ == "__main__":
    unittest.main()
