"""A machine that remembers: its `origin` and `lost` beside those of `Replay`, as values and as texts, and `back` beside a machine that was
run anew."""
import random
import unittest

from support import PAGE, RAM, read
from test_debugger import program
from cherisim import SCRS, Machine, OutOfRange, Pastless, Remembered, Replay, Schedule, Stop
from cherisim._monitor import Monitor
from cherisim._names import _SHOWN

STEPS = 250  # that are done of each program
EXAMPLES = {"window": Schedule(), "copy": Schedule(), "narrow": Schedule(), "sealed": Schedule(), "compartments": Schedule(tick=7),
            "echo": Schedule(read("examples", "echo.in"), 20, 3)}
RANDOM = 6   # how many random programs


def run_on(machine, steps, schedule):
    """A run by a schedule, and the byte before the next step, as a replay gives it."""
    machine.run(steps, tick=schedule.tick, input=schedule.input, gap=schedule.gap)
    at, apart = divmod(steps, schedule.gap)
    if not apart and at < len(schedule.input) and machine.halted is None:
        machine.receive(schedule.input[at:at + 1])


class Asked(unittest.TestCase):
    def compare(self, made, schedule):
        """All registers, special registers, tagged granules and some others."""
        machine, replay = made(True), Replay(made(False), schedule)
        run_on(machine, STEPS, schedule)
        replay.run(STEPS)
        monitor, number = Monitor(replay), replay.number
        self.assertEqual((machine.sent, machine.pc), (replay.machine.sent, replay.machine.pc))
        granules = {*machine.tags(), *range(RAM, RAM + len(machine.mem), PAGE // 2)}
        places = [*_SHOWN, *SCRS, *sorted(granules)[:8]]
        for place in places:
            word = hex(place) if isinstance(place, int) else place
            for asked, told, values in (("origin", machine.origin_text, machine.origin), ("lost", machine.lost_text, machine.lost)):
                self.assertEqual(told(place), monitor.answer(f"{asked} {word}"), f"{asked} {word}")
                self.assertEqual(values(place, None), [it._replace(step=number(it.step) if it.pc is not None else 0)
                                                       for it in getattr(replay, asked)(place)], f"{asked} {word}")

    def test_examples(self):
        for name, schedule in EXAMPLES.items():
            with self.subTest(name):
                self.compare(lambda past, text=read("examples", f"{name}.s"): Machine(text=text, past=past), schedule)

    def test_random_programs(self):
        drawn = random.Random(87)
        for number in range(RANDOM):
            with self.subTest(number):
                self.compare(lambda past, image=program(drawn), kept={}: Machine(kept.setdefault(0, image), past=past), Schedule(tick=3))

    def test_the_newest(self):
        """So many links at most; a chain that is longer than the room that is tried first."""
        machine = Machine(text="more: cincoffsetimm ca0, ca0, 1\nj more\n", past=True)
        machine.run(401)
        found = machine.origin("a0", None)
        self.assertEqual([it.step for it in found], [*range(401, 0, -2), 0])
        self.assertEqual((machine.origin("a0", 3), machine.origin("a0", 0), machine.origin("a0"), machine.lost("a0")),
                         (found[:3], [], found[:64], []))

    def test_places(self):
        machine = Machine(text=read("examples", "window.s"), past=True)
        machine.run(1000, Stop.TRAP)
        self.assertEqual([it[:4] for it in machine.lost("ca3")], [
            (45, RAM + 0xA8, "ca3", "ca3"), (43, RAM + 0xA0, "ca3", RAM + 0x190), (40, RAM + 0x64, RAM + 0x190, "ca1"),
            (39, RAM + 0x60, "ca1", "ca1")])
        self.assertEqual((machine.lost("kept"), machine.lost("ca3", 2), machine.events), ([], machine.lost("ca3")[:2], 45))
        for where in (RAM + 8, RAM - 16, RAM + PAGE * machine.pages, "nowhere", 1 << 64):
            self.assertRaises(OutOfRange, machine.origin, where)


class Back(unittest.TestCase):
    def same(self, one, other):
        def seen(it):
            return (it.sent, it.regs.values(), it.scrs.values(), it.csrs.values(), it.time, it.console, it.halted,
                    it.mem[RAM:RAM + len(it.mem)], [*it.tags()])

        self.assertEqual(seen(one), seen(other))

    def test_back(self):
        """Where a run on a schedule is taken back to, and what goes on from there, is as of a machine that never was further."""
        for name, schedule in EXAMPLES.items():
            machine = Machine(text=read("examples", f"{name}.s"), past=True)
            states = [machine.copy()]
            for step in range(120):
                run_on_one(machine, step, schedule)
                states.append(machine.copy())
            for step in (119, 118, 60, 61 - 1, 7, 1, 0):
                machine.back(machine.events - states[step].events)
                self.same(machine, states[step])
            machine.run(40)
            machine.back(40)
            self.same(machine, states[0])

    def test_sent(self):
        """What runs sent is taken back with their steps, also where one run sent and ticked."""
        text = read("examples", "hello.s")
        for tick in (0, 3):
            machine, beside = Machine(text=text, past=True), Machine(text=text)
            states = [beside.copy()]
            for steps in (12, 20):
                machine.run(steps, tick=tick)
                for step in range(steps):
                    beside.step()
                    states.append(beside.copy())
                    if tick and not (step + 1) % tick:
                        beside.tick()
                        states.append(beside.copy())
            self.assertEqual(machine.events, len(states) - 1)
            self.assertGreater(len(machine.sent), 3)
            for events in range(len(states)):
                taken = machine.copy()
                taken.back(events)
                self.same(taken, states[-1 - events])

    def test_changed(self):
        """Steps up to the one that changes a place, beside steps one at a time; what they send is kept, and they are noted."""
        for name in ("hello", "narrow", "window"):
            for where in ("a0", "ca1", "t0", "zero", "pcc", "mtcc", RAM + 0x110, RAM + 0x190):
                machine, beside = (Machine(text=read("examples", f"{name}.s"), past=True) for _ in range(2))
                for most in (0, 1, 5, 40, 100):
                    before, done = beside._held(where), 0
                    while done < most and beside._held(where) == before and beside.halted is None:
                        beside.step()
                        done += 1
                    self.assertEqual(machine.changed(where, most), done if beside._held(where) != before else None, (name, where, most))
                    self.same(machine, beside)
                    self.assertEqual(machine.events, beside.events)
        self.assertRaises(OutOfRange, machine.changed, RAM - 16, 1)

    def test_what_is_no_event(self):
        """Between two events such a machine can't be written to, and stays as it is."""
        machine = Machine(text="li a0, 1\nli a1, 2\n", past=True)
        machine.step()
        before = machine.copy()
        for write in (lambda: machine.regs.__setitem__("a0", 7), lambda: machine.scrs.__setitem__("ddc", 7),
                      lambda: machine.csrs.__setitem__("mscratch", 7), lambda: machine.mem.__setitem__(RAM, 7),
                      lambda: machine.set_cap(RAM, 7), lambda: setattr(machine, "pc", RAM)):
            self.assertRaises(Remembered, write)
        self.same(machine, before)
        self.assertRaises(OutOfRange, machine.back, 2)
        self.assertRaises(OutOfRange, machine.back, -1)
        machine.back()
        self.assertEqual((machine.events, machine.pc), (0, RAM))

    def test_without_a_past(self):
        machine = Machine(text="li a0, 1\n")
        for asked in (machine.back, lambda: machine.origin("a0"), lambda: machine.lost_text("a0"), lambda: machine.events):
            self.assertRaises(Pastless, asked)

    def test_copies(self):
        machine = Machine(text="li a0, 1\nli a1, 2\n", past=True)
        machine.run(2)
        other = machine.copy()
        other.back(2)
        self.assertEqual((machine.events, other.events, machine.origin("a1")[0].step), (2, 0, 2))


def run_on_one(machine, step, schedule):
    """The next step of a schedule, and what comes with it."""
    if machine.halted is None and not step % schedule.gap and step // schedule.gap < len(schedule.input):
        machine.receive(schedule.input[step // schedule.gap:step // schedule.gap + 1])
    machine.step()
    if schedule.tick and not (step + 1) % schedule.tick and machine.halted is None:
        machine.tick()


if __name__ == "__main__":
    unittest.main()
