"""What the monitor says, and of it what a value was made of and where a tag went: the sessions of cases/pasts.txt and cases/sessions.txt,
whose replies a model wrote, what the debugger answers over examples and random programs, and the same as values."""
import os
import random
import re
import subprocess
import tempfile
import unittest

import support
from support import PAGE, RAM, read
from test_debugger import program
from cherisim import SCRS, Cap, Machine, OutOfRange, Stop, Symbols
from cherisim._monitor import _MOVES, Monitor
from cherisim._names import _SHOWN
from cherisim._origins import Link
from cherisim._replay import Replay, Schedule
from cherisim._symbols import opened
from trying.reading import unescaped

STEPS = 250  # that are done of each program
# Of examples the options of the debugger, and the same as a schedule.
EXAMPLES = {"window": ((), Schedule()), "copy": ((), Schedule()), "narrow": ((), Schedule()), "sealed": ((), Schedule()),
            "compartments": (("--tick", "7"), Schedule(tick=7)),
            "echo": (("--gap", "20", "--tick", "3"), Schedule(read("examples", "echo.in"), 20, 3))}
RANDOM = 4  # how many random programs


def sessions(name):
    """The conversations of steps alone: the text, its labels, and what is typed with what is answered."""
    for block in read("cases", name).decode().split("\n\n"):
        text, labels = re.search(r"^@ ?(.*)$", block, re.MULTILINE), re.search(r"^&(.*)$", block, re.MULTILINE)
        if text and not re.search(r"^(?:%|> (?:tick|byte) .*\nevents)", block, re.MULTILINE):
            rows = [(name, int(at, 16)) for name, at in (word.split("=") for word in (labels[1] if labels else "").split())]
            yield text[1].replace("; ", "\n"), Symbols(rows), re.findall(r"^> (.*)\n((?:[^@&<>].*\n)*)", block + "\n", re.MULTILINE)


class Sessions(unittest.TestCase):
    def test_cases(self):
        """What the debugger has to answer: each session's steps are gone to, and the monitor is asked the same there."""
        count = 0
        for text, symbols, talk in (*sessions("pasts.txt"), *sessions("sessions.txt")):
            replay, events = Replay(Machine(text=text, symbols=symbols)), 0
            monitor = Monitor(replay)
            for typed, reply in talk:
                moved = re.match(r"events (-?\d+) out", reply)
                if moved:
                    events += int(moved[1])
                    replay.go_to(events)
                elif not re.match(rf"[ \t\r]*(?:{'|'.join(_MOVES)}|ago|help|quit|stops?)(?![^ \t\r])", unescaped(typed).decode("latin-1")):
                    said = monitor.answer(unescaped(typed).decode("latin-1"))
                    self.assertEqual(said, reply, f"{text}\n{typed} after step {replay.n}")
                    count += 1
        self.assertGreater(count, 1400)


@unittest.skipUnless(support.has_program(), support.NO_PROGRAM)
class AgainstTheDebugger(unittest.TestCase):
    def setUp(self):
        room = tempfile.TemporaryDirectory()
        self.addCleanup(room.cleanup)
        self.room = room.name

    def compare(self, made, machine, options, schedule):
        """Asks both of all registers, special registers, tagged granules and some others, after the same steps."""
        replay = Replay(machine, schedule)
        replay.run(STEPS)
        places = [*_SHOWN, *SCRS, *map(hex, sorted({*replay.machine.tags(), *range(RAM, RAM + 2 * PAGE, PAGE // 2)})[:8])]
        asked = [f"{word} {place}" for place in places for word in ("origin", "lost")]
        ran = subprocess.run([support.PROGRAM, "debug", made, *options], input="\n".join([f"step {STEPS}", *asked, ""]),
                             stdout=subprocess.PIPE, check=True, encoding="ascii")
        monitor = Monitor(replay)
        self.assertEqual("".join(monitor.answer(line) for line in asked), ran.stdout.partition("\n")[2])

    def test_examples(self):
        """With labels and lines of the source."""
        for name, (options, schedule) in EXAMPLES.items():
            if schedule.input:
                options = (*options, "--input", os.path.join(support.TOP, "examples", f"{name}.in"))
            made, symbols, lines = support.assembled(self.room, name)
            with self.subTest(name):
                self.compare(made, opened(made, symbols, lines), ("--symbols", symbols, "--lines", lines, *options), schedule)

    def test_random_programs(self):
        drawn, made = random.Random(86), os.path.join(self.room, "x.img")
        for number in range(RANDOM):
            with open(made, "wb") as file:
                file.write(program(drawn))
            with self.subTest(number):
                self.compare(made, opened(made), ("--tick", "3"), Schedule(tick=3))


class Values(unittest.TestCase):
    def trapped(self, name):
        """The run of an example up to its trap."""
        machine = Machine(text=read("examples", f"{name}.s"))
        replay = Replay(machine.copy())
        replay.run(machine.run(1000, Stop.TRAP).steps)
        return replay

    def test_origin(self):
        replay = self.trapped("narrow")
        found = replay.origin("a2")
        self.assertEqual([(it.place, it.source) for it in found], [
            ("ca2", RAM + 0x180), (RAM + 0x180, "ca1"), ("ca1", "ca0"), ("ca0", "ca0"), ("ca0", "cs0"), ("cs0", RAM + 0x110),
            (RAM + 0x110, None)])
        self.assertEqual((found[0].value, found[-1].step, found[-1].pc), (replay.machine.regs["ca2"], 0, None))
        for it in found[:-1]:
            replay.go_to(it.step - 1)
            self.assertEqual(replay.machine.pc, it.pc)

    def test_lost(self):
        replay = self.trapped("window")
        self.assertEqual([it[:4] for it in replay.lost("ca3")], [
            (45, RAM + 0xA8, "ca3", "ca3"), (43, RAM + 0xA0, "ca3", RAM + 0x190), (40, RAM + 0x64, RAM + 0x190, "ca1"), (39, RAM + 0x60, "ca1", "ca1")])
        self.assertEqual((replay.n, replay.lost("cs0"), replay.lost("kept")), (45, [], []))
        for where in (RAM + 8, RAM - 16, RAM + PAGE, "nowhere", 1 << 64):
            self.assertRaises(OutOfRange, replay.origin, where)

    def test_lost_by_a_copy(self):
        """Double words: their stores stand for the granule, with the granule that they come from."""
        replay = self.trapped("copy")
        self.assertEqual([it[:4] for it in replay.lost("ca3")], [
            (45, RAM + 0x68, "ca3", RAM + 0x160), (19, RAM + 0x50, RAM + 0x160, RAM + 0x140), (25, RAM + 0x50, RAM + 0x160, RAM + 0x140)])
        self.assertEqual((replay.n, replay.lost(RAM + 0x170)), (46, []))

    def test_calls(self):
        replay = Replay(Machine(text=read("examples", "compartments.s")))
        replay.run(200)
        self.assertEqual([(it.step, it.passage, it.target - RAM) for it in replay.calls()],
                         [(200, "jump", 0x1020), (196, "trap", 0x1000), (192, "pair", 0x3004)])
        self.assertEqual([it.back - it.source for it in replay.calls()], [4, 0, 4])
        replay.go_to(190)
        self.assertEqual(replay.calls(), [])

    def test_far(self):
        """A chain over far more steps than are looked at at once."""
        replay = Replay(Machine(text="li a1, 9\nmore: cincoffsetimm ca0, ca0, 1\nli a2, 1000\nwait: addi a2, a2, -1\nbne a2, zero, wait\n"
                                     "addi a1, a1, -1\nbne a1, zero, more\nend: j end\n"))
        replay.run(20_000)
        self.assertEqual([it.step for it in replay.origin("ca0")], [2 + 2004 * n for n in range(8, -1, -1)] + [0])
        self.assertEqual(replay.origin("a2")[0].step, 2004 * 9 - 2)

    def test_what_writes_nothing(self):
        """A fence with a register in the field rd, a store to a device, a write of mtvec's bits with none of them set."""
        replay = Replay(Machine(text="fence a0, a1, 255\nlui a1, 0x10000\nsb a0, 0(a1)\ncsrrs a2, mtvec, zero\ncsrrsi a2, mtvec, 4\n"))
        replay.run(5)
        self.assertEqual(([it.step for it in replay.origin("a0")], [it.step for it in replay.origin("mtcc")]), ([0], [5, 0]))

    def test_a_write_ends_the_past(self):
        replay = Replay(Machine(text="li a0, 1\nli a1, 2\ncmove ca2, ca1\nnop\n"))
        replay.run(2)
        replay.machine.regs["a0"] = 7
        replay.forget()
        replay.run(2)
        self.assertEqual(replay.origin("a0"), [Link(2, None, "ca0", None, Cap(7))])
        self.assertEqual(replay.origin("a2"), [Link(3, RAM + 8, "ca2", "ca1", Cap(2)), Link(2, None, "ca1", None, Cap(2))])


if __name__ == "__main__":
    unittest.main()
