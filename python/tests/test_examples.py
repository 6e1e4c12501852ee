"""Each text of examples/ sends what stands beside it, byte for byte; and the program `cherisim`, where it is built, sends the same."""
import glob
import os
import subprocess
import tempfile
import unittest

import support
from cherisim import Machine
from examples import OPTIONS

NAMES = sorted(os.path.basename(path)[:-2] for path in glob.glob(os.path.join(support.TOP, "examples", "*.s")))
STEPS = 100000


def schedule(name):
    """The input, the gap and the tick of an example, as `cherisim run` has them by tools/examples.py."""
    words = OPTIONS.get(name, [])
    numbers = {"--gap": 1000, "--tick": 100, **dict(zip(words[::2], map(int, words[1::2])))}
    typed = os.path.join("examples", f"{name}.in")
    data = support.read(typed) if os.path.exists(os.path.join(support.TOP, typed)) else b""
    return {"input": data, "gap": numbers["--gap"], "tick": numbers["--tick"]}


class Examples(unittest.TestCase):
    def test_sent(self):
        self.assertTrue(NAMES)
        for name in NAMES:
            with self.subTest(name):
                machine = Machine(text=support.read("examples", f"{name}.s"))
                ran = machine.run(STEPS, **schedule(name))
                self.assertEqual((ran.sent, ran.halted), (support.read("examples", f"{name}.out"), 0))
                self.assertEqual(bytes(machine.sent), ran.sent)

    @unittest.skipUnless(support.has_program(), support.NO_PROGRAM)
    def test_as_the_program(self):
        with tempfile.TemporaryDirectory() as room:
            for name in NAMES:
                with self.subTest(name):
                    made = os.path.join(room, f"{name}.img")
                    subprocess.run([support.PROGRAM, "asm", os.path.join(support.TOP, "examples", f"{name}.s"), made], check=True)
                    typed = os.path.join(support.TOP, "examples", f"{name}.in")
                    words = ["--input", typed] if os.path.exists(typed) else []
                    sent = subprocess.run([support.PROGRAM, "run", made, str(STEPS), *words, *OPTIONS.get(name, [])], check=True,
                                          stdout=subprocess.PIPE).stdout
                    with open(made, "rb") as file:
                        machine = Machine(file.read())
                    self.assertEqual(machine.run(STEPS, **schedule(name)).sent, sent)


if __name__ == "__main__":
    unittest.main()
