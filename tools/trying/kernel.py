"""Compartments: the kernel with a text of each of two compartments, and what a run sends; and A's first stretch by itself."""
import os
import re

from .machines import ENDS, RAM, Machine
from .paths import COMPARTMENTS, KERNEL
from .programs import Outcome
from .texts import symbols_of

STEPS, GAP = 100_000, 1000
# How many steps the kernel takes to A's first one, at most, and A's stretch.
START, STRETCH = 1000, 1000
# What begins a piece of a compartment in the example, with its name.
HEADING = re.compile(r"^# ---- ([ab]-\w+): .*\n", re.MULTILINE)


def kernel_and_pieces():
    """The kernel, and the pieces of compartments after it by their names: those of the example, and each other text."""
    with open(KERNEL, encoding="utf-8") as example:
        kernel, *named = HEADING.split(example.read())
    pieces = dict(zip(named[::2], named[1::2]))
    for file in os.listdir(COMPARTMENTS):
        with open(os.path.join(COMPARTMENTS, file), encoding="utf-8") as text:
            pieces[file.removesuffix(".s")] = text.read()
    return kernel, pieces


def joined(bench, a, b):
    """The kernel, B and A as one text; a compartment is pieces joined by `+`."""
    kernel, pieces = bench.once("compartments", kernel_and_pieces)
    return "".join([kernel, *(pieces[name] for name in [*b.split("+"), *a.split("+")])]).encode()


def ran(bench, a, b, tick):
    """What a run sends, and its status."""
    outcome = Outcome(Machine.of_text(bench.library, joined(bench, a, b)))
    outcome.scheduled(STEPS, GAP, tick)
    return f"{outcome.sent.decode()}, status {outcome.verdict()[0]}"


def course(bench, a, b):
    """A's stretch, from the kernel's switch to A up to what ends it: how many steps, what ends it and where, counted from the beginning of
    A's code, and whether all memory that isn't A's is the same after it."""
    text = joined(bench, a, b)
    image, told = bench.image_of(text, "--symbols", "a.sym")
    if image is None:
        return told
    code = int(dict(pair.split("=") for pair in symbols_of(bench).split())["a_code"], 16)
    machine = Machine.of_image(bench.library, image)
    machine.run(START, address=code)
    if machine.pc() != code:
        return "A is never switched to"

    def rest():
        return machine.read(RAM, code - RAM), [address for address in machine.tagged() if address < code]
    before = rest()
    done, sent, why = machine.run(STRETCH, at_end=True)
    is_same = before == rest() and not sent
    return f"{done} steps, {ENDS[why]} at {machine.pc() - code}; {'the same' if is_same else 'not the same'}"


def meeting(bench, case):
    """`run A B TICK`, the compartments' pieces and the steps from one tick to the next; or `alone A B`."""
    what, *words = case.inputs.split()
    return {"run": ran, "alone": course}[what](bench, *words)
