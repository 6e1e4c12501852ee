#!/usr/bin/env python3
"""Assembles and runs each example, and compares what it sends, and what a session of the debugger answers, with what stands beside it.

    python3 tools/examples.py [PROGRAM]

PROGRAM is the proved program, as the gate leaves it: crates/cherisim/out/cherisim. An example is a text NAME.s in examples/, with what
it sends in NAME.out, and NAME.in where bytes come in; it must halt with 0 within 100000 steps, and do the same under NAME.policy where
there is one. Where a page shows a session with it, what is typed stands in NAME.commands and what is answered in NAME.replies. A policy has
the text's labels, and so have sessions whose page gives them. And a byte that no line feed follows is seen while the program that sent it
still runs, and goes on sending; how many steps were done is shown while it runs, on a terminal alone, unless the run is quiet.
"""
import glob
import os
import re
import select
import subprocess
import sys
import tempfile

from toolchain import program_given

TOP = os.path.join(os.path.dirname(os.path.abspath(__file__)), "..")
EXAMPLES = os.path.join(TOP, "examples")

# The steps between two bytes and between two ticks, of examples whose texts ask for others than the program's own.
OPTIONS = {"echo": ["--gap", "20"], "timer": ["--tick", "10"], "compartments": ["--tick", "0"]}

# The examples whose sessions have labels.
LABELLED = ("compartments",)

STEPS = "100000"

# A program that sends a byte every 65,538 steps, and never a line feed; and what runs it for hours.
PROMPTS = """lui a1, 0x10000
addi a0, zero, 62
again: sb a0, 0(a1)
lui a2, 8
wait: addi a2, a2, -1
bne a2, zero, wait
jal zero, again
"""
FOR_HOURS = ["100000000", "--times", "1000000"]
# What shows how far a run came, and how long it takes for one that isn't to be shown it.
COUNT = re.compile(rb"cherisim: ([0-9]+) steps\r?\n")
TOO_LONG = 4
# How long a command may take.
SECONDS = 120


def read(path):
    with open(path, "rb") as file:
        return file.read()


def stands(path):
    return os.path.exists(path)


def came(words, typed=b""):
    """What a command prints on standard output; nothing may stand on standard error, and its status is 0."""
    ran = subprocess.run(words, input=typed, capture_output=True, timeout=SECONDS, check=False)
    if ran.returncode or ran.stderr:
        raise ValueError(f"status {ran.returncode}: {ran.stderr.decode(errors='replace').strip()}")
    return ran.stdout


def wrong(program, name, room):
    """What is wrong with an example, or nothing."""
    beside = os.path.join(EXAMPLES, name)
    image = os.path.join(room, f"{name}.img")
    labels = ["--symbols", os.path.join(room, f"{name}.sym")]
    came([program, "asm", f"{beside}.s", image, *labels])
    typed = ["--input", f"{beside}.in"] if stands(f"{beside}.in") else []
    run = [program, "run", image, STEPS, *typed, *OPTIONS.get(name, [])]
    if came(run) != read(f"{beside}.out"):
        return "doesn't send what it is to send"
    if stands(f"{beside}.policy") and came([*run, "--policy", f"{beside}.policy", *labels]) != read(f"{beside}.out"):
        return "doesn't send what it is to send under its policy"
    debug = [program, "debug", image, *(labels if name in LABELLED else [])]
    if stands(f"{beside}.commands") and came(debug, read(f"{beside}.commands")) != read(f"{beside}.replies"):
        return "isn't answered as it is to be answered"
    return ""


def prompting(program, room):
    """The words that run the program that prompts, for hours."""
    text, image = (os.path.join(room, name) for name in ("prompts.s", "prompts.img"))
    with open(text, "w", encoding="ascii") as file:
        file.write(PROMPTS)
    came([program, "asm", text, image])
    return [program, "run", image, *FOR_HOURS]


def begun(file, seconds):
    """What comes first of an output in so many seconds, or nothing."""
    return os.read(file, 64) if select.select([file], [], [], seconds)[0] else b""


def seen(words, seconds=SECONDS):
    """What is seen of a run that is still at work: the first byte that it sends, and what it first says on a terminal in so many seconds."""
    terminal, of_run = os.openpty()
    with subprocess.Popen(words, stdout=subprocess.PIPE, stderr=of_run) as running:
        try:
            sent, told = begun(running.stdout.fileno(), SECONDS)[:1], begun(terminal, seconds)
            return (sent, told) if running.poll() is None else (b"", b"")
        finally:
            running.kill()
            os.close(terminal)
            os.close(of_run)


def is_shown(program, room):
    """Whether a byte is seen while the program that sends more runs, and how many steps were done: some million, unless it is quiet."""
    words = prompting(program, room)
    (sent, told), (_, untold) = seen(words), seen([*words, "--quiet"], TOO_LONG)
    count = COUNT.fullmatch(told)
    return sent == b">" and bool(count) and int(count[1]) >= 1000000 and not untold


def tried(program, name, room):
    """Tries an example, says how it went, and answers whether it is as expected."""
    try:
        told = wrong(program, name, room)
    except (OSError, ValueError, subprocess.TimeoutExpired) as error:
        told = str(error)
    print(f"examples/{name}.s: {told or 'as expected'}")
    return not told


def main():
    program = program_given(sys.argv[1:])
    names = sorted(os.path.basename(path).removesuffix(".s") for path in glob.glob(os.path.join(EXAMPLES, "*.s")))
    with tempfile.TemporaryDirectory(prefix="examples-") as room:
        all_tried = all([tried(program, name, room) for name in names])
        shown = is_shown(program, room)
    print("a byte that no line feed follows, and how many steps were done: " + ("seen while a run goes on" if shown else "not seen"))
    return 0 if names and all_tried and shown else 1


if __name__ == "__main__":
    sys.exit(main())
