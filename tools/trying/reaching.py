"""What code can reach, of whole programs: the kernel of the compartments with a mistake in it, and memories full of capabilities."""
import os
import re
import subprocess

from .kernel import joined
from .paths import COMPARTMENTS, REACHES

# The most steps that `until` takes, and how often it is asked for them.
STEPS, TIMES = 1_000_000, 20
# A line of a mistake: text of the kernel or of a compartment, which stands there once, and the lines in its place.
EDIT = re.compile(r"^(old|new): (.*\n)", re.MULTILINE)


def mistaken(text, name):
    """A text with the mistake of this name; `none` is no mistake."""
    if name == "none":
        return text
    with open(os.path.join(COMPARTMENTS, f"{name}.edit"), encoding="utf-8") as file:
        lines = EDIT.findall(file.read())
    old, new = ("".join(line for mark, line in lines if mark == asked) for asked in ("old", "new"))
    if text.count(old) != 1:
        raise ValueError(f"{old!r} stands {text.count(old)} times in the text of {name}")
    return text.replace(old, new)


def address_of(bench, place):
    """The address of a label, or of one and a number after it."""
    label, _, more = place.partition("+")
    for line in bench.contents("a.sym").decode().splitlines():
        value, name = line.split()
        if name == label:
            return int(value, 16) + int(more or "0")
    raise ValueError(f"no label {label}")


def asked_at(bench, text, place, question):
    """What a question is answered with where the program of a text comes to a place."""
    image, told = bench.image_of(text, "--symbols", "a.sym")
    if image is None:
        raise ValueError(told)
    address = address_of(bench, place)
    typed = f"until {address:#x} {STEPS}\n" * TIMES + f"{question}\n"
    ran = subprocess.run([bench.program, "debug", "a.img"], input=typed.encode(), capture_output=True, cwd=bench.folder, timeout=120,
                         check=False)
    *came, = ran.stdout.decode().splitlines()
    if ran.returncode or ran.stderr or not came[TIMES - 1:TIMES] or f" pc {address:016x} running" not in came[TIMES - 1]:
        raise ValueError(f"status {ran.returncode}, {came[:TIMES][-1:]}: {ran.stderr.decode()}")
    return came[TIMES:]


# What shows lines of which a case names those that it asks for, by their first word.
SHOWS = {"reach": "reach", "doors": "reach doors"}


def answered(bench, text, place, question):
    """An answer as one line; of `reach WORD` and `doors WORD` the lines of `reach` and `reach doors` that begin with the word."""
    what, *words = question
    lines = asked_at(bench, text, place, SHOWS.get(what, " ".join(question)))
    return "; ".join(line for line in lines if what not in SHOWS or line.split()[0] == words[0])


def mistake(bench, name, a, b, place, *question):
    """The answer in the kernel with a mistake and these compartments."""
    return answered(bench, mistaken(joined(bench, a, b).decode(), name).encode(), place, question)


def program_of(name):
    """The text of a program, with the end that all of them have."""
    return b"".join(read(part) for part in (name, "end"))


def read(name):
    with open(os.path.join(REACHES, f"{name}.s"), "rb") as file:
        return file.read()


def answer(bench, name, place, *question):
    """The answer in the program of this name."""
    return answered(bench, program_of(name), place, question)


def way(bench, name, place, *question):
    """The same as how many places lead to the member, the first two of them and the last, and the member."""
    yes, = asked_at(bench, program_of(name), place, " ".join(question))
    *places, last = yes.removeprefix("yes: ").split(" -> ")
    last, member = last.split(" ", 1)
    places.append(last)
    return f"{len(places)} places: {places[0]} {places[1]} .. {last}: {member}"


def reach(bench, case):
    """`mistake NAME A B PLACE QUESTION`, `answer PROGRAM PLACE QUESTION` or `way PROGRAM PLACE QUESTION`."""
    what, *words = case.inputs.split()
    return {"mistake": mistake, "answer": answer, "way": way}[what](bench, *words)
