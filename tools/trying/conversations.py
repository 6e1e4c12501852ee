"""Conversations of the debugger, by the program's standard input and output."""
import os
import re
import subprocess

from cases.quoting import quoted

from .desk import Desk
from .programs import text_of
from .reading import unescaped, unquoted


class Conversation:
    """A block of lines: what is typed after `>`, or after `<` and left unread, over the program after `@`, and what is answered. After `%`
    stand the gap, the tick and the bytes of the input of a session on a schedule, each `-` where it isn't given, and after `&` the
    labels of one with a table of symbols, in order, as `NAME=ADDRESS`."""

    def __init__(self, block):
        self.statements, self.typed, self.left, self.answers, self.schedule, self.labels = "", b"", 0, "", None, None
        for line in block.removesuffix("\n").split("\n"):
            self.take(line)

    def take(self, line):
        mark, rest = line[:1], line[1:].removeprefix(" ")
        if mark == "@":
            self.statements = rest
        elif mark in (">", "<"):
            typed = unescaped(rest) + b"\n"
            self.typed += typed
            self.left += len(typed) if mark == "<" else 0
        elif mark == "%":
            self.schedule = rest.split(" ", 2)
        elif mark == "&":
            self.labels = [word.split("=") for word in rest.split()]
        elif mark != "#":
            self.answers += line + "\n"

    def without_end(self):
        """What is typed, without the last line's line feed where that line isn't empty."""
        return self.typed if self.typed.endswith(b"\n\n") or self.typed in (b"\n", b"") else self.typed[:-1]


def table(bench, labels):
    """The options of a session with a table of symbols."""
    if labels is None:
        return []
    bench.file("a.sym", "".join(f"{address.zfill(16)} {name}\n" for name, address in labels).encode())
    return ["--symbols", "a.sym"]


def options(bench, schedule):
    """The options of a session on a schedule."""
    gap, tick, keys = schedule or ("-", "-", "-")
    if keys != "-":
        bench.file("keys", unescaped(keys))
    given = (("--gap", gap, gap), ("--tick", tick, tick), ("--input", keys, "keys"))
    return [word for name, value, said in given if value != "-" for word in (name, said)]


def conversed(bench, typed, schedule=None, labels=None):
    """What a session over the image answers to what is typed, and how many bytes it leaves unread; or what it tells of a fault."""
    words = [*options(bench, schedule), *table(bench, labels)]
    with open(bench.file("typed", typed), "rb", buffering=0) as given:
        ran = subprocess.run([bench.program, "debug", "a.img", *words], stdin=given, capture_output=True,
                             cwd=bench.folder, timeout=60, check=False)
        left = len(typed) - os.lseek(given.fileno(), 0, os.SEEK_CUR)
    if ran.returncode or ran.stderr:
        raise ValueError(f"status {ran.returncode}: {ran.stderr.decode()}")
    return ran.stdout.decode(), left


def difference(said, expected):
    """The first line that is said where another is expected."""
    lines = said.split("\n")
    for place, line in enumerate(expected.split("\n")):
        came = lines[place] if place < len(lines) else ""
        if came != line:
            return f"{came!r} in place of {line!r}"
    return f"{len(said)} bytes, not {len(expected)}"


def session(bench, case):
    """A conversation with the machine of a program, with the last line's line feed and, where that line is not empty, without it."""
    conversation = Conversation(case.inputs)
    image, told = bench.image_of(text_of("", conversation.statements))
    if image is None:
        return told
    for typed in (conversation.typed, conversation.without_end()):
        left = max(conversation.left - (len(conversation.typed) - len(typed)), 0)
        said, unread = conversed(bench, typed, conversation.schedule, conversation.labels)
        if said != conversation.answers:
            return difference(said, conversation.answers)
        if unread != left:
            return f"{unread} bytes are left unread, not {left}"
    return case.expected


# What shows how many bytes wait, more often than bytes can wait: a step, and what is taken after it by a program that takes bytes at
# 0x80000004.
TAKEN = 65 * b"step 1\nuntil 0x80000008 3\nreg a0\n"


def standing(bench, typed):
    """How a session stands that did what is typed: PCC's address, how many bytes wait, or `-` where the machine is halted, and whether it
    is."""
    said = len(conversed(bench, typed)[0])
    address = address_of(conversed(bench, typed + b"scr\n")[0][said:])
    here, *lines = conversed(bench, typed + b"until %d 1\n" % address + TAKEN)[0][said:].splitlines()
    if here.startswith(f"events 0 out - pc {address:016x} halted "):
        return f"{address:x} - 1"
    return f"{address:x} {sum(address_of(line) != 0 for line in lines[2::3])} 0"


def address_of(line):
    """The address in a line that shows a register."""
    return int(re.search(r" a:([0-9a-f]{16}) ", line)[1], 16)


# What the program's status and message say of a conversation.
ENDINGS = {(0, b""): "ok", (3, b"cherisim: read failed\n"): "Read", (3, b"cherisim: write failed\n"): "Write"}


def cut_short(bench, image, words, typed):
    """The answer of a conversation whose devices fail at these calls, what is written, and how a session stands that answered so far."""
    devices = [(name, int(call)) for name, call in zip(("input", "output"), words) if call != "-"]
    desk = Desk(bench, {"a.img": image}, devices=devices)
    status, _, sent, told, _ = desk.run(["debug", "a.img"], typed)
    desk.clear()
    ended = ENDINGS.get((status, told), told.decode())
    done = lines_done(bench, image, typed, len(sent), ended != "Read")
    return f"{ended} {quoted(sent)} {bench.once(('standing', image, done), lambda: standing(bench, done))}"


def lines_done(bench, image, typed, written, is_begun):
    """The lines that are done where so much is written: those whose replies are written, and one of which nothing or a part is, if a reply
    was begun."""
    done = b""
    for line in typed.splitlines(keepends=True):
        said = bench.once(("said", image, done), lambda: len(conversed(bench, done)[0]))
        if said > written or said == written and not is_begun:
            break
        done += line if line.endswith(b"\n") else line + b"\n"
    return done


def commanded(bench, lines):
    """What a session answers to lines, each typed after those before it that were no `quit`, which leaves the rest unread."""
    told, before, said_before = [], b"", ""
    for line in lines:
        said, left = conversed(bench, before + line.encode() + b"\n#")
        if left:
            told.append(line)
            continue
        said = conversed(bench, before + line.encode() + b"\n")[0]
        answer = said.removeprefix(said_before)
        told.append(answer.split()[1] if answer.startswith("fault ") else quoted(answer))
        before, said_before = before + line.encode() + b"\n", said
    return f"{' '.join(told)} {standing(bench, before)}"


def talk(bench, case):
    """`cut` and the calls that fail, or `commands`; statements; and what is typed. Where a call fails the program ends, so that how its
    session stands shows nowhere: a session does the same lines, and shows it."""
    asked, statements, typed = case.inputs.split(" | ")
    image, told = bench.image_of(text_of("", statements))
    if image is None:
        return told
    what, *words = asked.split()
    if what == "cut":
        return cut_short(bench, image, words, unquoted(typed)[0])
    return commanded(bench, typed.split("; "))
