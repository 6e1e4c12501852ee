"""The texts of the program's faults, each by a command line that has it."""
import re
import subprocess

from model.images import FIRST, ONE_CAPABILITY, file_v2, granted, header, patched, section
from refused_growths import library

from .desk import Desk
from .machines import RAM

# More growths than any of these command lines has.
MOST_GROWTHS = 200
OUTSIDE, BEFORE = section(RAM - 1, b""), section(RAM + 4, b"\1") + section(RAM, b"")
LONG = b" " * 256
TEXT = b"lui a1, 0x10000\n"
PAGES = b".pages 64\n"

# Of a fault of a text the lines before the seventh, and the seventh.
TEXTS = {
    "A1": (b"\n" * 6, b"frob"), "A2": (b"\n" * 6, b"add a0"), "A3": (b"\n" * 6, b"addi a0, a0, 5000"), "A4": (b"x:" + b"\n" * 6, b"x:"),
    "A5": (b"\n" * 6, b"j nowhere"), "A6": (b"\n" * 6, b"j .+1"), "A7": (b"\n" * 5 + b".org 0\n", b"nop"), "A8": (b"\n" * 6, b"\x7f"),
    "A9": (b"\n" * 6, LONG), "A11": (b"\n" * 6, b".cap 0x80000001, 65537, 0, 0"),
}
# Of a fault of an image a file that has it.
FILES = {
    "L1": FIRST[:31], "L2": patched(FIRST, {0: 0}), "L3": patched(FIRST, {8: 3}), "L4": patched(FIRST, {12: 0}),
    "L5": patched(FIRST, {24: 65}), "L6": header(1, RAM, 1, 0) + OUTSIDE, "L7": header(1, RAM, 2, 0) + BEFORE, "L8": FIRST[:67],
    "L9": FIRST + b"\0", "L12": file_v2(1, RAM, 0, [granted(RAM + 8)]), "L13": file_v2(1, RAM, 0, [granted(length=4097)]),
    "L14": patched(ONE_CAPABILITY, {64: 2}), "L15": patched(ONE_CAPABILITY, {32: 1, 33: 4}),
}
# Of a fault of a policy the first line, or nothing, and the seventh.
POLICIES = {
    "P1": (b"", b"A"), "P2": (b"", b"A = B"), "P3": (b"A = 0..1", b"A = 0..1"), "P4": (b"", b"A = 0..0x"), "P5": (b"", b"A = 1..1"),
    "P6": (b"", b"when pc in 0..1: x no"), "P7": (b"", b"when pc in 0..1: load no, load no"), "P8": (b"", b"when pc in 0..1: load"),
}
# Of another fault the command line, the files, what is typed, the directories and the devices.
OTHERS = {
    "L10": ("run a.img 5", {"a.img": FIRST}, b"", [], {"/a.img": 3}),
    "talk read": ("debug a.img", {"a.img": FIRST}, b"step 1\n", [], {"input": 3}),
    "talk write": ("debug a.img", {"a.img": FIRST}, b"step 1\n", [], {"output": 3}),
    "write": ("run a.img 5", {"a.img": FIRST}, b"", [], {"output": 0}),
    "no file": ("asm a.s a.img", {}, b"", [], {}),
    "broken file": ("asm a.s a.img", {"a.s": TEXT}, b"", [], {"/a.s": 3}),
    "directory": ("asm a.s a.img", {}, b"", ["a.s"], {}),
    "cut short": ("asm b.s a.s", {"b.s": TEXT}, b"", [], {"made": 3}),
    "symbols": ("dis a.img --symbols a.s", {"a.img": FIRST, "a.s": b"0000000080000000 x\n" * 6 + b"x\n"}, b"", [], {}),
    "file L2": ("run a.img 5", {"a.img": FILES["L2"]}, b"", [], {}),
    "far A8": ("asm a.s a.img", {"a.s": PAGES + b"nop\n" * 19999 + b"\x7f\n" + b"nop\n" * 9999}, b"", [], {}),
    "far A5": ("asm a.s a.img", {"a.s": PAGES + b"j x\n" + b"nop\n" * 19998 + b"\x7f\n" + b"nop\n" * 9999}, b"", [], {}),
    "mended A8": ("asm a.s a.img", {"a.s": PAGES + b"j x\n" + b"nop\n" * 19998 + b"\x7f\n" + b"nop\n" * 9999 + b"x:"}, b"", [], {}),
    "far symbols": ("dis a.img --symbols a.s", {"a.img": FIRST, "a.s": b"0000000080000000 x\n" * 4000 + b"x\n" * 40000}, b"", [], {}),
}
# That there is no memory the command line, what is typed, and the text that a refused growth has.
GROWTHS = {
    "A10": ("asm a.s b.img", b"", "line 0: A10 no memory"), "L11": ("run a.img 5", b"", "L11 no memory"),
    "M2": ("run a.img 5", b"", "M2 no memory"), "memory": ("asm a.s b.img", b"", "no memory"),
    "talk memory": ("debug a.img", b"regs\n", "no memory"),
}
# A word of the command line that is no text.
FOREIGN = "foreign word", b"\xff"
# What no command line has: its text stands in the program.
NEVER = {"M5": "M5 no memory", "words": "read failed"}


def message(told):
    """What stands after `cherisim: ` in the first line of what is told; each line after it is set in by two blanks."""
    return re.fullmatch(rb"cherisim: ([^\n]*)\n(?:  [^\n]*\n)*(?:fewer|refused)?", told)


def told_by(bench, line, files, typed=b"", directories=(), devices=()):
    """The message of a command line."""
    desk = Desk(bench, files, directories, dict(devices).items())
    _, _, _, told, _ = desk.run(line.split(), typed)
    desk.clear()
    found = message(told)
    return found[1].decode("latin-1") if found else told.decode()


def told_without(bench, line, typed, number):
    """The message of a command line whose growth of a number is refused."""
    shim = bench.once("refused growths", lambda: library(bench.folder))
    bench.file("a.s", TEXT)
    bench.file("a.img", FIRST)
    ran = subprocess.run([bench.program, *line.split()], input=typed, capture_output=True, cwd=bench.folder, timeout=60, check=False,
                         env={"LD_PRELOAD": shim, "REFUSED_GROWTH": str(number)})
    found = message(ran.stderr)
    return found[1].decode() if found else None


def fault(bench, case):
    """The fault of a name: the first line of its text, as the program tells it."""
    name = case.inputs
    if name in TEXTS:
        return told_by(bench, "asm a.s a.img", {"a.s": b"".join(TEXTS[name])})
    if name in POLICIES:
        return told_by(bench, "run a.img 5 --policy a.s", {"a.img": FIRST, "a.s": (b"\n" * 6).join(POLICIES[name])})
    if name in FILES:
        return told_by(bench, "run a.img 5", {"a.img": FILES[name]})
    if name in OTHERS:
        return told_by(bench, *OTHERS[name])
    if name in GROWTHS:
        line, typed, text = GROWTHS[name]
        is_told = any(told_without(bench, line, typed, number) == text for number in range(1, MOST_GROWTHS))
        return text.replace("line 0", "line 7") if is_told else "another text"
    if name == FOREIGN[0]:
        return bench.run("asm", FOREIGN[1], "a.img")[2].decode().removesuffix("\n")
    with open(bench.program, "rb") as program:
        return NEVER[name] if NEVER[name].encode() in program.read() else "no such text"
