"""Command lines of the program: what they plan, by what comes of the same plan with every option named; and bounds and listings."""
import os
import shutil
import tempfile

from cases.quoting import quoted

from .reading import unquoted

# A program that sends what it receives with the count of cycles, and a `t` for each change of the timer: it shows when bytes and ticks
# come.
WATCHES = """\
lui a1, 0x10000
lui a2, 0x200c
ld a3, -8(a2)
loop: ld a0, 16(a1)
beq a0, zero, time
ld a0, 8(a1)
sb a0, 0(a1)
csrrs a0, mcycle, zero
sb a0, 0(a1)
srli a0, a0, 8
sb a0, 0(a1)
time: ld a0, -8(a2)
beq a0, a3, loop
mv a3, a0
addi a0, zero, 116
sb a0, 0(a1)
j loop
"""
# One that only takes steps, for as many as there may be.
SPINS = "j ."
# So many steps show gaps and ticks, and so many show the greatest of them; the second is too long for a trace.
FEW, MANY = 70000, 2500000
# As many as the console's queue has room for at once, or nearly.
KEYS = bytes(range(0x41, 0x41 + 60))
REFUSED = 2


def files(bench, text):
    """The files that command lines name, whose image is that of a text."""
    def made():
        image, told = bench.image_of(text.encode())
        if image is None:
            raise ValueError(told)
        return {"hello.img": image, "hello.s": text.encode(), "hello.bin": image, "keys": KEYS,
                "hello.sym": b"0000000080000000 start\n0000000080000004 next\n",
                "hello.policy": b"when pc in 0..0x80000000: store no\n"}
    return bench.once(text, made)


def outcome(bench, words, text=WATCHES):
    """What comes of a command line: status, output, what is told, and the files after it."""
    folder = tempfile.mkdtemp(dir=bench.folder)
    for name, contents in files(bench, text).items():
        with open(os.path.join(folder, name), "wb") as file:
            file.write(contents)
    came = bench.run(*words, given=b"step 1\nmem 0x80000000 4\nmem start 1\nquit\n", folder=folder)
    after = {}
    for name in sorted(os.listdir(folder)):
        with open(os.path.join(folder, name), "rb") as file:
            after[name] = file.read()
    shutil.rmtree(folder)
    return *came, after


def named(option, value):
    """An option, where the plan has a value for it."""
    return [] if value == "-" else [option, value]


def words_of_plan(plan):
    """The command line that asks for a plan with every option named."""
    command, *words = plan.split()
    if command == "first":
        return []
    if command in ("go", "run", "audit"):
        image, steps, *words = words
        line = [command, image, "--steps", steps, "--times", words.pop(0)] if command == "go" else [command, image, steps]
        gap, tick, given, *rest = words
        line += ["--gap", gap, "--tick", tick, *named("--input", given)]
        while rest[:1] in (["quiet"], ["json"]):
            line, rest = [*line, f"--{rest[0]}"], rest[1:]
        for name, value in zip(rest[::2], rest[1::2]):
            line += {"why": [f"--why={value}" if value in ("all", "double") else "--why"]}.get(name, [f"--{name}", value])
        return line
    if command == "prove":
        image, rules, steps, *rest = words
        quiet, rest = (["--quiet"], rest[1:]) if rest[:1] == ["quiet"] else ([], rest)
        return ["prove", image, "--policy", rules, "--steps", steps, *quiet, *(named("--symbols", rest[1]) if rest else [])]
    if command == "image":
        flat, output, *layout = words
        options = zip(("--at", "--entry", "--pages", "--mode"), layout)
        return ["image", flat, output, *(word for option, value in options for word in named(option, value))]
    if command == "bounds":
        base = [] if words[0] == "-" else words[:1]
        return ["bounds", *base, words[1], *named("--address", words[2]), *(f"--{flag}" for flag in words[3:])]
    if command == "word":
        return ["word", *words[:2], *(f"--{flag}" for flag in words[2:])]
    if command == "debug":
        image, *options = words
        options = zip(("--symbols", "--input", "--gap", "--tick"), options)
        return ["debug", image, *(word for option, value in options for word in named(option, value))]
    if command == "dis":
        image, symbols, *flags = words
        return ["dis", image, *named("--symbols", symbols), *(f"--{flag}" for flag in flags)]
    last = named("--symbols", words[-1])
    return [command, *words[:-1], *last]


def lines_to_compare(words, planned):
    """Pairs of command lines that are to come to the same, over the image of a text: the one that is tried and the plan's, and of a run
    both with so many steps that the schedule shows. Where `go` has its steps by default they are said, for they are too many."""
    if planned[:1] == ["go"] and "--steps" not in " ".join(words):
        words, planned = [*words, "--steps", str(FEW)], [str(FEW) if word == planned[3] else word for word in planned]
    spins = planned[:1] == ["prove"] or planned[:1] == ["run"] and int(planned[2]) > MANY
    yield words, planned, SPINS if spins else WATCHES
    if planned[:1] in (["run"], ["audit"]):
        count = int(planned[2])
        steps = (planned[2], f"+{count}", f"{count:#x}", f"{count:_}", f"{count:#_x}")
        more = str(FEW if "--trace" in planned or max(int(planned[4]), int(planned[6])) < FEW else MANY)
        given = [] if "--input" in planned else ["--input", "keys"]
        yield *([more if word in steps else word for word in line] + given for line in (words, planned)), WATCHES


def plan(bench, case):
    """The words of a command line and, after ` ? `, what the text of its refusal or its help names."""
    line, _, name = case.inputs.partition(" ? ")
    words = line.split(" ")[1:]
    if case.expected in ("refused", "help"):
        status, sent, told, _ = outcome(bench, words)
        text, other = (told, sent) if case.expected == "refused" else (sent, told)
        if status != REFUSED or other:
            return f"status {status}: {(sent + told).decode()}"
        return case.expected if name and name in text.decode() else "another text"
    for one, two, text in lines_to_compare(words, words_of_plan(case.expected)):
        came, expected = outcome(bench, one, text), outcome(bench, two, text)
        if came != expected:
            return f"another outcome than of {' '.join(two)}"
        if came[0] == REFUSED:
            return f"refused: {came[2].decode()}"
    return case.expected


def bounds(bench, case):
    """A base, a length, and an address or none: the text in quotes."""
    base, length, address = case.inputs.split()
    option = [] if address == "-" else ["--address", f"0x{address}"]
    status, sent, told = bench.run("bounds", f"0x{base}", f"0x{length}", *option)
    return quoted(sent) if status == 0 else told.decode()


def length(bench, case):
    """A length: the text in quotes."""
    status, sent, told = bench.run("bounds", f"0x{case.inputs}")
    return quoted(sent) if status == 0 else told.decode()


def word(bench, case):
    """The halves of a word, and whether they are those of its logical form or stand in memory: the text in quotes."""
    high, low, form = case.inputs.split()
    status, sent, told = bench.run("word", f"0x{high}", f"0x{low}", *{"logical": [], "memory": ["--memory"]}[form])
    return quoted(sent) if status == 0 else told.decode()


def listing(bench, case):
    """A text in quotes, a table of symbols in quotes, or none, and the number of the call that fails of a sink, or nothing: `whole` or
    `cut`, how often a call has failed, and the listing. The output is cut after so many bytes as the answer has."""
    text, rest = unquoted(case.inputs)
    words = ["dis", "a.img"]
    if rest.startswith(' "'):
        table, rest = unquoted(rest[1:])
        bench.file("a.sym", table)
        words += ["--symbols", "a.sym"]
    image, told = bench.image_of(text)
    if image is None:
        return told
    if not rest:
        status, sent, told = bench.run(*words)
        return f"whole 0 {quoted(sent)}" if (status, told) == (0, b"") else told.decode()
    limit = len(unquoted(case.expected.split(" ", 2)[2])[0])
    status, sent, told = bench.run_cut(*words, limit=limit)
    ended = {(0, b""): "whole 0", (3, b"cherisim: write failed\n"): "cut 1"}.get((status, told), f"status {status}: {told.decode()}")
    return f"{ended} {quoted(sent)}"
