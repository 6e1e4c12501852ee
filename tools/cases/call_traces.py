"""Command lines of runs of which the calls and returns are written: who called whom, in order, by the model of sessions' `calls`."""

from cases.pasts import CALLS, ENTRY, IN_CAPABILITY_MODE, INTERRUPTED, LEAVES, NESTED, PAIRS, RECURSES, TAILS, WAITS
from cases.program_lines import FILE, NOT_HALTED, SENDS_A, UNWRITTEN, called, case, cut_short, fails, file_of, is_directory, missing
from cases.program_lines import refused, table
from cases.program_runs import COUNTS_DOWN, LOADS_BY_NULL, SENDS_AND_CALLS
from model.devices import RAM
from model.schedules import Schedule
from model.texts import machine_of


def run(text, steps, options="", labels=(), schedule=Schedule(1000, 100), done=None, status=1, told=NOT_HALTED, sent=b"", parts=(),
        opened=""):
    """A run of a text, of which so many steps are done."""
    symbols, read = ([table("s", labels)], ", open s") if labels else ([], "")
    made = called(text, steps if done is None else done, labels, schedule).encode()
    words = f"run f.img {steps} --quiet --calls c{' --symbols s' if labels else ''}{options}"
    return case(words, [file_of("f.img", text), *symbols, *parts], status, f"open f.img{read}{opened}, make c", sent, told, made)


def steps_to(text, address):
    """How many steps are done before the one at an address."""
    machine, done = machine_of(text), 0
    while machine.pc != address:
        machine.step()
        done += 1
    return done


# Calls within 70 others; then each returns to a return.
DEEP = "addi a0, zero, 70; jal ra, f; nop; f: addi a0, a0, -1; beq a0, zero, out; jal ra, f; out: ret"


def plain():
    yield "# a call and its return, each with the number of its event; calls within calls, and a function that calls itself"
    yield run(COUNTS_DOWN, 16, status=0, told="")
    yield run(COUNTS_DOWN, 99, labels=[(RAM, "start"), (RAM + 8, "loop"), (RAM + 24, "less")], status=0, told="")
    for steps in (1, 2, 5, 14, 30):
        yield run(RECURSES, steps)
    yield run(RECURSES, 30, labels=[(RAM + 16, "f"), (RAM + 36, "out")])
    yield "# 64 calls around a line are shown at most"
    yield run(DEEP, 280)
    yield "# a return that ends more than one call is a line, where the oldest of them stands"
    yield run(LEAVES, 6)
    yield "# links in several registers; a jump that calls nothing"
    yield run(TAILS, 6)
    yield "# through sentries and pairs, and in capability mode"
    yield run(ENTRY, 7)
    yield run(PAIRS, 18)
    yield run(PAIRS, 18, labels=[(RAM + 60, "there"), (RAM + 40, "here")])
    yield case("run f.s 9 --quiet --calls c", ['f.s "' + IN_CAPABILITY_MODE.replace("; ", "\\n") + '"'], 1, "open f.s, make c", b"",
               NOT_HALTED, called(IN_CAPABILITY_MODE, 9).encode())
    yield "# traps, which MRET returns from: taken, within one another, and by an interrupt; one that can't be fetched is told once"
    yield run(CALLS, 17)
    yield run(NESTED, 26)
    yield run(INTERRUPTED.format(0x3E1), 22, " --tick 1", schedule=Schedule(1000, 1))
    yield run(LOADS_BY_NULL, 9)


def scheduled():
    yield "# ticks and bytes are events, and call nothing"
    for gap, tick, keys in ((1, 1, b"AB"), (3, 2, b"ABC"), (7, 5, b""), (1000, 0, b"A")):
        yield run(RECURSES, 30, f" --gap {gap} --tick {tick} --input keys", schedule=Schedule(gap, tick, keys),
                  parts=[f'keys "{keys.decode()}"'], opened=", open keys")
    yield run(WAITS, 200, " --tick 5", schedule=Schedule(1000, 5))
    yield "# of a run that stops before a trap or a breach, those before it"
    yield run(SENDS_AND_CALLS, 9, " --why --input keys", schedule=Schedule(1000, 100, b"A"), done=3, sent=b"A", parts=['keys "A"'],
              opened=", open keys")
    yield run(LOADS_BY_NULL, 9, " --why=all", done=0)
    yield run(RECURSES, 99, " --policy p", done=steps_to(RECURSES, RAM + 36), parts=[f'p "when pc in {RAM + 36:#x}..+4: system no\\n"'],
              opened=", open p")
    yield run(RECURSES, 30, " --policy p", parts=['p "when pc in 0x80000800..+4: system no\\n"'], opened=", open p")


def files():
    down, whole = file_of("down.img", COUNTS_DOWN), called(COUNTS_DOWN, 16).encode()
    yield "# of a text its own labels"
    text, labels = 'down.s "' + COUNTS_DOWN.replace("\n", "\\n") + '"', [(RAM + 8, "loop"), (RAM + 24, "less")]
    yield case("go down.s --calls c", [text], 0, "open down.s, make c", made=called(COUNTS_DOWN, 16, labels).encode())
    yield "# a run that calls nothing writes nothing"
    yield case("run first.img 5 --calls c", [FILE], 0, "open first.img, make c", b"A")
    yield "# it is made before the profile and the trace, and stays empty where one of these can't be made, or a byte can't be written"
    yield fails("run first.img 9 --calls c --profile p", [FILE], "open first.img, make c, make p", missing("p"))
    yield fails("run first.img 9 --calls c --trace t", [FILE], "open first.img, make c, make t", missing("t"))
    yield fails("run first.img 5 --calls c", [FILE, "output 0"], "open first.img, make c", UNWRITTEN)
    yield "# it can't be made, before anything is done, or written to its end"
    yield fails("run first.img 5 --calls c", [FILE, "full"], "open first.img, make c", missing("c"))
    yield fails("run first.img 5 --calls d --trace t", [FILE, "directory d"], "open first.img, make d", is_directory("d"))
    for call in (0, 1, len(whole) - 1):
        yield fails("run down.img 16 --calls c", [down, f"made {call}"], "open down.img, make c", cut_short("c"), made=whole[:call])
    yield case("run down.img 16 --calls c", [down, f"made {len(whole)}"], 0, "open down.img, make c", made=whole)
    yield "# it is no file that is read, and not the trace or the profile, by whichever name"
    for words in ("run first.img 5 --calls first.img", "run first.img 5 --calls ./first.img", "run first.img 5 --calls t --trace t",
                  "run first.img 5 --calls t --trace ./t", "run first.img 5 --calls p --profile p",
                  "run first.img 5 --calls ./p --profile p", "run first.img 5 --input keys --calls ./keys",
                  "run first.img 5 --symbols keys --calls ./keys", "run first.img 5 --lines keys --calls ./keys",
                  "run first.img 5 --policy keys --calls ./keys", "run first.img 5 --profile ./keys --input keys --calls c",
                  "run first.img 5 --trace ./keys --input keys --calls c", "go first.img --calls ./first.img",
                  "audit first.img 5 --calls c"):
        yield refused(words, [FILE, 'keys "A"'])


def call_traces():
    """Runs of which the calls and returns are written."""
    yield from (*plain(), *scheduled(), *files())
