"""What cases of command lines are made of: files of images, listings and traces, by the model, and a case's line."""

from collections import Counter

from cases.quoting import quoted
from model import calls, recorded
from model.devices import RAM
from model.images import FIRST, header, section
from model.listings import with_names
from model.origins import LABEL, Event
from model.rows import text_of
from model.schedules import Schedule
from model.texts import Program, machine_of
from model.words import SPACE

def image(text):
    """The file of the image of a text of one page, with what stands in it from RAM's beginning on."""
    program = Program(text)
    end = max(place + len(contents) for place, contents in ({place: bytes(4) for place in program.words} | program.data).items())
    return header(1, RAM, 1, 0) + section(RAM, bytes(program.machine().memory.read(RAM, end - RAM)))


def file_of(name, text):
    """The image's file of a text, by a name."""
    return f"{name} {quoted(image(text))}"


def traced(text, steps, keys=b""):
    """The lines of a trace, by the model: with a byte before each step, as many as there are."""
    machine, lines = machine_of(text), []
    for number in range(steps):
        for byte in keys[number:number + 1]:
            machine.byte(byte)
        lines.append(f"{number + 1} {recorded.event(machine).line.replace(LABEL, '')}\n")
    return "".join(lines)


def place_of(address, labels):
    """The address of a label at an address or fewer than 4096 bytes below it, or else that of its 4 KiB."""
    near = max((place for place, _ in labels if address - 4096 < place <= address), default=None)
    return address - address % 4096 if near is None else near


def profiled(text, steps, labels=(), keys=b""):
    """The lines of a profile, by the model: with a byte before each step, as many as there are."""
    machine, counts, done = machine_of(text), Counter(), 0
    while done < steps and machine.halted is None:
        for byte in keys[done:done + 1]:
            machine.byte(byte)
        counts[place_of(machine.state().pcc[1], labels)] += 1
        machine.step()
        done += 1
    names = dict(reversed([(place, f" <{name}>") for place, name in labels]))
    lines = [f"{count} {1000 * count // done // 10}.{1000 * count // done % 10} % {place:016x}{names.get(place, '')}\n"
             for place, count in sorted(counts.items(), key=lambda counted: (-counted[1], counted[0]))]
    return "".join([*lines, f"{done} steps\n"])


def events_of(text, steps, schedule):
    """The events of a run by the model."""
    machine, events = machine_of(text), []
    for kind, byte in schedule.events(steps, lambda: machine.halted is not None):
        if kind == "step":
            events.append(recorded.event(machine))
            continue
        before = machine.state()
        machine.byte(byte) if kind == "byte" else machine.tick()
        events.append(Event(before, machine.state(), {}, ""))
    return events


def called(text, steps, labels=(), schedule=Schedule(1000, 100)):
    """The lines of calls and returns, by the model."""
    lines = "".join(f"{line}\n" for line in calls.told(events_of(text, steps, schedule)))
    return with_names(lines, labels, f"([0-9a-f]{{16}}){LABEL}")


def listed(text):
    """The listing of the image of a text that has words alone."""
    return "".join(f"{place:016x} {word:08x} {text_of(word, False)}\n" for place, word in Program(text).words.items())


SENDS_A = "lui a1, 0x10000; addi a0, zero, 65; sb a0, 0(a1); lui a1, 0x100; sd zero, 0(a1)"
assert image(SENDS_A) == FIRST
FILE = f'first.img {quoted(FIRST)}'
TEXT = 'a.s "lui a1, 0x10000\\naddi a0, zero, 65\\nsb a0, 0(a1)\\nlui a1, 0x100\\nsd zero, 0(a1)\\n"'
BAD = 'bad.img "CHERIIMH"'
# What is said of a file that is no image: that it is a text, of printable bytes, tabs and ends of lines alone, or an ELF.
TEXT_HINT = "  hint: this is a text: a file is assembled where its name ends in .s\n"
ELF_HINT = "  hint: this is an ELF: make flat bytes of it by objcopy -O binary, and an image by cherisim image (docs/COMPILED.md)\n"
NO_IMAGE = f"cherisim: L1 short header\n  bad.img\n{TEXT_HINT}"
# a text that stands in status 2, whatever it says
TEXT_OF_CLAP = "a text"
REPLY = "events 5 out 41 pc 0000000080000014 halted 0\n"
LISTED, TRACE = listed(SENDS_A), traced(SENDS_A, 5)


def case(words, parts, status, opened="", sent=b"", told="", made=b""):
    given = " ".join(["cherisim", *words.split()]) + " | " + " & ".join(parts or ['input ""'])
    told = quoted(told.encode()) if told != TEXT_OF_CLAP else told
    opened = "".join(f" {deed}" for deed in opened.split(", ") if deed)
    sent = sent.encode() if isinstance(sent, str) and sent != TEXT_OF_CLAP else sent
    sent = quoted(sent) if sent != TEXT_OF_CLAP else sent
    return f"{given} => {status} |{opened} | {sent} | {told} | {quoted(made)}"


def refused(words, parts):
    """A command line that is refused: its text is told, and no file is opened."""
    return case(words, parts, 2, told=TEXT_OF_CLAP)


def fails(words, parts, opened, told, sent=b"", made=b""):
    """A command line that ends with a fault."""
    return case(words, parts, 3, opened, sent, told, made)


# ---- what is told

UNWRITTEN = "cherisim: write failed\n"
NOT_HALTED = "cherisim: not halted\n"


def missing(name):
    return f"cherisim: file {name}\n  No such file or directory\n"


def is_directory(name):
    return f"cherisim: file {name}\n  Is a directory\n"


def unread(name):
    return f"cherisim: read failed\n  {name}: Broken pipe\n"


def cut_short(name):
    return f"cherisim: L10 device failed\n  {name}: the file is cut short\n"


def no_label(name, line):
    """Of a table of labels, that a line has no address and label."""
    return f"cherisim: line {line}: no address and label\n  {name}:{line}\n"


def stood(steps, pcc, more=""):
    """Of a run that didn't halt, where it stood after so many steps, and more."""
    return f"{NOT_HALTED}cherisim: steps {steps}, pcc {pcc:016x}{more}\n"


# ---- parts of these


def joined(lines):
    return "".join(f"{line}\n" for line in lines)


def integer(number):
    """The text of a register that holds a number, and no capability."""
    return f"v:0 a:{number:016x} b:{0:016x} t:{SPACE:017x} p:00000 f:0 o:3ffff"


def table(name, labels):
    """The file of this name with a table of labels, in their order."""
    return f'{name} "' + "".join(f"{address:016x} {label}\\n" for address, label in labels) + '"'
