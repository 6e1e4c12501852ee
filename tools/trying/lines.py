"""Lines of the assembly language, by what the assembler makes of a text that has the line."""
import re

from model.words import SPACE

from .image_cases import granted
from .machines import PCC, RAM, Machine, Refused
from .reading import Left, unquoted
from .rows import decoded
from .texts import symbols_of

# The labels that lines name, by their places: one in RAM near its beginning, numbers of two bytes and of one bit, and a great one.
LABELS = {"x": RAM + 0x800, "y": 16, "z": 1}
FAR = 1 << 63
# How many bytes a line has at most.
MOST_BYTES = 255
# The label after all that a line places.
BEHIND = b"\nz:"
AT_ONE = b".byte 1\n"
LINE_FAULTS = ("A8", "A9", "A1", "A2", "A3")
ESCAPES = {"n": "\n", "0": "\0", "\\": "\\", '"': '"'}
AWAY = re.compile(rb"A6 target out of range\n.*\n[ \t]*\^+ (-?\d+) bytes away")
NOT_EXACT = re.compile(rb"A11 capability not exact\n.*\n[ \t]*\^+ from 0x([0-9a-f]{16}) on, (\d+) bytes")
# Lines that set what is set once, and before anything is placed or .entry is set; and a jump over another line to a place that is too far
# after it.
SETTINGS = {"pages": b".pages 1\n", "mode": b".mode 0\n", "entry": b".entry 0x80000000\n"}
BEFORE, FAR_BEHIND, AROUND = b"j z\n.align 4\n", b"\n.zero 1048576" + BEHIND, 16 + 1048576


def with_labels(line, labels):
    """A text of a line, and after it labels at places."""
    return line + b"".join(f"\n.org {place}\n{name}:".encode() for name, place in labels.items())


def fault_in(bench, text):
    """The fault of a text, or None."""
    try:
        Machine.of_text(bench.library, text)
    except Refused as refused:
        return refused
    return None


def told(bench, text):
    """What the program tells of a text, which it assembles with its table of symbols."""
    bench.file("a.s", text)
    return bench.run("asm", "a.s", "a.img", "--symbols", "a.sym")[2]


def place_of(bench, text, name):
    """The value of a label of a text without a fault."""
    message = told(bench, text)
    if message:
        raise ValueError(message.decode())
    return int(dict(pair.split("=") for pair in symbols_of(bench).split())[name], 16)


def value(name):
    """The value of a name in an expression of a text's first line; `-` is no value."""
    return {".": RAM, "-": 0, **LABELS}[name]


def number_of(item):
    """The value of an expression that an answer shows as it was written."""
    match = re.fullmatch(r"([a-z.]?) ?([+-]?) ?(\w*)", item.strip())
    name, sign, digits = match.groups()
    return value(name or "-") + int(sign + (digits or "0"), 0)


# ---- what a line says

def instruction(bench, line, meaning):
    """The instruction of a line's word; its target is that of the word from its place on."""
    text = with_labels(b".pages 16\n" + line, LABELS)
    operands, _, to = meaning.partition(" to ")
    fault = fault_in(bench, text)
    if fault:
        match = AWAY.search(told(bench, text))
        gone, shown = int(match[1]), operands
    else:
        machine = Machine.of_text(bench.library, text)
        insn, row = decoded(bench.library, int.from_bytes(machine.read(RAM, 4), "little"))
        gone = insn.imm
        shown = f"{row.variant} {insn.rd} {insn.rs1} {insn.rs2} {0 if to else gone:x}"
    if not to:
        return shown
    name, offset = to.split()
    is_there = (value(name) + int(offset) - RAM - gone) % SPACE == 0
    return f"{shown} to {to}" if is_there else f"{shown}, {gone} bytes away"


def address(bench, line, meaning):
    """`la` and `cla`: two words, whose immediates lead to an address."""
    kind, rd, name, offset = meaning.split()
    machine = Machine.of_text(bench.library, with_labels(line, LABELS))
    words = [decoded(bench.library, int.from_bytes(machine.read(RAM + at, 4), "little")) for at in (0, 4)]
    (first, one), (second, two) = words
    found = {"Addi": "la", "CIncOffsetImm": "cla"}[two.variant], first.rd, second.rd, second.rs1, one.variant
    gone = (RAM + first.imm + second.imm) % SPACE
    is_it = found == (kind, *(int(rd),) * 3, "Auipc") and gone == (value(name) + int(offset)) % SPACE
    return meaning if is_it else f"{found} to {gone:x}"


def zeros(bench, line, _):
    """So many zeros, by the distance over them, which the assembler tells where it is too great for a jump."""
    text = b"j z\n" + line + BEHIND
    match = AWAY.search(told(bench, text))
    return f"zero {int(match[1]) - 4 if match else place_of(bench, text, 'z') - RAM - 4}"


def values(bench, line, meaning):
    """Numbers of a size, lowest byte first."""
    _, size, items = meaning.split(" ", 2)
    size, items = int(size), unquoted(items)[0].decode().split(",")
    expected = b"".join((number_of(item) % (1 << 8 * size)).to_bytes(size, "little") for item in items)
    came = Machine.of_text(bench.library, with_labels(line, LABELS)).read(RAM, len(expected))
    return meaning if came == expected else came.hex()


def ascii_text(bench, line, meaning):
    """The bytes of a text, which has escapes of the language."""
    raw = unquoted(meaning.partition(" ")[2])[0].decode()
    expected = re.sub(r"\\(.)", lambda match: ESCAPES[match[1]], raw).encode()
    came = Machine.of_text(bench.library, line).read(RAM, len(expected) + 1)
    return meaning if came == expected + b"\0" else came.hex()


def expressions(meaning):
    """The values of the expressions that stand in quotes after a kind."""
    return [number_of(item) for item in unquoted(meaning.partition(" ")[2])[0].decode().split(",")]


def capability(bench, line, meaning):
    """A capability's four expressions."""
    machine = Machine.of_text(bench.library, with_labels(line, LABELS))
    is_there = list(machine.tagged()) == [RAM] and machine.read_cap(RAM).key() == granted(bench.library, *expressions(meaning)).key()
    return meaning if is_there else "another capability"


def inexact(bench, line, meaning):
    """The base and the length of a capability whose bounds are not exact, which the program tells; what else it has shows nowhere."""
    message = told(bench, with_labels(line, LABELS))
    match = NOT_EXACT.search(message)
    return meaning if match and [int(match[1], 16), int(match[2])] == expressions(meaning) else message.decode()


def entry(bench, line, meaning):
    name, offset = meaning.split()[1:]
    found = Machine.of_text(bench.library, with_labels(line, LABELS)).pc()
    return meaning if found == value(name) + int(offset) else f"{found:x}"


MEANINGS = {
    "pages": lambda bench, line, _: f"pages {Machine.of_text(bench.library, line).pages()}",
    "mode": lambda bench, line, _: f"mode {Machine.of_text(bench.library, line).scr(PCC).upper >> 45 & 1}",
    "entry": entry,
    "org": lambda bench, line, _: f"org {place_of(bench, line + BEHIND, 'z')}",
    "align": lambda bench, line, _: f"align {(place_of(bench, AT_ONE + line + BEHIND, 'z') - RAM).bit_length() - 1}",
    "zero": zeros, "values": values, "text": ascii_text, "cap": capability, "inexact": inexact, "la": address, "cla": address,
}


def left_by(bench, line, fault):
    """What a line with a fault leaves, by faults of lines: `sets` and the first setting after which it is A2, though its number is A3; or
    `takes` and how many bytes, which a jump over it tells; or `-`."""
    for name, before in SETTINGS.items():
        if fault == "A3" and fault_in(bench, before + line).code() == "A2":
            return f"sets {name}"
    away = AWAY.search(told(bench, BEFORE + line + FAR_BEHIND))
    size = int(away[1]) - AROUND
    return f"takes {size}" if size else "-"


def statement(bench, line, expected):
    """A line's meaning and its fault; beside a fault what the line leaves for others."""
    meaning, _, fault = expected.rpartition(" | ")
    if fault != "-":
        return f"{left_by(bench, line, fault)} | {fault_of_line(bench, line)}"
    if meaning == "-":
        nothing = not any(Machine.of_text(bench.library, line).ram()) and place_of(bench, line + BEHIND, "z") == RAM
        return expected if nothing else "it places something"
    return f"{MEANINGS.get(meaning.split()[0], instruction)(bench, line, meaning)} | -"


def fault_of_line(bench, line):
    """The fault of a line alone; others are those of texts."""
    fault = fault_in(bench, line)
    return fault.code() if fault and fault.code() in LINE_FAULTS else "-"


def label(bench, line, expected):
    """The label of a line: one that stands before it already is refused."""
    if expected != "-":
        fault = fault_in(bench, f"{expected}: nop\n".encode() + line)
        return expected if fault and (fault.code(), fault.line) == ("A4", 2) else "-"
    fault = fault_in(bench, line)
    if fault:
        return "-" if fault.code() == "A1" else fault.code()
    told(bench, line)
    return symbols_of(bench)


def expression(bench, text, expected):
    """An expression, by the eight bytes of its value."""
    if len(text) > MOST_BYTES - len(b".dword "):
        # no line has it
        raise Left
    names = {name: FAR for name in ("x", "_a.1")}
    line = with_labels(b".dword " + text, names)
    fault = fault_in(bench, line)
    if fault:
        return fault.code()
    came = int.from_bytes(Machine.of_text(bench.library, line).read(RAM, 8), "little")
    name, offset = expected.split()
    is_it = came == ({".": RAM, "-": 0, **names}[name] + int(offset)) % SPACE
    return expected if is_it else f"{came:x}"


def line(bench, case):
    """What is asked, `statement`, `fault`, `label`, `expression` or `piece`, and a text in quotes."""
    asked, _, rest = case.inputs.partition(" ")
    text = unquoted(rest)[0]
    if asked == "piece":
        raise Left
    if asked == "fault":
        return fault_of_line(bench, text)
    return {"statement": statement, "label": label, "expression": expression}[asked](bench, text, case.expected)
