"""What cases over programs are made of: statements of the assembly language, events, and queries, which the model machine answers.

A program is a list of items: a statement, a list of statements, or an event, which begins with `@`. Each statement is one word long and
one step is done for it; an event is met where it stands. What is to be seen after it are queries, parted by `; `.
"""

from model.deeds import OfModel
from model.devices import RAM
from model.texts import machine_of

# Where each program begins.
ENTRY = RAM

# Where data stands, after each program.
DATA = 0x8000_0800

# The modes that a table is tried in.
INTEGER = (0,)
CAPABILITY = (1,)
BOTH = (0, 1)


# ---- items of more than one statement

def number(register, value):
    """Puts a number into a register, 11 bits at a time: a statement, and two more for each 11 bits."""
    made = [f"addi {register}, zero, 0"]
    for place in (55, 44, 33, 22, 11, 0):
        leading = value >> place
        if leading:
            made += [f"slli {register}, {register}, 11", f"addi {register}, {register}, {leading % 0x800}"]
    return made


def shaped(register, permissions, length, offset):
    """Makes of DDC, which is root, a capability with these permissions, of so many bytes from DATA on. Its address lies so far past
    its base. Uses t5."""
    c = "c" + register
    return (number("t5", DATA) + [f"cspecialrw {c}, ddc, cnull", f"csetaddr {c}, {c}, t5"]
            + number("t5", length) + [f"csetbounds {c}, {c}, t5", f"cincoffsetimm {c}, {c}, {offset}"]
            + number("t5", permissions) + [f"candperm {c}, {c}, t5"])


def sealed(register, otype):
    """Seals the value in a register with a type by DDC. Uses t5 and t6."""
    c = "c" + register
    return number("t5", otype) + ["cspecialrw ct6, ddc, cnull", "csetaddr ct6, ct6, t5", f"cseal {c}, {c}, ct6"]


def narrowed(length):
    """The rest runs with a PCC of so many bytes from there on. Uses t5; 4 words."""
    return ["cspecialrw ct5, pcc, cnull", "cincoffsetimm ct5, ct5, 16", f"csetboundsimm ct5, ct5, {length}", "jalr.cap cnull, ct5"]


# The rest runs with a PCC without Access_System_Registers. Uses t5 and t6; 5 words.
WITHOUT_SYSTEM_ACCESS = ["cspecialrw ct5, pcc, cnull", "cincoffsetimm ct5, ct5, 20", "addi t6, zero, -1025", "candperm ct5, ct5, t6",
                         "jalr.cap cnull, ct5"]


# ---- lines

def statements(items):
    """The statements of items, and the events that go with them: a step for each statement, and those that stand there."""
    texts, events = [], []
    for item in items:
        if isinstance(item, list):
            inner, steps = statements(item)
            texts += inner
            events += steps
        elif item.startswith("@"):
            events.append(item[1:])
        else:
            texts.append(item)
            events.append("step")
    return texts, events


def together(events):
    """The same events, with steps that follow one another as one run."""
    made = []
    for event in events:
        if event != "step":
            made.append([event, 1])
        elif made and made[-1][0] == "step":
            made[-1][1] += 1
        else:
            made.append(["step", 1])
    return [event if count == 1 else f"steps {count}" for event, count in made]


def line(mode, texts, *deeds):
    """A case: statements, and events and queries, which may stand together, parted by `; `."""
    deeds = [deed for part in deeds for deed in part.split("; ")]
    answers = OfModel(machine_of("; ".join([f".mode {mode}", *texts]))).answers(deeds)
    return f"{mode} | {'; '.join(texts)} | {'; '.join(deeds)} => {'; '.join(answers)}"


class Table:
    """Programs and what is to be seen after them: in each mode, each line's beginning before each row. A line is its items, or a pair of
    them and what is to be seen, which else is the trap."""

    def __init__(self, name, modes, rows, lines):
        self.name, self.modes, self.rows, self.lines = name, modes, rows, lines

    def cases(self):
        yield f"# {self.name}"
        for mode in self.modes:
            for row in self.rows:
                for given in self.lines:
                    beginning, seen = given if isinstance(given, tuple) else (given, "trap")
                    texts, events = statements([*beginning, *row])
                    yield line(mode, texts, *together(events), seen)
