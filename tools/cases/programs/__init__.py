"""Cases over programs: what the whole machine shows after statements of assembly, as the model machine shows it."""

from . import derivations, integers, invocations, jumps, loads, machines, memory, opened, stretches, system, traps
from .items import BOTH, line, number, together

HEAD = "# mode | statements | events and queries => answers"


def steps_line(mode, steps):
    """A case of steps, with what each leaves in its register: a statement, or a register and a number that is put into it."""
    texts, deeds = [], []
    for step in steps:
        statements = [step] if isinstance(step, str) else number(*step)
        texts += statements
        deeds += [*together(len(statements) * ["step"]), f"bits {statements[0].split()[1].rstrip(',')}"]
    return line(mode, texts, *deeds, "mcause; minstret; address pcc")


def lines():
    yield HEAD
    for module in (invocations, jumps, loads, memory, system, traps):
        for table in module.TABLES:
            yield from table.cases()
    for module in (integers, derivations):
        for name, steps in module.TABLES.items():
            yield f"# {name}"
            yield from (steps_line(mode, steps) for mode in BOTH)
    yield from machines.cases()
    yield from stretches.cases()
    yield from opened.cases()


def advances(cases):
    """The cases with a run of steps, which are done as many at once as the machine does."""
    yield "# the programs with a run of steps, done as many at once as the machine does"
    for case in cases:
        inputs, arrow, answer = case.partition(" => ")
        statements, bar, deeds = inputs.rpartition(" | ")
        fast = "; ".join(deed.replace("steps ", "advance ") if deed.startswith("steps ") else deed for deed in deeds.split("; "))
        if fast != deeds:
            yield statements + bar + fast + arrow + answer


def files():
    cases = list(lines())
    yield "programs.txt", cases
    yield "advances.txt", advances(cases)
