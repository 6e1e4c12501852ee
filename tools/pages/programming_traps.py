"""What docs/PROGRAMMING.md says of traps: causes, mtval, entry and return."""

import re

from pages.definitions import Definitions, NotUnderstood, bare, choices, constants, fields, matched, split, variants, worth
from pages.markdown import table
from pages.programming_books import (
    CHERI, FAULT, MCAUSE, NUMBERS, REGISTERS, asked_of_register, by_access, cause, condition_of,
    defined, said, steps,
)
from pages.programming_registers import register_at_fault

INTERRUPTS = Definitions("special_regs/specs/Interrupts")


# ---- causes


def faults_in(book, body):
    """The faults that a definition's body makes: those that it names, and those of the conditions that it makes."""
    argument = r"(?: [\w.]+| \((?:[^()]|\((?:[^()]|\([^()]*\))*\))*\))"
    yield from re.findall(rf"\bfault{argument * 2}", body)
    for maker in ("asks", *CONDITION_MAKERS):
        if maker == "asks" or maker in book.equations:
            count = 2 if maker == "asks" else len(split(book.cases(maker)[0][0], " "))
            for text in re.findall(rf"\b{maker}{argument * count}", body):
                yield condition_of(book, text)[0]


# The definitions that make a condition of its parts.
CONDITION_MAKERS = ("within", "aligned", "capability_at")


def mtval_by_cause():
    """What mtval holds, by the cause, wherever a definition makes such a fault."""
    found = {}
    sources = ("base/specs/Fault", "cap_checks/specs/Question", "cap_checks/specs/FirstFault", "steps/specs/Looks", "steps/specs/MemoryRows",
               "steps/specs/Step")
    for book in map(Definitions, sources):
        for body in (body for cases in book.equations.values() for _, body in cases):
            for text in faults_in(book, body):
                made_fault = re.fullmatch(r"fault (cause\.(\w+)|\(misaligned access\)) (.*)", text)
                if made_fault:
                    names = [made_fault.group(2)] if made_fault.group(2) else by_access("misaligned", "cause.")
                    for name in names:
                        found.setdefault(name, []).append(said("MTVAL", bare(made_fault.group(3))))
    return {name: " or ".join(dict.fromkeys(values)) for name, values in found.items()}


def mcause_table():
    mtval = mtval_by_cause()
    if mtval.keys() != MCAUSE.keys():
        raise NotUnderstood(f"no fault of {sorted(MCAUSE.keys() - mtval.keys())}")
    rows = [[str(MCAUSE[name]), cause(name), comment.rstrip("."), mtval[name]] for name, comment in variants("base/src/cause.rt", "Cause")]
    interrupt = dict(fields(INTERRUPTS.body("cause_of")))
    for bit, name in sorted((NUMBERS[constant], name) for name, constant in INTERRUPTS.cases("bit_of")):
        number = worth(interrupt["mcause"].replace("bit_of interrupt", str(bit)))
        comment = constants("base/src/interrupt.rt")[name.upper()][1].rstrip(".")
        rows.append([f"`{number:#018x}`", f"{name.lower()} interrupt", comment, said("MTVAL", interrupt["mtval"])])
    return table(["mcause", "Cause", "It comes of", "mtval"], rows)


def cheri_table():
    rows = [[f"`{CHERI[name]:#04x}`", cause(name), comment.rstrip(".")] for name, comment in variants("base/src/cause.rt", "CheriCause")]
    return table(["CHERI cause", "Name", "What is wrong"], rows)


def mtval_form():
    """How mtval is made of a register and a CHERI cause, with an example."""
    text = matched(r"fault cause\.Cheri \((.*)\)", FAULT.body("cheri")).group(1)
    number = worth(text.replace("cheri_number_of what", str(CHERI["Length"])), {"register": 10})
    return (f"mtval is {said('MTVAL', text)}. So `{number:#x}` is register 10 and cause {CHERI['Length']:#04x}, {cause('Length')}. General "
            f"registers count from 0, and special ones from {register_at_fault(0)}: PCC is "
            f"{register_at_fault(REGISTERS['PCC'][0])}, DDC {register_at_fault(REGISTERS['DDC'][0])}, MTCC "
            f"{register_at_fault(REGISTERS['MTCC'][0])}")


# ---- what happens


def assignments(name, definition):
    """What a definition assigns, in words."""
    return [said("HAPPENS", f"{field} = {text}") for field, text in fields(Definitions(name).body(definition))]


def pending_order():
    """The interrupts in the order in which they are asked."""
    (enabled, asked), _ = choices(INTERRUPTS.body("pending"))
    if enabled != "c.mstatus_mie":
        raise NotUnderstood(f"{INTERRUPTS.file}: pending")
    order = [answer.removeprefix("Some ") for _, answer in choices(asked) if answer != "None"]
    numbers = dict(INTERRUPTS.cases("bit_of"))
    return " before ".join(f"the {name.lower()} interrupt ({NUMBERS[numbers[name]]})" for name in order)


def vectors():
    """How far past the base the entries of interrupts stand in vectored mode."""
    numbers = sorted((NUMBERS[constant], name) for name, constant in INTERRUPTS.cases("bit_of"))
    return " and ".join(f"the {name.lower()} interrupt's entry is {4 * number} bytes past the base" for number, name in numbers)


def traps(*names):
    """The words for definitions of trap entry and return, joined."""
    return "; ".join(defined("special_regs/specs/Mtvec" if name == "is_vectored" else "special_regs/specs/Traps", name) for name in names)


def trap_entry():
    saved, moved = assignments("special_regs/specs/Traps", "trapped_scrs")
    return steps([saved, *assignments("special_regs/specs/Traps", "trapped_csrs"), moved,
                  defined("steps/specs/Effect", "applied", "(Trap fault) s")])


def trap_return():
    return steps([*assignments("special_regs/specs/Traps", "returned_scrs"), *assignments("special_regs/specs/Traps", "returned_csrs"),
                  defined("steps/specs/Effect", "applied", "(Return sealed) s")])


def made_of_traps():
    return {
        "mcause": mcause_table(),
        "cheri": cheri_table(),
        "mtval": mtval_form(),
        "trap_entry": trap_entry(),
        "entry": traps("entry_address", "vector_of", "is_vectored"),
        "vectors": vectors(),
        "trap_target": traps("trap_target", "sentry_opened", "placed_at"),
        "return_checks": asked_of_register("return_asked"),
        "return_register": defined("steps/specs/SystemRows", "return_asked"),
        "return": trap_return(),
        "return_target": traps("target", "aligned"),
    }
