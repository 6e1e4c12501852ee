"""The definitions that docs/PROGRAMMING.md is made of, and how their conditions, checks and cases are said."""

import re

import pages.programming_words as words
from pages.definitions import Definitions, NotUnderstood, bare, constants, items, matched, pair, plain, split, text_of, variants, worth
from pages.markdown import table

QUESTION = Definitions("cap_checks/specs/Question")
ACCESS = Definitions("cap_checks/specs/Access")
FAULT = Definitions("base/specs/Fault")
DEVICES = Definitions("devices/specs/Devices")
TRAPS = Definitions("special_regs/specs/Traps")
REFUSALS = Definitions("special_regs/specs/Refusals")
SYSTEM = Definitions("steps/specs/SystemRows")
NUMBERS = {
    name: worth(text)
    for file in ("base/src/ram.rt", "base/src/otype.rt", "base/src/interrupt.rt")
    for name, (text, _) in constants(file).items()
}
MCAUSE = FAULT.numbers("number_of", "cause.")
CHERI = FAULT.numbers("cheri_number_of", "cheri_cause.")
used = set()


def said(book, text):
    """The words for a text of the sources."""
    if text not in getattr(words, book):
        raise NotUnderstood(f"tools/pages/programming_words.py, {book}: no words for: {text}")
    used.add((book, text))
    return getattr(words, book)[text]


def cases_shown(name, definition, pattern=None):
    """A definition as words name it: all its cases, or one."""
    bodies = [body for patterns, body in Definitions(name).cases(definition) if pattern in (None, patterns)]
    return f"{definition if pattern is None else f'{definition} {pattern}'}: {' | '.join(bodies)}"


def defined(name, definition, pattern=None):
    """The words for a definition: of all its cases, or of one."""
    return said("DEFINITIONS", f"{name} {cases_shown(name, definition, pattern)}")


def steps(sentences):
    """A numbered list."""
    return "\n".join(f"{number}. {begun(sentence)}." for number, sentence in enumerate(sentences, 1))


def begun(sentence):
    """A sentence with a capital at its beginning, unless it begins with a register's name."""
    return sentence if sentence.split()[0] in {name for _, name in listed("CSRS")} else sentence[0].upper() + sentence[1:]


def cased(name):
    """The words of a name in capitals and small letters."""
    return re.findall(r"[A-Z][a-z]*", name)


def permission(name):
    """A permission's name as the manual writes it."""
    return {"CInvoke": "CInvoke", "SetCid": "Set_CID"}.get(name, "_".join(cased(name)))


PERMISSIONS = variants("cap_rights/src/permission.rt", "Permission")
PERMISSION_NAMES = {name for name, _ in PERMISSIONS}


def cause(name):
    """A cause's name: that of the permission which is missing, or its words."""
    if name == "Cheri":
        return "CHERI"
    return permission(name) if name in PERMISSION_NAMES and name != "Seal" else " ".join(cased(name)).lower()


# ---- faults


def mcause(name):
    return f"mcause {MCAUSE[name]}, {cause(name)}"


def cheri(name):
    return f"CHERI cause {CHERI[name]:#04x}, {cause(name)}"


def by_access(definition, prefix):
    """What a definition over accesses says of loads and of stores; both kinds of each agree."""
    found = {}
    for pattern, body in ACCESS.cases(definition):
        kind = "load" if pattern.strip("(").startswith("Load") else "store"
        if not body.startswith(prefix) or found.setdefault(kind, body[len(prefix):]) != body[len(prefix):]:
            raise NotUnderstood(f"{ACCESS.file}: {definition} {pattern}")
    return found["load"], found["store"]


def fault(text):
    """The words for a fault."""
    if text == "cheri register (lacking access)":
        load, store = by_access("lacking", "forbids.")
        return f"{cheri(load)}, or {CHERI[store]:#04x}, {cause(store)}: {said('REGISTERS', 'register')}"
    if text == "fault (misaligned access) address":
        load, store = by_access("misaligned", "cause.")
        return f"{mcause(load)}, or {MCAUSE[store]}, {cause(store)}: mtval is {said('MTVAL', 'address')}"
    found = re.fullmatch(r"cheri (\w+|\(.*\)) forbids\.(\w+)", text)
    if found:
        return f"{cheri(found.group(2))}: {said('REGISTERS', bare(found.group(1)))}"
    found = matched(r"fault cause\.(\w+) (.+)", text)
    return f"{mcause(found.group(1))}: mtval is {said('MTVAL', bare(found.group(2)))}"


# ---- conditions: a question, whose fault is the trap where the answer is no, and whether the answer is yes


def put_in(body, places):
    """A definition's body with what stands for its parameters."""
    return re.sub(r"(?<![\w.])[a-z]\w*", lambda found: places.get(found.group(), found.group()), body)


def called(book, name, *arguments):
    """What a definition is for these arguments: a parameter is put in, and of constructors the first case is taken that has them."""
    for pattern, body in book.cases(name):
        places, parameters = {}, split(pattern, " ")
        for parameter, argument in zip(parameters, arguments):
            parts, given = split(bare(parameter), " "), split(bare(argument), " ")
            if re.fullmatch(r"[a-z]\w*", parameter):
                places[parameter] = argument
            elif parts[0] == given[0] and len(parts) == len(given):
                places |= zip(parts[1:], given[1:])
            else:
                break
        else:
            if len(parameters) == len(arguments):
                return plain(put_in(body, places))
    raise NotUnderstood(f"{book.file}: no {name} of {arguments}")


def condition_of(book, text):
    """The fault and the truth of a condition; what stands for it is put in until its question stands there."""
    name, *arguments = split(bare(text), " ")
    if name == "asks" and len(arguments) == 2:
        return called(QUESTION, "fault_of", arguments[0]), bare(arguments[1])
    return condition_of(book, called(book, name, *arguments))


def condition(text):
    """The words for the truth of a condition."""
    if text == "permits authority (needed access)":
        load, store = by_access("needed", "permission.")
        return f"it has {permission(load)} for a load, {permission(store)} for a store"
    return said("CONDITIONS", text)


def checks(conditions, behind=()):
    """The table of a list of conditions, with what is asked after it."""
    rows = [(condition(holds), fault(otherwise)) for otherwise, holds in conditions]
    return table(["", "Must hold", "Else"], [[str(number), *row] for number, row in enumerate([*rows, *behind], 1)])


def asked_of_register(name):
    """The table of what a row asks of a system register: each refusal is a question, whose fault names the row's register."""
    matched(r"map \(λ c\. asks \(question_of c\.1 register word\) c\.0\) checks", SYSTEM.body("asked_of_register"))
    found = matched(r"asked_of_register (\w+|\([^()]*\)) word \((\w+) .*\)", SYSTEM.body(name))
    questions = [(holds, called(SYSTEM, "question_of", refusal, found.group(1), "word"))
                 for holds, refusal in map(pair, items(REFUSALS.body(found.group(2))))]
    return checks([(called(QUESTION, "fault_of", f"({question})"), holds) for holds, question in questions])


def kept_rows():
    """The lines of the registers that only keep a number: of each its place, its name, what it holds first, and what the comment says."""
    text = text_of("devices/src/map.rt")
    begin = text.index("macro_rules! kept_registers")
    rows = re.findall(r"^ +(0x\w+) \"(\w+)\" (\S+); // (.*)$", text[begin:text.index("\n}", begin)], re.M)
    if len(rows) != int(re.search(r"KEPT_COUNT: usize = (\d+);", text).group(1)):
        raise NotUnderstood("devices/src/map.rt: kept_registers")
    return rows


# ---- registers by their numbers


def numbered(path):
    """The constants of base's registers by name: (number, comment)."""
    return {name: (worth(text), comment) for name, (text, comment) in constants(path).items()
            if re.fullmatch(r"0x[0-9a-f]+|[0-9]+", text)}


def unnamed(path):
    """The registers that a list has by their numbers alone: (number, comment)."""
    rows = re.findall(r"// ([^\n]*)\n\s*\((0x[0-9a-f]+), \"\w+\", ", text_of(path))
    return {number: (worth(number), comment) for comment, number in rows}


REGISTERS = numbered("base/src/registers.rt") | unnamed("base/src/registers.rt")


def lines_of(name):
    """The lines of a list of registers, in order: each register by constant or else by number, its name, and what it holds."""
    text = text_of("base/src/registers.rt")
    begin = text.index(f"pub const {name}:")
    rows = r"\((?:(?:scr|csr)::)?(\w+)(?: as u16)?, \"(\w+)\", Holds::(\w+)(?:\(([\w:]+)\))?\)"
    found = re.findall(rows, text[begin:text.index("];", begin)])
    count = re.search(r"; (\w+)\]", text[begin:]).group(1)
    if len(found) != int(count if count.isdigit() else re.search(rf"{count}: usize = (\d+);", text).group(1)):
        raise NotUnderstood(f"base/src/registers.rt: {name} has {len(found)} of {count} lines")
    return found


def listed(name):
    """The registers of a list, in order, by constant or else by number, each with the name that it is shown by."""
    return [(constant, shown) for constant, shown, _, _ in lines_of(name)]


def holding(kind):
    """The control and status registers that hold something of this kind, each with what its line says of it."""
    return {constant: said for constant, _, holds, said in lines_of("CSRS") if holds == kind}


# Those that hold what was written last, with the bits that a write sets, and those that hold a fixed number.
KEPT = holding("Written")
FIXED = {constant: number if number[0].isdigit() else re.search(rf"const {number}: u64 = (\w+);", text_of("base/src/registers.rt")).group(1)
         for constant, number in holding("Fixed").items()}
