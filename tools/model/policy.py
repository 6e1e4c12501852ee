"""Policies: rules for the code in some ranges as texts, what breaks one, what a run says that stops there, and what an audit says.

A line is a definition, `NAME = RANGES`, a rule, `when pc in RANGES: PART, ..`, or names ranges of any code, `any code in RANGES`; `#`
begins a comment. A rule applies to a state where
an instruction can be fetched from its code, and holds of it if no capability that is reachable in it breaks a part of the rule. By the
part `or caller` its code may also do what its last caller could.
"""

import re
from typing import NamedTuple, Optional

from model.capabilities import base, has, is_unsealed, otype, perms, top
from model.devices import CONTROL, HALT, RAM, RECEIVE, STATUS, TIMER, TIMER_COMPARE, TRANSMIT
from model.reach import KEEPING, opened, opens_bytes, opens_system
from model.rights import EXECUTE, GREATEST_SEALING_TYPE, LOAD, SEAL, STORE, UNSEAL
from model.words import ONES, SPACE

CODES = {"P1": "neither a definition nor a rule", "P2": "name unknown", "P3": "name twice", "P4": "number", "P5": "range empty",
         "P6": "part unknown", "P7": "part twice", "P8": "part malformed"}
BLANKS = " \t\r"
NAME = re.compile(r"[A-Za-z_.][\w.]*", re.ASCII)
NUMBER = re.compile(r"0x[0-9A-Fa-f]+|[0-9]+")

# The parts that give ranges of RAM, with the permissions that they are about, those that say yes or no, and all of them in their order.
OF_BYTES = {"store": STORE, "load": LOAD, "execute": EXECUTE, "keep": KEEPING}
# The part about jumps through seals, which gives ranges too.
ENTER = "enter"
OF_DEVICES = {"transmit": TRANSMIT, "halt": HALT, "timer": TIMER_COMPARE}
PARTS = (*OF_BYTES, ENTER, *OF_DEVICES, "system", "seal", "types")
# Those that give ranges.
OF_RANGES = (*OF_BYTES, ENTER)
# The device registers by the names that policies give them, eight bytes each: a part for stores or loads is about them too. Those with a
# part of their own are none of the part for stores.
REGISTERS = {name: [(first, first + 8)] for name, first in (("halt", HALT), ("mtimecmp", TIMER_COMPARE), ("mtime", TIMER),
             ("transmit", TRANSMIT), ("receive", RECEIVE), ("status", STATUS), ("control", CONTROL))}
SPOKEN_OF = [(first, first + 8) for first in OF_DEVICES.values()]
# The part that allows code what its caller could do.
OR = "or"


class Malformed(Exception):
    """The code of a faulty line."""


class Rule(NamedTuple):
    """A rule: the number of its line, its text, the ranges of its code, and what each part that stands there allows: ranges of addresses,
    whether it is allowed at all, or object types; and whether a call lends it more."""
    line: int
    text: str
    code: list
    allowed: dict
    or_caller: bool = False


class Breach(NamedTuple):
    """A rule that is broken, the number of the member that breaks it, and the part."""
    rule: Rule
    member: int
    part: str


# ---- texts

def number(word, most):
    if not NUMBER.fullmatch(word) or int(word, 0) > most:
        raise Malformed("P4")
    return int(word, 0)


def address(word, labels):
    """A label of the table, or a number."""
    if word in labels:
        return labels[word]
    if NAME.fullmatch(word):
        raise Malformed("P2")
    return number(word, ONES)


def ranges(words, names, labels):
    """The ranges that words give, as pairs of the first address and the one after the last."""
    found = []
    for word in words:
        first, dots, last = word.partition("..")
        if word in names:
            found += names[word]
        elif not dots:
            raise Malformed("P2")
        else:
            start = address(first, labels)
            end = start + number(last[1:], ONES) if last.startswith("+") else address(last, labels)
            if end > SPACE:
                raise Malformed("P4")
            if end <= start:
                raise Malformed("P5")
            found.append((start, end))
    return found


def part(name, words, names, labels):
    """What a part allows, by the words after its name."""
    if name == OR:
        if words != ["caller"]:
            raise Malformed("P8")
        return True
    if name == "types" and words == ["none"]:
        return []
    if name == "types" and words:
        return [number(word, GREATEST_SEALING_TYPE) for word in words]
    more = SPOKEN_OF if name == "store" else []
    if name in OF_RANGES and words == ["no"]:
        return [*more]
    if name in OF_RANGES and words[:1] == ["within"] and words[1:]:
        return ranges(words[1:], names, labels) + more
    if name in OF_RANGES or name == "types" or words not in (["yes"], ["no"]):
        raise Malformed("P8")
    return words == ["yes"]


def parts(text, names, labels):
    """The parts of a rule, by their names."""
    allowed = {}
    for one in text.split(","):
        name, *words = one.split() or [""]
        if name not in (*PARTS, OR):
            raise Malformed("P6")
        if name in allowed:
            raise Malformed("P7")
        allowed[name] = part(name, words, names, labels)
    return allowed


def read_all(text, labels):
    """The rules of a text and its ranges of any code, with a table's labels and their addresses; or the code and the line of its first
    fault."""
    names, rules, any_code = dict(REGISTERS), [], []
    for line, whole in enumerate(text.split("\n"), 1):
        said = whole.partition("#")[0].strip(BLANKS)
        head, colon, rest = said.partition(":")
        words = said.split()
        try:
            if words[1:2] == ["="] and words[2:]:
                if words[0] in names:
                    raise Malformed("P3")
                names[words[0]] = ranges(words[2:], names, labels)
            elif words[:3] == ["when", "pc", "in"] and colon and head.split()[3:]:
                code = ranges(head.split()[3:], names, labels)
                allowed = parts(rest, names, labels)
                rules.append(Rule(line, said, code, allowed, allowed.pop(OR, False)))
            elif words[:3] == ["any", "code", "in"] and words[3:] and not colon:
                any_code += ranges(words[3:], names, labels)
            elif said:
                raise Malformed("P1")
        except Malformed as fault:
            return [], [], (*fault.args, line)
    return rules, any_code, None


def read(text, labels):
    """The rules of a text; or the code and the line of its first fault."""
    rules, _, fault = read_all(text, labels)
    return rules, fault


# ---- what breaks a rule

def is_in(spans, place):
    return any(first <= place < end for first, end in spans)


def lies_within(spans, first, end):
    """Whether all addresses from one on and below the other lie in some of the ranges."""
    for start, after in sorted(spans):
        if start <= first < after:
            first = after
    return first >= end


def opens(value, name):
    """Whether it is unsealed, with the permissions that a part is about."""
    return is_unsealed(value) and perms(value) & OF_BYTES[name] == OF_BYTES[name]


def bytes_of(value, name):
    """The first byte of RAM in its bounds that a part is about, and the one after the last: to keep takes whole granules of 16."""
    first, end = max(base(value), RAM), top(value)
    return (-(-first // 16) * 16, end // 16 * 16) if name == "keep" else (first, end)


def gives_devices(value, name, allowed):
    """Whether what a part allows has each device register that begins in its bounds: the part for stores and the one for loads."""
    return name not in ("store", "load") or all(is_in(allowed, first) for [(first, _)] in REGISTERS.values() if base(value) <= first < top(value))


def leads_to(value):
    """The instruction that a jump through the seal of a value leads to, if that lies in RAM and in its bounds."""
    address = value[1] & -4
    inside = max(base(value), RAM) <= address and address + 4 <= top(value)
    return address if not is_unsealed(value) and has(value, EXECUTE) and inside else None


def allowed_by(rule, name):
    """What a part of a rule allows; the one for jumps through seals what may be fetched too."""
    fetched = rule.allowed.get("execute", [(0, SPACE)])
    return rule.allowed[name] + fetched if name == ENTER else rule.allowed[name]


def breaks(value, name, allowed):
    """Whether a capability breaks a part that allows so much."""
    if name in OF_BYTES:
        return opens(value, name) and not (lies_within(allowed, *bytes_of(value, name)) and gives_devices(value, name, allowed))
    if name == ENTER:
        return leads_to(value) is not None and not is_in(allowed, leads_to(value))
    if name == "types":
        return otype(value) <= GREATEST_SEALING_TYPE and otype(value) not in allowed
    if allowed:
        return False
    if name in OF_DEVICES:
        return opens_bytes(value, STORE, OF_DEVICES[name], 1)
    if name == "system":
        return opens_system(value)
    return is_unsealed(value) and has(value, SEAL | UNSEAL) and base(value) < min(top(value), GREATEST_SEALING_TYPE + 1)


# ---- what a call lends

def is_called(rule, before, after):
    """Whether a jump through a seal from one address to another calls the rule's code."""
    return is_in(rule.code, after) and not is_in(rule.code, before)


def opened_by(found, name):
    """What members open of what a part is about, as a part allows it: the bounds to a right, object types, or whether one does at all."""
    if name in OF_BYTES:
        return [(base(value), top(value)) for value, *_ in found if opens(value, name)]
    opening = [value for value, *_ in found if breaks(value, name, [])]
    if name == ENTER:
        return [(leads_to(value), leads_to(value) + 1) for value in opening]
    return [otype(value) for value in opening] if name == "types" else bool(opening)


def lent(rule, found):
    """The terms of a rule after a call of its code, by what was reachable before: what it says, and all that the caller could do."""
    both = {name: allowed + opened_by(found, name) if isinstance(allowed, list) else allowed or opened_by(found, name)
            for name, allowed in rule.allowed.items()}
    return rule._replace(allowed=both)


def terms_after(rules, terms, before, after, found):
    """The terms in force of rules after a jump through a seal, by those before it."""
    return [lent(rule, found) if rule.or_caller and is_called(rule, before, after) else then for rule, then in zip(rules, terms)]


# ---- breaches

def applies(rule, at):
    """Whether a rule applies to what is fetched from an address, if anything is."""
    return at is not None and is_in(rule.code, at)


def breaches(rules, at, found):
    """Of the members of a state each part of each rule that applies and that one breaks, and the first that does."""
    return [Breach(rule, next(member for member, (value, *_) in enumerate(found) if breaks(value, name, allowed_by(rule, name))), name)
            for rule in rules if applies(rule, at) for name in PARTS
            if name in rule.allowed and any(breaks(value, name, allowed_by(rule, name)) for value, *_ in found)]


def first_breach(rules, at, found) -> Optional[Breach]:
    """Of the members of a state the first rule that applies and that one breaks, the first that does, and the first part that it breaks."""
    return next((Breach(rule, member, name) for rule in rules if applies(rule, at) for member, (value, *_) in enumerate(found)
                 for name in PARTS if name in rule.allowed and breaks(value, name, allowed_by(rule, name))), None)


# ---- what is said

def refused(code, line, file):
    """The lines of a text that isn't read."""
    return f"cherisim: line {line}: {code} {CODES[code]}\n  {file}:{line}\n"


def told(breach, held):
    """The lines that say what breaks which part of which rule, with the way to the capability and the capability."""
    return f"policy: line {breach.rule.line}: {breach.part}\n  rule  {breach.rule.text}\n  held  {held}\n"


def stopped(breach, steps, pc, held):
    """The lines of a run that stops before a step, at an address with its label."""
    return f"cherisim: not halted\ncherisim: steps {steps}, pcc {pc}\ncherisim: {told(breach, held)}"


def listed(breach, step, pc, held):
    """The lines of an audit about a part that is broken before the step of a number, at an address with its label."""
    return f"step {step}, pcc {pc}\n{told(breach, held)}"


def range_text(first, end):
    """A range as a policy writes it. One that ends with all addresses has a length, and all of them are two ranges."""
    half = SPACE // 2
    if end < SPACE:
        return f"{first:#018x}..{end:#018x}"
    return f"{0:#018x}..{half:#018x} {half:#018x}..+{half:#018x}" if first == 0 else f"{first:#018x}..+{SPACE - first:#018x}"


def entry(code, found):
    """The rule for a range of code that forbids all but what members open."""
    def said(name):
        if name in OF_BYTES:
            spans = opened(found, OF_BYTES[name])
        if name == ENTER:
            spans = sorted(set(opened_by(found, name)))
        if name in OF_RANGES:
            return " ".join(["within", *(range_text(*span) for span in spans)]) if spans else "no"
        if name == "types":
            return " ".join(map(str, sorted(set(opened_by(found, name))))) or "none"
        return "yes" if opened_by(found, name) else "no"
    return f"when pc in {range_text(*code)}: " + ", ".join(f"{name} {said(name)}" for name in PARTS) + "\n"
