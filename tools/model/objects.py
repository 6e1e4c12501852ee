"""Values as objects of JSON have them (docs/JSON.md)."""
import json

from model import unhandled
from model.capabilities import base, flag, otype, perms, top
from model.reach import GRANULE
from model.rights import GREATEST_SEALING_TYPE, SENTRY, UNSEALED, letters
from model.rows import text_of


def half(number):
    """A number of 64 bits."""
    return f"0x{number:016x}"


def wide(number):
    """One that may have more."""
    return f"0x{number:017x}"


def line(members):
    """The line of an object."""
    return json.dumps(members, separators=(",", ":")) + "\n"


def place(address, labels=()):
    """A place: of several labels at one address the first, which is fewer than 4096 bytes below."""
    near = max((at for at, _ in labels if at <= address < at + 4096), default=None)
    label = next((name for at, name in labels if at == near), None)
    return {"address": half(address), "label": label, "offset": None if near is None else address - near, "source": None}


def sealing(number):
    """What an object type says."""
    return {UNSEALED: "unsealed", SENTRY: "sentry"}.get(number, "reserved" if number > GREATEST_SEALING_TYPE else "sealed")


def capability(value):
    """A capability that a register or memory holds."""
    view = perms(value) & 0xFFF | perms(value) >> 12 << 15
    return {"tag": bool(value[2]), "address": half(value[1]), "base": half(base(value)), "top": wide(top(value)), "perms": view,
            "letters": letters(perms(value)), "flag": bool(flag(value)), "otype": otype(value), "sealing": sealing(otype(value))}


def word(found, mode):
    """A word and its text in a mode, where there is one."""
    return {"word": None if found is None else f"0x{found:08x}", "instruction": None if found is None else text_of(found, mode)}


def trap(cause, mtval):
    """What a trap leaves, in words too."""
    return {"mcause": half(cause), "mtval": half(mtval), "words": unhandled.cause_text(cause, mtval)}


def member(number, found, register, labels=()):
    """The member of a number, by the name of its place among the registers, where it is one."""
    value, at, source = found
    granule = at[0] == GRANULE
    return {"member": number, "from": source, "register": None if granule else register,
            "granule": place(at[1], labels) if granule else None, "capability": capability(value)}


def broken(breach, held, words):
    """What breaks a rule: the rule, the part that is broken, and the member that breaks it, with the way to it in words."""
    return {"rule": {"line": breach.rule.line, "text": breach.rule.text}, "part": breach.part, "held": held, "words": words}


def finding(breach, step, pc, held, words, labels=()):
    """The line of an audit about a part that is broken before the step of a number, at an address."""
    return line({"step": step, "pcc": place(pc, labels), **broken(breach, held, words)})


def entry(rule):
    """The line of a rule that an audit lists, by its line in a policy."""
    return line({"rule": rule.removesuffix("\n")})


def stopped(breach, steps, pc, held, words, labels=()):
    """The line of a run that stops before a step, at an address: it isn't halted."""
    return line({"status": 1, "halted": None, "steps": steps, "pcc": place(pc, labels), **broken(breach, held, words)})


def untrapped(machine, steps, labels=()):
    """The status of a run that took no trap, and its line."""
    assert machine.csr("mcause") == 0
    status, halted = int(machine.halted != 0), None if machine.halted is None else half(machine.halted)
    return status, line({"status": status, "halted": halted, "steps": steps, "pcc": place(machine.pc, labels), "first_trap": None,
                         "last_trap": None, "unfetched": 0})
