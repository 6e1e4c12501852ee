"""Whether every run of a machine keeps to rules, over any steps, ticks and bytes, whatever bytes lie in some ranges.

The image's own code is done step by step up to code in the ranges, while each step is the same in every run. There all that the registers
lead to, the special ones and doors too, must neither seal nor open the system, and break no rule: from then on
code makes of it nothing else, and a trap leads to nothing else.

Where a trap enters the image's own code, the special registers needn't be of it: that code is done once, from its entry to its end. What
any code may have left is unknown there, and what it leaves for any code must be unknown or be of it.
"""
from typing import NamedTuple, Optional

from model import policy, reach
from model.capabilities import base, flag, has, is_unsealed, top, with_fields
from model.devices import RAM
from model.faults import DDC
from model.listings import named_address
from model.machine import DOES, MIE, MPIE, Machine, leads_on, opened, placed_at
from model.memory import WORD
from model.names import CAPABILITY_NAMES, CSR_NAMES, SCR_NAMES, SPECIALS
from model.rights import SEAL, STORE, UNSEAL, UNSEALED
from model.row_forms import FORM
from model.rows import made, plain_words, slots
from model.words import SPACE

ROOTS = [*CAPABILITY_NAMES, "pcc", "ddc", *SPECIALS]
# The registers of control and status that differ between runs: what devices ask for, and the counters.
UNSTEADY = ("mip", "mcycle", "minstret")
OF_MEMORY = {Machine.do_load: 8, Machine.do_lc: WORD}


class Unshown(Exception):
    """Why it isn't shown, in words."""


class Held(NamedTuple):
    """A capability that any code comes to hold, and where."""
    value: tuple
    place: str


class Shown(NamedTuple):
    """What a proof comes to: why it isn't shown, or else the steps before any code runs, and how many capabilities that holds."""
    why: Optional[str]
    steps: int = 0
    members: int = 0


def touches(any_code, address, size):
    return any(first < address + size and address < end for first, end in any_code)


# ---- the image's own code

def look(machine, any_code, rules, labels):
    """Looks at the next step: whether it is the same in every run, and is about no rule."""
    pc = machine.pc
    at = named_address(pc, labels)
    if machine.halted is not None:
        raise Unshown(f"halts at {at}")
    if machine.csrs["mstatus"] & MIE:
        raise Unshown(f"interrupts are on at {at}")
    if touches(any_code, pc, 4):
        raise Unshown(f"fetches any code at {at}")
    for rule in rules:
        if policy.applies(rule, machine.fetched_at()):
            raise Unshown(f"line {rule.line}: applies at {at}")
    insn = machine.next_insn() if machine.fetched_at() is not None else None
    if insn:
        look_at(machine, any_code, insn, at, labels)


def look_at(machine, any_code, insn, at, labels):
    """Looks at what an instruction uses: of the registers of control and status none that differs between runs, and of what is loaded no
    device and no byte that may be any. To halt the machine is the end of it."""
    does = DOES[insn.row]
    address = (machine.registers[insn.rs1][1] + insn.imm) % SPACE
    if does is Machine.do_csr and CSR_NAMES.get(insn.imm % 4096) in UNSTEADY:
        raise Unshown(f"uses a system register at {at}")
    if does in OF_MEMORY:
        if not machine.memory.holds(address, OF_MEMORY[does]):
            raise Unshown(f"loads a device at {named_address(address, labels)}")
        if touches(any_code, address, OF_MEMORY[does]):
            raise Unshown(f"loads any code at {named_address(address, labels)}")
    after = machine.copy()
    after.step()
    if after.halted is not None:
        raise Unshown(f"halts at {at}")


def begun(machine, any_code, rules, most, labels):
    """How many steps the image's own code takes up to code in the ranges."""
    steps = 0
    while not touches(any_code, machine.pc, 1):
        if steps == most:
            raise Unshown(f"more than {most} steps")
        look(machine, any_code, rules, labels)
        machine.step()
        steps += 1
    return steps


# ---- any code

def held_by(machine, specials=True):
    """What registers lead to, the special ones too where a trap leaves them to any code, and through doors, which are opened one after the
    other."""
    state, behind = machine.state(), []
    roots = [*state.registers, state.pcc, state.ddc, *(state.specials if specials else ())]
    while True:
        found = [Held(value, name) for value, name in zip(roots, ROOTS) if value[2]] + [Held(value, "behind a door") for value in behind]
        places = set()
        for value, _ in found:
            here = [address for address in sorted(state.tags) if address not in places and reach.opens(value, (reach.GRANULE, address))]
            places.update(here)
            found += [Held(state.granule(address), address) for address in here]
        values = [value for value, _ in found]
        new = next((with_fields(value, otype=UNSEALED) for value in values if not is_unsealed(value)
                    and with_fields(value, otype=UNSEALED) not in values and any(reach.is_key(key, value) for key in values)), None)
        if new is None:
            return found
        behind.append(new)


def may_seal(value):
    return is_unsealed(value) and has(value, SEAL | UNSEAL) and base(value) < top(value)


def check(machine, any_code, rules, found, labels):
    """That what any code holds encloses it, and breaks no rule."""
    def where(place):
        return place if isinstance(place, str) else named_address(place, labels)
    for first, end in any_code:
        tagged = [granule for granule in sorted(machine.memory.tags) if first < granule + WORD and granule < end]
        if tagged:
            raise Unshown(f"a tag stands at {named_address(tagged[0], labels)}")
    for value, place in found:
        if reach.opens_system(value):
            raise Unshown(f"system\n  held  {where(place)}")
        if may_seal(value):
            raise Unshown(f"seal\n  held  {where(place)}")
    for rule in rules:
        for value, place in found:
            for name in policy.PARTS:
                if name in rule.allowed and policy.breaks(value, name, policy.allowed_by(rule, name)):
                    raise Unshown(f"line {rule.line}: {name}\n  held  {where(place)}")


# ---- the kernel's code, which traps enter

def entry_of(machine):
    """Where a trap enters, and whether that is the image's own code."""
    mtcc = machine.special["mtcc"]
    return placed_at(opened(mtcc), mtcc[1] & ~3)


def enters_own_code(machine, any_code):
    entry = entry_of(machine)
    return leads_on(entry)[1] is None and machine.memory.holds(entry[1], 4) and not touches(any_code, entry[1], 1)


def is_known_to(machine, insn, keeps):
    """Whether an instruction with exact operands is the same in every run: it names neither DDC nor a special register, loads only what is
    kept, stores into no RAM, and jumps through no capability."""
    does, row = DOES[insn.row], insn.row
    if does in (Machine.do_load, Machine.do_lc):
        number, _, address = machine.access(insn)
        size = OF_MEMORY[does]
        return number != DDC and machine.memory.holds(address, size) and keeps(address, size)
    if does is Machine.do_capability:
        return row not in ("ctestsubset", "cunseal")
    if does is Machine.do_jalr:
        return not flag(machine.at)
    return does in (Machine.do_integer, Machine.do_immediate, Machine.do_upper, Machine.do_branch, Machine.do_jal, Machine.do_nothing)


def after_special(insn, unknown):
    """What is unknown after a special register is read, and perhaps replaced."""
    name = SCR_NAMES.get(insn.rs2)
    if name == "mtdc" and not insn.rs1:
        return unknown - {insn.rd}
    if name not in ("mscratchc", "mepcc"):
        return None
    later = unknown - {insn.rd} | ({insn.rd} if name in unknown else set())
    return later if not insn.rs1 else later - {name} | ({name} if insn.rs1 in unknown else set())


def followed(machine, insn, unknown, keeps):
    """What is unknown after an instruction of the kernel's code, or None where it isn't followed."""
    machine = machine.copy()
    machine.at = machine.special["pcc"]
    does, operands = DOES[insn.row], {insn.rs1, insn.rs2}
    trapped = machine.copy().step().trap is not None
    if not trapped and not operands & unknown and is_known_to(machine, insn, keeps):
        return unknown - {insn.rd}
    among = all(number in unknown or not machine.registers[number][2] for number in operands)
    if does in (Machine.do_integer, Machine.do_immediate) or does is Machine.do_capability and insn.row != "cunseal" and among:
        return unknown | {insn.rd}
    if does is Machine.do_cspecialrw and not trapped:
        return after_special(insn, unknown)
    if does is Machine.do_store and insn.rs1 not in unknown and not trapped:
        number, _, address = machine.access(insn)
        return unknown if number != DDC and not machine.memory.holds(address, 1) else None
    return None


def check_return(machine, values, unknown, kept):
    """That the return from a trap leaves any code nothing but what is of its set, and MScratchC as it was."""
    for place, value in [*zip(range(32), machine.registers), ("mepcc", machine.special["mepcc"])]:
        if place not in unknown and value[2] and value not in values:
            raise Unshown(f"returns\n  held  {place if place == 'mepcc' else CAPABILITY_NAMES[place]}")
    if "mscratchc" in unknown or machine.special["mscratchc"] != kept:
        raise Unshown("returns\n  held  mscratchc")


def handled(machine, any_code, rules, found, most, labels):
    """How many steps the kernel's code takes from a trap's entry up to its return, or until the machine is halted."""
    values, kept = [value for value, _ in found], machine.special["mscratchc"]

    def keeps(address, size):
        return not touches(any_code, address, size) and not any(
            is_unsealed(value) and has(value, STORE) and base(value) < address + size and address < top(value) for value in values)
    if machine.special["mtcc"][1] % 4:
        raise Unshown(f"isn't followed at {named_address(machine.special['mtcc'][1], labels)}")
    machine.special["pcc"] = entry_of(machine)
    machine.csrs["mstatus"] &= ~(MIE | MPIE)
    unknown = {*range(1, 32), "mepcc"}
    for steps in range(most):
        at = named_address(machine.pc, labels)
        if not keeps(machine.pc, 4):
            raise Unshown(f"fetches any code at {at}")
        for rule in rules:
            if policy.applies(rule, machine.fetched_at()):
                raise Unshown(f"line {rule.line}: applies at {at}")
        if machine.halted is not None:
            return steps
        insn = machine.next_insn() if machine.fetched_at() is not None else None
        if insn and insn.row == "mret" and machine.copy().step().trap is None:
            check_return(machine, values, unknown, kept)
            return steps
        unknown = insn and followed(machine, insn, unknown, keeps)
        if unknown is None:
            raise Unshown(f"isn't followed at {at}")
        unknown -= {0}
        machine.step()
    raise Unshown(f"more than {most} steps")


# ---- all of it

def guarded(machine, any_code, rules, steps, most, labels):
    """What a proof comes to where traps enter the image's own code."""
    if machine.halted is not None:
        raise Unshown(f"halts at {named_address(machine.pc, labels)}")
    found = held_by(machine, specials=False)
    check(machine, any_code, rules, found, labels)
    return Shown(None, steps + handled(machine, any_code, rules, found, most, labels), len(found))


def shown(machine, any_code, rules, most=10**6, labels=()):
    """What a proof comes to of a machine, which is left where any code begins."""
    try:
        for rule in rules:
            if rule.or_caller:
                raise Unshown(f"line {rule.line}: or caller")
        steps = begun(machine, any_code, rules, most, labels)
        found = held_by(machine)
        try:
            check(machine, any_code, rules, found, labels)
            return Shown(None, steps, len(found))
        except Unshown:
            if not enters_own_code(machine, any_code):
                raise
        return guarded(machine, any_code, rules, steps, most, labels)
    except Unshown as why:
        return Shown(*why.args)


def text(it, any_code, labels=()):
    """The lines of it."""
    if it.why:
        return f"not shown: {it.why}\n"
    ranges = "".join(f"  with any code in {named_address(first, labels)} to {end:017x}\n" for first, end in any_code)
    return ("holds\n  of every run of this image, over any steps, ticks and bytes\n" + ranges
            + f"  steps {it.steps}, capabilities {it.members}\n")


# ---- runs with some code

def drawn_word(rng):
    """A word: of a row with drawn operands, or any."""
    name = rng.choice(list(plain_words()))
    operands = {slot: rng.randrange(1 << 32) for slot in slots(FORM[name])}
    near = {slot: rng.randrange(-8, 8) * 4 for slot in operands if slot in ("branch", "jump")}
    return rng.randrange(1 << 32) if rng.randrange(16) == 0 else made(name, operands | near)


def with_code(machine, any_code, rng):
    """The machine with drawn words in the ranges."""
    other = machine.copy()
    for first, end in any_code:
        for address in range(max(first, RAM), min(end, RAM + len(other.memory.ram)), 4):
            other.memory.write(address, drawn_word(rng).to_bytes(4, "little")[:end - address])
    return other
