"""What `reach` and `may` answer: the members of the model's reach as texts, in states that short programs leave.

A program gives up root: it keeps a PCC for its own code and what else it is about, and jumps.
"""

from collections import Counter
from types import SimpleNamespace

from cases.conversations import STATE, said
from model import reach
from model.capabilities import base, is_unsealed, perms, top
from model.devices import CONTROL, HALT, RAM, RECEIVE, STATUS, TIMER, TIMER_COMPARE, TRANSMIT
from model.listings import named_address
from model.names import CAPABILITY_NAMES, SPECIALS
from model.objects import line, member as member_object
from model.origins import fields
from model.rights import ACCESS_SYSTEM_REGISTERS, ALL, SEAL, SENTRY, STORE, UNSEAL, UNSEALED, letters
from model.sessions import Session, address
from model.texts import Program
from model.words import ONES, SPACE

ROOTS = [*CAPABILITY_NAMES, "pcc", "ddc"]
NO, NO_THROUGH_DOORS = "no, until the next trap, unsealing or sealed jump", "no, until the next trap or unsealing"
HEAD = ["digraph reach {", "  rankdir=LR;", "  node [shape=box, fontname=monospace];", "  registers [shape=plaintext];"]


# ---- texts

def text(value):
    """A capability with its permissions in letters, and every field."""
    return f"{letters(perms(value))} {fields(value)}"


def place_name(place, labels=(), doors=()):
    """A register's name, or a granule's address with the label at it or fewer than 4096 bytes below it; or that of a door at such a
    place."""
    kind, n = place
    if kind == reach.DOOR:
        return f"behind {place_name(doors[n], labels)}"
    if kind != reach.GRANULE:
        return {reach.ROOT: ROOTS, reach.SPECIAL: SPECIALS}[kind][n]
    return named_address(n, labels)


def member_text(number, member, labels=()):
    source = "" if member.source is None else f" from {member.source}"
    return f"{number} {place_name(member.place, labels)}{source} {text(member.value)}"


def members_text(found, labels=()):
    return [member_text(number, member, labels) for number, member in enumerate(found)]


def objects_text(found, labels=()):
    """The members, an object a line."""
    for number, member in enumerate(found):
        yield line(member_object(number, member, place_name(member.place), labels)).rstrip()


def graph_text(found, labels=()):
    lines = []
    for number, (value, place, source) in enumerate(found):
        dashed = "" if is_unsealed(value) else ", style=dashed"
        start = "registers" if source is None else f"n{source}"
        lines += [f'  n{number} [label="{letters(perms(value))}\\n{base(value):016x} to {top(value):017x}"{dashed}];',
                  f'  {start} -> n{number} [label="{place_name(place, labels)}"];']
    return [*HEAD, *lines, "}"]


def answer_text(found, question, numbers, labels=(), doors=(), no=NO):
    number = reach.first(found, question, *numbers)
    if number is None:
        return [no]
    way = " -> ".join(place_name(found[link].place, labels, doors) for link in reach.chain(found, number))
    return [f"yes: {way} {text(found[number].value)}"]


def summary(found, labels=(), counted=(("registers", reach.ROOT), ("special registers", reach.SPECIAL), ("memory", reach.GRANULE))):
    """How many members there are, what they open, and those that are sealed."""
    places = Counter(member.place[0] for member in found)
    held = [member_text(number, member, labels) for number, member in enumerate(found) if not is_unsealed(member.value)]
    bytes_open = {name: [f"{place_name((reach.GRANULE, first), labels)} to {end:017x}" for first, end in reach.opened(found, permissions)]
                  for name, permissions in reach.BYTES.items()}
    registers = [f"{name} {'R' if loads else '-'}{'W' if stores else '-'}" for name, (loads, stores) in reach.accesses(found).items()]
    types_open = {name: [f"{first:05x} to {end:05x}" for first, end in reach.sealing(found, permission)]
                  for name, permission in reach.TYPES.items()}
    system = "no" if reach.first(found, "system") is None else "yes"
    counts = ", ".join(f"{name} {places[kind]}" for name, kind in counted)
    return [f"members {len(found)}: {counts}, sealed {len(held)}",
            *listed({**bytes_open, "device": registers}), f"system registers {system}", *listed(types_open),
            *held]


def listed(things):
    """What there is of each, a line a thing, or that there is none."""
    return [f"{name} {thing}" for name, some in things.items() for thing in some or ["none"]]


VIEWS = {"reach": summary, "reach members": members_text, "reach dot": graph_text, "reach json": objects_text}
COUNTED = (("registers", reach.ROOT), ("special registers", reach.SPECIAL), ("memory", reach.GRANULE), ("behind doors", reach.DOOR))


def answered(machine, line, labels=()):
    """What a line of these commands is answered with."""
    words = " ".join(line.replace("\\t", " ").replace("\\r", " ").split())
    if words in VIEWS:
        return VIEWS[words](reach.members(machine.state()), labels)
    found, doors = reach.through_doors(machine.state())
    if words == "reach doors":
        return summary(found, labels, COUNTED)
    asked = words.removesuffix(" through doors")
    _, question, *written = asked.split()
    named = {name: address for address, name in reversed(labels)}
    numbers = [address(SimpleNamespace(labels=named), word) for word in written]
    if question == "keep" and not numbers:
        numbers = [0, ONES]
    if asked == words:
        return answer_text(reach.members(machine.state()), question, numbers, labels)
    return answer_text(found, question, numbers, labels, doors, NO_THROUGH_DOORS)


def after(program, steps, lines, *more):
    """A conversation's text: so many steps, and these lines with their answers; and then the same with more steps and lines."""
    machine, text = Program(program).machine(), []
    for count, asked in zip((steps, *more[::2]), (lines, *more[1::2])):
        for _ in range(count):
            machine.step()
        text += [f"> step {count}", f"events {count} out - pc {machine.pc:016x} running"] if count else []
        text += [part for line in asked for part in (f"> {line}", *answered(machine, line))]
    return "\n".join(text)


# ---- programs

def cap(start, length, perms, flag=0):
    return f".cap {start:#x}, {length}, {perms:#x}, {flag}"


def narrowed(*made, code=0x7, keep=(), then=(), data=()):
    """A program that makes capabilities with `made`, of root in ca0, and jumps to `then` with these permissions; of the registers that hold
    capabilities those in `keep` stay, and ca1, which is PCC. RAM from 0x80000100 on holds the data. And how many steps it takes."""
    begun = ["cspecialrw ca0, pcc, cnull"]
    given_up = [f"cmove {name}, cnull" for name in ("ca0", "ca2", "ca3", "ca4") if name not in keep]
    ended = ["csetboundsimm ca1, ca0, 256", f"addi a5, zero, {code}", "candperm ca1, ca1, a5", "cspecialrw cnull, ddc, ca7"]
    count = sum(map(len, (begun, made, ended, given_up))) + 2
    jump = [f"cincoffsetimm ca1, ca1, {4 * count}", *given_up, "jalr.cap cnull, ca1"]
    held = [f".org {RAM + 0x100:#x}", *data] if data else []
    return "; ".join([*begun, *made, *ended, *jump, *then, *held]), count


def bounded(register, offset, length, perms):
    """The capability of so many bytes at an offset from RAM's beginning."""
    return [f"cincoffsetimm {register}, ca0, {offset}", f"csetboundsimm {register}, {register}, {length}", f"addi a5, zero, {perms}",
            f"candperm {register}, {register}, a5"]


LOADS = 0x15
DATA = RAM + 0x100

# A machine as it begins, with three capabilities in RAM.
OPENING = "; ".join(["nop", f".org {DATA:#x}", cap(DATA, 64, LOADS), cap(0x10, 1, 0xFFFF, 1), f".org {DATA + 0x30:#x}", cap(0, 0, 0)])

# A table leads to two tables, and one of these to a third and to devices: transmit and mtimecmp, and halt but for its first byte.
CHAIN_PROGRAM, CHAIN_STEPS = narrowed(*bounded("ca3", 0x100, 32, LOADS), keep=("ca3",), data=[
    cap(DATA + 0x40, 64, LOADS), cap(DATA + 0x80, 16, LOADS),
    f".org {DATA + 0x40:#x}", cap(DATA + 0xC0, 16, LOADS), cap(TRANSMIT, 1, 0x8), cap(HALT + 1, 7, 0x8), cap(TIMER_COMPARE, 8, 0x8),
    f".org {DATA + 0x80:#x}", cap(HALT, 8, 0x4), f".org {DATA + 0xC0:#x}", cap(RECEIVE, 8, 0xC), cap(0x1234, 0, 0xFFFF)])

# Four granules: the first and the last two are opened by registers, the second by the first alone; each leads to others and to itself.
CYCLE_PROGRAM, CYCLE_STEPS = narrowed(*bounded("ca2", 0x100, 16, LOADS), *bounded("ca3", 0x120, 32, LOADS), keep=("ca2", "ca3"), data=[
    cap(DATA, 64, 0x7F, 1), cap(DATA, 32, LOADS), cap(DATA, 64, LOADS), cap(RAM, 4096, 0xFBFF)])

# ca2 lacks the first byte of a granule, ca3 the last byte of one, ca4 Load_Capability; of what ca3 opens one lacks Load, and one
# Load_Capability.
SHORT_PROGRAM, SHORT_STEPS = narrowed(*bounded("ca2", 0x101, 31, LOADS), *bounded("ca3", 0x120, 47, LOADS), *bounded("ca4", 0x100, 64, 0x4),
                                      keep=("ca2", "ca3", "ca4"), data=[
    cap(0x1000, 1, 1), cap(0x1010, 1, 2), cap(DATA, 64, 0x410), cap(DATA, 64, 0x6F), cap(0x1040, 1, 3)])

# ca2 is sealed with type 7 and lies in RAM too, ca3 is a sentry of code with Access_System_Registers, ca4 loads the sealed one.
SEALING_PROGRAM, SEALING_STEPS = narrowed(
    *bounded("ca2", 0x100, 32, 0x7F), "cincoffsetimm ca4, ca0, 0", "addi a6, zero, 7", "csetaddr ca4, ca4, a6", "cseal ca2, ca2, ca4",
    "csealentry ca3, ca0", *bounded("ca4", 0x110, 16, 0x7F), "sc.cap ca2, (ca4)", keep=("ca2", "ca3", "ca4"),
    data=[cap(TRANSMIT, 8, 0x8)])

# A kernel: PCC has Execute and Access_System_Registers, MTDC leads to a table of devices, MScratchC to a frame.
KERNEL_PROGRAM, KERNEL_STEPS = narrowed(
    *bounded("ca2", 0x100, 16, LOADS), "cspecialrw cnull, mtdc, ca2", *bounded("ca2", 0x110, 32, 0x7C), "cspecialrw cnull, mscratchc, ca2",
    "cspecialrw cnull, mepcc, ca7", *bounded("ca2", 0x40, 32, 0x402), "cspecialrw cnull, mtcc, ca2", code=0x402,
    data=[cap(TIMER_COMPARE + 8, 8, 0x8), cap(TIMER_COMPARE, 1, 0x8), cap(DATA + 0x10, 16, LOADS)])

# One capability in a register is enough: ca3 has Execute and Access_System_Registers. What has no tag isn't one: ca4 is root's bits,
# and over the second granule null is stored.
LEFT_PROGRAM, LEFT_STEPS = narrowed(
    *bounded("ca2", 0x110, 16, 0x7F), "sc.cap ca7, (ca2)", "cincoffsetimm ca3, ca0, 0", "addi a5, zero, 0x402", "candperm ca3, ca3, a5",
    "ccleartag ca4, ca0", keep=("ca3", "ca4"), data=[cap(DATA, 16, 0x4), cap(DATA, 16, 0x4)])

# Code that loads the first capability of a table, and gives the table up.
LOADING_PROGRAM, LOADING_STEPS = narrowed(
    *bounded("ca3", 0x100, 32, LOADS), keep=("ca3",), then=["lc.cap ca4, (ca3)", "cmove ca3, cnull"],
    data=[cap(DATA + 0x20, 16, LOADS), cap(HALT, 8, 0x8), cap(TRANSMIT, 8, 0x8)])

# Code without rights but its own, and a kernel to which its trap leads: a word of zeros isn't an instruction.
TRAPPED_PROGRAM, TRAPPED_STEPS = narrowed(
    *bounded("ca2", 0x100, 16, LOADS), "cspecialrw cnull, mtdc, ca2", *bounded("ca2", 0x40, 32, 0x402), "cspecialrw cnull, mtcc, ca2",
    data=[cap(TRANSMIT, 8, 0x8)])

# 16 bytes from 0x80000100 on may be stored, the next 16 loaded, and the 16 after these executed.
BYTES_PROGRAM, BYTES_STEPS = narrowed(*bounded("ca2", 0x100, 16, 0x8), *bounded("ca3", 0x110, 16, 0x4), *bounded("ca4", 0x120, 16, 0x2),
                                      keep=("ca2", "ca3", "ca4"))
ROOMS = [(DATA - 1, 1), (DATA - 1, 2), (DATA, 1), (DATA + 15, 1), (DATA + 16, 1), (DATA + 31, 1), (DATA + 32, 1), (DATA + 47, 16),
         (DATA + 48, 1), (0, RAM), (0, RAM + 1), (DATA + 1, ONES), (ONES, ONES), (0, ONES), (DATA, 0x30)]
BYTES = [f"may {what} {address:#x} {size}" for what in ("store", "load", "execute", "learn") for address, size in ROOMS]


# What may be kept: 48 bytes from the middle of a granule on have two whole granules, the next capability lacks Store_Local_Capability, and
# the last has one byte less than a granule.
KEEPING_PROGRAM, KEEPING_STEPS = narrowed(*bounded("ca2", 0x108, 48, 0x68), *bounded("ca3", 0x140, 16, 0x28), *bounded("ca4", 0x150, 15, 0x68),
                                          keep=("ca2", "ca3", "ca4"))
KEEPING_ROOMS = [(DATA + 8, 8), (DATA + 8, 9), (DATA + 16, 1), (DATA + 47, 1), (DATA + 48, 8), (DATA + 48, 32), (DATA + 0x40, 16),
                 (DATA + 0x50, 16), (0, DATA + 16), (0, DATA + 17), (DATA + 47, ONES), (DATA + 48, ONES), (ONES, ONES), (0, ONES)]
KEEPING = ["may keep", "may keep through doors", *(f"may keep {address:#x} {size}" for address, size in KEEPING_ROOMS)]


def table(*held):
    """A program that keeps a table of these capabilities and its own code."""
    return narrowed(*bounded("ca3", 0x100, 16 * len(held), LOADS), keep=("ca3",), data=[cap(*one) for one in held])


# Ranges for stores, not in ascending order: each meets or touches others at its beginning, its end or both, lies in one or around one, or
# lies a byte apart; and beside them ranges for loads and fetches, which are not joined with those.
MEETING = table((0x1040, 16, 8), (0x1000, 16, 8), (0x1010, 16, 8), (0x1030, 16, 8), (0x1004, 4, 8), (0x104F, 2, 8), (0x1020, 16, 4),
                (0x2000, 64, 8), (0x1FFF, 2, 8), (0x2041, 1, 8), (0x1FFD, 1, 8), (0x3000, 16, 8), (0x3020, 16, 8), (0x3010, 16, 8))
AROUND = table((0x4000, 4, 8), (0x3FF0, 64, 8), (0x5000, 8, 8), (0x5000, 8, 8), (0x5010, 8, 8), (0x5020, 8, 8), (0x5004, 32, 8),
               (0x6000, 8, 2), (0x6008, 8, 2), (0x7000, 16, 0x14), (0x7010, 16, 0x10), (0x7010, 16, 4), (0x7020, 16, 0x14))
# Bounds that end with the address space, and empty ones, also at the end of others and between two.
LAST = table((SPACE - 4096, 4096, 8), (SPACE - 8192, 4096, 12), (SPACE - 1, 1, 2), (0, 1, 4))
EMPTY = table((0x1234, 0, 0xFBFF), (0, 0, 0xFBFF), (0x1000, 16, 8), (0x1010, 0, 8), (0x1011, 16, 8), (ONES, 0, 0xFBFF))
# Types to seal and to unseal with: some, the last ones before the reserved ones, reserved ones alone, and those on both sides.
SEALS = table((1, 2, SEAL), (2, 1, UNSEAL), (0x1000, 16, ALL ^ SEAL ^ UNSEAL ^ ACCESS_SYSTEM_REGISTERS))
SEVERAL = table((5, 2, SEAL | UNSEAL), (7, 1, SEAL), (9, 1, SEAL), (0x3FFFB, 1, UNSEAL), (0x3FFFD, 1, UNSEAL))
RESERVED = table((0x3FFFC, 4, SEAL), (0x40000, 16, SEAL), (0x3FFF0, 32, UNSEAL), (SPACE - 16, 16, UNSEAL))
EVERY_TYPE = table((0, ONES // 2 + 1, SEAL), (0x20000, 0x40000, UNSEAL))
# Registers that are loaded alone, stored alone, and both by two capabilities; or opened but for their first bytes.
LOADED = table(*((address, 8, 4) for address in reach.REGISTERS.values()))
STORED = table(*((address, 8, 8) for address in reach.REGISTERS.values()))
DEVICES = table((TIMER, 8, 4), (RECEIVE, 1, 4), (STATUS - 1, 2, 8), (CONTROL, 8, 4), (CONTROL, 8, 8), (HALT + 1, 7, 12),
                (TRANSMIT, 8, 2), (TIMER_COMPARE - 8, 8, 12))

# Sealed with type 7: ca2 and ca3 are a pair, code and data; the data leads to a table whose sentry ca4 sealed, and the sentry's code to
# a device. Or the other halves of pairs: code with another type, data with Execute, data without CInvoke, code whose address isn't a
# multiple of 4, or of which fewer than 4 bytes are left.
def sealed(register, number=7):
    """Seals a register's capability with a type, through root."""
    return ["cincoffsetimm ca4, ca0, 0", f"addi a5, zero, {number}", "csetaddr ca4, ca4, a5", f"cseal {register}, {register}, ca4"]


def pair(code=(0, 64, 0x107, 7), datum=(0x100, 32, 0x13D, 7), offset=0):
    """A program that keeps the two in ca2 and ca3, sealed, each with an offset from RAM's beginning, a length, permissions and a type."""
    (at, length, rights, kind), (start, size, given, other) = code, datum
    return narrowed(*bounded("ca2", at, length, rights), f"cincoffsetimm ca2, ca2, {offset}", *sealed("ca2", kind),
                    *bounded("ca3", start, size, given), *sealed("ca3", other), keep=("ca2", "ca3"),
                    data=[cap(TRANSMIT, 8, 0x8), cap(DATA + 0x20, 16, LOADS), cap(HALT, 8, 0x8)])


# A table has a sentry of code that loads another table, of what may set the timer. And a sentry in a register.
BEHIND_PROGRAM, BEHIND_STEPS = narrowed(
    *bounded("ca2", 0x110, 16, 0x7F), *bounded("ca3", 0x120, 16, 0x17), "csealentry ca3, ca3", "sc.cap ca3, (ca2)",
    *bounded("ca3", 0x100, 32, LOADS), *bounded("ca4", 0x130, 16, 0x7), "csealentry ca4, ca4", keep=("ca3", "ca4"),
    data=[cap(0x1000, 8, 0x8), cap(0, 0, 0), cap(TIMER_COMPARE, 8, 0x8), cap(0x2000, 8, 0x8)])

# What is sealed with CInvoke and has no partner: a key is what may seal with its type, and not what may seal with the next or may unseal.
KEYS = {about: narrowed(*bounded("ca2", 0x100, 16, given), *sealed("ca2"), "cincoffsetimm ca3, ca0, 0", f"addi a5, zero, {first}",
                        "csetaddr ca3, ca3, a5", "csetboundsimm ca3, ca3, 1", f"addi a5, zero, {rights}", "candperm ca3, ca3, a5",
                        keep=("ca2", "ca3"))
        for about, given, first, rights in (("may seal with its type", 0x108, 7, SEAL), ("may seal with the next type", 0x108, 8, SEAL),
                                            ("may unseal its type", 0x108, 7, UNSEAL), ("has no CInvoke", 0x8, 7, SEAL))}

THROUGH = ["reach doors", "reach", *(f"may {what} through doors" for what in ("send", "halt", "system", "timer"))]

MACHINE = ["may send", "may halt", "may system", "may timer"]
# Asked only where no member may seal with the type: what code seals itself is not held yet.
TYPES = ["may hold 7", "may hold 8", "may hold 0", f"may hold {SENTRY}", f"may hold {UNSEALED}", "may hold 0x0007"]

SEEN = ["reach", "reach members", "reach dot", "reach json", *MACHINE]


def edges(address):
    """Programs about a device's first byte: one that may store it and the byte before, one from after it on, one all of the register but
    without Store, and one no byte."""
    for start, length, perms in ((address - 1, 2, STORE), (address + 1, 7, STORE), (address, 8, ALL ^ STORE), (address, 0, STORE)):
        yield narrowed(*bounded("ca3", 0x100, 16, LOADS), keep=("ca3",), data=[cap(start, length, perms)])


def conversations():
    yield ("What is reachable as a machine begins: root, from PCC the special registers, and then what RAM holds",
           OPENING, 0, [*SEEN, "may learn 0 18446744073709551615"])
    yield ("A chain of three links leads to a device; a capability beside a device's register doesn't open it",
           CHAIN_PROGRAM, CHAIN_STEPS, [*SEEN, "may store 0x100001 1", "may store 0x100001 0x7", "may store 0x100000 1",
                                        f"may load {RECEIVE:#x} 8", f"may load {RECEIVE - 1:#x} 1", f"may store {CONTROL:#x} 8",
                                        f"may execute {RAM:#x} 256", f"may execute {DATA:#x} 16", "may hold 7"])
    yield ("Tables that lead to each other and to themselves: each granule is found once, through the first member that opens it",
           CYCLE_PROGRAM, CYCLE_STEPS, [*SEEN, f"may store {RAM + 4095:#x} 1", f"may store {RAM + 4096:#x} 1"])
    yield ("A granule is opened by bounds that have all of it, and by Load and Load_Capability together",
           SHORT_PROGRAM, SHORT_STEPS, SEEN)
    yield ("What is sealed opens nothing; its type is held, and a sentry's", SEALING_PROGRAM, SEALING_STEPS,
           [*SEEN, *TYPES, f"may store {DATA:#x} 1", f"may store {DATA + 16:#x} 1"])
    yield ("With Access_System_Registers the special registers are reachable, and what they lead to: each kind of place in one chain",
           KERNEL_PROGRAM, KERNEL_STEPS, [*SEEN, f"may load {DATA + 0x1F:#x} 1", f"may store {DATA + 0x1F:#x} 1"])
    yield ("One register that was left is enough", LEFT_PROGRAM, LEFT_STEPS, [*SEEN, "may load 0 1", "may learn 0 1"])
    yield ("As code goes on it reaches the same or less", LOADING_PROGRAM, LOADING_STEPS, SEEN, 1, SEEN, 1, SEEN)
    yield ("An answer ends with a trap: after it what the kernel keeps is reachable", TRAPPED_PROGRAM, TRAPPED_STEPS, SEEN, 1, SEEN)
    yield ("Each question of bytes, at the ends of what may be stored, loaded and executed", BYTES_PROGRAM, BYTES_STEPS, [*SEEN, *BYTES])
    yield ("What is lent may be kept in granules that lie wholly in the bounds, with all three permissions to store it", KEEPING_PROGRAM,
           KEEPING_STEPS, KEEPING)
    for about, one in (("The last granule of the address space", (SPACE - 16, 16, 0x68)), ("The last granule but for its first byte", (SPACE - 15, 15, 0x68)),
                       ("Without Store", (0x1000, 16, 0x60)), ("Without Store_Capability", (0x1000, 16, 0x48)),
                       ("Without Store_Local_Capability", (0x1000, 16, 0x28))):
        yield f"What may be kept: {about[0].lower() + about[1:]}", *table(one), ["may keep", f"may keep {ONES:#x} 1", "may keep 0x1000 1"]
    for question, address in (("send", TRANSMIT), ("halt", HALT), ("timer", TIMER_COMPARE)):
        for about, (program, steps) in zip(("with the byte before", "after it", "without Store", "of no byte"), edges(address)):
            yield f"`may {question}` asks for the register's first byte: {about}", program, steps, ["may " + question, "reach"]
    for about, asked in (
            ("Of ranges that meet or touch one is shown", MEETING), ("Ranges around others, and two that a third joins", AROUND),
            ("The last byte of the address space", LAST), ("Empty bounds open nothing", EMPTY),
            ("Sealing and unsealing are asked for each by its permission", SEALS), ("Ranges of types", SEVERAL),
            ("Reserved types are left out", RESERVED), ("All types", EVERY_TYPE),
            ("Registers that are loaded alone", LOADED), ("Registers that are stored alone", STORED),
            ("A register is open by its first byte", DEVICES)):
        yield about, *asked, ["reach"]
    for about, program, steps in (
            ("A pair that CInvoke accepts", *pair()),
            ("Code and data of two types", *pair(datum=(0x100, 32, 0x13D, 6))),
            ("Data with Execute", *pair(datum=(0x100, 32, 0x13F, 7))),
            ("Data without CInvoke", *pair(datum=(0x100, 32, 0x3D, 7))),
            ("Code without CInvoke", *pair(code=(0, 64, 0x7, 7))),
            ("Code without Execute", *pair(code=(0, 64, 0x105, 7))),
            ("The last instruction of code", *pair(offset=60)),
            ("Code whose address is no multiple of 4", *pair(offset=2)),
            ("Code whose address is odd", *pair(offset=5)),
            ("Three bytes of code are left", *pair(code=(0, 63, 0x107, 7), offset=60))):
        yield (f"Through doors: {about[0].lower() + about[1:]}", program, steps,
               [*THROUGH, f"may store {DATA:#x} 32 through doors", f"may load {DATA:#x} 1", f"may execute {RAM:#x} 1  through\\tdoors"])
    yield ("Through doors: what is lent may be kept in the data of a pair", *pair(datum=(0x100, 32, 0x17D, 7)),
           ["may keep", "may keep through doors", f"may keep {DATA + 31:#x} 1 through doors", f"may keep {DATA + 32:#x} 16  through\\tdoors"])
    yield ("Through doors: what is behind a sentry in a table leads to another table", BEHIND_PROGRAM, BEHIND_STEPS,
           [*THROUGH, "may store 0x1000 1 through doors", "may store 0x2000 1 through doors", f"may execute {DATA + 0x30:#x} 16 through doors",
            f"may learn {DATA + 0x40:#x} 1 through doors", f"may hold {SENTRY} through doors", "may hold 7 through doors"])
    for about, (program, steps) in KEYS.items():
        yield (f"Through doors: of a sealed value without a partner, where what code holds {about}", program, steps,
               [*THROUGH, f"may store {DATA:#x} 1 through doors", "may hold 9 through doors"])
    yield ("Through doors: without a sealed capability as without doors", CHAIN_PROGRAM, CHAIN_STEPS, THROUGH)
    yield ("Through doors: the special registers and what they lead to", KERNEL_PROGRAM, KERNEL_STEPS, THROUGH)
    yield ("The timer's count is no comparison", *narrowed(*bounded("ca3", 0x100, 16, LOADS), keep=("ca3",), data=[cap(TIMER, 8, 0x8)]),
           ["may timer"])


# Operands of `reach` and `may` that are refused, and names that are no commands.
REFUSED_OPERANDS = [
    "reach x", "reach members 1", "reach members dot", "reach dot 1", "reach json 1", "reach JSON", "reach 1", "reach Members", "reach member", "may", "may x",
    "reach doors 1", "reach doors doors", "reach Doors", "reach through doors", "may send through", "may send doors", "may send doors through",
    "may send through doors 1", "may send Through doors", "may send through door", "may through doors", "may through doors send",
    "may hold 7 through", "may hold through doors", "may hold 7 7 through doors", "may store 0x80000000 through doors",
    "may store 0x80000000 1 through", "may store 0x80000000 1 through doors doors", "may load 0x80000000 1 1 through doors",
    "may Store", "may send 1", "may send send", "may halt 1", "may system 1", "may timer 1", "may hold", "may hold 262144",
    "may hold 0x40000", "may hold -1", "may hold 7 7", "may hold x", "may reach",
    *(line.format(what) for what in ("store", "load", "execute", "learn") for line in (
        "may {}", "may {} 0x80000000", "may {} 0x80000000 0", "may {} 0x80000000 -1", "may {} 0x80000000 1 1", "may {} x 1",
        "may {} -1 1", "may {} 0x10000000000000000 1", "may {} 0 18446744073709551616")),
]
REFUSED_OPERANDS += [f"may keep{rest}" for rest in (
    " x", " through", " doors", " doors through", " through doors 1", " through doors through doors", " 0x80000000", " 0x80000000 0",
    " 0x80000000 -1", " 0x80000000 1 1", " 0x80000000 1 through", " x 1", " -1 1", " 0x10000000000000000 1", " 0 18446744073709551616")]
REFUSED_NAMES = ["store 0x80000000 1", "send", "reaches", "Reach", "MAY send", "may: send", "members", "dot"]

CONVERSATIONS = [(about, program, after(program, *asked)) for about, program, *asked in conversations()]
CONVERSATIONS += [("Without a capability in RAM; asking changes nothing", "nop", after("nop", 0, [
    "reach", " reach\\tmembers\\r", "reach  dot", f"may  hold\\t{UNSEALED}", "may execute 0 1"]) + "\n" + said(Session("nop"), STATE))]
