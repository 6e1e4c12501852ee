"""Command lines of the program that watch a run by a policy: what breaks each part, what is about the code, what is told, and which texts
are refused.

What is told of a run is what the model of a machine meets (model/machine.py, cases/watched.py); a text's fault is that of the grammar.
"""

from cases.program_lines import BAD, FILE, NO_IMAGE, NOT_HALTED, TRACE, case, fails, is_directory, missing, no_label, refused, table, unread
from cases.quoting import quoted
from cases.watched import GAP, TICK, ran
from model import policy
from model.devices import HALT, RAM, STATUS, TIMER, TIMER_COMPARE, TRANSMIT
from model.images import file_v2
from model.listings import table_text, with_names
from model.rights import (ACCESS_SYSTEM_REGISTERS, CINVOKE, EXECUTE, GLOBAL, GREATEST_SEALING_TYPE, LOAD, LOAD_CAPABILITY, SEAL, STORE,
                          STORE_CAPABILITY, STORE_LOCAL, UNSEAL)
from model.texts import Program

# ---- programs

# The program of first.img, which stays root and sends `A`.
FIRST = "lui a1, 0x10000; addi a0, zero, 65; sb a0, 0(a1); lui a1, 0x100; sd zero, 0(a1)"
CODE, GIVEN, DATA = RAM + 0x100, RAM + 0x200, RAM + 0x300
CALL, TABLE = GLOBAL | EXECUTE, LOAD | LOAD_CAPABILITY
# What code is given so that it can halt the machine.
HALTS = ("cs11", "0x100000", 8, STORE)


def program(*held, then=("csd zero, 0(cs11)",), before=(), code=CALL, data=()):
    """A program that gives root up: it loads capabilities from a table into the registers that they are named with, does `before` with
    root in ca0, and jumps to `then`, which has these permissions. RAM holds the table of capabilities and the data."""
    table = [("cra", "code", 0x80, code), *held]
    loads = [f"clc {name}, {GIVEN - RAM + 16 * number}(ca0)" for number, (name, *_) in enumerate(table)]
    start = ["start: cspecialrw ca0, pcc, cnull", *loads, *before, "cspecialrw cnull, ddc, ct0", "cmove ca0, cnull", "cjalr cnull, 0(cra)"]
    caps = [f".cap {first}, {length}, {perms:#x}, {int(perms & EXECUTE != 0)}" for _, first, length, perms in table]
    return "\n".join([".mode 1", *start, f".org {CODE:#x}", "code: " + then[0], *then[1:], f".org {GIVEN:#x}", "given: " + caps[0],
                      *caps[1:], f".org {DATA:#x}", "data: .zero 16", *data])


def sealed(name, number):
    """Seals a register's capability with a type, through root."""
    return [f"addi t1, zero, {number}", "csetaddr ct1, ca0, t1", f"cseal {name}, {name}, ct1", "cmove ct1, cnull"]


# ---- a case

def image_of(program):
    """The file of the image of a program: its statements as one section, and its capabilities."""
    code = bytearray(max(program.words) + 4 - RAM)
    for place, word in program.words.items():
        code[place - RAM:place - RAM + 4] = word.to_bytes(4, "little")
    return file_v2(program.pages, RAM, 1, program.grants, [(RAM, bytes(code))])


class Watch:
    """A run that a policy watches: its options, and the files that it is given."""

    COMMAND = "run"

    def __init__(self, text, rules, steps=1000, options="", named=True, gap=GAP, tick=TICK, keys=b""):
        made = Program(text)
        labels = made.symbols() if named else []
        read, fault = policy.read(rules, {name: address for address, name in labels})
        assert not fault, fault
        self.status, self.sent, self.told = self.came(made.machine(), read, steps, gap, tick, keys, labels, "--json" in options.split())
        file = FILE if text == FIRST else f"first.img {quoted(image_of(made))}"
        self.words = " ".join([self.COMMAND, "first.img", str(steps), "--policy p", *(["--symbols t"] if named else []), *options.split()])
        self.files = [file, *([f"t {quoted(table_text(labels))}"] if named else []), f"p {quoted(rules)}",
                      *([f"keys {quoted(keys)}"] if keys else [])]
        self.opened = ", ".join(["open first.img", *(["open t"] if named else []), "open p", *(["open keys"] if keys else [])])

    def came(self, machine, *run):
        """What comes of it: the status, what is sent and what is told."""
        status, told = ran(machine, *run)
        return status, bytes(machine.devices.sent), told

    def line(self, told=None, opened="", made=b""):
        """The case; what is told may be less than all of it."""
        return case(self.words, self.files, self.status, self.opened + opened, self.sent, self.told if told is None else told, made)


def watched(text, rules, *steps, **how):
    return Watch(text, rules, *steps, **how).line()


def stops(text, rules, *steps, **how):
    """A run that stops at a breach."""
    watch = Watch(text, rules, *steps, **how)
    assert "cherisim: policy: " in watch.told
    return watch.line()


def goes(text, rules, *steps, **how):
    """A run that halts, or takes all of its steps."""
    watch = Watch(text, rules, *steps, **how)
    assert "cherisim: policy: " not in watch.told
    return watch.line()


def inside(*said):
    """The rule about the code of a program."""
    return f"when pc in code..+0x80: {', '.join(said)}\n"


# ---- cases

WHOLE = "when pc in 0x80000000..+0x1000: "
# The parts that a machine which is root breaks: it holds nothing sealed.
BY_ROOT = [name for name in policy.PARTS if name not in (policy.ENTER, "types")]


def first_image():
    yield "# a policy without a rule, with rules about other code, and with rules that allow all"
    for text in ("", "\n# nothing\n  \t\n", "A = 0..1\n", "when pc in 0x80000014..+0xfec: store no, transmit no\n",
                 "when pc in 0..0x80000000 0x80001000..0xffffffffffffffff: system no\n",
                 WHOLE + "transmit yes, halt yes, timer yes, system yes, seal yes, types none\n",
                 WHOLE + "store within 0x80000000..+0xffffffff80000000 control mtime receive status, load within 0..+18446744073709551615"
                 " 5..0xffffffffffffffff 0xffffffffffffffff..+1, execute within 0x80000000..0xc0000000 0xbfffffff..+0xffffffff40000001\n"):
        yield goes(FIRST, text, named=False)
    yield "# each part is broken by a machine that is root, before its first step"
    for name in BY_ROOT:
        yield stops(FIRST, WHOLE + f"{name} no\n", named=False)
    yield goes(FIRST, WHOLE + "enter no, types none\n", named=False)
    yield stops(FIRST, WHOLE + "store within 0x80000000..0xffffffffffffffff\n", named=False)
    yield "# before a later step: what was sent is sent, and the steps that were done are told"
    last = "when pc in 0x80000010..+4: seal no\n"
    watch = Watch(FIRST, last, named=False)
    yield watch.line()
    yield goes(FIRST, last, 4, named=False)
    yield stops(FIRST, last, 5, named=False)
    yield "# --quiet leaves out all but the first line; --times and a trace go with a policy"
    yield Watch(FIRST, last, options="--quiet", named=False).line(NOT_HALTED)
    watch.words = "run first.img 2 --times 3 --policy p"
    yield watch.line()
    watch.words = "run first.img 9 --policy p --trace t"
    yield watch.line(opened=", make t", made="".join(TRACE.splitlines(True)[:4]).encode())
    yield "# with a table the addresses of the trace and of where it stopped have labels"
    labels = [(RAM, "start"), (RAM + 12, "halt"), (RAM + 12, "end")]
    yield case("run first.img 9 --policy p --symbols s --trace t", [FILE, table("s", labels), f"p {quoted(last)}"], 1,
               "open first.img, open s, open p, make t", b"A", with_names(watch.told, labels),
               with_names("".join(TRACE.splitlines(True)[:4]), labels).encode())


def which():
    yield "# of several rules the first that is about the code and broken; its line is counted with those that say nothing, and shown bare"
    for text in (WHOLE + "store no\n" + WHOLE + "load no\n", WHOLE + "types 1\n\n" + WHOLE + "load no\n",
                 "# a policy\n\nwhen pc in 0x80000004..+4: load no\n \twhen pc in 0x80000000..+4: \texecute no \t# its first step\n"):
        yield stops(FIRST, text, named=False)
    yield "# the first part in the order of parts, whichever stands first"
    yield stops(FIRST, WHOLE + "seal no, system no, timer no, halt no, transmit no, load no, execute no\n", named=False)
    yield stops(FIRST, WHOLE + "seal no, system no, timer no, halt no, transmit yes\n", named=False)
    yield "# the first member that breaks the rule, whichever part; and the first rule, whichever member"
    two = program(HALTS, ("cs0", "1", 2, SEAL), ("cs1", "data", 16, STORE))
    yield stops(two, inside("store no", "seal no"))
    yield stops(two, inside("store no") + inside("seal no"))
    yield stops(two, inside("store within data..+16") + inside("halt no") + inside("seal no"))


def ranges():
    def holds(*cap):
        return program(HALTS, ("cs0", *cap))
    yield "# all bytes of RAM in the bounds lie in the ranges, in one or in several, in whichever order they stand"
    block = holds("data", 16, STORE)
    for given in ("data..+16", "0x80000300..0x80000310", "data..0x80000310", "data..+0x1000 5..6", "0x80000308..+8 data..+8",
                  "data..+9 0x80000303..+13", "0..0xffffffffffffffff"):
        yield goes(block, inside(f"store within {given}"))
    for given in ("data..+15", "0x80000301..+15", "data..+8 0x80000309..+7", "0..1", "code..+0x80"):
        yield stops(block, inside(f"store within {given}"))
    yield stops(block, inside("store no"))
    yield goes(block, inside("load no", "seal no", "types none", "execute within code..+0x80"))
    yield "# names, of other names too"
    yield goes(block, "Low = data..+4\nHigh = 0x8000030c..+4\nAll = Low High 0x80000304..+8\nCode = code..+0x80\n"
               "when pc in Code: store within All\n")
    yield stops(block, "Low = data..+4\nHigh = 0x8000030c..+4\nwhen pc in code..+4 code..+8: store within Low High\n")
    yield "# below RAM no byte counts, nor in bounds without one; what is sealed has none"
    across = holds("0x7ffffff0", 32, STORE)
    yield goes(across, inside("store within 0x80000000..+16"))
    yield stops(across, inside("store within 0x7ffffff0..+31"))
    yield goes(holds("0x7ffffff0", 16, STORE | LOAD), inside("store no", "load no"))
    yield goes(holds("data", 0, STORE | LOAD), inside("store no", "load no"))
    yield goes(program(HALTS, ("cs0", "data", 16, STORE | LOAD), before=sealed("cs0", 7)), inside("store no", "load no"))
    yield "# loads and fetches by their permissions; PCC counts too"
    yield stops(holds("data", 16, LOAD), inside("store no", "load no"))
    yield goes(holds("data", 16, LOAD), inside("store no", "load within data..+16", "execute within code..+0x80"))
    yield stops(holds("data", 16, EXECUTE), inside("load no", "execute within code..+0x80"))
    yield stops(holds("data", 16, STORE), inside("execute within code..+0x7c"))
    yield "# through memory, with the labels of a table"
    chain = program(HALTS, ("cs0", "table", 32, TABLE), data=["table: .cap data, 8, 8, 0", ".cap 0x80000340, 16, 0x14, 0",
                                                              ".zero 16", ".cap 0x10000000, 1, 8, 0"])
    yield stops(chain, inside("transmit no"))
    yield stops(chain, inside("load within table..+32"))
    yield goes(chain, inside("load within table..+64", "store within data..+8"))
    yield stops(chain, f"when pc in {CODE}..+4: transmit no\n", named=False)


# A capability through which what is lent may be kept.
KEEPS = STORE | STORE_CAPABILITY | STORE_LOCAL


def keeps():
    def holds(*cap, before=()):
        return program(HALTS, ("cs0", *cap), before=before)
    yield "# what is lent may be kept in granules that lie wholly in the bounds, by three permissions"
    for first, length, given in (("data", 32, "no"), ("data", 32, "within data..+16"), ("data", 32, "within data..+31"),
                                 ("data", 32, "within 0x80000301..+31"), ("0x80000301", 31, "no"), ("0x80000308", 32, "within data..+16")):
        yield stops(holds(first, length, KEEPS), inside(f"keep {given}"))
    for first, length, given in (("data", 32, "within data..+32"), ("data", 32, "within data..+16 0x80000310..+16"),
                                 ("0x80000301", 31, "within 0x80000310..+16"), ("0x80000301", 30, "no"), ("data", 15, "no"),
                                 ("0x80000308", 16, "no"), ("0x7ffffff0", 16, "no")):
        yield goes(holds(first, length, KEEPS), inside(f"keep {given}"))
    for missing in (STORE, STORE_CAPABILITY, STORE_LOCAL):
        yield goes(holds("data", 32, (KEEPS | GLOBAL | LOAD | LOAD_CAPABILITY) ^ missing), inside("keep no"))
    yield goes(holds("data", 32, KEEPS, before=sealed("cs0", 7)), inside("keep no"))
    yield goes(holds("data", 32, KEEPS), inside("load no", "seal no", "types none"))
    yield "# after the part for stores, which such a capability breaks too, and before that for sending"
    yield stops(holds("data", 32, KEEPS), inside("keep no", "store no"))
    yield stops(program(HALTS, ("cs0", "0x10000000", 0x71000000, KEEPS)), inside("transmit no", "keep no"))


def devices():
    yield "# a device's first byte, by Store"
    for name, address in (("transmit", TRANSMIT), ("halt", HALT), ("timer", TIMER_COMPARE)):
        said = inside(*(f"{it} no" for it in (name, "system", "seal")))
        for first, length, perms, may in ((address, 1, STORE, False), (address - 8, 9, STORE | LOAD, False), (address + 1, 7, STORE, True),
                                          (address, 8, LOAD, True), (address - 8, 8, STORE, True)):
            held = program(("cs0", str(first), length, perms), then=("j code",))
            yield (goes if may else stops)(held, said, 9)
    yield goes(program(("cs0", str(TRANSMIT), 8, STORE), before=sealed("cs0", 7), then=("j code",)), inside("transmit no"), 12)
    yield "# a register's first byte counts for stores and loads, unless its name or its range is given; some have a part of their own"
    for name, [(address, _)] in policy.REGISTERS.items():
        spoken_of = (address, address + 8) in policy.SPOKEN_OF
        for part, permission, free in (("store", STORE, spoken_of), ("load", LOAD, False)):
            held = program(("cs0", str(address), 8, permission), then=("j code",))
            rest = f"{part} within data..+16 code..+0x80"
            yield (goes if free else stops)(held, inside(rest), 9)
            yield goes(held, inside(f"{rest} {name}"), 9)
            yield goes(held, inside(f"{rest} {address:#x}..+1"), 9)
            yield (goes if free else stops)(held, inside(f"{rest} {address - 8:#x}..{address:#x} {address + 1:#x}..+7"), 9)
            yield goes(held, inside("execute within code..+0x80", "load within code..+0x80" if part == "store" else "store no"), 9)
    status = ("cs0", str(STATUS), 8, LOAD | STORE)
    yield goes(program(("cs0", str(STATUS + 1), 7, LOAD | STORE), then=("j code",)), inside("store no", "load within code..+0x80"), 9)
    yield stops(program(("cs0", str(STATUS), 1, LOAD), then=("j code",)), inside("store no", "load within code..+0x80"), 9)
    yield goes(program(status, before=sealed("cs0", 7), then=("j code",)), inside("store no", "load within code..+0x80"), 12)
    yield "# the console's input, its interrupt and the time: what a part for loads and one for stores leave out isn't used"
    uses = program(HALTS, ("cs0", str(TRANSMIT), 32, LOAD | STORE), ("cs1", str(TIMER), 8, LOAD),
                   then=("cld a0, 8(cs0)", "csd a0, 24(cs0)", "cld a0, 0(cs1)", "csb a0, 0(cs0)", "csd zero, 0(cs11)"))
    loads = "load within code..+0x80 transmit receive status control mtime"
    for text in (inside(loads.replace(" receive", "")), inside(loads.replace(" mtime", "")), inside(loads, "store within data..+16"),
                 inside(loads, "store within control receive")):
        yield stops(uses, text, options="--input keys", keys=b"A")
    yield goes(uses, inside(loads, "store within control receive status"), options="--input keys", keys=b"A")
    yield "# the names stand for ranges anywhere, and no line defines them"
    yield goes(uses, "Console = transmit receive status control\nwhen pc in code..+0x80 halt: store within Console,"
               " load within code..+0x80 Console mtime, transmit yes\n")
    yield stops(program(HALTS), inside("store no", "halt no"))
    yield goes(program(HALTS), inside("store no", "halt yes"))


def system():
    yield "# Execute and Access_System_Registers, in PCC or in another register; and what it leads to"
    yield stops(program(HALTS, ("cs0", "data", 16, EXECUTE | ACCESS_SYSTEM_REGISTERS)), inside("system no"))
    yield goes(program(HALTS, ("cs0", "data", 16, STORE | ACCESS_SYSTEM_REGISTERS)), inside("system no"))
    yield stops(program(HALTS, code=CALL | ACCESS_SYSTEM_REGISTERS), inside("system no"))
    leads = program(HALTS, ("cs0", "table", 32, TABLE), ("cs1", "code", 0x80, CALL), code=CALL | ACCESS_SYSTEM_REGISTERS,
                    before=[*(f"cspecialrw cnull, {name}" for name in ("mtdc, cs0", "mtcc, cs1", "mepcc, cs1")), "cmove cs0, cnull"],
                    data=["table: .cap data, 8, 8, 0", ".cap 0x10000000, 1, 8, 0"])
    yield stops(leads, inside("execute within code..+0x80", "transmit no"))
    yield stops(leads, inside("store no"))
    yield goes(leads, inside("store within data..+8", "timer no"))


def seals():
    def holds(first, length, perms):
        return program(HALTS, ("cs0", str(first), length, perms))
    greatest = GREATEST_SEALING_TYPE
    yield "# Seal or Unseal over a type that values are sealed with"
    for first, length, perms in ((greatest, 2, SEAL), (greatest, 1, UNSEAL), (0, 1, SEAL | UNSEAL)):
        yield stops(holds(first, length, perms), inside("seal no"))
    for first, length, perms in ((greatest + 1, 4, SEAL | UNSEAL), (7, 0, SEAL), (7, 1, STORE), (DATA, 16, UNSEAL)):
        yield goes(holds(first, length, perms), inside("seal no"))
    yield goes(program(HALTS, ("cs0", "7", 1, SEAL), before=sealed("cs0", 7)), inside("seal no"))
    yield "# types of what is sealed; a sentry has none of these"
    for number, said in ((7, "types 7"), (7, "types 1 0x7 262139"), (0, "types 0")):
        yield goes(program(HALTS, ("cs0", "data", 16, STORE), before=sealed("cs0", number)), inside(said))
    for number, said in ((7, "types none"), (7, "types 6 8 0x3fffb"), (0, "types 1")):
        yield stops(program(HALTS, ("cs0", "data", 16, STORE), before=sealed("cs0", number)), inside(said))
    sentry = program(HALTS, ("cs0", "data", 16, CALL), before=["csealentry cs0, cs0"])
    yield goes(sentry, inside("types none", "execute within code..+0x80"))


# A sentry or a pair's code half to `inner`, or to an address near it, 16 bytes in the data's place.
OTHER_CODE = ("cs0", "data", 16, CALL | CINVOKE)


def enters():
    def holds(*before, then=("j code",)):
        return program(HALTS, OTHER_CODE, before=before, then=then)
    entry = ("csealentry cs0, cs0",)
    code = "execute within code..+0x80"
    yield "# a sentry, or the code of a pair: where its seal leads lies in the ranges for it or in those for fetches"
    for seal in (entry, tuple(sealed("cs0", 5))):
        yield stops(holds(*seal), inside(code, "enter no"), 12)
        for said in ("enter within data..+1", "enter within 0..1 0x80000300..+4", "execute within code..+0x80 data..+1, enter no"):
            yield goes(holds(*seal), inside(*([] if "execute" in said else [code]), said), 12)
        yield stops(holds(*seal), inside(code, "enter within code..data 0x80000301..+100"), 12)
        yield goes(holds(*seal), inside("enter no"), 12)
        yield goes(holds(*seal), inside(code), 12)
    yield "# an instruction in RAM and in the bounds: at a multiple of 4, all its four bytes"
    for offset, how in ((3, stops), (12, stops), (13, stops), (16, goes), (-4, goes)):
        yield how(holds(f"cincoffsetimm cs0, cs0, {offset}", *entry), inside(code, "enter no"), 13)
    yield goes(holds("cincoffsetimm cs0, cs0, 7", *entry), inside(code, "enter within 0x80000304..+1"), 13)
    low = program(HALTS, ("cs0", "0x7ffffff0", 16, CALL), before=entry, then=("j code",))
    yield goes(low, inside(code, "enter no"), 12)
    yield "# what isn't sealed is entered by no seal, nor is data"
    yield goes(holds(), inside("execute within code..+0x80 data..+16", "enter no"), 12)
    yield stops(holds(), inside(code, "enter no"), 12)
    data = program(HALTS, ("cs0", "data", 16, STORE | CINVOKE), before=sealed("cs0", 5), then=("j code",))
    yield goes(data, inside(code, "enter no", "store no"), 12)
    yield "# code may seal its own as a sentry, for others; the link of a jump is one"
    own = program(HALTS, then=("cjal cra, next", "next: csealentry cs1, cra", "cincoffsetimm cs2, cnull, 0", "csd zero, 0(cs11)"))
    yield goes(own, inside(code, "enter no", "types none"))
    yield "# a sentry to the kernel's code is as good as the kernel: by no other part is it seen"
    root = ["cincoffsetimm cs0, ca0, 0x310", "csealentry cs0, cs0"]
    takes = program(before=root, then=("nop", "cjalr cnull, 0(cs0)"),
                    data=["cspecialrw ca0, pcc, cnull", "lui a1, 0x100", "csetaddr ca0, ca0, a1", "csd zero, 0(ca0)"])
    rest = ", ".join(f"{name} no" for name in policy.OF_DEVICES)
    yield goes(takes, inside(code, rest, "store no", "load no", "system no", "seal no", "types none", "keep no"))
    yield stops(takes, inside(code, rest, "store no", "load no", "system no", "seal no", "types none", "keep no", "enter no"))
    yield stops(takes, inside(code, "enter within data..+16"))
    yield goes(takes, inside(code, "enter within 0x80000310..+4"))


def moves():
    yield "# code that is reached by a plain branch, in the same rights; and that is left before a rule is broken"
    inner = program(HALTS, then=("addi t0, zero, 2", "beq t0, zero, inner", "addi t0, t0, -2", "beq t0, zero, inner", "nop",
                                 "inner: csd zero, 0(cs11)"))
    yield stops(inner, "when pc in inner..+4: halt no\n")
    yield goes(inner, "when pc in inner..+4: transmit no\n")
    yield goes(inner, "when pc in 0x80000110..inner: halt no\n")
    yield stops(inner, "when pc in inner..+4: halt no\nwhen pc in code..inner: store no\n")
    leaves = program(HALTS, then=("cmove cs11, cnull", "cjal cnull, inner", "nop", "inner: j inner"))
    yield goes(leaves, "when pc in inner..+4: halt no, types none\n", 15)
    yield stops(leaves, "when pc in code..inner: halt no\n", 15)
    yield "# code that is reached by MRET, and by a trap: the kernel's rights are its own"
    kernel = ["cspecialrw cnull, mepcc, cs0", "cmove cs0, cnull", "mret"]
    held = (HALTS, ("cs0", "inner", 16, CALL))
    returns = program(*held, code=CALL | ACCESS_SYSTEM_REGISTERS, then=(*kernel, "inner: csd zero, 0(cs11)"))
    yield stops(returns, "when pc in inner..+4: system no\n")
    cleared = program(*held, code=CALL | ACCESS_SYSTEM_REGISTERS,
                      then=("cspecialrw cnull, mepcc, cs0", "cmove cs0, cnull", "cmove cra, cnull", "mret", "inner: csd zero, 0(cs11)"))
    yield goes(cleared, "when pc in inner..+4: system no, execute within inner..+16\n")
    yield stops(cleared, "when pc in inner..+4: system no, execute within inner..+15\n")
    traps = program(HALTS, ("cs0", "entry", 32, CALL | ACCESS_SYSTEM_REGISTERS), before=["cspecialrw cnull, mtcc, cs0", "cmove cs0, cnull"],
                    then=("nop", "ecall", "entry: csd zero, 0(cs11)"))
    yield goes(traps, "when pc in code..entry: system no\n")
    yield stops(traps, "when pc in entry..+4: system no\nwhen pc in code..entry: system no\n")
    yield stops(traps, inside("system no"))
    yield "# a sealed jump, a jump to a sentry and an unsealing, in code that the rule is about all the while"
    halts = ("cs1", "0x100000", 8, STORE | GLOBAL | CINVOKE)
    pair = program(halts, ("cs0", "inner", 16, CALL | CINVOKE), before=[*sealed("cs0", 5), *sealed("cs1", 5)],
                   then=("nop", "cinvoke cs0, cs1", "inner: csd zero, 0(ct6)"))
    yield stops(pair, inside("halt no"))
    yield stops(pair, inside("types none"))
    yield goes(pair, inside("types 5", "store no"))
    sentry = program(("cs0", "inner", 32, CALL | LOAD), before=["csealentry cs0, cs0"],
                     then=("nop", "cjalr cnull, 0(cs0)", ".zero 24", "inner: j inner"))
    yield stops(sentry, inside("load no"), 15)
    unseals = program(HALTS, ("cs0", "data", 16, STORE), ("cs1", "7", 1, UNSEAL), before=sealed("cs0", 7),
                      then=("nop", "cunseal cs0, cs0, cs1", "csd zero, 0(cs11)"))
    yield stops(unseals, inside("store no"))
    yield goes(unseals, inside("store within data..+16", "types 7"))
    yield "# code makes less of what it has, stores it and loads it again"
    narrows = program(HALTS, ("cs0", "data", 64, STORE | LOAD | LOAD_CAPABILITY | 0x20 | GLOBAL),
                      then=("csetboundsimm cs1, cs0, 16", "csc cs1, 16(cs0)", "cmove cs0, cnull", "cmove cs1, cnull", "csd zero, 0(cs11)"))
    yield goes(narrows, inside("store within data..+64", "load within data..+64", "types none"))
    yield stops(narrows, inside("store within data..+63"))


def entered_by_trap(then, *held):
    """A program whose traps lead to `entry`, which stands at the end of `then`; the code's bounds end 128 bytes after its first."""
    return program(HALTS, ("cs0", "entry", 32, CALL | ACCESS_SYSTEM_REGISTERS), *held,
                   before=["cspecialrw cnull, mtcc, cs0", "cmove cs0, cnull"], then=(*then, "entry: csd zero, 0(cs11)"))


# Code that runs off the end of its bounds, and stands at `next` with its own rights; and a return to what has no tag.
RUNS_OFF = entered_by_trap(("j last", ".zero 120", "last: nop", "next: csd zero, 0(cs11)"))
UNTAGGED = program(HALTS, ("cs0", "entry", 32, CALL | ACCESS_SYSTEM_REGISTERS), code=CALL | ACCESS_SYSTEM_REGISTERS,
                   before=["cspecialrw cnull, mtcc, cs0", "cmove cs0, cnull"],
                   then=("addi a0, zero, 64", "csrrw zero, mepc, a0", "cspecialrw ct1, mepcc, cnull", "cgettag a1, ct1", "mret",
                         "entry: csd zero, 0(cs11)"))


def unfetched():
    yield "# where nothing can be fetched no rule applies: past the end of the code's bounds, and by a PCC without a tag"
    yield goes(RUNS_OFF, "when pc in next..+4: halt no\n")
    yield goes(RUNS_OFF, "when pc in next..+4: halt no, system no, execute no, store no\nwhen pc in code..+4: load no\n")
    yield stops(RUNS_OFF, "when pc in next..+4: halt no\nwhen pc in last..+4: halt no\n")
    yield stops(RUNS_OFF, "when pc in next..+4: halt no\nwhen pc in entry..+4: halt no\n")
    yield goes(UNTAGGED, "when pc in 64..+4: halt no, system no\n")
    yield stops(UNTAGGED, "when pc in 64..+4: halt no\nwhen pc in entry..+4: system no\n")


# Code that waits for a byte, sends it and goes on at `inner`.
WAITS = ("cld a0, 16(cs0)", "beq a0, zero, code", "cld a0, 8(cs0)", "csb a0, 0(cs0)", "inner: csd zero, 0(cs11)")


def outside():
    yield "# bytes and ticks come as in any run"
    waits = program(HALTS, ("cs0", str(TRANSMIT), 32, LOAD | STORE), then=WAITS)
    for text in ("when pc in inner..+4: transmit no\n", "when pc in code..inner: timer no\n"):
        for gap in (1, 20):
            yield watched(waits, text, options=f"--input keys --gap {gap}", gap=gap, keys=b"AB")
    kernel = program(HALTS, ("cs0", "entry", 32, CALL | ACCESS_SYSTEM_REGISTERS), ("cs1", str(TIMER_COMPARE), 8, STORE),
                     before=["cspecialrw cnull, mtcc, cs0", "cmove cs0, cnull", "addi a1, zero, 3", "csd a1, 0(cs1)", "addi a1, zero, 128",
                             "csrrs zero, mie, a1", "cspecialrw cnull, mepcc, cra", "csrrs zero, mstatus, a1", "cmove cs1, cnull",
                             "cmove ca0, cnull", "cspecialrw cnull, ddc, ct0", "mret"],
                     then=("j code", "entry: csd zero, 0(cs11)"))
    for tick in (1, 9):
        yield stops(kernel, "when pc in entry..+4: system no\nwhen pc in code..+4: system no\n", options=f"--tick {tick}", tick=tick)
        yield goes(kernel, "when pc in code..entry: system no, timer no\n", options=f"--tick {tick}", tick=tick)
        yield stops(kernel, inside("system no"), options=f"--tick {tick}", tick=tick)
    yield goes(kernel, "when pc in entry..+4: system no\n", 30, options="--tick 0", tick=0)


def forms():
    yield "# lines that end with CR and LF, tabs for blanks, a comment at the end, no line feed at the end, parts without blanks between"
    for text in ("A = code..+4\r\n\r\nwhen pc in A: store within data..+16, halt no\r\n", "when\tpc in \t code..+4:halt no,load no",
                 "when pc in code..+4: halt no, load no # this: as well, twice = no\r\n",
                 "#when pc in x\r\nwhen pc in code..+4:\thalt\tno\t,load no", "_x.1 = code..+4\nwhen pc in _x.1:halt no#"):
        yield stops(program(HALTS), text)
    yield "# what a caller could do too, in any place of a rule about code that nobody calls; and its words as names"
    for said in (("or caller", "load no", "halt no"), ("load no", "\tor \t caller ", "halt no"), ("load no", "halt no", "or caller")):
        yield stops(program(HALTS), inside(*said))
    yield goes(program(HALTS), inside("or caller"))
    yield goes(program(HALTS), "when pc in code..+4:or caller#,or\r\n")
    yield stops(program(HALTS), "or = data..+8\ncaller = code..+4\nwhen pc in caller: halt no, store within or, or caller\n")
    yield "# numbers and labels"
    for text in (f"when pc in {CODE}..{CODE + 4}: halt no\n", f"when pc in 0x{CODE:X}..+0x4: halt no\n",
                 "when pc in start..given: halt no\n", "when pc in 0x80000000..given: halt no\n"):
        yield stops(program(HALTS), text)


# Texts with a fault in the line of a number: each code in some forms.
FAULTY = {
    "P1": [(1, "store no"), (2, "A = 0..1\nallow A: store no"), (1, "when pc in 0..1 store no"), (1, "when pc of 0..1: store no"),
           (3, "# one\n\nwhen: store no # no code")],
    "P2": [(1, "when pc in 0..1: load within mtimes"), (1, "A = control..+4"), (1, "when pc in A: store no\nA = 0..1"), (1, "A = A"), (2, "A = 0..1\nB = A a"), (1, "when pc in code..none: store no"),
           (1, "A = none..+4"), (1, "when pc in 0..1: load within A")],
    "P3": [(1, "mtime = 0..1"), (2, "A = control\nhalt = A"), (2, "A = 0..1\nA = 0..2"), (4, "A = 0..1\n\nB = A\nA = B")],
    "P4": [(1, "A = 0..0x"), (1, "A = 0..1x"), (1, "A = 0xg..0x10"), (1, "A = 0..+-1"), (1, "A = 0..+0x20000000000000000"),
           (1, "A = 0..99999999999999999999"), (1, "A = 1..+0xffffffffffffffff 2..+0xffffffffffffffff"),
           (1, "when pc in code..+1: types 1 0x3fffc"), (2, "\nwhen pc in code..+1: types 262140")],
    "P5": [(1, "A = 0..0"), (1, "A = code..+0"), (2, "A = 0..1\nwhen pc in A data..code: store no"), (1, "A = 5..4")],
    "P6": [(1, "when pc in 0..1: stores no"), (1, "when pc in 0..1: store no, send no"), (1, "when pc in 0..1:"),
           (1, "when pc in 0..1: store no,"), (1, "when pc in 0..1: , store no"), (1, "when pc in 0..1: Store no"),
           (1, "when pc in 0..1: caller"), (2, "or = 0..1\nwhen pc in or: or caller, Or caller"), (1, "when pc in 0..1: or caller,")],
    "P7": [(1, "when pc in 0..1: store no, store no"), (1, "when pc in 0..1: halt no, load no, halt yes"),
           (1, "when pc in 0..1: types 1, seal no, types none"), (1, "when pc in 0..1: keep no, keep within 0..1"),
           (1, "when pc in 0..1: or caller, or caller"),
           (3, "# or caller\n\nwhen pc in 0..1: or caller, halt no, or # caller")],
    "P8": [(1, "when pc in 0..1: store"), (1, "when pc in 0..1: load within"), (1, "when pc in 0..1: halt"),
           (1, "when pc in 0..1: seal maybe"), (1, "when pc in 0..1: execute yes"), (1, "when pc in 0..1: transmit no no"),
           (1, "when pc in 0..1: types"), (1, "when pc in 0..1: store no within 0..1"), (1, "when pc in 0..1: timer within 0..1"),
           (1, "when pc in 0..1: enter"), (1, "when pc in 0..1: enter yes"), (1, "when pc in 0..1: keep"), (1, "when pc in 0..1: keep yes"), (1, "when pc in 0..1: load no, keep within"),
           (1, "when pc in 0..1: or"), (2, "A = 0..1\nwhen pc in A: halt no, or callers, or caller"),
           (1, "when pc in 0..1: or caller caller, or"), (1, "when pc in 0..1: or # caller"), (1, "when pc in 0..1: store no or caller"),
           (2, "caller = 0..1\nwhen pc in 0..1: or within caller")],
}


def faulty():
    yield "# texts that are refused, by their first faulty line: nothing runs"
    table = 't "0000000080000000 code\\n0000000080000010 data\\n"'
    labels = {"code": RAM, "data": RAM + 16}
    for code, texts in FAULTY.items():
        for line, text in texts:
            assert policy.read(text, labels)[1] == (code, line), (text, policy.read(text, labels))
            yield fails("run first.img 5 --policy p --symbols t", [FILE, table, f"p {quoted(text + chr(10))}"],
                        "open first.img, open t, open p", policy.refused(code, line, "p"))
    yield "# of two the first; a label isn't known without a table"
    for text, code in (("B = A\r\nA = 0..0\r\n", "P2"), ("A = 0..0\r\nB = A\r\n", "P5"), ("A = code..+4", "P2")):
        yield fails("run first.img 5 --policy p", [FILE, f"p {quoted(text)}"], "open first.img, open p", policy.refused(code, 1, "p"))


def files_and_words():
    yield "# files that can't be read, in the order in which they are"
    none = missing("none")
    yield fails("run first.img 5 --policy none", [FILE], "open first.img, open none", none)
    yield fails("run first.img 5 --policy d", [FILE, "directory d"], "open first.img, open d", is_directory("d"))
    yield fails("run first.img 5 --policy p", [FILE, 'p 0 "A = 0..1"'], "open first.img, open p", unread("p"))
    yield fails("run bad.img 5 --policy none", [BAD], "open bad.img", NO_IMAGE)
    yield fails("run first.img 5 --policy p --symbols none", [FILE, 'p "x"'], "open first.img, open none", none)
    yield fails("run first.img 5 --policy p --symbols t", [FILE, 'p "x"', 't "x"'], "open first.img, open t", no_label("t", 1))
    yield fails("run first.img 5 --policy p --input none", [FILE, 'p "x"'], "open first.img, open p", policy.refused("P1", 1, "p"))
    yield "# command lines that are refused"
    for words in ("--policy p --why", "--why=all --policy p", "--policy", "--policy p --policy p",
                  "--policy p --symbols t --symbols t", "--policy p --trace p", "--policy p --symbols t --trace t"):
        yield refused(f"run first.img 5 {words}", [FILE, 'p ""', 't ""'])


def files():
    lines = ["# a command line, files and streams => the status, what is opened and made, sent, told, and what stands in the file made"]
    for part in (first_image, which, ranges, keeps, devices, system, seals, enters, moves, unfetched, outside, forms, faulty, files_and_words):
        lines += part()
    yield "policies.txt", lines
