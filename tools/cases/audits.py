"""Command lines of the program that audit a run: by a policy each part of a rule that is broken, once; without one a rule for each range of
code that is entered.

What is written is what the model of a machine meets (model/machine.py, cases/watched.py).
"""

from cases.callers import BY_PAIR, BY_SENTRY, LENT, SENTRY, by_caller, calling, rule
from cases.policed import BY_ROOT, CALL, FIRST, HALTS, KEEPS, RUNS_OFF, UNTAGGED, WHOLE, Watch, image_of, inside, program, sealed
from cases.program_lines import BAD, FILE, NO_IMAGE, TRACE, case, fails, missing
from cases.quoting import quoted
from cases.watched import GAP, TICK, audited, entered
from model import policy
from model.devices import TIMER_COMPARE, TRANSMIT
from model.rights import ACCESS_SYSTEM_REGISTERS, EXECUTE, GREATEST_SEALING_TYPE, LOAD, LOAD_CAPABILITY, SEAL, STORE, STORE_LOCAL, UNSEAL
from model.texts import Program


class Audit(Watch):
    """An audit by a policy: its options, and the files that it is given."""

    COMMAND = "audit"

    def came(self, machine, *run):
        status, text = audited(machine, *run)
        return status, text.encode(), ""


def finds(text, rules, count, *steps, **how):
    """An audit that finds so many parts."""
    audit = Audit(text, rules, *steps, **how)
    assert (audit.sent.count(b"step "), audit.status) == (count, 1 if count else 0)
    return audit.line()


def enters(text, count, steps=1000, options="", gap=GAP, tick=TICK, keys=b""):
    """An audit without a policy, which lists so many rules."""
    made = Program(text)
    rules = entered(made.machine(), steps, gap, tick, keys, "--json" in options.split())
    assert rules.count("\n") == count
    file = FILE if text == FIRST else f"first.img {quoted(image_of(made))}"
    return case(" ".join(["audit", "first.img", str(steps), *options.split()]), [file, *([f"keys {quoted(keys)}"] if keys else [])], 0,
                ", ".join(["open first.img", *(["open keys"] if keys else [])]), rules)


# Code that waits for two bytes, sends the second and goes on at `inner`, by a capability of its own.
WAITS = ("cld a0, 16(cs0)", "beq a0, zero, code", "cld a0, 8(cs0)", "second: cld a0, 16(cs0)", "beq a0, zero, second", "cld a0, 8(cs0)",
         "csb a0, 0(cs0)", "cjalr cnull, 0(cs1)", "inner: csd zero, 0(cs11)")
WAITING = program(HALTS, ("cs0", str(TRANSMIT), 32, LOAD | STORE), ("cs1", "inner", 16, CALL), then=WAITS)


# ---- by a policy

def parts():
    yield "# nothing is broken, whether the machine halts or not, and whatever it sends"
    yield finds(FIRST, "", 0, named=False)
    yield finds(FIRST, WHOLE + "types none, store within 0..0xffffffffffffffff 0xffffffffffffffff..+1, transmit yes\n", 0, 2, named=False)
    yield finds(FIRST, "when pc in 0x80000014..+4: halt no\n", 0, named=False)
    yield "# each part: before the first step at which it is broken, and not again"
    for name in BY_ROOT:
        yield finds(FIRST, WHOLE + f"{name} no\n", 1, named=False)
    yield finds(program(HALTS, ("cs0", "data", 16, STORE), before=sealed("cs0", 7)), inside("types 6 8"), 1)
    yield "# all of them at one step, in the order of parts; and those of several rules, in their order"
    yield finds(FIRST, WHOLE + ", ".join(f"{name} no" for name in reversed(BY_ROOT)) + "\n", 9, named=False)
    two = program(HALTS, ("cs0", "1", 2, SEAL), ("cs1", "data", 16, STORE), ("cs2", "data", 8, STORE | LOAD))
    yield finds(two, inside("seal no", "load no", "store within data..+8") + "# again\n\t" + inside("store no", "seal no"), 5)
    sentry = program(HALTS, ("cs0", "data", 16, CALL), before=["csealentry cs0, cs0"])
    yield finds(sentry, inside("execute within code..+0x80", "enter no", "halt no"), 2)
    yield "# of each part the first that breaks it, with what leads to it"
    leads = program(("cs3", "table", 32, LOAD | LOAD_CAPABILITY), HALTS, ("cs0", "data", 8, STORE),
                    data=["table: .cap data, 8, 12, 0", ".cap 0x100000, 8, 8, 0"])
    yield finds(leads, inside("store within data..+4", "load within table..+32", "halt no"), 3)
    yield finds(leads, "when pc in 0x80000100..+4: load no, store no, halt no\n", 3, named=False)


def moments():
    yield "# a part that is broken later, beside one that is from the beginning"
    yield finds(FIRST, "when pc in 0x80000010..+4: seal no\nwhen pc in 0x80000004..+8: load no, store within 0..1\n", 3, named=False)
    yield finds(FIRST, "when pc in 0x80000010..+4: seal no\n", 0, 4, named=False)
    later = program(HALTS, ("cs1", "data", 16, STORE), ("cs2", "7", 1, SEAL),
                    then=("cseal cs3, cs1, cs2", "cmove cs2, cnull", "nop", "csd zero, 0(cs11)"))
    yield finds(later, inside("types none", "seal no", "halt no") + "when pc in code..+4 0x8000010c..+4: seal no, types 6\n", 5)
    yield "# where nothing can be fetched nothing is found"
    yield finds(RUNS_OFF, "when pc in next..+4: halt no, execute no\n", 0)
    yield finds(RUNS_OFF, "when pc in next..+4: halt no\nwhen pc in last..+4: halt no, execute no\n", 2)
    yield finds(UNTAGGED, "when pc in 64..+4: halt no, system no\nwhen pc in entry..+4: system no\n", 1)
    yield "# steps of --times, a byte, ticks"
    audit = Audit(FIRST, "when pc in 0x80000008..+4: timer no\nwhen pc in 0x80000010..+4: halt no\n", 4, named=False)
    audit.words = "audit first.img 2 --times 2 --policy p"
    yield audit.line()
    for gap, steps, count in ((1, 1000, 2), (20, 1000, 2), (20, 20, 1)):
        yield finds(WAITING, "when pc in inner..+4: transmit no\nwhen pc in code..+4: halt no\n", count, steps,
                    options=f"--input keys --gap {gap}", gap=gap, keys=b"AB")
    kernel = program(HALTS, ("cs0", "entry", 32, CALL | ACCESS_SYSTEM_REGISTERS), ("cs1", str(TIMER_COMPARE), 8, STORE),
                     before=["cspecialrw cnull, mtcc, cs0", "cmove cs0, cnull", "addi a1, zero, 3", "csd a1, 0(cs1)", "addi a1, zero, 128",
                             "csrrs zero, mie, a1", "cspecialrw cnull, mepcc, cra", "csrrs zero, mstatus, a1", "cmove cs1, cnull",
                             "cmove ca0, cnull", "cspecialrw cnull, ddc, ct0", "mret"],
                     then=("j code", "entry: csd zero, 0(cs11)"))
    said = "when pc in entry..+4: system no\nwhen pc in code..+4: halt no\n"
    for tick, count in ((1, 2), (9, 2), (0, 1)):
        yield finds(kernel, said, count, 30, options=f"--tick {tick}", tick=tick)
    yield "# --quiet leaves the list out, and the status says whether there is one; a trace is that of the whole run"
    halts = "when pc in 0x80000010..+4: halt no\n"
    for steps in (4, 5):
        quiet = Audit(FIRST, halts, steps, options="--quiet", named=False)
        quiet.sent = b""
        yield quiet.line()
    audit = Audit(FIRST, halts, named=False)
    audit.words = "audit first.img 9 --policy p --trace t"
    yield audit.line(opened=", make t", made=TRACE.encode())
    audit.sent = b""
    audit.words = "audit first.img 9 --quiet --policy p --trace t --trace-from 2 --trace-last 2"
    yield audit.line(opened=", make t", made="".join(TRACE.splitlines(True)[-2:]).encode())
    yield "# `or caller`: what is lent isn't broken; what is told once isn't told again by other terms"
    yield finds(calling(LENT), rule("store within own..+32", "load no"), 2)
    yield finds(calling(LENT), by_caller("store within own..+32", "load no"), 1)
    yield finds(calling(LENT), by_caller("store within own..+32", "load within own..+32"), 0)
    called = ("addi a0, a0, 1", "beq a0, a1, second", "csc cs2, 0(ct6)", "cmove cs2, cnull", "cmove ct6, cnull", "cjalr cnull, 0(cs3)",
              "second: csd zero, 0(cs11)")
    twice = calling(LENT, ("cs3", "other", 32, CALL), before=["csealentry cs3, cs3"], callee=called, other=("addi a1, zero, 2", BY_PAIR))
    yield finds(twice, by_caller("store within own..+32", "load within data..+8 own..+32"), 2)
    yield finds(twice, by_caller("store no", "load within data..+16 own..+32", "types 5"), 1)


# ---- without one

def entries():
    yield "# a run that stays in one range of code; what root can do"
    yield enters(FIRST, 1)
    yield enters(FIRST, 1, 1)
    yield "# code that gives root up: nothing, or some of all; what it gives up later is told as it was when it was entered"
    yield enters(program(then=("j code",)), 2, 10)
    yield enters(program(HALTS, then=("cmove cs11, cnull", "j code")), 2, 10)
    yield enters(program(HALTS), 2)
    yield enters(program(HALTS, ("cs0", str(TRANSMIT), 1, STORE), ("cs1", str(TIMER_COMPARE), 8, STORE), ("cs2", "7", 1, UNSEAL)), 2)
    yield enters(program(HALTS, code=CALL | ACCESS_SYSTEM_REGISTERS), 2)
    seals = ["csealentry cs0, cs0", *sealed("cs1", 5), "csealentry cs2, cs2", *sealed("cs3", 6)]
    yield enters(program(HALTS, ("cs0", "0x80000348", 16, CALL), ("cs1", "data", 16, CALL), ("cs2", "data", 8, CALL),
                         ("cs3", "data", 16, LOAD), before=seals), 2)
    yield enters(program(HALTS, ("cs0", str(TRANSMIT + 1), 7, STORE), ("cs1", str(TIMER_COMPARE), 8, LOAD),
                         ("cs2", str(GREATEST_SEALING_TYPE + 1), 4, SEAL), ("cs3", "data", 16, ACCESS_SYSTEM_REGISTERS)), 2)
    yield "# ranges: in ascending order, joined where they meet or touch, up to the last address; none of what is empty or sealed"
    yield enters(program(("cs3", "0x80000360", 16, STORE | LOAD), ("cs2", "data", 16, STORE), ("cs1", "0x80000310", 16, STORE | LOAD),
                         ("cs0", "0x80000318", 32, LOAD), HALTS, ("cs4", "0xfffffffffffffff0", 16, LOAD), ("cs5", "0", 0, EXECUTE),
                         ("cs6", "0", 16, LOAD), before=sealed("cs6", 3)), 2)
    yield enters(program(HALTS, ("cs0", "data", 0x100, LOAD | LOAD_CAPABILITY),
                         data=[".cap 0x80000300, 16, 8, 0", ".cap 0x80000308, 0x100, 4, 0"]), 2)
    yield "# where what is lent may be kept"
    yield enters(program(HALTS, ("cs0", "data", 32, KEEPS), ("cs1", "0x80000320", 16, KEEPS), ("cs2", "code", 16, KEEPS ^ STORE_LOCAL)), 2)
    yield "# types: each once and in ascending order, those of sentries left out"
    types = program(HALTS, *((f"cs{number}", "data", 16, STORE) for number in range(3)), ("cs3", "code", 16, CALL),
                    before=[*sealed("cs0", 9), *sealed("cs1", 0), *sealed("cs2", 9), "csealentry cs3, cs3"])
    yield enters(types, 2)
    yield "# a range that is entered again: not told again where the same is reachable, and told again where something else is, as a link"
    again = ("addi a0, a0, -1", BY_SENTRY, "bne a0, zero, code", "csd zero, 0(cs11)")
    yield enters(calling(by=SENTRY, before=["addi a0, zero, 3"], code=again, callee=("cjalr cnull, 0(cra)",)), 4)
    changes = (BY_SENTRY, "cmove cs2, cnull", BY_SENTRY, "csd zero, 0(cs11)")
    yield enters(calling(LENT, by=SENTRY, code=changes, callee=("cjalr cnull, 0(cra)",)), 6)
    yield enters(calling(callee=("csd zero, 0(cs11)",)), 3)
    yield "# entered by a trap, by MRET, and within its range: that of PCC and not of a rule"
    kernel = program(HALTS, ("cs0", "entry", 16, CALL | ACCESS_SYSTEM_REGISTERS),
                     before=["cspecialrw cnull, mtcc, cs0", "cmove cs0, cnull"],
                     then=("ecall", "csd zero, 0(cs11)", "entry: cspecialrw ct0, mepcc, cnull", "cincoffsetimm ct0, ct0, 4",
                           "cspecialrw cnull, mepcc, ct0", "mret"))
    yield enters(kernel, 3)
    narrow = program(HALTS, ("cs0", "inner", 16, CALL), then=("cjalr cnull, 0(cs0)", "inner: nop", "csd zero, 0(cs11)"))
    yield enters(narrow, 3)
    yield "# with bytes and ticks"
    for gap, steps, count in ((1, 20, 3), (20, 20, 2), (20, 60, 3)):
        yield enters(WAITING, count, steps, f"--input keys --gap {gap} --tick 0", gap, 0, b"AB")


def files_and_words():
    yield "# files that can't be read, and a text that is refused: nothing is written"
    yield fails("audit none 5", [FILE], "open none", missing("none"))
    yield fails("audit bad.img 5 --policy none", [BAD], "open bad.img", NO_IMAGE)
    yield fails("audit first.img 5 --policy p", [FILE, 'p "x"'], "open first.img, open p", policy.refused("P1", 1, "p"))
    yield fails("audit first.img 5 --input none", [FILE], "open first.img, open none", missing("none"))


def files():
    lines = ["# a command line, files and streams => the status, what is opened and made, written, told, and what stands in the file made"]
    for part in (parts, moments, entries, files_and_words):
        lines += part()
    yield "audits.txt", lines
