"""Command lines of the program that watch a run by a policy with `or caller`: one piece of code calls another, through a sealed pair or a
sentry, and lends it what it has.

What is told of a run is what the model of a machine meets (model/machine.py, cases/watched.py).
"""

from cases.policed import CALL, CODE, DATA, HALTS, TABLE, goes, program, sealed, stops
from model.devices import RAM, TIMER_COMPARE, TRANSMIT
from model.rights import (ACCESS_SYSTEM_REGISTERS, CINVOKE, EXECUTE, GLOBAL, GREATEST_SEALING_TYPE, LOAD, LOAD_CAPABILITY, SEAL, STORE,
                          STORE_CAPABILITY, STORE_LOCAL, UNSEAL)

# Where the code that is called stands, its own data, and another piece of code.
CALLEE, OWN, OTHER = CODE + 0x80, DATA + 0x20, RAM + 0x400
FRAME = GLOBAL | LOAD | STORE | LOAD_CAPABILITY | STORE_CAPABILITY
# The pair that leads to the callee and its own data, sealed with 5; one that leads to the caller's data too; and the callee's sentry.
PAIR = ("cs0", "callee", 0x80, CALL | CINVOKE), ("cs1", "own", 32, FRAME | CINVOKE)
WIDE = PAIR[0], ("cs1", "data", 64, FRAME | CINVOKE)
SENTRY = (("cs0", "callee", 0x80, CALL),)
BY_PAIR, BY_SENTRY = "cinvoke cs0, cs1", "cjalr cra, 0(cs0)"
# What is lent.
LENT = ("cs2", "data", 16, GLOBAL | LOAD | STORE)
HALT, STORE_LENT = "csd zero, 0(cs11)", "csd zero, 0(cs2)"
# What leads from the callee's own data to a capability that its caller doesn't hold.
KEPT = (f"csc cs3, {OWN - RAM}(ca0)", "cmove cs3, cnull")


def calling(*held, by=PAIR, code=(BY_PAIR,), callee=(STORE_LENT, HALT), other=(), before=(), perms=CALL):
    """A program whose code calls a callee, which has data of its own, with what the code holds."""
    seals = [*sealed("cs0", 5), *sealed("cs1", 5)] if len(by) == 2 else ["csealentry cs0, cs0"]
    others = [f".org {OTHER:#x}", "other: " + other[0], *other[1:]] if other else []
    data = [f".org {OWN:#x}", "own: .zero 32", "table: .cap data, 16, 8, 0", *others]
    return program(HALTS, *by, *held, before=[*seals, *before], code=perms, data=data,
                   then=(*code, f".org {CALLEE:#x}", "callee: " + callee[0], *callee[1:]))


def rule(*said, code="callee..+0x80"):
    return f"when pc in {code}: {', '.join(said)}\n"


def by_caller(*said, code="callee..+0x80"):
    return rule(*said, "or caller", code=code)


def only_lent(text, *said):
    """What the callee may not have of its own, and may have of its caller."""
    yield stops(text, rule(*said))
    yield goes(text, by_caller(*said))


# ---- cases

def lends():
    yield "# a call by a sealed pair lends what the caller holds in a register, and what that leads to"
    yield from only_lent(calling(LENT), "store within own..+32", "load within own..+32", "execute within callee..+0x80", "types 5")
    yield from only_lent(calling(("cs2", "table", 16, TABLE), callee=("clc cs2, 0(cs2)", STORE_LENT, HALT)), "store within own..+32")
    yield "# a call by a sentry does too"
    sentry = calling(LENT, by=SENTRY, code=(BY_SENTRY,))
    yield from only_lent(sentry, "store no", "load no")
    yield from only_lent(calling(by=SENTRY, code=("cmove ca1, cra", BY_SENTRY), callee=(HALT,)), "execute within callee..+0x80")
    yield "# a capability may lie in the rule's ranges and those of the caller together; each right has its own"
    yield from only_lent(calling(("cs2", "data", 16, STORE), by=WIDE), "store within 0x80000310..+48")
    for first in (("cs2", "data", 8, STORE), ("cs2", "data", 16, LOAD)):
        yield stops(calling(first, by=WIDE), by_caller("store within 0x80000310..+48"))
    yield "# what it may send, halt, set and seal; and what is sealed"
    for name, held in (("transmit", ("cs2", str(TRANSMIT), 8, STORE)), ("timer", ("cs2", str(TIMER_COMPARE), 8, STORE)),
                       ("seal", ("cs2", "7", 1, SEAL))):
        yield from only_lent(calling(held, callee=("addi a1, zero, 65", "csb a1, 0(cs2)" if name == "transmit" else "nop", HALT)),
                             f"{name} no")
    yield from only_lent(calling(callee=(HALT,)), "halt no")
    yield from only_lent(calling(code=("cmove ca1, cra", BY_PAIR), perms=CALL | ACCESS_SYSTEM_REGISTERS, callee=(HALT,)), "system no")
    yield from only_lent(calling(LENT, before=sealed("cs2", 7), callee=(HALT,)), "types 5")
    for first, how in ((GREATEST_SEALING_TYPE + 1, stops), (GREATEST_SEALING_TYPE, goes)):
        held = ("cs2", str(first), 4, UNSEAL), ("cs3", "9", 1, GLOBAL | SEAL)
        yield how(calling(*held, before=KEPT, callee=(HALT,)), by_caller("seal no"))
    yield "# where it may enter by a seal; a sentry that nobody lent is refused"
    sentry = ("cs2", "other", 16, CALL)
    code = "execute within callee..+0x80", "enter within own..+4"
    yield from only_lent(calling(sentry, before=["csealentry cs2, cs2"], other=("nop",), callee=(HALT,), code=("cmove cra, cnull", BY_PAIR)), *code)
    yield stops(calling(("cs3", "data", 16, CALL), before=["csealentry cs3, cs3", *KEPT], callee=(HALT,)), by_caller(*code))
    yield "# PCC of the call too"
    pcc = calling(("cs3", "code", 0x80, CALL), before=KEPT, code=("cmove cra, cnull", BY_PAIR), callee=(HALT,))
    yield from only_lent(pcc, "execute within callee..+0x80")


def lends_keeping():
    keeps = GLOBAL | STORE | STORE_CAPABILITY | STORE_LOCAL
    yield "# where it may keep what is lent"
    yield from only_lent(calling(("cs2", "data", 16, keeps), callee=("csc cnull, 0(cs2)", HALT)), "keep within own..+32")
    yield stops(calling(LENT, by=(PAIR[0], ("cs1", "own", 32, FRAME | CINVOKE | STORE_LOCAL)), callee=(HALT,)), by_caller("keep no"))


def lends_not():
    yield "# what the caller couldn't reach is refused: what was sealed for it, and what that leads to"
    yield stops(calling(callee=(HALT,)), by_caller("store no"))
    yield goes(calling(callee=(HALT,)), by_caller("store within own..+32", "load within own..+32"))
    kept = calling(("cs3", "data", 16, GLOBAL | STORE), before=[*sealed("cs3", 9), *KEPT], callee=(HALT,))
    yield stops(kept, by_caller("types 5"))
    yield goes(kept, by_caller("types 9"))
    for said, first, length, perms in (("execute within callee..+0x80", "data", 16, EXECUTE), ("transmit no", TRANSMIT, 1, STORE),
                                       ("halt no", HALTS[1], 8, STORE), ("timer no", TIMER_COMPARE, 8, STORE),
                                       ("system no", "data", 16, EXECUTE | ACCESS_SYSTEM_REGISTERS)):
        yield stops(calling(("cs3", str(first), length, GLOBAL | perms), before=KEPT, code=("cmove cs11, cnull", BY_PAIR)), by_caller(said))
    yield "# what it had given away before"
    gives = calling(LENT, ("cs3", "own", 32, STORE | STORE_CAPABILITY), callee=(HALT,),
                    code=("csc cs2, 0(cs3)", "cmove cs2, cnull", "cmove cs3, cnull", BY_PAIR))
    yield stops(gives, by_caller("store within own..+32"))
    yield "# what comes of what was lent: a capability that is sealed with another type"
    seals = calling(LENT, ("cs3", "7", 1, SEAL), callee=("nop", "cseal cs2, cs2, cs3", HALT))
    yield stops(seals, by_caller("types 5", "seal no"))
    yield goes(seals, by_caller("types 7", "seal no"))


def no_calls():
    said = by_caller("store within own..+32")
    yield "# no call: a plain jump to the code, by a capability or within PCC, and a step from before it"
    yield stops(calling(LENT, ("cs3", "callee", 0x80, CALL), code=("cjalr cra, 0(cs3)",)), said)
    wide = ("cs3", "code", 0x100, CALL)
    yield stops(calling(LENT, wide, code=("cincoffsetimm cs3, cs3, 8", "cjalr cra, 0(cs3)", "cjal cra, callee")), said)
    yield stops(calling(LENT, code=("nop", "nop", BY_PAIR)), by_caller("store within own..+32", code="0x80000104..+4"))
    yield "# nor is the beginning of a run"
    yield stops(calling(LENT), by_caller("store no", code="start..code"))
    yield "# nor is MRET, through a sentry or not; CJALR to that sentry is one"
    returns = ("cspecialrw cnull, mepcc, cs0", "mret")
    system = {"perms": CALL | ACCESS_SYSTEM_REGISTERS, "by": SENTRY}
    yield stops(calling(LENT, code=returns, **system), said)
    yield stops(calling(LENT, ("cs3", "callee", 0x80, CALL), code=("cspecialrw cnull, mepcc, cs3", "mret"), **system), said)
    yield goes(calling(LENT, code=("cspecialrw cnull, mepcc, cs0", "nop", BY_SENTRY), **system), said)
    yield "# nor is a trap, be it that of a call"
    trap = ("cs3", "callee", 0x80, CALL | ACCESS_SYSTEM_REGISTERS)
    sets = ["cspecialrw cnull, mtcc, cs3", "cmove cs3, cnull"]
    yield stops(calling(LENT, trap, before=sets, code=("ecall",)), said)
    yield stops(calling(LENT, trap, before=sets, code=("ccleartag cs1, cs1", BY_PAIR)), said)
    yield stops(calling(LENT, trap, by=SENTRY, before=sets, code=("ccleartag cs0, cs0", BY_SENTRY)), said)
    timer = ["csd zero, 0(cs4)", "cmove cs4, cnull", "addi a1, zero, 128", "csrrs zero, mie, a1", "cspecialrw cnull, mepcc, cra",
             "csrrs zero, mstatus, a1", "cspecialrw cnull, ddc, ct0", "cmove ca0, cnull", "mret"]
    yield stops(calling(LENT, trap, ("cs4", str(TIMER_COMPARE), 8, STORE), before=[*sets, *timer]), said)
    yield "# nor is a jump through a seal within the rule's code, which leaves what was lent"
    inner = ("cs3", "inner", 32, CALL | CINVOKE), ("cs4", "data", 16, STORE | CINVOKE)
    pair = calling(LENT, *inner, before=[*sealed("cs3", 6), *sealed("cs4", 6)],
                   callee=("cmove cs2, cnull", "cinvoke cs3, cs4", "inner: csd zero, 0(ct6)", HALT))
    yield goes(pair, said)
    yield stops(pair, by_caller("store within own..+32", code="callee..inner") + by_caller("store within own..+32", code="inner..+32"))
    sentry = calling(("cs2", "inner", 32, CALL | LOAD), ("cs3", "inner", 32, CALL | LOAD), before=["csealentry cs3, cs3"],
                     callee=("cmove cs2, cnull", "cjalr cra, 0(cs3)", "inner: nop", HALT))
    yield goes(sentry, by_caller("load within own..+32"))
    yield stops(sentry, by_caller("load within own..+32", code="callee..inner") + by_caller("load within own..+32", code="inner..+32"))


# What goes on after an ECALL, and what leaves a capability in a register on its way.
GOES_ON = ("cspecialrw ct0, mepcc, cnull", "cincoffsetimm ct0, ct0, 4", "cspecialrw cnull, mepcc, ct0", "cmove ct0, cnull", "mret")
LEAVES = ("cspecialrw cs3, mtdc, cnull", *GOES_ON)
KERNEL = ("cs3", "other", 64, CALL | ACCESS_SYSTEM_REGISTERS), ("cs4", "data", 16, STORE)
SETS = ["cspecialrw cnull, mtcc, cs3", "cspecialrw cnull, mtdc, cs4", "cmove cs3, cnull", "cmove cs4, cnull"]


def keeps():
    said = by_caller("store within own..+32")
    yield "# a trap and the return from it leave what was lent, and lend nothing"
    calls = ("ecall", STORE_LENT, HALT)
    yield goes(calling(LENT, *KERNEL, before=SETS, other=GOES_ON, callee=calls), said)
    yield goes(calling(LENT, *KERNEL, before=SETS, other=LEAVES, callee=calls), said)
    yield stops(calling(("cs2", "data", 8, STORE), *KERNEL, before=SETS, other=LEAVES, callee=calls), said)
    yield stops(calling(*KERNEL, before=SETS, other=LEAVES, callee=("ecall", HALT)), said)
    yield "# code that is left, and entered again without a call"
    leaves = calling(LENT, ("cs3", "callee", 0x80, CALL), ("cs4", "other", 16, CALL),
                     callee=("nop", "cjalr cnull, 0(cs4)", HALT), other=("cincoffsetimm cs3, cs3, 8", "nop", "cjalr cnull, 0(cs3)"))
    yield goes(leaves, said)
    yield "# the callee keeps what was lent, and another caller, which can't reach it, calls"
    again = ("cs3", "other", 32, CALL), ("cs4", "data", 16, STORE)
    comes_back = ["csealentry cs3, cs3"]
    first = ("addi a0, a0, 1", "beq a0, a1, second", "csc cs2, 0(ct6)", "cmove cs2, cnull", "cmove ct6, cnull", "cjalr cnull, 0(cs3)",
             "second: clc cs2, 0(ct6)", HALT)
    drops = (*first[:4], "csd zero, 0(ct6)", *first[4:])
    other = ("addi a1, zero, 2", BY_PAIR)
    for callee, how in ((first, stops), (drops, goes)):
        yield how(calling(LENT, again[0], before=comes_back, callee=callee, other=other), said)
    yield goes(calling(LENT, *again, before=comes_back, callee=first, other=other), said)
    yield "# the other one lends what the first couldn't reach; code that isn't jumped to isn't called"
    pair = ("cs3", "other", 32, CALL | CINVOKE), ("cs4", "data", 16, STORE | CINVOKE)
    late = calling(*pair, before=[*sealed("cs3", 6), *sealed("cs4", 6)], other=("addi a1, zero, 2", "cmove cs2, ct6", BY_PAIR),
                   callee=("addi a0, a0, 1", "beq a0, a1, second", "cinvoke cs3, cs4", "second: csd zero, 0(cs2)", HALT))
    yield from only_lent(late, "store within own..+32")
    yield stops(late, by_caller("store within own..+32", code="second..+4"))


def rules():
    yield "# of two rules about the code one with it"
    strict, lax = rule("store within own..+32"), by_caller("store within own..+32")
    for text in (strict + lax, lax + strict, lax + by_caller("load no") + rule("halt no")):
        yield stops(calling(LENT), text)
    yield goes(calling(LENT), lax + by_caller("load within own..+32", "halt no") + rule("types 5"))
    yield "# the rule about the caller's code is its own; a return by a sentry is a call of that code"
    back = ("cs2", "back", 32, CALL)
    returns = calling(back, before=["csealentry cs2, cs2"], code=(BY_PAIR, "back: nop", HALT), callee=("nop", "cjalr cnull, 0(cs2)"))
    for said, how in ((rule("store no", code="code..+0x80"), stops), (by_caller("store no", code="code..+0x80"), goes)):
        yield how(returns, said + by_caller("store within own..+32"))
    link = calling(by=(("cs0", "callee", 0x80, CALL | LOAD),), code=("cjalr cra, 0(cs0)", HALT),
                   callee=("cspecialrw cs2, pcc, cnull", "cjalr cnull, 0(cra)"))
    for said, how in ((rule("load no", code="code..+0x80"), stops), (by_caller("load no", code="code..+0x80"), goes)):
        yield how(link, said)
    yield goes(link, by_caller("load no", "execute within code..+0x80", code="code..+0x80"))


def files():
    lines = ["# a command line, files and streams => the status, what is opened and made, sent, told, and what stands in the file made"]
    for part in (lends, lends_keeping, lends_not, no_calls, keeps, rules):
        lines += part()
    yield "callers.txt", lines
