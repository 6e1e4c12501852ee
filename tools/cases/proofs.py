"""Command lines of the program that show of every run of an image that it keeps to a policy, or say why they don't.

What is told is what the model of a proof comes to (model/proving.py); where it holds, the model's runs with drawn code keep to the policy.
"""
import random

from cases.policed import CODE, DATA, GIVEN, Watch, image_of, sealed
from cases.program_lines import BAD, FILE, NO_IMAGE, case, fails, missing, refused, table
from cases.quoting import quoted
from cases.watched import met
from model import policy, proving
from model.devices import HALT, RAM, TIMER_COMPARE, TRANSMIT
from model.listings import table_text
from model.rights import (ACCESS_SYSTEM_REGISTERS, CINVOKE, EXECUTE, GLOBAL, LOAD, LOAD_CAPABILITY, SEAL, STORE, STORE_CAPABILITY,
                          STORE_LOCAL, UNSEAL)
from model.schedules import Schedule
from model.texts import Program

# The code of a compartment, and the data that it may load and store.
CALL, BLOCK = GLOBAL | EXECUTE | LOAD, LOAD | STORE | LOAD_CAPABILITY | STORE_CAPABILITY
GIVES_UP = ("cspecialrw cnull, mtcc, cra", "cspecialrw cnull, mepcc, cra", "cspecialrw cnull, ddc, cs0", "cmove ca0, cnull")
# How a run with drawn code goes, and how many are tried of what is said to hold.
STEPS, RUNS = 80, 12


def kernel(*held, then=(), before=(), last=GIVES_UP, leaves="cjalr cnull, 0(cra)", code=CALL, block=BLOCK, data=(), trap=()):
    """A kernel that loads what its compartment gets, does `before` with root in ca0, gives up what it has itself, and jumps into a page
    of its compartment. Where it handles traps, it has the code of `trap`, aligned to 16 bytes."""
    given = [("cra", "code", 0x80, code), ("cs0", "data", 64, block), *held]
    loads = [f"clc {name}, {GIVEN - RAM + 16 * number}(ca0)" for number, (name, *_) in enumerate(given)]
    caps = [f".cap {first}, {length}, {perms:#x}, {int(perms & EXECUTE != 0)}" for _, first, length, perms in given]
    entered = [".align 4", "trap: " + trap[0], *trap[1:]] if trap else []
    lines = ["start: cspecialrw ca0, pcc, cnull", *loads, *before, *last, leaves, *entered]
    return "\n".join([".mode 1", *lines, f".org {CODE:#x}", "code: " + (then or ("nop",))[0], *then[1:], f".org {GIVEN:#x}",
                      "given: " + caps[0], *caps[1:], f".org {DATA:#x}", "data: .zero 64", *data])


class Proof(Watch):
    """A proof: its options, and the files that it is given."""

    def __init__(self, text, rules, most=None, options="", named=True):
        made = Program(text)
        labels = made.symbols() if named else []
        read, any_code, fault = policy.read_all(rules, {name: address for address, name in labels})
        assert not fault, fault
        machine = made.machine()
        self.it = proving.shown(machine, any_code, read, most or 10**6, labels)
        sent = "" if "--quiet" in options else proving.text(self.it, any_code, labels)
        self.status, self.sent, self.told = (1 if self.it.why else 0), sent.encode(), ""
        if not self.it.why:
            keeps(machine, any_code, read, labels, text)
        options = [*(["--steps", str(most)] if most else []), *options.split()]
        self.words = " ".join(["prove first.img --policy p", *(["--symbols t"] if named else []), *options])
        self.files = [f"first.img {quoted(image_of(made))}", *([f"t {quoted(table_text(labels))}"] if named else []), f"p {quoted(rules)}"]
        self.opened = ", ".join(["open first.img", *(["open t"] if named else []), "open p"])


def keeps(machine, any_code, rules, labels, text, runs=RUNS):
    """Runs with drawn code, ticks and bytes keep to the rules."""
    rng = random.Random(text)
    for _ in range(runs):
        schedule = Schedule(rng.randrange(1, 9), rng.randrange(0, 9), bytes(rng.randrange(256) for _ in range(9)))
        told, _ = met(proving.with_code(machine, any_code, rng), rules, STEPS, schedule, labels)
        assert not told, told


def holds(text, rules, *most, **how):
    proof = Proof(text, rules, *most, **how)
    assert proof.it.why is None, proof.it.why
    return proof.line()


def unshown(text, rules, why, *most, **how):
    proof = Proof(text, rules, *most, **how)
    assert (proof.it.why or "").startswith(why), proof.it
    return proof.line()


ANY = "any code in code..+0x80\n"
RULE = ("when pc in code..+0x80: store within data..+64, load within code..+0x80 data..+64, execute within code..+0x80, keep no,"
        " transmit no, halt no, timer no, system no, seal no, types none\n")
WHOLE = ANY + RULE
# A capability for a device's register, which the kernel uses before it gives up what it has.
SENDS = ("lui t0, 0x10000", "cspecialrw ct1, ddc, cnull", "csetaddr ct1, ct1, t0", "csb t0, 0(ct1)", "cmove ct1, cnull")


def shown():
    yield "# a kernel that gives its compartment a page of code and a block of data, and is never entered again"
    yield holds(kernel(), WHOLE)
    yield holds(kernel(), WHOLE, options="--quiet")
    yield unshown(kernel(), WHOLE, "more than 7 steps", 7, options="--quiet")
    yield holds(kernel(leaves="mret"), WHOLE)
    yield "# whatever the image itself has there"
    yield holds(kernel(then=("csd zero, 0(cs0)", "loop: j loop")), WHOLE)
    yield "# without a rule; with rules that give more; with rules about other code"
    yield holds(kernel(), ANY)
    yield holds(kernel(), ANY + "when pc in code..+0x80: store within 0x80000000..+0x1000, transmit yes\n")
    yield holds(kernel(), ANY + "when pc in 0x80000800..+16: store within data..+64\n")
    yield "# two ranges of any code, of which the first alone is entered; two lines; a range that another holds"
    yield holds(kernel(), "any code in code..+0x40 0x80000140..+0x40\n" + RULE)
    yield holds(kernel(), "any code in code..+0x40\nany code in code..+0x80\n" + RULE)
    yield "# its data may be any, too: they are no capabilities"
    yield holds(kernel(), "any code in code..+0x80 data..+64\n" + RULE)
    yield "# the kernel sends a byte before"
    yield holds(kernel(before=SENDS), WHOLE)
    yield "# what the compartment may be given: a register of a device, data that holds a capability of data, a sentry of its own code"
    yield holds(kernel(("cs1", str(TRANSMIT), 1, STORE)), WHOLE.replace("transmit no", "transmit yes"))
    yield holds(kernel(("cs1", "more", 16, LOAD | LOAD_CAPABILITY), data=["more: .cap data, 16, 8, 0"]),
                WHOLE.replace("data..+64, execute", "data..+80, execute"))
    yield holds(kernel(before=("csealentry cs1, cra",)), WHOLE)
    yield "# a sealed pair whose code is its own, and a value that nothing opens"
    yield holds(kernel(("cs1", "code", 0x80, CALL | CINVOKE), ("cs2", "data", 16, LOAD | CINVOKE),
                       before=(*sealed("cs1", 7), *sealed("cs2", 7))), WHOLE.replace("types none", "types 7"))
    yield holds(kernel(("cs1", "data", 16, LOAD), before=sealed("cs1", 7)), WHOLE.replace("types none", "types 7"))
    yield "# the kernel uses registers of control and status that are the same in every run, one that isn't there too: that step traps"
    yield holds(kernel(before=("csrrwi zero, mie, 0", "csrrs t0, mstatus, zero", "addi t1, zero, 7", "csrrw t0, mscratch, t1",
                               "csrrs t0, mtval, t1")), WHOLE)
    yield unshown(kernel(before=("csrrs t0, 0x7c5, zero",)), WHOLE, "more than 100 steps", 100)
    yield "# as many steps as it takes"
    yield holds(kernel(), WHOLE, 8)


def given():
    yield "# what the kernel leaves breaks a part: it is told where it is held"
    wide = ("cspecialrw cnull, mtcc, cra", "cspecialrw cnull, mepcc, cra")
    yield unshown(kernel(("cs1", "data", 80, STORE)), WHOLE, "line 2: store\n  held  cs1")
    yield unshown(kernel(("cs1", "0x80000000", 0x100, LOAD)), WHOLE, "line 2: load\n  held  cs1")
    yield unshown(kernel(("cs1", "0x80000000", 0x100, EXECUTE)), WHOLE, "line 2: execute\n  held  cs1")
    yield unshown(kernel(block=BLOCK | STORE_LOCAL), WHOLE, "line 2: keep\n  held  cs0")
    yield unshown(kernel(("cs1", str(TRANSMIT), 1, STORE)), WHOLE, "line 2: transmit\n  held  cs1")
    yield unshown(kernel(("cs1", str(HALT), 8, STORE)), WHOLE, "line 2: halt\n  held  cs1")
    yield unshown(kernel(before=sealed("cs0", 7), last=wide + ("cspecialrw cnull, ddc, ct0", "cmove ca0, cnull")),
                  WHOLE, "line 2: types\n  held  cs0")
    yield unshown(kernel(("cs1", "more", 16, LOAD | LOAD_CAPABILITY), data=["more: .cap given, 16, 8, 0"]),
                  WHOLE.replace("data..+64, execute", "data..+80, execute"), "line 2: store\n  held  0000000080000340 <more>")
    yield "# of several rules the first, of one the first capability, of that the first part"
    yield unshown(kernel(("cs1", "data", 80, STORE)), ANY + "when pc in code..+4: keep no\nwhen pc in code..+8: store no\n" + RULE,
                  "line 3: store\n  held  cs0")
    yield "# the kernel's own: DDC, MTCC, MEPCC and root in a register are left"
    yield unshown(kernel(last=(*wide, "cmove ca0, cnull")), WHOLE, "system\n  held  ddc")
    yield unshown(kernel(last=GIVES_UP[1:]), WHOLE, "system\n  held  mtcc")
    yield unshown(kernel(last=(GIVES_UP[0], *GIVES_UP[2:])), WHOLE, "system\n  held  mepcc")
    yield unshown(kernel(last=GIVES_UP[:3]), WHOLE, "system\n  held  ca0")
    yield unshown(kernel(code=CALL | ACCESS_SYSTEM_REGISTERS), WHOLE, "system\n  held  cra")
    yield unshown(kernel(("cs1", "0", 8, SEAL)), WHOLE, "seal\n  held  cs1")
    yield unshown(kernel(("cs1", "5", 1, UNSEAL)), WHOLE.replace("seal no", "seal yes"), "seal\n  held  cs1")
    yield unshown(kernel(before=("cspecialrw cnull, mscratchc, ca0",)), WHOLE, "system\n  held  mscratchc")
    yield unshown(kernel(before=("cspecialrw cnull, mtdc, ca0",)), WHOLE, "system\n  held  mtdc")
    yield "# through a sentry that leads back into the kernel, in a register or where traps go; and through a pair"
    yield unshown(kernel(before=("csealentry ct2, ca0", "cspecialrw cnull, mtcc, ct2", "cmove ct2, cnull"), last=GIVES_UP[1:]), WHOLE,
                  "isn't followed at 0000000080000000 <start>")
    yield unshown(kernel(before=("csealentry cs1, ca0",)), WHOLE, "system\n  held  behind a door")
    yield unshown(kernel(("cs1", "code", 0x80, CALL | CINVOKE), ("cs2", "0x80000000", 16, LOAD | CINVOKE),
                         before=(*sealed("cs1", 7), *sealed("cs2", 7))), WHOLE.replace("types none", "types 7"),
                  "line 2: load\n  held  behind a door")


# A kernel that traps enter again: MTCC is its own code, MTDC what it needs there, or MScratchC.
ENTERED = ("cla ct1, trap", "cspecialrw cnull, mtcc, ct1", "cmove ct1, cnull")
KEPT = ("cspecialrw cnull, mtdc, ct2", "cmove ct2, cnull")
SWAPPED = ("cspecialrw cnull, mscratchc, ct2", "cmove ct2, cnull")
SKIPS = ("cspecialrw ct1, mepcc, cnull", "cincoffsetimm ct1, ct1, 4", "cspecialrw cnull, mepcc, ct1", "cmove ct1, cnull", "mret")


def handler(trap, *held, before=(), **how):
    """A kernel whose code at `trap` each trap enters."""
    return kernel(*held, before=(*ENTERED, *before), last=GIVES_UP[1:], trap=trap, **how)


def entered():
    halt, console, compare = ("ct2", str(HALT), 8, STORE), ("ct2", str(TRANSMIT), 1, STORE), ("ct2", str(TIMER_COMPARE), 8, STORE)
    root = ("cmove ct2, ca0",)
    yield "# a kernel that each trap enters: it halts the machine, which its compartment may not"
    yield holds(handler(("cspecialrw ct2, mtdc, cnull", "csd zero, 0(ct2)"), halt, before=KEPT), WHOLE)
    yield "# it goes on after the instruction that trapped; it begins the compartment anew"
    yield holds(handler(SKIPS), WHOLE)
    yield holds(handler(("cspecialrw ct2, mtdc, cnull", "cspecialrw cnull, mepcc, ct2", "mret"), ("ct2", "code", 0x80, CALL), before=KEPT),
                WHOLE)
    yield "# it sends what is in a register, through MScratchC, and gives back what it took; it lets the timer's interrupt in, and stops it"
    yield holds(handler(("cspecialrw ct2, mscratchc, ct2", "csb a0, 0(ct2)", "cspecialrw ct2, mscratchc, ct2", *SKIPS), console,
                        before=SWAPPED), WHOLE)
    yield holds(handler(("cspecialrw ct2, mtdc, cnull", "addi t1, zero, -1", "csd t1, 0(ct2)", "cmove ct2, cnull", "mret"), compare,
                        before=(*KEPT, "addi t1, zero, 128", "csrrs zero, mstatus, t1", "csrrs zero, mie, t1"), leaves="mret"), WHOLE)
    yield "# what it computes of unknown numbers and capabilities stays of the set; what it loads of its own is exact"
    yield holds(handler(("add t1, a0, a1", "mul t1, t1, a2", "candperm ct2, cs0, t1", "csetaddr ct3, ct2, t1", "cgetlen t4, ct3", *SKIPS)),
                WHOLE)
    yield holds(handler(("cla ct1, given", "cld t2, 0(ct1)", "beq t2, zero, trap", "clc ct1, 0(ct1)", "cspecialrw cnull, mepcc, ct1",
                         "mret")), WHOLE)
    yield "# it leaves root in a register, in one that it made, or in MEPCC; what it took from MScratchC isn't given back"
    yield unshown(handler(("cspecialrw ct2, mtdc, cnull", "mret"), before=(*root, *KEPT)), WHOLE, "returns\n  held  ct2")
    yield unshown(handler(("auipc t3, 0", "mret")), WHOLE, "returns\n  held  ct3")
    yield unshown(handler(("auipc t3, 0", "cspecialrw cnull, mepcc, ct3", "cmove ct3, cnull", "mret")), WHOLE, "returns\n  held  mepcc")
    yield unshown(handler(("cspecialrw ct2, mscratchc, ct2", "mret")), WHOLE, "returns\n  held  mscratchc")
    yield "# it makes something of root by what is unknown; it seals and unseals by it"
    yield unshown(handler(("cspecialrw ct2, mtdc, cnull", "csetaddr ct2, ct2, a0", "mret"), before=(*root, *KEPT)), WHOLE,
                  "isn't followed at 0000000080000044")
    yield unshown(handler(("cspecialrw ct2, mtdc, cnull", "cseal cs0, cs0, ct2", "mret"), ("ct2", "7", 1, SEAL), before=KEPT), WHOLE,
                  "isn't followed at")
    yield unshown(handler(("cspecialrw ct2, mtdc, cnull", "cunseal cs0, cs0, ct2", "mret"), ("ct2", "7", 1, UNSEAL), before=KEPT), WHOLE,
                  "isn't followed at")
    yield "# it stores a capability, or a number, into RAM; its code, or what it loads, lies where the compartment may store"
    yield unshown(handler(("cspecialrw ct2, mtdc, cnull", "csc cs0, 0(ct2)", "mret"), ("ct2", "data", 64, BLOCK), before=KEPT), WHOLE,
                  "isn't followed at")
    yield unshown(handler(("cspecialrw ct2, mtdc, cnull", "csd zero, 0(ct2)", "mret"), ("ct2", "data", 64, BLOCK), before=KEPT), WHOLE,
                  "isn't followed at")
    yield unshown(handler(SKIPS, ("cs1", "trap", 16, STORE)), WHOLE.replace("store within data", "store within trap..+16 data"),
                  "fetches any code at 0000000080000030 <trap>")
    yield unshown(handler(("cspecialrw ct2, mtdc, cnull", "cld t1, 0(ct2)", "mret"), ("ct2", "data", 64, LOAD), before=KEPT), WHOLE,
                  "isn't followed at")
    yield "# a branch, a jump, an access by what is unknown; a trap in a trap; a register of control and status; DDC"
    for row in ("beq a0, zero, trap", "cjalr cnull, 0(cra)", "csb zero, 0(cs0)", "ecall", "csrrs t0, mcause, zero",
                "cspecialrw ct0, ddc, cnull"):
        yield unshown(handler((row, "mret")), WHOLE, "isn't followed at 0000000080000030 <trap>")
    yield "# interrupts with entries of their own; a rule about its code; a trap that never ends; what the compartment holds breaks a rule"
    yield unshown(handler(SKIPS, before=("csrrsi zero, mtvec, 1",)), WHOLE, "isn't followed at 0000000080000031")
    yield unshown(handler(SKIPS), WHOLE + "when pc in trap..+4: halt no\n", "line 3: applies at 0000000080000030 <trap>")
    yield unshown(handler(("j trap",)), WHOLE, "more than 500 steps", 500)
    yield unshown(handler(SKIPS, ("cs1", "data", 80, STORE)), WHOLE, "line 2: store\n  held  cs1")


def begun():
    yield "# a step of the kernel isn't the same in every run"
    yield unshown(kernel(before=("csrrs t0, mcycle, zero",)), WHOLE, "uses a system register at")
    yield unshown(kernel(before=("csrrw zero, minstret, t0",)), WHOLE, "uses a system register at")
    yield unshown(kernel(before=("csrrs t0, mip, zero",)), WHOLE, "uses a system register at")
    yield unshown(kernel(before=("csrrsi zero, mstatus, 8",)), WHOLE, "interrupts are on at 0000000080000010 <start+16>")
    yield unshown(kernel(before=("cld t0, 256(ca0)",)), WHOLE, "loads any code at 0000000080000100 <code>")
    yield unshown(kernel(before=("clc ct0, 352(ca0)",)), WHOLE, "loads any code at 0000000080000160")
    yield unshown(kernel(before=("lui t0, 0x200c", "csetaddr ct1, ca0, t0", "cld t1, -8(ct1)")), WHOLE, "loads a device at")
    yield unshown(kernel(before=("lui t0, 0x100", "csetaddr ct1, ca0, t0", "csd zero, 0(ct1)")), WHOLE, "halts at")
    yield unshown(kernel(), "any code in 0x80000006..+4\n", "fetches any code at 0000000080000004 <start+4>")
    yield "# none where none is fetched or loaded: an access that traps looks at nothing, but its place is asked for"
    yield unshown(kernel(before=("cld t0, 256(ct0)",)), WHOLE, "loads a device at 0000000000000100")
    yield "# a rule about the kernel's own code; a kernel that never comes to any code, in so many steps"
    yield unshown(kernel(), WHOLE + "when pc in start..+8: halt no\n", "line 3: applies at 0000000080000000 <start>")
    yield unshown(kernel(), WHOLE + "when pc in 0x80000010..+4: halt no\n", "line 3: applies at 0000000080000010 <start+16>")
    yield unshown(kernel(), RULE, "line 1: applies at", 50)
    yield unshown(kernel(), WHOLE, "more than 7 steps", 7)
    yield unshown(kernel(leaves="loop: j loop"), WHOLE, "more than 1000 steps", 1000)
    yield "# a granule with a byte of any code has a tag; a rule that asks what a caller could reach"
    yield unshown(kernel(before=("csc cs0, 288(ca0)",)), WHOLE, "a tag stands at 0000000080000120 <code+32>")
    yield unshown(kernel(), ANY + "when pc in code..+0x80: store no, or caller\n", "line 2: or caller")


def faults():
    yield "# files and policies that are refused, as of `run`"
    rules = f"p {quoted(WHOLE)}"
    yield fails("prove bad.img --policy p", [BAD, rules], "open bad.img", NO_IMAGE)
    yield fails("prove bad.img --policy p --quiet", [BAD, rules], "open bad.img", NO_IMAGE.splitlines(True)[0])
    yield fails("prove first.img --policy p", [FILE], "open first.img, open p", missing("p"))
    yield fails("prove first.img --policy p", [FILE, 'p "any code in 5\\n"'], "open first.img, open p", policy.refused("P2", 1, "p"))
    yield fails("prove first.img --policy p", [FILE, 'p "# nothing\\nany code 0..1\\n"'], "open first.img, open p",
                policy.refused("P1", 2, "p"))
    yield refused("prove first.img", [FILE])
    yield refused("prove --policy p", [rules])
    yield refused("prove first.img --policy p --steps 0", [FILE, rules])
    yield refused("prove first.img --policy p --steps 1000000001", [FILE, rules])
    yield refused("prove first.img --policy p --input p", [FILE, rules])
    yield refused("prove - --policy -", [FILE, rules])
    yield "# a text in place of an image, with its own labels and lines; the image that gives nothing up"
    text = kernel()
    made = Proof(text, WHOLE)
    yield case("prove a.s --policy p", [f"a.s {quoted(text)}", rules], 0, "open a.s, open p", made.sent.decode())
    yield case("prove first.img --policy p --symbols t", [FILE, table("t", [(RAM, "start"), (RAM + 16, "code")]),
                                                           'p "any code in code..+4\\n"'], 1, "open first.img, open t, open p",
               "not shown: system\n  held  pcc\n")


def files():
    yield "proofs.txt", ["# a command line, files and streams => the status, what is opened and made, sent, told, and what stands in the file made",
                         *shown(), *given(), *entered(), *begun(), *faults()]
