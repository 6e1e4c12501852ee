"""Cases of `--json`: the lines that `run`, `go`, `bounds` and `word` tell as objects.

Values are those of the texts, by the model: of requests, lengths and words as in bounds_texts.py, of a run's end as in
tools/model/unhandled.py, of a step, and of why it traps, as in tools/model/asked.py. The lines are what json.dumps makes of them.
"""
import json

from cases.audits import Audit, enters
from cases.bounds_texts import LENGTHS, WORKED, drawn, lengths, shaped, window
from cases.policed import BY_ROOT, CALL, FIRST, HALTS, WHOLE, Watch, inside, program
from cases.program_lines import FILE, SENDS_A, case, file_of, profiled
from cases.program_runs import (HALTS_WITH_7, HANDLER_TRAPS, HANDLER_TRAPS_AT_ONCE, IS_HANDLED, IS_HANDLED_ONCE,
                                LOAD_IS_HANDLED, LOADS_BY_NULL, LOADS_NOTHING, LOADS_PAST_THE_END, NESTED_RETURNS)
from cases.words import distinct_words
from model import unhandled
from model.asked import Asking, why_objects
from model.bounds import alignment_mask, bounded, by_the_least_exponent
from model.devices import RAM
from model.faults import LOAD_ACCESS
from model.objects import half, line, place, sealing, wide
from model.rights import LOAD, LOAD_CAPABILITY, SEAL, STORE, letters
from model.texts import machine_of
from model.words import NULL_HIGH, ONES, ROOT_HIGH, SPACE, decoded, exponent_and_mantissas, fields, is_well_formed, kept


def bounds_object(base, length, address):
    """What setting bounds gives."""
    end = base + length
    high, tag, exact, low, top = bounded(ROOT_HIGH, base, 1, length)[:5]
    found = by_the_least_exponent(base, end)[0]
    granule = 2 ** (found[0] + 3) if found[1] else 1
    mask = alignment_mask(length)
    members = {
        "request": {"base": half(base), "top": wide(end), "length": half(length)},
        "tag": bool(tag), "exact": bool(exact), "base": half(low), "top": wide(top),
        "below": half(base - low), "above": half(-(-end // granule) * granule - end), "granule": half(granule),
        "crrl": half(length + ONES - mask & mask), "cram": half(mask),
        "memory": {"low": half(base), "high": half(high ^ NULL_HIGH)},
    }
    if not tag:
        return line(members)
    first, last = kept(high, base)
    inside = address is not None and (address - first) % SPACE <= (last - first) % SPACE
    members["window"] = {"first": half(first), "last": half(last)}
    members["address"] = None if address is None else half(address)
    members["lies"] = None if address is None else "in bounds" if low <= address < top else "in the window" if inside else "outside"
    return line(members)


def length_object(length):
    """What an allocator asks of a length."""
    mask = alignment_mask(length)
    granule = SPACE - mask
    rounded = -(-length // granule) * granule
    return line({"length": half(length), "rounded": wide(rounded), "align": wide(granule), "mask": half(mask),
                 "padding": wide(rounded - length)})


def word_object(high, address):
    """What a word means."""
    base, top = decoded(high, address)
    perms, flag, otype = fields(high)
    first, last = window(high, address)
    return line({
        "logical": {"high": half(high), "low": half(address)},
        "memory": {"high": half(high ^ NULL_HIGH), "low": half(address)},
        "well_formed": is_well_formed(high, address), "address": half(address), "base": half(base), "top": wide(top),
        "length": wide((top - base) % (2 * SPACE)), "perms": perms >> 12 << 15 | perms & 0xFFF, "letters": letters(perms),
        "otype": otype, "sealing": sealing(otype), "flag": bool(flag),
        "ie": bool(high >> 26 & 1), "t": high >> 14 & 0xFFF, "b": high & 0x3FFF, "exponent": exponent_and_mantissas(high)[0],
        "window": {"first": half(first), "last": half(last)},
    })


def words(cause, mtval):
    """A trap in words; an access fault isn't among those that the model tells."""
    if cause == LOAD_ACCESS:
        return f"load access fault, mtval {mtval:016x}"
    return unhandled.cause_text(cause, mtval)


def trap(step, cause, mtval, mepc, labels):
    return {"step": step, "mcause": half(cause), "mtval": half(mtval), "words": words(cause, mtval), "mepc": place(mepc, labels)}


def end_object(text, steps, labels=()):
    """How a run of so many steps ends, the last of which may halt."""
    machine = machine_of(text)
    opened = unhandled.run(machine, steps)
    halted = machine.halted
    members = {"status": int(halted != 0), "halted": None if halted is None else half(halted), "steps": steps,
               "pcc": place(machine.pc, labels), "first_trap": None, "last_trap": None, "unfetched": 0}
    cause, mtval = machine.csr("mcause"), machine.csr("mtval")
    if opened.row:
        first, last = opened.stack[0], opened.row[0]
        members["first_trap"], members["last_trap"] = (trap(it.number, it.cause, it.mtval, it.pc, labels) for it in (first, last))
        members["unfetched"] = opened.unfetched
    elif cause or mtval:
        members["last_trap"] = trap(None, cause, mtval, machine.special["mepcc"][1], labels)
    return line(members)


def after(text, steps, keys=b""):
    """The machine of a text after so many steps, with a byte before each, as many as there are, and before the next one."""
    machine = machine_of(text)
    for number in range(steps + 1):
        for byte in keys[number:number + 1]:
            machine.byte(byte)
        if number < steps:
            machine.step()
    return machine


def stopped_objects(text, steps, labels=(), keys=b""):
    """Where a run ends before a trap, after so many steps, and why the next step traps."""
    machine = after(text, steps, keys)
    return line({"status": 1, "halted": None, "steps": steps, "pcc": place(machine.pc, labels)}) + why_objects(machine, labels)


def traced_objects(text, numbers, labels=(), keys=b""):
    """The lines of a trace of the steps of these numbers."""
    return "".join(Asking(after(text, number - 1, keys), labels).trace_object(number) for number in numbers).encode()


def answers():
    yield "# what setting bounds gives, where the request is a capability and where it isn't"
    for base, length, address in WORKED + list(drawn())[::4]:
        option = "" if address is None else f" --address {address:#x}"
        yield case(f"bounds {base:#x} {length:#x}{option} --json", [], 0, sent=bounds_object(base, length, address).encode())
    yield "# what an allocator asks of a length"
    for length in [*LENGTHS, *lengths()][::3]:
        yield case(f"bounds --json {length:#x}", [], 0, sent=length_object(length).encode())
    yield "# what a word means"
    found = list(dict.fromkeys([*shaped(), *distinct_words()[::4]]))
    for number, (high, address) in enumerate(found[::3]):
        form, word = ("", high) if number % 2 else (" --memory", high ^ NULL_HIGH)
        yield case(f"word {word:#x} {address:#x}{form} --json", [], 0, sent=word_object(high, address).encode())


def ends():
    yield "# how a run ended: it halted with 0, with another number, or not"
    yield case("run first.img 9 --json", [FILE], 0, "open first.img", b"A", end_object(SENDS_A, 5))
    yield case("go first.img --json --steps 4", [FILE], 1, "open first.img", b"A", end_object(SENDS_A, 4))
    yield case("run first.img 4 --json --quiet", [FILE], 1, "open first.img", b"A", end_object(SENDS_A, 4))
    yield case("run seven.img 9 --json", [file_of("seven.img", HALTS_WITH_7)], 1, "open seven.img", b"", end_object(HALTS_WITH_7, 3))
    halts = "addi a0, zero, -1; lui a1, 0x100; sd a0, 0(a1)"
    yield case("run ones.img 9 --json", [file_of("ones.img", halts)], 1, "open ones.img", b"", end_object(halts, 3))
    yield case("run first.img 4 --profile p --json", [FILE], 1, "open first.img, make p", b"A", end_object(SENDS_A, 4),
               profiled(SENDS_A, 4).encode())
    yield "# the first trap that is open and the last, where the last step was one, or else the last that was taken"
    for text, counts in ((LOADS_NOTHING, (1, 2)), (LOADS_BY_NULL, (1,)), (LOADS_PAST_THE_END, (3, 4, 5, 1000)), (IS_HANDLED, (4, 5, 9)),
                         (IS_HANDLED_ONCE, (9, 13)), (HANDLER_TRAPS, (7, 27, 28, 49, 1000)), (HANDLER_TRAPS_AT_ONCE, (4, 9)),
                         (NESTED_RETURNS, (4, 16, 17, 24)), (".word 0", (2,))):
        for steps in counts:
            yield case(f"run trap.img {steps} --json", [file_of("trap.img", text)], 1, "open trap.img", b"", end_object(text, steps))
    yield "# labels, and the distance from them"
    for labels in ([(RAM + 4, "load"), (RAM, "start"), (0, "zero")], [(RAM - 4083, "low"), (RAM - 4083, "other")], [(RAM - 4084, "low")]):
        table = "".join(f"{at:016x} {name}\n" for at, name in labels)
        for text, steps in ((LOADS_PAST_THE_END, 5), (IS_HANDLED, 5)):
            yield case(f"run a.img {steps} --json --symbols a.sym", [file_of("a.img", text), f'a.sym "{table}"'.replace("\n", "\\n")], 1,
                       "open a.img, open a.sym", b"", end_object(text, steps, labels))
    yield "# a line of a source, in which a quote and a backslash are escaped"
    source = 'a.s:1: .string "\\\\"'
    at = end_object(LOADS_BY_NULL, 1).replace('"address":"0x0000000080000000","label":null,"offset":null,"source":null',
                                              '"address":"0x0000000080000000","label":null,"offset":null,"source":' + json.dumps(source))
    lines = f"{RAM:016x} {source}\n".replace("\\", "\\x5c").replace('"', "\\x22").replace("\n", "\\n")
    yield case("run a.img 1 --json --lines a.lines", [file_of("a.img", LOADS_BY_NULL), f'a.lines "{lines}"'], 1, "open a.img, open a.lines",
               b"", at)
    yield "# what is told of a fault is no object"
    yield case("run none.img 4 --json", [FILE], 3, "open none.img", told="cherisim: file none.img\n  No such file or directory\n")


def stops():
    """Runs that end before a trap."""
    def stopped(options, text, steps, labels=()):
        table = [f'a.sym "{"".join(f"{at:016x} {name}{chr(92)}n" for at, name in labels)}"'] if labels else []
        return case(f"run trap.img {options} --json", [file_of("trap.img", text), *table], 1,
                    ", ".join(["open trap.img", *(["open a.sym"] if labels else [])]), b"", stopped_objects(text, steps, labels))

    yield "# a run that is to stop before a trap, and meets none, is as any other"
    yield case("run first.img 9 --why --json", [FILE], 0, "open first.img", b"A", end_object(SENDS_A, 5))
    yield case("run first.img 4 --json --why=all", [FILE], 1, "open first.img", b"A", end_object(SENDS_A, 4))
    yield case("run trap.img 9 --json --why", [file_of("trap.img", LOAD_IS_HANDLED)], 1, "open trap.img", b"",
               end_object(LOAD_IS_HANDLED, 9))
    yield "# before it, and why the next step traps; also where the run is quiet"
    yield stopped("9 --why", "ecall", 0)
    yield stopped("9 --why --quiet", "ecall", 0)
    for why in ("--why", "--why=all"):
        yield stopped(f"9 {why}", LOADS_BY_NULL, 0)
    yield stopped("2 --why=all", "ecall", 1)
    yield stopped("13 --why", IS_HANDLED_ONCE, 9)
    yield stopped("9 --why=all", LOAD_IS_HANDLED, 3)
    yield stopped("9 --why --symbols a.sym", LOADS_BY_NULL, 0, [(RAM - 4, "below"), (0, "null")])


def traces():
    """Traces as objects."""
    def traced(options, text, steps, numbers, labels=(), sent=b"", told=None):
        table = [f'a.sym "{"".join(f"{at:016x} {name}{chr(92)}n" for at, name in labels)}"'] if labels else []
        return case(f"run a.img {options} --json --trace t", [file_of("a.img", text), *table], 1 if told else 0,
                    ", ".join(["open a.img", *(["open a.sym"] if labels else []), "make t"]), sent,
                    told or end_object(text, steps, labels), traced_objects(text, numbers, labels))

    yield "# a step a line: its number, where it is, its instruction, and what it comes to"
    yield traced("9", SENDS_A, 5, range(1, 6), sent=b"A")
    yield traced("9 --quiet", SENDS_A, 5, range(1, 6), sent=b"A")
    yield "# of those from a number on the last ones; with labels"
    yield traced("9 --trace-from 2 --trace-last 3", SENDS_A, 5, range(3, 6), sent=b"A")
    yield traced("9 --trace-from 5", SENDS_A, 5, range(5, 6), sent=b"A")
    yield traced("9 --trace-from 6", SENDS_A, 5, (), sent=b"A")
    yield traced("9 --symbols a.sym", SENDS_A, 5, range(1, 6), [(RAM + 4, "second"), (RAM, "first")], sent=b"A")
    yield "# a trap, a fetch that faults, and one of those that no RAM answers"
    for text, steps in ((LOADS_NOTHING, 2), (IS_HANDLED_ONCE, 13), (".word 0", 2)):
        yield traced(str(steps), text, steps, range(1, steps + 1), told=end_object(text, steps))
    yield "# the steps before a trap that a run stops before"
    yield traced("9 --why=all", LOAD_IS_HANDLED, 3, range(1, 4), told=stopped_objects(LOAD_IS_HANDLED, 3))
    yield traced("9 --why", "ecall", 0, (), told=stopped_objects("ecall", 0))


def policed():
    """Runs that a policy watches."""
    def stopped(text, rules, *steps, options="", **how):
        watch = Watch(text, rules, *steps, options=f"{options} --json", **how)
        assert '"rule"' in watch.told
        return watch.line()

    yield "# what breaks a rule: before the first step, before the one that halts, and after others"
    yield stopped(FIRST, WHOLE + "seal no\n", named=False)
    yield stopped(FIRST, WHOLE + "seal no\n", named=False, options="--quiet")
    yield stopped(FIRST, "when pc in 0x80000010..+4: halt no\n", named=False)
    yield "# a rule with a tab and a comment; what leads to the member, with labels"
    leads = program(("cs3", "table", 32, LOAD | LOAD_CAPABILITY), HALTS, ("cs0", "data", 8, STORE),
                    data=["table: .cap data, 8, 12, 0", ".cap 0x100000, 8, 8, 0"])
    for said in ("store within data..+4", "load within table..+32", "halt no"):
        yield stopped(leads, "\n# about code\nwhen pc in\tcode..+4: " + said + " # no more\n")
    yield "# what never breaks one ends as every run"
    for steps in (1000, 2):
        watch = Watch(FIRST, WHOLE + "store within 0..0xffffffffffffffff 0xffffffffffffffff..+1\n", steps, options="--json", named=False)
        yield watch.line()


def audits():
    """Audits as objects."""
    def finds(text, rules, count, *steps, options="", **how):
        audit = Audit(text, rules, *steps, options=f"{options} --json", **how)
        assert (audit.sent.count(b"\n"), audit.status) == (count, 1 if count else 0)
        return audit

    yield "# each part that is broken, once, in the order of steps, rules and parts"
    yield finds(FIRST, "when pc in 0x80000010..+4: seal no\nwhen pc in 0x80000004..+8: load no, store within 0..1\n", 3, named=False).line()
    yield finds(FIRST, WHOLE + ", ".join(f"{name} no" for name in BY_ROOT) + "\n", 9, named=False).line()
    two = program(HALTS, ("cs0", "1", 2, SEAL), ("cs1", "data", 16, STORE), ("cs2", "data", 8, STORE | LOAD))
    yield finds(two, inside("seal no", "load no", "store within data..+8") + "# again\n\t" + inside("store no", "seal no"), 5).line()
    yield "# none; and what is found is not told of a quiet one"
    yield finds(FIRST, "when pc in 0x80000014..+4: halt no\n", 0, named=False).line()
    quiet = finds(FIRST, "when pc in 0x80000010..+4: halt no\n", 1, options="--quiet", named=False)
    quiet.sent = b""
    yield quiet.line()
    yield "# without a policy a rule for each range of code that is entered"
    yield enters(FIRST, 1, options="--json")
    sentry = program(HALTS, ("cs0", "data", 16, CALL), before=["csealentry cs0, cs0"])
    yield enters(sentry, 2, options="--json")


def files():
    yield "objects.txt", [*answers(), *ends(), *stops(), *traces(), *policed(), *audits()]
