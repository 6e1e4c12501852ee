"""Runs by the program: their statuses and ends, traps, traces, and labels after addresses."""

from cases.explanations import access, begun, fetch, number as held_number, reply, trapped as trap_effect
from cases.program_lines import BAD, FILE, LISTED, NO_IMAGE, NOT_HALTED, REPLY, SENDS_A, TEXT, TEXT_OF_CLAP, TRACE, UNWRITTEN, case
from cases.program_lines import cut_short, fails, file_of, is_directory, missing, no_label, profiled, refused, stood, table, traced
from cases.quoting import quoted
from cases.sessions import ECHO_THREE
from model.devices import RAM
from model.listings import with_names
from model.images import FIRST, header, section
from model.texts import machine_of
from model.unhandled import before_second, ending
from model.words import SPACE

HALTS_WITH_7 = "lui a1, 0x100; addi a0, zero, 7; sd a0, 0(a1)"
# waits for three bytes, and sends each
ECHO = file_of("echo.img", ECHO_THREE)
# sends the low byte of the timer's count
TELLS_TIME = "lui a1, 0x200c; ld a0, -8(a1); lui a1, 0x10000; addi a0, a0, 65; sb a0, 0(a1); lui a1, 0x100; sd zero, 0(a1)"
# a load at address 0, which nothing answers, and one by a capability register that is null
LOADS_NOTHING = "lb a0, 0(zero)"
LOADS_BY_NULL = "lb.cap a0, (ca1)"
ROW_BY_NULL = "fa85855b lb.cap a0, (ca1)"


def ends():
    yield "# done: status 0"
    yield case("", [], 0, sent=b"A")
    yield case("--version", [], 0, sent=b"cherisim 0.1.0\n")
    yield case("-V", [], 0, sent=b"cherisim 0.1.0\n")
    yield case("asm a.s a.img", [TEXT], 0, "open a.s, make a.img", made=FIRST)
    yield case("run first.img 5", [FILE], 0, "open first.img", b"A")
    yield case("run first.img 100000000", [FILE], 0, "open first.img", b"A")
    yield case("dis first.img", [FILE], 0, "open first.img", LISTED)
    yield case("debug first.img", [FILE, 'input "step 5\\nquit\\nregs\\n"'], 0, "open first.img", REPLY)
    yield case("debug first.img", [FILE, 'input "step 5"'], 0, "open first.img", REPLY)
    yield case("debug first.img", [FILE], 0, "open first.img")
    yield "# the bytes of a file come on the console, one before each so many steps, and ticks as often as they are asked for"
    yield case("run echo.img 22 --input keys --gap 1", [ECHO, 'keys "ABC"'], 0, "open echo.img, open keys", b"ABC")
    yield case("run echo.img 22 --input keys --gap 7", [ECHO, 'keys "ABC"'], 0, "open echo.img, open keys", b"ABC")
    yield case("run echo.img 22 --input keys --gap 1", [ECHO, 'keys "AB"', 'input "C"'], 1, "open echo.img, open keys", b"AB",
               stood(22, RAM + 8))
    yield case("run echo.img 21 --input keys --gap 1", [ECHO, 'keys "ABC"'], 1, "open echo.img, open keys", b"ABC", stood(21, RAM + 36))
    time = file_of("time.img", TELLS_TIME)
    yield case("run time.img 7 --tick 1", [time], 0, "open time.img", b"B")
    yield case("run time.img 7 --tick 0", [time], 0, "open time.img", b"A")


def ended_otherwise():
    yield "# a run that ended otherwise: status 1"
    yield case("run first.img 4", [FILE], 1, "open first.img", b"A", stood(4, RAM + 16))
    yield case("run first.img 4 --quiet", [FILE], 1, "open first.img", b"A", NOT_HALTED)
    seven = file_of("seven.img", HALTS_WITH_7)
    yield case("run seven.img 3", [seven], 1, "open seven.img", b"", "cherisim: halted with 7\ncherisim: steps 3, pcc 000000008000000c\n")
    yield case("run seven.img 9", [seven], 1, "open seven.img", b"", "cherisim: halted with 7\ncherisim: steps 3, pcc 000000008000000c\n")
    yield case("run seven.img 3 --quiet", [seven], 1, "open seven.img", b"", "cherisim: halted with 7\n")
    yield case("run --quiet first.img 5", [FILE], 0, "open first.img", b"A")
    yield from repeated()
    yield from trapped()
    yield from stopped()


def repeated():
    """Runs of STEPS steps, so many times over."""
    yield "# as many steps so many times over"
    yield case("run first.img 1 --times 5", [FILE], 0, "open first.img", b"A")
    yield case("run first.img 100000000 --times 1000000", [FILE], 0, "open first.img", b"A")
    yield case("run first.img 2 --times 2", [FILE], 1, "open first.img", b"A", stood(4, RAM + 16))
    yield case("run echo.img 11 --times 2 --input keys --gap 7", [ECHO, 'keys "ABC"'], 0, "open echo.img, open keys", b"ABC")
    yield case("run echo.img 3 --times 7 --input keys --gap 1", [ECHO, 'keys "ABC"'], 1, "open echo.img, open keys", b"ABC",
               stood(21, RAM + 36))
    yield case("run first.img 1 --times 5 --trace t", [FILE], 0, "open first.img, make t", b"A", made=TRACE.encode())


# loads 8 bytes past a capability of the first 8 of all addresses
LOADS_PAST_THE_END = "cspecialrw ca0, ddc, cnull; csetboundsimm ca0, ca0, 8; cincoffsetimm ca0, ca0, 8; ld.cap a1, (ca0)"
# The handler goes on after the instruction that trapped.
HANDLER = "csrrs a1, mepc, zero; addi a1, a1, 4; csrrw zero, mepc, a1; mret"
HANDLED = "auipc a0, 0x0; addi a0, a0, 24; csrrw zero, mtvec, a0; "
IS_HANDLED = f"{HANDLED}ecall; j .+0; nop; {HANDLER}"
# The second trap has no handler.
IS_HANDLED_ONCE = f"{HANDLED}ecall; csrrw zero, mtvec, zero; ecall; {HANDLER}"


def trapped():
    """The trap that nothing handled: cause and condition by the order of checks, and the trap's entry at 0, where there is no RAM."""
    nowhere, none = "0" * 16, "0" * 16

    def told(steps, pcc, kind, words, mepc, step=None, more=()):
        number = "" if step is None else f", step {step}"
        return (f"cherisim: not halted\ncherisim: steps {steps}, pcc {pcc}; {kind} trap: {words}, mepc {RAM + mepc:016x}{number}\n"
                + "".join(f"  {line}\n" for line in more))

    def since(count):
        return [f"later traps at an entry that can't be fetched: {count}"]

    def runs(steps, words, *expected, options=""):
        yield case(f"run trap.img {steps}{options}", [file_of("trap.img", words)], 1, "open trap.img", b"",
                   told(steps, *expected))

    yield "# the first trap that nothing handled, the condition that failed, and how often the trap's entry could not be fetched later"
    load = (nowhere, "first", f"load access fault, mtval {none}", 0, 1)
    missed = [f"no RAM or a device at {nowhere}"]
    yield from runs(1, LOADS_NOTHING, *load, missed)
    yield from runs(2, LOADS_NOTHING, *load, missed + since(1))
    yield from runs(1, LOADS_BY_NULL, nowhere, "first", "CHERI exception, tag violation at ca1", 0, 1, ["no tag of ca1"])
    bounds = (nowhere, "first", "CHERI exception, length violation at ca0", 12, 4)
    missed = [f"no length of ca0: {8:016x} + 8 in {0:016x} to {8:017x}"]
    yield from runs(4, LOADS_PAST_THE_END, *bounds, missed)
    yield from runs(5, LOADS_PAST_THE_END, *bounds, missed + since(1))
    yield from runs(1000, LOADS_PAST_THE_END, *bounds, missed + since(996))
    yield "# an ECALL, which fails no condition"
    call = f"environment call, mtval {none}"
    yield from runs(3, "ecall", nowhere, "first", call, 0, 1, since(2))
    yield "# a word that is no instruction, and one after the end of RAM's only page"
    yield from runs(2, ".word 0", nowhere, "first", f"illegal instruction, mtval {none}", 0, 1,
                    ["no the word is an instruction"] + since(1))
    start = header(1, RAM + 4092, 1, 0) + section(RAM, bytes(4092) + bytes.fromhex("13000000"))
    yield case("run end.img 4", [f"end.img {quoted(start)}"], 1, "open end.img", b"",
               told(4, nowhere, "first", f"instruction access fault, mtval {RAM + 4096:016x}", 4096, 2,
                    [f"no RAM at {RAM + 4096:016x}"] + since(2)))
    yield "# where the last step is no trap, the last that was taken is told, as the registers then hold it"
    yield from runs(4, IS_HANDLED, f"{RAM + 24:016x}", "first", call, 12, 4)
    yield from runs(5, IS_HANDLED, f"{RAM + 28:016x}", "last", call, 12)
    yield from runs(9, IS_HANDLED, f"{RAM + 16:016x}", "last", call, 16)
    yield "# the first after those that were handled"
    yield from runs(13, IS_HANDLED_ONCE, nowhere, "first", call, 20, 10, since(3))
    yield "# an interrupt, which fails no condition either; one of mtvec's mode 1 begins four bytes a number after the base"
    timer = f"timer interrupt, mtval {none}"
    yield from runs(6, IS_INTERRUPTED, nowhere, "first", timer, 20, 6)
    yield from runs(8, IS_INTERRUPTED, nowhere, "first", timer, 20, 6, since(2))
    vectored = f"addi a2, zero, 1; csrrw zero, mtvec, a2; {IS_INTERRUPTED}"
    yield from runs(8, vectored, f"{28:016x}", "first", timer, 28, 8)
    yield from runs(9, vectored, nowhere, "first", timer, 28, 8, since(1))
    yield "# a trace changes nothing of it, and --quiet leaves it out"
    one, ecall = traced("ecall", 1), file_of("trap.img", "ecall")
    yield case("run trap.img 1 --trace t", [ecall], 1, "open trap.img, make t", b"", told(1, nowhere, "first", call, 0, 1), one.encode())
    yield case("run trap.img 1 --quiet", [ecall], 1, "open trap.img", b"", NOT_HALTED)
    yield "# a line that can't be written takes the others with it"
    whole = told(1, nowhere, "first", call, 0, 1)
    for count in (0, 1, whole.index("\n") + 1, len(whole) - 1):
        yield case("run trap.img 1", [ecall, f"errors {count}"], 1, "open trap.img", b"", whole[:count])
    yield from caused()


SETS_HANDLER = "la a0, handler; csrrw zero, mtvec, a0"
ENDS_HANDLER = "csrrw zero, mtvec, zero"
GOES_ON = "csrrs a1, mepc, zero; addi a1, a1, 4; csrrw zero, mepc, a1; mret"
# The handler does twenty steps, and then traps itself.
HANDLER_TRAPS = f"{SETS_HANDLER}; {LOADS_PAST_THE_END}; handler: {'nop; ' * 20}{LOADS_BY_NULL}"
# The handler's first instruction traps.
HANDLER_TRAPS_AT_ONCE = f"{SETS_HANDLER}; ecall; handler: .word 0"
# The handler of a violation calls the environment, which the handler also serves, and goes on with this.
CALLS_WITHIN = ("csrrs a1, mcause, zero; addi a2, zero, 11; beq a1, a2, past; csrrs a3, mepc, zero; ecall; {0}; csrrw zero, mepc, a3; "
                f"past: {GOES_ON}")
NESTED_RETURNS = f"{SETS_HANDLER}; {LOADS_BY_NULL}; {ENDS_HANDLER}; ecall; handler: {CALLS_WITHIN.format('nop')}"
NESTED_TRAPS_AFTER = f"{SETS_HANDLER}; {LOADS_BY_NULL}; handler: {CALLS_WITHIN.format(f'{ENDS_HANDLER}; lb.cap a0, (ca4)')}"
# Code with 64 bytes of PCC, or all of them without one permission, calls the environment; the handler leaves by a jump.
NARROW, WITHOUT = "csetboundsimm ca0, ca0, 64", "addi a3, zero, -1; slli a3, a3, 63; srli a3, a3, 48; xori a3, a3, -1; candperm ca0, ca0, a3"
JUMPS_IN = "cspecialrw ca0, pcc, cnull; la a1, inside; csetaddr ca0, ca0, a1; {0}; jalr.cap cnull, ca0"
JUMPS_BACK = f"handler: {ENDS_HANDLER}; cincoffsetimm ca2, ca0, 8; jalr.cap cnull, ca2"
JUMPS_ELSEWHERE = (f"handler: {ENDS_HANDLER}; cspecialrw ca2, pcc, cnull; la a3, other; csetaddr ca2, ca2, a3; csetboundsimm ca2, ca2, 32; "
                   f"jalr.cap cnull, ca2; other: nop; {LOADS_BY_NULL}")


def left_by(jump, levels=NARROW, goes_on="nop; "):
    """A text whose handler is left by a jump out of it, and of what was called before it, which goes on with this and then traps."""
    return f"{SETS_HANDLER}; {JUMPS_IN.format(levels)}; inside: nop; ecall; {goes_on}{LOADS_BY_NULL}; {jump}"


def caused():
    """The first trap that is open, by the model, and the last where that is another."""
    def runs(words, *counts):
        for steps in counts:
            yield case(f"run trap.img {steps}", [file_of("trap.img", words)], 1, "open trap.img", b"",
                       f"cherisim: not halted\n{ending(machine_of(words), steps)}")

    yield "# a handler that traps itself after twenty steps, for ever: the first trap is told with the last, where the last step was one"
    yield from runs(HANDLER_TRAPS, 7, 27, 28, 29, 48, 49, 994, 1000)
    yield "# one whose first instruction traps: each step is a trap, and none of the fetch"
    yield from runs(HANDLER_TRAPS_AT_ONCE, 4, 5, 9)
    yield "# an MRET returns from the last that is open: in a handler that then returns itself, and in one that then traps"
    yield from runs(NESTED_RETURNS, 4, 9, 16, 17, 22, 24, 27)
    yield from runs(NESTED_TRAPS_AFTER, 9, 16, 18, 20)
    yield "# an MRET before any trap returns from none"
    yield from runs("la a0, main; csrrw zero, mepc, a0; mret; nop; main: ecall", 5, 6)
    yield "# a handler that leaves by a jump to the level where the trap was taken, in bounds or in permissions"
    for levels in (NARROW, WITHOUT):
        first = 10 + (levels == WITHOUT) * 4
        yield from runs(left_by(JUMPS_BACK, levels), *(first + more for more in (1, 4, 5, 6, 8)))
    yield "# where the step there is a trap, and where the jump is to another level, the first trap stays open"
    yield from runs(left_by(JUMPS_BACK, goes_on=""), 15, 16)
    yield from runs(left_by(JUMPS_ELSEWHERE), 18, 19, 20, 21)
    yield "# at the level of the trap's entry a jump out of the handler is no return"
    yield from runs(f"{SETS_HANDLER}; ecall; handler: j on; nop; on: {ENDS_HANDLER}; {LOADS_BY_NULL}", 4, 6, 7, 9)


# The handler of a load by a capability register that is null.
LOAD_IS_HANDLED = f"{HANDLED}{LOADS_BY_NULL}; j .+0; nop; {HANDLER}"
# sends the byte that came, and then asks the environment
SENDS_AND_CALLS = "lui a1, 0x10000; ld a0, 8(a1); sb a0, 0(a1); ecall"
# takes the byte that came; then one that waits asks for the external interrupt, and it may be taken
ASKS_FOR_BYTES = ("lui a1, 0x10000; ld a2, 8(a1); addi a0, zero, 1; sd a0, 24(a1); lui a0, 0x1; addi a0, a0, -2048; csrrs zero, mie, a0; "
                  "csrrsi zero, mstatus, 8; nop; j .+0")


def doubled():
    """Runs that end before a trap while another is open, by the model; the lines of a trace say how far they came."""
    def runs(words, most, *counts):
        done = before_second(machine_of(words), most)
        for steps in sorted({*counts, done, done + 1, most}):
            yield case(f"run trap.img {steps} --why=double --quiet --trace t", [file_of("trap.img", words)], 1, "open trap.img, make t", b"",
                       "cherisim: not halted\n", traced(words, before_second(machine_of(words), steps)).encode())

    yield "# before a trap in a handler: after twenty steps of it, at its first, at an entry that can't be fetched, and of an interrupt"
    yield from runs(HANDLER_TRAPS, 60, 7)
    for words in (HANDLER_TRAPS_AT_ONCE, "ecall", LOADS_BY_NULL, IS_INTERRUPTED):
        yield from runs(words, 12)
    yield "# a trap after the return from the one before is no such; one in a handler that returns is, whether or not it is handled"
    for words in (IS_HANDLED, IS_HANDLED_ONCE, NESTED_RETURNS, NESTED_TRAPS_AFTER, f"{HANDLED}ecall; ecall; nop; {HANDLER}; ecall"):
        yield from runs(words, 32)
    yield "# a handler that leaves by a jump to the level where the trap was taken has handled it; elsewhere, and at its own level, not"
    for words in (left_by(JUMPS_BACK), left_by(JUMPS_BACK, WITHOUT), left_by(JUMPS_BACK, goes_on=""), left_by(JUMPS_ELSEWHERE)):
        yield from runs(words, 30)
    yield from runs(f"{SETS_HANDLER}; ecall; handler: j on; nop; on: {ENDS_HANDLER}; {LOADS_BY_NULL}", 12)


def stopped():
    """Runs that end before a trap, and why the next step traps, by the order of conditions."""
    ecall = "effect: trap environment call, mcause 000000000000000b, mtval 0000000000000000"
    null = access("load of 1 byte", held_number("ca1", 0), "ca1", "load", 0, 1, 0, SPACE, False, rights=(False, True, True))
    violation = (trap_effect(28, "CHERI exception, tag violation at ca1", 32 * 11 + 2),)

    def told(steps, pcc, *parts):
        return f"cherisim: not halted\ncherisim: steps {steps}, pcc {pcc:016x}\n{reply(*parts)}\n"

    def stops(words, steps, program, *expected, sent=b"", parts=(), made=b"", opened=""):
        yield case(f"run trap.img {steps}{words}", [file_of("trap.img", program), *parts], 1, f"open trap.img{opened}", sent,
                   told(*expected), made)

    yield "# a run that is to stop before a trap, and meets none, is as any other"
    for why in ("--why", "--why=all", "--why=double"):
        yield case(f"run first.img 9 {why}", [FILE], 0, "open first.img", b"A")
        yield case(f"run first.img 4 {why}", [FILE], 1, "open first.img", b"A", stood(4, RAM + 16))
    yield case("run echo.img 22 --input keys --gap 7 --why=all", [ECHO, 'keys "ABC"'], 0, "open echo.img, open keys", b"ABC")
    yield "# before its first step: the trap's entry can't be fetched"
    yield from stops(" --why", 9, "ecall", 0, RAM, begun(RAM, "00000073 ecall"), ecall)
    null = list(null)
    for why in (" --why", " --why=all"):
        yield from stops(why, 9, LOADS_BY_NULL, 0, RAM, begun(RAM, ROW_BY_NULL), null, *violation)
    yield "# with --why=all an ECALL is no stop, but the fetch of its entry is, if the run comes so far"
    nowhere = trap_effect(1, "instruction access fault", 0)
    yield from stops(" --why=all", 2, "ecall", 1, 0, fetch(0, False), nowhere)
    call = f"environment call, mtval {0:016x}"
    yield case("run trap.img 1 --why=all", [file_of("trap.img", "ecall")], 1, "open trap.img", b"",
               f"cherisim: not halted\ncherisim: steps 1, pcc {0:016x}; first trap: {call}, mepc {RAM:016x}, step 1\n")
    yield "# a trap that is handled, and one after it that isn't"
    yield from stops(" --why", 13, IS_HANDLED_ONCE, 9, RAM + 20, begun(RAM + 20, "00000073 ecall"), ecall)
    yield case("run trap.img 9 --why", [file_of("trap.img", IS_HANDLED_ONCE)], 1, "open trap.img", b"",
               f"cherisim: not halted\ncherisim: steps 9, pcc {RAM + 20:016x}; last trap: {call}, mepc {RAM + 16:016x}\n")
    yield "# a violation that is handled is a stop only with --why=all"
    yield from stops(" --why=all", 9, LOAD_IS_HANDLED, 3, RAM + 12, begun(RAM + 12, ROW_BY_NULL), null, *violation)
    yield case("run trap.img 9 --why", [file_of("trap.img", LOAD_IS_HANDLED)], 1, "open trap.img", b"",
               f"cherisim: not halted\ncherisim: steps 9, pcc {RAM + 16:016x}; last trap: CHERI exception, tag violation at ca1,"
               f" mepc {RAM + 16:016x}\n")
    yield "# with --why=double a trap that is handled is no stop, and one while it is handled is"
    second = f"{SETS_HANDLER}; ecall; handler: ecall"
    yield from stops(" --why=double", 9, second, 4, RAM + 16, begun(RAM + 16, "00000073 ecall"), ecall)
    yield from doubled()
    yield "# what was sent before it, and the byte that comes just before it: here it makes the interrupt that is taken"
    yield from stops(" --input keys --gap 3 --why", 9, SENDS_AND_CALLS, 3, RAM + 12, begun(RAM + 12, "00000073 ecall"), ecall, sent=b"A",
                     parts=['keys "AB"'], opened=", open keys")
    taken = "effect: take external interrupt, mcause 800000000000000b, mtval 0000000000000000"
    yield from stops(" --input keys --gap 8 --why", 9, ASKS_FOR_BYTES, 8, RAM + 32, f"{RAM + 32:016x} 00000013 addi zero, zero, 0", taken,
                     parts=['keys "AB"'], opened=", open keys")
    yield "# --quiet leaves the texts out, and a trace has the lines of the steps before it"
    ecalls = file_of("trap.img", "ecall")
    yield case("run trap.img 9 --why --quiet", [ecalls], 1, "open trap.img", b"", NOT_HALTED)
    yield case("run trap.img 9 --why --quiet --trace t", [ecalls], 1, "open trap.img, make t", b"", NOT_HALTED)
    yield from stops(" --why=all --trace t", 9, "ecall", 1, 0, fetch(0, False), nowhere, made=traced("ecall", 1).encode(),
                     opened=", make t")


def not_begun():
    yield "# a command line that is refused, or asks for help: status 2, a text of clap's, and no file is opened"
    for words in ("frob", "asm a.s", "asm a.s a.img b.img", "run first.img", "run first.img 0", "run none.img 100000001",
                  "run first.img 5 --gap 0", "run first.img 5 --gap 1000001", "run first.img 5 --tick 1000001", "run first.img x", "dis",
                  "debug", "debug first.img 5", "image first.img",
                  "image first.img a.img --at x", "image first.img a.img --entry 18446744073709551616",
                  "image first.img a.img --pages -1", "image first.img a.img --mode 0x", "bounds", "bounds 0y", "bounds 0 0y", "word 0",
                  "bounds 0x10000000000000000 0", "bounds 0 0 --address 1z", "asm first.img", "run first.img 5 --quiet=1",
                  "run first.img 5 --times 0", "run first.img 5 --times 1000001", "run first.img 100000001 --times 1"):
        yield refused(words, [FILE, TEXT])
    yield "# a file that is written over another of the command is refused before anything is opened"
    for words in ("asm a.s a.s", "asm a.s a.img --symbols a.s", "asm a.s a.img --symbols a.img", "image first.img first.img"):
        yield refused(words, [FILE, TEXT])
    yield "# by whichever name it is called, and be it there or not"
    for words in ("asm a.s ./a.s", "asm a.s a.img --symbols ././a.s", "asm a.s a.img --symbols ./a.img", "image first.img ./first.img",
                  "run first.img 5 --trace ./first.img", "run first.img 5 --input a.s --trace ./a.s"):
        yield refused(words, [FILE, TEXT])
    yield "# help is sent"
    for words in ("--help", "help", "run --help", "help image"):
        yield case(words, [FILE, TEXT], 2, sent=TEXT_OF_CLAP)
    yield case("--help", ["output 0"], 3, told=UNWRITTEN)


# asks for the timer's interrupt, which is taken in place of the sixth step
IS_INTERRUPTED = "lui a1, 0x2004; sd zero, 0(a1); addi a0, zero, 128; csrrs zero, mie, a0; csrrsi zero, mstatus, 8"


def traces():
    yield "# a trace: a line for each step that is done, in a file that is made after what is read"
    opened = "open first.img, make t"
    for steps in (5, 9):
        yield case(f"run first.img {steps} --trace t", [FILE], 0, opened, b"A", made=TRACE.encode())
    three = "".join(TRACE.splitlines(True)[:3])
    yield case("run first.img 3 --trace t --input keys --quiet", [FILE, 'keys ""'], 1, "open first.img, open keys, make t", b"A",
               NOT_HALTED, three.encode())
    yield "# a trap, a jump to where nothing can be fetched, and an interrupt"
    for name, text, steps in (("trap.img", LOADS_BY_NULL, 2), ("time.img", IS_INTERRUPTED, 6)):
        yield case(f"run {name} {steps} --quiet --trace t", [file_of(name, text)], 1, f"open {name}, make t", b"", NOT_HALTED,
                   traced(text, steps).encode())
    yield "# of its lines those from a step on, the last so many, and the last so many of those from a step on"
    lines = TRACE.splitlines(True)
    for options, kept in (("--trace-from 1", lines), ("--trace-from 3", lines[2:]), ("--trace-from 5", lines[4:]),
                          ("--trace-from 6", []), ("--trace-from 100000000000000", []), ("--trace-last 1", lines[4:]),
                          ("--trace-last 4", lines[1:]), ("--trace-last 5", lines), ("--trace-last 1000000", lines),
                          ("--trace-from 2 --trace-last 3", lines[2:]), ("--trace-from 4 --trace-last 3", lines[3:]),
                          ("--trace-from 6 --trace-last 3", [])):
        yield case(f"run first.img 9 --trace t {options}", [FILE], 0, opened, b"A", made="".join(kept).encode())
    yield case("run first.img 4 --trace t --trace-last 2 --quiet", [FILE], 1, opened, b"A", NOT_HALTED, "".join(lines[2:4]).encode())
    yield "# of a run that stops before a trap, the last before it"
    call = traced(SENDS_AND_CALLS, 3, b"A")
    for options, kept in (("", 3), (" --trace-last 2", 2), (" --trace-from 3", 1), (" --trace-from 4", 0)):
        yield case(f"run call.img 9 --input keys --why --quiet --trace t{options}", [file_of("call.img", SENDS_AND_CALLS), 'keys "A"'], 1,
                   "open call.img, open keys, make t", b"A", NOT_HALTED, "".join(call.splitlines(True)[3 - kept:]).encode())
    yield "# a trace that can't be made, or written to its end: it is written in blocks, so the run is done by then"
    yield fails("run first.img 5 --trace t", [FILE, "full"], opened, missing("t"))
    yield fails("run first.img 5 --trace d", [FILE, "directory d"], "open first.img, make d", is_directory("d"))
    for call in (0, 1, len(three) - 1, len(three), len(TRACE) - 1):
        yield fails("run first.img 5 --trace t", [FILE, f"made {call}"], opened, cut_short("t"), b"A", made=TRACE[:call].encode())
    yield case("run first.img 5 --trace t", [FILE, f"made {len(TRACE)}"], 0, opened, b"A", made=TRACE.encode())
    yield "# where a byte can't be written, the line of the step that sent it is"
    yield fails("run first.img 5 --trace t", [FILE, "output 0"], opened, UNWRITTEN, made=three.encode())
    yield "# nothing is made where the image or the input can't be read"
    yield fails("run none 5 --trace t", [], "open none", missing("none"))
    yield fails("run first.img 5 --trace t --input none", [FILE], "open first.img, open none", missing("none"))
    for words in ("run first.img 5 --trace first.img", "run first.img 5 --input keys --trace keys", "run first.img 5 --trace"):
        yield refused(words, [FILE, 'keys "A"'])


# counts down from 3, by a call each time, and halts: of 16 steps 8 are from `loop` on, 6 from `less` on, and 2 before
COUNTS_DOWN = """addi a0, zero, 3
addi a1, zero, 0
loop: jal ra, less
bne a0, zero, loop
lui a2, 0x100
sd zero, 0(a2)
less: addi a0, a0, -1
jalr zero, 0(ra)"""


def profiles():
    """Runs of which a profile is written."""
    down = file_of("down.img", COUNTS_DOWN)
    start, loop, less = (RAM, "start"), (RAM + 8, "loop"), (RAM + 24, "less")

    def counts(options, steps, labels, given=down, text=COUNTS_DOWN, status=1, told="cherisim: not halted\n", sent=b"", done=None, keys=b"",
               parts=(), opened=", make p"):
        name = given.split()[0]
        symbols, read = ([table("s", labels)], ", open s") if labels else ([], "")
        yield case(f"run {name} {steps} --quiet --profile p {'--symbols s ' if labels else ''}{options}", [given, *symbols, *parts], status,
                   f"open {name}{read}{opened}", sent, told, profiled(text, steps if done is None else done, labels, keys).encode())

    yield "# a profile: how many steps were fetched in each 4 KiB, in a file that is made after what is read"
    yield case("run first.img 5 --profile p", [FILE], 0, "open first.img, make p", b"A", made=b"5 100.0 % 0000000080000000\n5 steps\n")
    yield from counts("", 9, [], FILE, SENDS_A, 0, "", b"A")
    yield from counts("", 2, [], FILE, SENDS_A)
    yield "# at each label, most first, and of as many the lower address first; percents are rounded down"
    for steps in (1, 2, 3, 4, 5, 7, 9, 13, 14):
        yield from counts("", steps, [start, loop, less])
    yield from counts("", 16, [start, loop, less], status=0, told="")
    yield from counts("", 99, [less, start, loop], status=0, told="")
    yield "# of several labels at an address the first; before the first label its 4 KiB"
    yield from counts("", 14, [(RAM + 24, "less"), (RAM + 24, "other"), (RAM + 8, "again"), loop])
    yield from counts("", 14, [less])
    yield "# fewer than 4096 bytes below, or not near"
    for place in (RAM - 4095, RAM - 4096, RAM - 4095 + 24, RAM + 28):
        yield from counts("", 14, [(place, "near")])
    yield "# a jump to where nothing can be fetched: the traps are counted there"
    yield from counts("", 7, [start], file_of("trap.img", LOADS_BY_NULL), LOADS_BY_NULL)
    yield from counts("", 7, [start, (0, "zero")], file_of("trap.img", LOADS_BY_NULL), LOADS_BY_NULL)
    yield "# of a run that stops before a trap, the steps before it; of one that does none, none"
    yield from counts("--input keys --why ", 9, [start, loop], file_of("call.img", SENDS_AND_CALLS), SENDS_AND_CALLS, sent=b"A", done=3,
                      keys=b"A", parts=['keys "A"'], opened=", open keys, make p")
    yield from counts("--why=all ", 9, [], file_of("trap.img", LOADS_BY_NULL), LOADS_BY_NULL, done=0)
    yield "# with a trace: the profile is made before, which is left empty where there is no room for a second file"
    yield fails("run first.img 9 --profile p --trace t", [FILE], "open first.img, make p, make t", missing("t"))
    yield "# of a text its own labels"
    text = 'down.s "' + COUNTS_DOWN.replace("\n", "\\n") + '"'
    yield case("go down.s --profile p", [text], 0, "open down.s, make p", made=profiled(COUNTS_DOWN, 99, [loop, less]).encode())
    yield case("go down.s --profile p --steps 3 --times 4 --quiet", [text], 1, "open down.s, make p", b"", NOT_HALTED,
               profiled(COUNTS_DOWN, 12, [loop, less]).encode())
    yield "# a profile that can't be made, before anything is done, or written to its end"
    yield fails("run first.img 5 --profile p", [FILE, "full"], "open first.img, make p", missing("p"))
    yield fails("run first.img 5 --profile d --trace t", [FILE, "directory d"], "open first.img, make d", is_directory("d"))
    whole = profiled(SENDS_A, 5).encode()
    for call in (0, 1, len(whole) - 1):
        yield fails("run first.img 5 --profile p", [FILE, f"made {call}"], "open first.img, make p", cut_short("p"), b"A",
                    made=whole[:call])
    yield case("run first.img 5 --profile p", [FILE, f"made {len(whole)}"], 0, "open first.img, make p", b"A", made=whole)
    yield "# where a byte can't be written, it stays empty"
    yield fails("run first.img 5 --profile p", [FILE, "output 0"], "open first.img, make p", UNWRITTEN)
    yield "# it is no file that is read, and not the trace, by whichever name"
    for words in ("run first.img 5 --profile first.img", "run first.img 5 --profile ./first.img", "run first.img 5 --profile t --trace t",
                  "run first.img 5 --profile t --trace ./t", "run first.img 5 --input keys --profile ./keys",
                  "run first.img 5 --symbols keys --profile ./keys", "run first.img 5 --lines keys --profile ./keys",
                  "run first.img 5 --policy keys --profile ./keys", "run first.img 5 --trace ./keys --input keys --profile p",
                  "go first.img --profile ./first.img", "audit first.img 5 --profile p"):
        yield refused(words, [FILE, 'keys "A"'])


def labelled_runs():
    """Runs whose traces and ends show labels after addresses."""
    labels = [(RAM, "start"), (RAM, "begin"), (RAM + 12, "halt"), (0x10000000, "console")]
    started = "cherisim: not halted\ncherisim: steps"

    def runs(words, labels, *expected, given=FILE, made=b"", opened="", parts=()):
        name = given.split()[0]
        yield case(f"run {name} {words} --symbols s", [given, table("s", labels), *parts], 1, f"open {name}, open s{opened}", *expected,
                   made)

    yield "# with a table of labels one stands after each address of a trace and of the end; of several at one address the first"
    four = with_names(traced(SENDS_A, 4), labels)
    yield from runs("4 --trace t", labels, b"A", stood(4, RAM + 16, " <halt+4>"), made=four.encode(), opened=", make t")
    yield from runs("4 --trace t --trace-last 1", labels, b"A", stood(4, RAM + 16, " <halt+4>"), made=four.splitlines(True)[3].encode(),
                    opened=", make t")
    yield from runs("3", labels, b"A", stood(3, RAM + 12, " <halt>"))
    yield from runs("3 --quiet", labels, b"A", NOT_HALTED)
    yield case("run first.img 5 --symbols s", [FILE, table("s", labels)], 0, "open first.img, open s", b"A")
    yield "# where a jump leads"
    # over three words, and back
    jumps = "j .+16; nop; nop; nop; j .-8"
    yield from runs("2 --trace t", labels, b"", stood(2, RAM + 8, " <start+8>"), given=file_of("jumps.img", jumps),
                    made=with_names(traced(jumps, 2), labels).encode(), opened=", make t")
    yield "# 4095 bytes after a label it stands, 4096 bytes after it and before the first it doesn't"
    for steps, place, shown in ((0, RAM - 4095, [" <low+4095>", ""]), (0, RAM - 4096, ["", ""]),
                                (1, RAM - 4091, [" <low+4091>", " <low+4095>"]), (1, RAM + 4, ["", " <low>"]), (1, RAM + 5, ["", ""])):
        made = with_names(traced(SENDS_A, 2), [(place, "low")])
        assert made.count("low") == sum(map(bool, shown))
        yield from runs("2 --trace t --quiet", [(place, "low")], b"", NOT_HALTED, made=made.encode(), opened=", make t")
        yield from runs(f"{steps + 1}", [(place, "low")], b"", f"{started} {steps + 1}, pcc {RAM + 4 + 4 * steps:016x}"
                        + (shown[1] if steps == 0 else with_names(f"{RAM + 8:016x}", [(place, "low")])[16:]) + "\n")
    yield "# an empty table changes nothing"
    yield from runs("4 --trace t", [], b"A", stood(4, RAM + 16), made="".join(TRACE.splitlines(True)[:4]).encode(), opened=", make t")
    yield "# the first trap that nothing handled and its condition, and the last that was handled; no label stands after mtval"
    zero = [(RAM + 4, "load"), (RAM, "start"), (0, "zero")]
    yield from runs("1", zero, b"", f"{started} 1, pcc 0000000000000000 <zero>; first trap: load access fault, mtval 0000000000000000,"
                    " mepc 0000000080000000 <start>, step 1\n  no RAM or a device at 0000000000000000 <zero>\n",
                    given=file_of("nothing.img", LOADS_NOTHING))
    yield from runs("5", zero, b"", f"{started} 5, pcc 0000000000000000 <zero>; first trap: CHERI exception, length violation at ca0,"
                    " mepc 000000008000000c <load+8>, step 4\n  no length of ca0: 0000000000000008 <zero+8> + 8 in 0000000000000000 <zero>"
                    " to 00000000000000008\n  later traps at an entry that can't be fetched: 1\n",
                    given=file_of("past.img", LOADS_PAST_THE_END))
    yield from runs("5", zero, b"", f"{started} 5, pcc 000000008000001c <load+24>; last trap: environment call, mtval 0000000000000000,"
                    " mepc 000000008000000c <load+8>\n", given=file_of("handled.img", IS_HANDLED))
    yield "# why the next step traps"
    null = file_of("null.img", f"nop; {LOADS_BY_NULL}")
    parts = [begun(RAM + 4, ROW_BY_NULL), *access("load of 1 byte", held_number("ca1", 0), "ca1", "load", 0, 1, 0, SPACE, False,
                                          rights=(False, True, True)),
             trap_effect(28, "CHERI exception, tag violation at ca1", 32 * 11 + 2)]
    for why in ("--why", "--why=all"):
        yield from runs(f"9 {why}", labels, b"", with_names(f"{started} 1, pcc {RAM + 4:016x}\n{reply(*parts)}\n", labels), given=null)
    yield from runs("9 --why --trace t", labels, b"", stood(1, RAM + 4, " <start+4>")
                    + reply(with_names(begun(RAM + 4, "00000073 ecall"), labels),
                            "effect: trap environment call, mcause 000000000000000b, mtval 0000000000000000") + "\n",
                            given=file_of("call.img", "nop; ecall"), made=with_names(traced("nop; ecall", 1), labels).encode(),
                            opened=", make t")
    yield "# an audit's trace has them too"
    yield case("audit first.img 4 --symbols s --trace t --quiet", [FILE, table("s", labels)], 0, "open first.img, open s, make t",
               made=four.encode())


def runs_without_table():
    """Runs whose table of labels is not read: nothing is done."""
    yield "# the table is read after the image and before the input, and refused as that of a listing: nothing is run or made"
    none = missing("none")
    for command in ("run", "audit"):
        yield fails(f"{command} first.img 5 --symbols none --trace t", [FILE], "open first.img, open none", none)
        yield fails(f"{command} first.img 5 --symbols s --trace t", [FILE, 's "start"'], "open first.img, open s", no_label("s", 1))
        yield fails(f"{command} bad.img 5 --symbols none", [BAD], "open bad.img", NO_IMAGE)
        yield fails(f"{command} first.img 5 --input none --symbols s", [FILE, 's ""'], "open first.img, open s, open none", none)
        yield fails(f"{command} first.img 5 --symbols d", [FILE, "directory d"], "open first.img, open d", is_directory("d"))
        for words in ("--symbols s --trace s", "--symbols s --trace ./s", "--symbols", "--symbols s --symbols s"):
            yield refused(f"{command} first.img 5 {words}", [FILE, 's ""'])
