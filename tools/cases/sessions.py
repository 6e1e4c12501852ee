"""Conversations of the debugger, with what is answered by the rules of its commands."""

from cases import explanations, reaching, why_objects
from cases.programs import machines
from cases.conversations import STATE, conversation, modelled, replies, said
from cases.quoting import quoted
from model.sessions import Session

# What `help` answers.
COMMANDS = """\
step N
tick N
byte B
until ADDR [N]
trap [N]
go [N]
changed R|ADDR N
back N|to stop
ago
origin R|ADDR
lost R|ADDR
calls
stop at ADDR|changed R|changed ADDR [LEN]|trap|off
stops
reg R
regs
scr
csr
caps
mem ADDR [LEN]
dis [ADDR [N]]
why [json]
reach [members|dot|json|doors]
may store|load|execute|learn ADDR LEN [through doors]
may keep [ADDR LEN] [through doors]
may send|halt|system|timer [through doors]
may hold TYPE [through doors]
help [COMMAND|B1|B2|B3|B4]
quit
"""

# The example of each that `help` shows beside its operands, where that isn't its name.
EXAMPLES = {
    "step": "step 100", "tick": "tick 1", "byte": "byte 0x41", "until": "until 0x80000010", "go": "go 5000000",
    "changed": "changed ca0 1000", "back": "back to stop", "origin": "origin ca0", "lost": "lost ca0", "stop": "stop at 0x80000010",
    "reg": "reg ca0", "mem": "mem 0x80000000 64", "dis": "dis 0x80000000 4", "why": "why json", "reach": "reach doors",
    "may": "may store 0x80000000 8", "help": "help stop",
}

# What the codes of refusals mean.
CODES = {
    "B1": "B1 no such command, or no word on the line",
    "B2": "B2 operands of another count, form or range; no such label, stop or past; too much to search; a line too long or not ASCII",
    "B3": "B3 some byte to be shown lies outside RAM",
    "B4": "B4 no memory for the reply",
}

# Sends `A` and halts with 0.
FIRST_IMAGE = "; ".join(machines.FIRST_IMAGE)

# Receives a byte.
RECEIVES = "lui a1, 0x10000; ld a0, 8(a1)"

# Lines that are refused, by their faults, in order.
REFUSED = [
    ("B2", [
        "step -1", "step -0", "step 00", "step +1", "step 0X1", "step 0x", "step 1,", "step 1.0", "step 1 # one", "step 0xf4241",
        "step 18446744073709551616", "step 99999999999999999999999999", "tick", "tick 0", "tick -1", "tick 1 1", "tick x",
        "tick 0xf4241", "byte", "byte -1", "byte 0x100", "byte 1 2", "byte A", "byte 'A'", "until", "until x",
        "until 0x80000004 0", "until 0x80000004 1 1", "until -1 1", "until 18446744073709551616 1", "until 0x80000004 0xf4241",
        "until x 1", "until . 1", "until .+4", "until 4+4", "until x+4", "trap 0", "trap -1", "trap 1 1", "trap x", "trap 0xf4241",
        "trap 0x80000004 1", "reg",
        "reg a0 a1", "reg a0,", "reg 10", "reg X1", "reg A0", "reg x01", "reg c32", "reg x-1", "reg s12", "reg t7",
        "reg a8", "reg czero", "reg cx5", "reg cc5", "reg null", "reg PCC", "reg pcc ddc", "reg cpcc", "reg mscratch", "reg mstatus",
        "reg c", "reg x", "regs a0",
        "scr pcc", "csr mstatus", "caps 1", "why 1", "why json 1", "why JSON", "why members", "why json json",
        "help 1", "help steps", "help step 1", "help Step", "help #", "help help stop",
        "help B9", "help b1", "help B", "help B1 B2", "help B2 1",
        "help fault", "go 0", "go -1", "go x", "go 1 1", "go 1000000000001", "go 0xffffffffffffffffff", "stop", "stop at",
        "stop at nolabel", "stop at 1 2", "stop at -1",
        "stop at 0x10000000000000000", "stop trap 1", "stop off 1", "stop 0x80000004", "stop on", "stop At 4", "stop traps", "stops 1",
        "stops off", "quit 0", "mem", "mem x", "mem 0x80000000 0", "mem 0x80000000 0x1001", "mem 0x80000000 1 1",
        "mem 0x80000000 -1", "mem -1 1", "mem 0x10000000000000000 1", "mem 18446744073709551616 1", "mem 0 0", "mem 0 4097",
        "mem .text 1", "dis x", "dis 0x80000002",
        "dis 0x80000000 0", "dis 0x80000000 0x401", "dis 0x80000000 1 1", "dis 0x80000001 1", "dis 0x80000003 1", "dis 2 1", "dis 1 1025",
        "dis 0xfffffffffffffffd 1", "dis 0x10000000000000000 1", "dis -4 1", "reg ca0\x0c", *reaching.REFUSED_OPERANDS,
    ]),
    ("B1", [
        "", " ", "cap", "caps1", "CAPS", "STEP 1", "Quit", "quit#", "step#", "step,1", "steps 1", "ste 1", "reg\x0bca0", "regs\0",
        "step\x7f1",
        "\t \r", *reaching.REFUSED_NAMES,
    ]),
    ("B2", [
        "\xe9", "regs \xe9",
    ]),
    ("B1", [
        "frob 0xffffffffffffffffffff", "load 0x80000000", "helps", "Help", "traps 1", "TRAP 1", "goes", "GO", "stopped", "Stops", "at 4",
        "off",
    ]),
]


# ---- conversations

# RAM's first and last bytes and words, and those beside them.
BYTES = ("0x80000fff 1", "0x80000ff0 16", "0x80000ff0 15", "0x80000fef 17", "0x80000000 0x1", "2147483648 0x4")
WORDS = ("0x80000ffc 1", "2147483664 2", "0x80000000 1")
OUTSIDE = ("0x7fffffff 1", "0x7fffffff 2", "0x80000fff 2", "0x80000ff0 17", "0x80001000 1", "0 1", "-0 1", "0xffffffffffffffff 1",
           "0xfffffffffffff000 4096", "0xffffffffffffffff 4096", "0x10000000 1", "0x100000 8")
WORDS_OUTSIDE = ("0x7ffffffc 1", "0x7ffffffc 2", "0x80000ffc 2", "0x80001000 1", "0 1", "0xfffffffffffffffc 1", "0x10000008 1")

CONVERSATIONS = [
    modelled("The least and the greatest operands of `step`, `tick`, `byte` and `until`, up to the halt and after it. What is "
             "typed after `quit` is not answered", FIRST_IMAGE,
             "tick 1; tick 1000000; tick 0xF4240; byte 0; byte -0; byte 255; byte 0xFF; byte 0x00ff; until 0x80000000 1000000; "
             "until 2147483652 0x1; until 0xffffffffffffffff 1; csr; until 18446744073709551615 1; until 0x80000002 1000000; step 1; "
             "tick 5; byte 0x41; until 0x80000014 1; csr; scr; \rquit\t", left=("step 1", "frob")),
    modelled("Steps are counted after the halt too, and change nothing there", FIRST_IMAGE, "step 1000000; csr; step 5; csr"),
    modelled("Steps end before the row at the address, and else with the halt", FIRST_IMAGE, "until 0x8000000c 1000000; until 0 1000000"),
    modelled("The last step that may be given reaches the address and halts", FIRST_IMAGE, "until 0x80000014 5"),
    modelled("Two bytes that are sent in one command",
             "lui a1, 0x10000; addi a0, zero, 65; sb a0, 0(a1); addi a0, a0, 1; sb a0, 0(a1)", "step 5"),
    modelled("Sent bytes are shown by two digits each",
             "lui a1, 0x10000; sb zero, 0(a1); addi a0, zero, 10; sb a0, 0(a1); addi a0, zero, -1; sb a0, 0(a1)", "step 6"),
    modelled("Bytes are received in the order in which they came; the third still waits, as the status register says",
             "lui a1, 0x10000; ld a0, 8(a1); sb a0, 0(a1); ld a0, 8(a1); sb a0, 0(a1); ld a0, 16(a1)",
             "byte 0x41; byte 66; byte 0; step 4; reg ca0; step 2; reg ca0"),
    modelled("The console's queue takes 64 bytes; the 65th has the same reply and is lost: the status register shows a byte that "
             "waits and the overrun", "lui a1, 0x10000; ld a0, 16(a1)", [*65 * ["byte 0x41"], "step 2", "reg a0"]),
    modelled("The timer counts ticks, not steps; its interrupt is pending from the tick at which it reaches the number compared with",
             "lui a1, 0x2004; addi a0, zero, 3; sd a0, 0(a1); lui a1, 0x200c; ld a0, -8(a1)",
             "step 3; tick 2; csr; tick 1; csr; step 2; reg a0"),
    modelled("Steps end before the one that would trap, which is not given; a step that isn't plain and doesn't trap is",
             "cspecialrw ca0, pcc, cnull; cincoffsetimm ca0, ca0, 16; csealentry ca0, ca0; jalr.cap cra, ca0; ecall",
             "trap 3; trap 1000000; trap 1000000; csr; step 1; csr; trap 1"),
    modelled("Without a trap the steps go up to the halt; a halted machine gives none", FIRST_IMAGE, "trap 0x1; trap 1000000; trap 1; csr"),
    modelled("An interrupt that the next step would take is a trap too",
             "lui a1, 0x2004; addi a0, zero, 128; csrrs zero, mie, a0; csrrsi zero, mstatus, 8; sd zero, 0(a1); addi a2, zero, 1",
             "trap 10; step 1; csr"),
    ("The commands are listed, and nothing is changed", FIRST_IMAGE, "> help\n" + COMMANDS + "> \\t\\thelp\n" + COMMANDS
     + said(Session(FIRST_IMAGE), "csr")),
    modelled("A halt with the greatest number", "lui a1, 0x100; addi a0, zero, -1; sd a0, 0(a1)", "step 3; until 0x8000000c 1"),
    modelled("RAM of zeros: an illegal instruction, then fetches at 0, where the trap's target lies", "",
             "step 1; csr; until 0 5; step 1; csr; scr"),
    modelled("Every kind of name that a register has, after three steps", FIRST_IMAGE, [
        "step 3", *(f"reg {name}" for name in "a0 ca0 x10 c10 zero x0 c0 cnull fp cfp s0 x8 x31 c31 ct6 ra c11".split())]),
    modelled("RAM's first and last bytes and words, and those beside them", FIRST_IMAGE, [
        f"{name} {operands}" for name, each in (("mem", BYTES), ("dis", WORDS), ("mem", OUTSIDE), ("dis", WORDS_OUTSIDE))
        for operands in each]),
    modelled("A machine of 4096 pages, and the longest `mem`", ".pages 4096; " + FIRST_IMAGE,
             "mem 0x80ffffff 1; mem 0x80ffffff 2; mem 0x81000000 1; mem 0x80fff001 4096; dis 0x80fffffc 1; dis 0x80fff004 1024; "
             "dis 0x81000000 1; mem 0x80fff000 4096"),
    modelled("An image in capability mode: rows are shown by their names there; a jump leaves a sentry as link, and AUIPCC a capability",
             ".mode 1; cjal cra, .+8; csb a0, 0(ca1); auipcc ca0, 0x2; cincoffset ca0, ca0, a1",
             "dis 0x80000000 4; scr; step 1; reg ra; step 1; reg a0; dis 0x80000004 1"),
    modelled("Rows are shown by the mode of PCC now and not by the image's: a jump takes the flag of its target",
             "cspecialrw ca0, pcc, cnull; addi a1, zero, 1; csetflags ca0, ca0, a1; cincoffsetimm ca0, ca0, 20; jalr.cap cra, ca0; "
             "sb a0, 0(a1)", "dis 0x80000014 1; step 5; dis 0x80000014 1; scr; reg ca0; reg cra"),
]

# Echoes the bytes that come.
ECHO = "lui a1, 0x10000; loop: ld a0, 16(a1); beq a0, zero, loop; ld a0, 8(a1); sb a0, 0(a1); j loop"
# Echoes three, and halts.
ECHO_THREE = ("lui a1, 0x10000; addi a2, zero, 3; loop: ld a0, 16(a1); beq a0, zero, loop; ld a0, 8(a1); sb a0, 0(a1); addi a2, a2, -1; "
              "bne a2, zero, loop; lui a1, 0x100; sd zero, 0(a1)")
# Reads the timer.
CLOCK = "lui a1, 0x200c; loop: ld a0, -8(a1); j loop"
# Takes a byte, and then waits for the interrupt of the next.
AWAITS = ("lui a1, 0x10000; ld a0, 8(a1); addi a0, zero, 1; sd a0, 24(a1); lui a2, 0x1; addi a2, a2, -2048; csrrs zero, mie, a2; "
          "csrrsi zero, mstatus, 8; loop: addi a3, a3, 1; j loop")
# Lets the timer interrupt at its third tick, and waits.
AWAITS_TICK = ("lui a1, 0x2004; addi a0, zero, 3; sd a0, 0(a1); addi a2, zero, 128; csrrs zero, mie, a2; csrrsi zero, mstatus, 8; "
               "loop: addi a3, a3, 1; j loop")
# Sends four letters, and ends in a call that traps.
SENDS = ("lui a1, 0x10000; addi a0, zero, 64; addi a2, zero, 4; loop: addi a0, a0, 1; sb a0, 0(a1); addi a2, a2, -1; bne a2, zero, loop; "
         "ecall")

REPLAYED = [
    modelled("Steps on a schedule come with the byte before them and the tick after them, numbered over the session", ECHO, [
        "step 1", "step 1", "step 1", "step 1", "step 2", "step 20", "until 0x80000010 10", "until 0x80000010 10", "step 1",
        "until 0x80000010 10", "step 60", "reg a0"], (7, 2, b"ABC")),
    modelled("The same steps at once", ECHO, ["step 100", "reg a0"], (7, 2, b"ABC")),
    modelled("A byte before each step and a tick after it", ECHO, ["step 3", "step 5", "until 0x80000004 30"], (1, 1, b"0123456789")),
    modelled("Of an echo that halts nothing comes after the step that halts, and then nothing is given", ECHO_THREE, [
        "step 10", "step 100", "step 1", "step 1000000", "until 0 1", "until 0x80000028 1", "trap 1", "go", "tick 2", "byte 0x41",
        "step 1"],
        (1, 5, b"ABC")),
    modelled("The halt comes before the tick of its step", FIRST_IMAGE, ["step 3", "step 5", "step 1"], (1000, 1, b"")),
    modelled("Ticks and bytes beside the schedule change neither its place nor the numbers of its steps", CLOCK, [
        "step 3", "tick 5", "step 1", "reg a0", "byte 0x41", "step 2", "reg a0", "tick 1", "step 4", "reg a0"], (3, 4, b"ABCDE")),
    modelled("Without ticks", CLOCK, ["step 1000", "reg a0"], (1000, 0, b"A")),
    modelled("Steps that stop at an address have the byte of the step before which they stop", CLOCK, [
        "step 3", "until 0x80000004 10", "until 0x80000004 10", "step 1", "until 0x80000004 10", "until 0x80000004 10", "step 1"],
        (3, 4, b"ABCDE")),
    modelled("An interrupt that a byte asks for is not passed over: the byte comes, and its step doesn't", AWAITS, [
        "trap 1000", "trap 1000", "trap 1", "step 1", "step 1"], (20, 7, b"AB")),
    modelled("The same with the steps of `step`, which take it", AWAITS, ["step 20", "step 1"], (20, 7, b"AB")),
    modelled("The same with `go` and a stop", AWAITS, ["stop trap", "go", "go", "stops"], (20, 0, b"AB")),
    modelled("An interrupt of the timer that a tick asks for", AWAITS_TICK, ["trap 1000", "trap 1000", "step 1"], (1000, 5, b"")),
]

STOPPED = [
    modelled("Stops are set, shown and taken away; none stands twice", FIRST_IMAGE, [
        "stops", "stop at 0x80000008", "stop trap", "stop at 0x80000008", "stop trap", "stop at 2147483660", "stops", "stop at 0",
        "stop at 0xffffffffffffffff", "stop off", "stops", "stop off", "stop trap", "stops"]),
    modelled("Without a stop `go` goes to the halt, and a halted machine gives nothing", FIRST_IMAGE, [
        "go", "go", "stop at 0x80000014", "go", "stop trap", "go", "step 1"]),
    modelled("`go` gives one step wherever it is, and then steps up to a stop", SENDS, [
        "stop at 0x8000000c", "go", "go", "go", "stop at 0x80000014", "go", "go", "go", "stop off", "stop at 0x8000001c", "go", "step 1"]),
    modelled("Before a step that would trap, which `go` then takes", SENDS, [
        "stop trap", "go", "go", "go", "go"]),
    modelled("A stop at the address of each step", CLOCK, ["stop at 0x80000004", "stop at 0x80000008", "go", "go", "go", "go"]),
    modelled("A stop before a trap and one at an address, whichever comes first", SENDS, [
        "stop trap", "stop at 0x8000000c", "go", "go", "go", "go", "go", "go"]),
    modelled("A stop where the machine is: it goes round once", ECHO, [
        "byte 0x41", "stop at 0x80000004", "go", "go", "byte 0x42", "go", "go"]),
    modelled("On a schedule", ECHO_THREE, [
        "stop at 0x80000014", "stops", "go", "go", "go", "go", "go"], (11, 4, b"ABC")),
    modelled("On a schedule without a stop, up to the halt", ECHO_THREE, ["step 3", "go", "go", "step 1"], (11, 4, b"ABC")),
]

# The handler, 24 bytes on, goes on after the instruction that trapped; for the second call MTCC is 0, where nothing can be fetched.
HANDLED = ("auipc a0, 0x0; addi a0, a0, 24; csrrw zero, mtvec, a0; ecall; csrrw zero, mtvec, zero; ecall; csrrs a1, mepc, zero; "
           "addi a1, a1, 4; csrrw zero, mepc, a1; mret")
# Traps into RAM's last word, and into what lies after it.
HANDLED_AT_THE_END = "lui a0, 0x80001; slli a0, a0, 32; srli a0, a0, 32; addi a0, a0, {}; csrrw zero, mtvec, a0; ecall"
# Goes on for 1000006 steps, and halts.
LONG_LOOP = "lui a1, 0x7a; addi a1, a1, 289; loop: addi a1, a1, -1; bne a1, zero, loop; lui a2, 0x100; sd zero, 0(a2)"

UNBOUNDED = [
    modelled("`go` ends before a trap whose entry can't be fetched, and says so; then it gives one step wherever it is", SENDS, [
        "go", "go", "go", "reg pcc", "csr"]),
    modelled("One that is handled goes on", HANDLED, ["go", "csr", "go", "go 3"]),
    modelled("A stop that holds there says nothing more", SENDS, [
        "stop trap", "go", "go", "stop off", "stop at 0x8000001c", "go", "stop off", "stop at 0x80000018", "go"]),
    modelled("A stop is met there from another one on", SENDS, [
        "step 17", "stop at 0x8000001c", "go", "stop off", "stop trap", "go", "go"]),
    modelled("As many steps as are asked for; the last of them may lead there", SENDS, [
        "go 1", "go 17", "go 1", "go 1", "go 1000000000000", "go 0xe8d4a51000"]),
    modelled("An entry in RAM's last word is fetched", HANDLED_AT_THE_END.format(-4), ["go 20", "csr", "go 1"]),
    modelled("And one after RAM's last byte isn't", HANDLED_AT_THE_END.format(0), ["go", "step 1", "csr"]),
    modelled("An interrupt whose entry can't be fetched ends it too", AWAITS_TICK, ["go", "step 1", "go 1"], (1000, 5, b"")),
    modelled("A capability that may not be executed is no entry",
             "cspecialrw ca0, mtcc, cnull; addi a1, zero, -3; candperm ca0, ca0, a1; cspecialrw cnull, mtcc, ca0; ecall", ["go", "go"]),
    modelled("A halted machine says nothing", FIRST_IMAGE, ["go 4", "go 1", "go 1"]),
    modelled("A halt before a word that is no instruction", FIRST_IMAGE + "; .word 0", ["go", "go"]),
    modelled("`trap` and `until` without a number go on up to a trap and an address, or to the halt", SENDS, [
        "until 0x80000018", "until 0x80000018", "trap", "trap", "csr"]),
    modelled("The same on a schedule", ECHO_THREE, ["until 0x80000014", "trap", "until 0"], (11, 4, b"ABC")),
    ("They are not bound by what a number may say", LONG_LOOP, "> until 0x80000010\nevents 1000004 out - pc 0000000080000010 running\n"
     "> go 2\nevents 2 out - pc 0000000080000018 halted 0"),
    modelled("Up to the halt", FIRST_IMAGE, ["trap", "until 0x80000000"]),
]

SHOWN_UNASKED = [
    modelled("Without a number `mem` shows 16 bytes and `dis` 8 words, and without an address `dis` those at PCC", FIRST_IMAGE, [
        "mem 0x80000000", "mem 0x80000001", "mem 0x80000ff0", "mem 0x80000ff1", "dis 0x80000000", "dis 0x80000fe0", "dis 0x80000fe4",
        "dis", "step 1", "dis", "step 5", "dis"]),
    modelled("Nothing is shown at a PCC outside RAM", "", ["dis", "step 1", "dis", "mem 0"]),
    modelled("Up to RAM's last word", ".entry 0x80000fe0; addi a0, zero, 1", ["dis", "step 1", "dis"]),
    modelled("In the mode of PCC", ".mode 1; csb a0, 0(ca1); clc ca0, 0(ca1)", ["dis", "dis 0x80000004"]),
    modelled("The special capability registers by their names", "cspecialrw ca0, pcc, cnull; csetboundsimm ca0, ca0, 64; "
             "cspecialrw cnull, mscratchc, ca0; cspecialrw cnull, mtdc, ca0; csrrwi zero, mtvec, 4; ecall", [
                 "reg pcc", "step 6", *(f"reg {name}" for name in ("pcc", "ddc", "mtcc", "mtdc", "mscratchc", "mepcc"))]),
    modelled("A line that begins with `#` is answered with nothing", FIRST_IMAGE, [
        "# a comment", "#", " \t# step 1", "#step 1", "##", "step 1", "# quit", "#" + 254 * "x", "#" + 255 * "x", "reg a1"]),
]

# Labels of the first image and of places around it.
PLACES = {"start": 0x80000000, "send": 0x80000008, "halt": 0x8000000c, "zero_page": 0, "top.1": (1 << 64) - 1, "_last": 0x80000fff}
BESIDE_LABELS = [
    modelled("A label with a number added to it or taken away from it is an address", FIRST_IMAGE, [
        "stop at start+8", "stop at halt-4", "stop at halt-0xc", "stop at start+0xFFC", "go", "stop off", "until start+12 10",
        "until halt+4", "mem start+4", "mem send-8 4", "dis halt-4 1", "dis start+4 2", "dis halt-1 1", "mem _last+0 1", "mem _last+1 1",
        "mem zero_page+0x80000000 4", "mem top.1-0xffffffff7fffffff 1", "mem start+-0 1", "mem send+-8 1", "mem start--8 1"],
        labels=PLACES),
    modelled("It doesn't go round", FIRST_IMAGE, [
        "until top.1+0 1", "until top.1+1 1", "until zero_page+0 1", "until zero_page-1 1", "until zero_page+0xffffffffffffffff 1",
        "until zero_page+0x10000000000000000 1", "until start-0x8000000000000000 1", "until start--9223372036854775808 1",
        "until start--9223372036854775809 1", "until start-2147483648 1", "until start-2147483649 1"], labels=PLACES),
    modelled("Of other forms none is", FIRST_IMAGE, [
        "mem start+", "mem start-", "mem +4", "mem start+send", "mem start+4+4", "mem start+0x", "mem start+x", "mem start +4",
        "mem start+ 4", "mem nowhere+4", "mem start*4", "mem 4+start", "mem start+4a", "reg start+4", "step start+4", "mem start start+4",
        "mem Start+4", "stop at start+"], labels=PLACES),
]


def told_of_commands():
    """What `help` says of each command: its operands, and an example."""
    usages = {}
    for line in COMMANDS.splitlines():
        usages.setdefault(line.split()[0], []).append(line)
    return [(f"help {name}", "\n".join([*lines, f"for example: {EXAMPLES.get(name, name)}"])) for name, lines in usages.items()]


# What is typed at a machine of the first image.
STEPPED = [
    "until 0x80000000 5", "mem 0x80000000 4", "mem 0x80000002 18", "dis 0x80000000 1", "dis 0x80000008 2", " \tstep\r5 ", "step 1000000",
    "until 0 1", "step 1000001", "tick 1000001", "trap 1000001", "until 0 1000001", "until 0x10000000000000000 1", "step 0", "step",
    "step 1 1", "step x", "byte 256", "reg x32", "regs 1", "mem 0x80000000 4097", "mem 0x10000008 8", "mem 0x80000001 4096",
    "dis 0x80000000 1025", "dis 0x80000002 1", "dis 0x80000004 1024", "dis 0xfffffffffffffffc 1024", "frob", "caps", "Step 1", "",
    "frob \xe9", "quit now", "quit",
]

STEP = "events 1 out - pc 0000000080000004 running"
NEXT = "events 1 out - pc 0000000080000008 running"
TICK = "events 1 out - pc 0000000080000000 running"

# Lines of 255 bytes and of 256: the longer ones are refused for their length, whatever they say. The conversation ends with a `quit` of
# 255 bytes.
LONG = [255 * "x", 256 * "x", 255 * " ", 256 * " ", "step " + 250 * "0" + "1", "quit" + 252 * " ", "step " + 249 * "0" + "1",
        249 * " " + "step 1", "quit" + 251 * "\t"]

# ca0 is a capability of 4095 bytes.
PAGE = "auipc a1, 0x1; cspecialrw ca0, ddc, cnull; csetaddr ca0, ca0, a1; csetboundsimm ca0, ca0, 4095"

# What is answered up to `quit` or the end: the bytes of what is typed, and the answers.
TALKS = [
    ("nothing", ""),
    ("an empty line", ">\nfault B1"),
    ("quit at once", "> quit"),
    ("what stands after quit is left", "> quit\n< regs"),
    ("a step", f"> step 1\n{STEP}"),
    ("lines of each kind", f"> step 1\\r\n{STEP}\n>\nfault B1\n> frob\nfault B1\n> mem 0 1\nfault B3\n> quit now\nfault B2\n"
                           f"> byte 0x41\n{STEP}\n> \\tquit\\x20\n< regs"),
    ("a byte of 200 in the second of three lines", f"> tick 1\n{TICK}\n> tick 1 \\xc8\nfault B2\n> tick 1\n{TICK}"),
    ("lines of 255, 256, 257, 600 and 6 bytes", replies(
        [("step 1" + 249 * " ", STEP)] + [("step 1" + count * " ", "fault B2") for count in (250, 251, 594)] + [("step 1", NEXT)])),
]


def shown():
    """Conversations that show what steps left."""
    yield modelled("the first image is stepped and shown", FIRST_IMAGE, STEPPED)
    yield modelled("a byte waits while everything is shown", RECEIVES,
                   "until 0x80000004 10; byte 0x41; tick 3; reg ca1; mem 0x80000000 1; dis 0x80000004 1; regs; scr; csr; "
                   "mem 0x80000000 4096; dis 0x80000000 1024; step 1; reg a0")
    yield modelled("a capability is shown with its fields", PAGE, "step 4; reg ca0")
    yield modelled("what RAM holds is shown, until a byte is stored over it",
                   PAGE + "; addi a2, a1, -2048; sc ca0, -1792(a2); sb zero, -1777(a2)", "caps; step 6; caps; step 1; caps")
    yield modelled("capabilities in RAM are shown in ascending order, and data is not",
                   "auipc a1, 0x1; cspecialrw ca0, ddc, cnull; sc ca0, -16(a1); addi a2, a1, -2048; sc ca0, -1024(a2); sc cnull, 0(a2)",
                   "step 6; caps; mem 0x80000400 8")
    yield modelled("a line has 255 bytes at most", "", ["regs" + 251 * " ", "regs" + 252 * " "])


def cases():
    yield "# A conversation with the machine of a program"
    first = [(line, f"fault {code}") for code, lines in REFUSED for line in lines]
    yield from conversation("lines that are refused; then the whole state, in which nothing has changed", FIRST_IMAGE,
                            f"{replies(first)}\n{said(Session(FIRST_IMAGE), f'until 0x80000000 1; {STATE}')}")
    yield from conversation(*modelled("lines of 255 bytes and of 256", FIRST_IMAGE, LONG))
    yield from conversation("what the codes of refusals mean", FIRST_IMAGE,
                            replies([(f"help {code}", meaning) for code, meaning in CODES.items()] + [(" help\tB2 ", CODES["B2"])]))
    yield from conversation("what each command is told of", FIRST_IMAGE, replies(told_of_commands()))
    for given in (*CONVERSATIONS, *REPLAYED, *STOPPED, *UNBOUNDED, *SHOWN_UNASKED, *BESIDE_LABELS, *explanations.CONVERSATIONS,
                  *why_objects.CONVERSATIONS, *reaching.CONVERSATIONS, *shown()):
        yield from conversation(*given)
    for about, text in TALKS:
        yield from conversation(about, RECEIVES, text)


# ---- devices that fail

# A program that goes on receiving, so that what waits can be taken.
TAKES = f"{RECEIVES}; j .-4"
# Lines at its machine, each with its reply, and how the session stands after it: PCC's address, and how many bytes wait.
PIECES = [
    ("step 1\n", f"{STEP}\n", 0x8000_0004, 0),
    ("frob\n", "fault B1\n", 0x8000_0004, 0),
    ("byte 0x41\n", f"{STEP}\n", 0x8000_0004, 1),
    ("step 1", f"{NEXT}\n", 0x8000_0008, 0),
]


def cut(read, write, answer, written, address, waiting):
    """A conversation of all pieces, whose calls of these numbers fail."""
    typed = quoted("".join(piece[0] for piece in PIECES))
    return f"cut {read} {write} | {TAKES} | {typed} => {answer} {quoted(written)} {address:x} {waiting} 0"


def cut_replies():
    """Each call of the sink in turn fails: a beginning of all replies is written, and the line of that call is the last that is done."""
    whole = "".join(piece[1] for piece in PIECES)
    call = 0
    for _, reply, address, waits in PIECES:
        for _ in reply:
            yield cut("-", call, "Write", whole[:call], address, waits)
            call += 1
    yield cut("-", "-", "ok", whole, address, waits)


def cut_lines():
    """Each call of the source in turn fails, and after the last line the one that meets the end: the replies to the lines before are
    written, and those are done."""
    call, answered, address, waits = 0, "", 0x8000_0000, 0
    for line, reply, after, then in PIECES:
        for _ in range(len(line) + (not line.endswith("\n"))):
            yield cut(call, "-", "Read", answered, address, waits)
            call += 1
        answered, address, waits = answered + reply, after, then


def talks():
    yield "# the numbers of the calls that fail, of what is read and of what is written | statements | what is typed"
    yield "# => the answer, what is written, and how a session stands that did the lines whose replies were begun: PCC's address, how many"
    yield "# bytes wait, and whether the machine is halted"
    yield from cut_replies()
    yield from cut_lines()
    yield "# commands | statements | lines => their answers, and the same after them; what waits in a machine that is halted shows nowhere"
    at_first, reply, ticked = (quoted(f"{told}\n") for told in (TICK, STEP, STEP.replace("events 1", "events 2")))
    yield f"commands | {TAKES} | step 1; quit; frob => {reply} quit B1 80000004 0 0"
    yield f"commands | {TAKES} | byte 0x41; step 1; byte 0x42; tick 2; mem 0 1 => {at_first} {reply} {reply} {ticked} B3 80000004 2 0"
    halted = quoted("events 5 out 41 pc 0000000080000014 halted 0\n")
    yield f"commands | {FIRST_IMAGE} | step 5; quit => {halted} quit 80000014 - 1"


def files():
    yield "sessions.txt", cases()
    yield "talks.txt", talks()
