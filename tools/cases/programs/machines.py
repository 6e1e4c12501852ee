"""Programs with what is to be seen of the whole machine: halts, traps, devices and interrupts."""

from .items import BOTH, ENTRY, line, number, sealed, together

# Sends `A` and halts with 0.
FIRST_IMAGE = ["lui a1, 0x10000", "addi a0, zero, 65", "sb a0, 0(a1)", "lui a1, 0x100", "sd zero, 0(a1)"]

# Multiplies 1 to 7, sends the four digits and halts with 0.
FACTORIAL = [
    "lui a1, 0x10000", "li a0, 1", "li t0, 7", "fact: mul a0, a0, t0", "addi t0, t0, -1", "bne t0, zero, fact", "li t1, 1000",
    "li t2, 10", "digits: divu t3, a0, t1", "remu a0, a0, t1", "addi t3, t3, 48", "sb t3, 0(a1)", "divu t1, t1, t2",
    "bne t1, zero, digits", "lui a1, 0x100", "sd zero, 0(a1)",
]

# The greatest common divisor of 1071 and 462 by Euclid's algorithm; halts with it.
GREATEST_COMMON_DIVISOR = [
    "li a0, 1071", "li a1, 462", "loop: beq a1, zero, done", "remu a2, a0, a1", "addi a0, a1, 0", "addi a1, a2, 0",
    "beq zero, zero, loop", "done: lui a3, 0x100", "sd a0, 0(a3)",
]

# Where a trap handler stands that takes a byte into a0, and the set-up that is done first: it lets both interrupts come, with mtimecmp
# 2 and a1 the address of receive, and jumps to RAM's beginning.
HANDLER = ENTRY + 0x100
SET_UP = ENTRY + 0x200
TAKE_BYTE = ["ld a0, 0(a1)", "mret"]
INTERRUPTS_ON = [
    "lui a1, 0x10000", "addi t0, zero, 1", "sd t0, 24(a1)", "addi a1, a1, 8", "lui t1, 0x2004", "addi t2, zero, 2", "sd t2, 0(t1)",
    "slli t0, t0, 31", "addi t1, t0, 0x100", "csrrw zero, mtvec, t1", "addi t2, zero, -1", "csrrw zero, mie, t2",
    "csrrsi zero, mstatus, 8", "jalr zero, 0(t0)",
]
VECTORED = [statement.replace("0x100", "0x101") if statement == "addi t1, t0, 0x100" else statement for statement in INTERRUPTS_ON]
INTERRUPTS_OFF = "csrrci zero, mstatus, 8"

# Counts its turns in s0. Its trap handler counts the timer's interrupts in s1, one for 7 ticks, and sends each byte that comes.
COUNT_AND_ECHO = [
    "lui s2, 0x10000", "addi s3, zero, 1", "sd s3, 24(s2)", "lui s4, 0x2004", "addi s5, zero, 7", "sd s5, 0(s4)", "auipc t0, 0x0",
    "addi t0, t0, 40", "csrrw zero, mtvec, t0", "addi t0, zero, -1", "csrrw zero, mie, t0", "addi s0, zero, 0", "addi s1, zero, 0",
    "csrrsi zero, mstatus, 8", "turn: addi s0, s0, 1", "beq zero, zero, turn",
    "csrrs t0, mcause, zero", "andi t0, t0, 4", "bne t0, zero, timer", "ld t0, 8(s2)", "sd t0, 0(s2)", "mret",
    "timer: addi s1, s1, 1", "ld t0, 0(s4)", "add t0, t0, s5", "sd t0, 0(s4)", "mret",
]


# What tells of a trap, of where a machine stands after an interrupt, and all of the special registers.
TRAPS = "mcause; mtval; mepc; mcycle; minstret"
STANDING = "mcause; address pcc; mstatus; mip"
SPECIAL = "pcc; ddc; mtcc; mepcc; mtdc; mscratchc"


def prepared(*deeds, program=(), set_up=INTERRUPTS_ON):
    """A case of a program with both interrupts on, in integer mode: the deeds come when the set-up is done."""
    texts = [f".entry {SET_UP:#x}", *program, f".org {HANDLER:#x}", *TAKE_BYTE, f".org {SET_UP:#x}", *set_up]
    return line(0, texts, f"steps {len(set_up)}", *deeds)


def first_image():
    yield "# the first image sends A and halts with 0; a sixth step changes nothing"
    after = f"sent; halted; {TRAPS}; address pcc"
    yield line(0, FIRST_IMAGE, "steps 5", after, "step", after)
    yield "# the same step by step: a0, a1, what was sent, the halt, and the counters"
    yield line(0, FIRST_IMAGE, *5 * [f"step; a0; a1; sent; halted; {TRAPS}"])
    yield "# a run of no events changes nothing"
    yield line(0, FIRST_IMAGE, f"steps 0; end; sent; address pcc; {TRAPS}")
    yield line(0, FIRST_IMAGE, f"steps 3; sent; steps 0; end; sent; address pcc; {TRAPS}")
    yield "# runs append to what was sent before"
    yield line(0, FIRST_IMAGE, "steps 4; end; sent; steps 3; end; sent")
    yield line(0, FIRST_IMAGE[:3] + FIRST_IMAGE, "steps 4; end; sent; steps 3; end; sent; steps 3; end; sent")
    yield "# the opening state"
    for mode in BOTH:
        yield line(mode, FIRST_IMAGE, f"{SPECIAL}; a0; mstatus")
    yield "# a halted machine meets ticks and bytes alone"
    state = f"registers; {SPECIAL}; mstatus; mie; mscratch; mcause; mtval; mip; mcycle; minstret; ram"
    yield line(0, FIRST_IMAGE, "steps 5; halted", state,
               "byte 42; tick; step; halted; sent; waiting; mtime; mtimecmp; overrun; control", state)


def programs():
    yield "# seven factorial is sent in digits: 3 + 7 * 3 + 2 + 4 * 6 + 2 instructions"
    yield line(0, FACTORIAL, f"steps 52; end; sent; {TRAPS}")
    yield "# 1071 = 2 * 462 + 147, 462 = 3 * 147 + 21, 147 = 7 * 21: three turns of five instructions, and five around them"
    yield line(0, GREATEST_COMMON_DIVISOR, f"steps 19; end; steps 9; end; sent; {TRAPS}")
    yield "# integers and upper immediates"
    yield line(0, ["auipc a0, 0x1", "auipc a0, 0xfffff", "fence", "wfi", "fence.i", "addi a0, zero, -1", "srli a0, a0, 1",
                   "sltu a1, zero, a0", "sub a2, zero, a1"], f"step; a0; step; a0; steps 7; a0; a1; a2; {TRAPS}")
    yield "# a byte store changes one byte of RAM, after the program"
    yield line(0, ["auipc a1, 0x0", "addi a0, zero, 0x41", "sb a0, 16(a1)", ".word 0", ".word 0xffffffff"], "steps 3; word 80000010")


def faults():
    yield "# traps report cause, value and place; then MTCC is root at 0, where there is no RAM"
    # the last but one are misaligned, and where nothing is
    for statement in (".word 0x00000000", ".word 0xffffffff", ".word 0xfc00005b", "ecall", "ebreak", "sd zero, 4(zero)", "sb zero, 0(zero)",
                      "beq zero, zero, .+2"):
        yield line(0, [statement], f"step; sent; {TRAPS}; address pcc; mepcc; step; {TRAPS}")
    yield "# stores into devices want their sizes: transmit, halt, transmit; then halt, and past control"
    for page, store in ((0x10000, "sd zero, 0(a1)"), (0x100, "sd zero, 0(a1)"), (0x10000, "sb zero, 0(a1)"), (0x100, "sb zero, 0(a1)"),
                        (0x10000, "sd zero, 32(a1)")):
        yield line(0, [f"lui a1, {page:#x}", store], "step; step; mcause; mtval")


def console():
    yield "# the sixty-fifth byte is lost and noted, and a sixty-sixth changes nothing more"
    queued = [f"byte {byte:02x}" for byte in range(100, 164)]
    status = [INTERRUPTS_OFF, "ld a0, 8(a1)", "addi t2, zero, 2", "sd t2, 8(a1)", "ld a0, 8(a1)"]
    for more in ("byte a4", "byte a4; byte a5"):
        yield prepared("step", *queued, "waiting; overrun", more, "waiting; overrun; step; a0; steps 3; a0; waiting", program=status)
    yield "# receive gives the bytes in order, and then 0"
    yield prepared("step; byte 80; byte ff", *3 * ["step; a0"], "waiting", program=[INTERRUPTS_OFF] + 3 * ["ld a0, 0(a1)"])
    yield "# a load into register 0 takes its byte too"
    yield prepared("step; byte 80; byte ff; step; zero; waiting; step; a0; waiting",
                   program=[INTERRUPTS_OFF, "ld zero, 0(a1)", "ld a0, 0(a1)"])
    yield "# refused accesses leave the devices: a word, misaligned, past control, receive, status, past control"
    for statement in ("lw a0, 0(a1)", "ld a0, -4(a1)", "ld a0, 24(a1)", "sw zero, -8(a1)", "sb zero, 8(a1)", "sd zero, 24(a1)"):
        yield prepared("step; byte 41; step; sent; mcause; mtval; waiting; control; a0", program=[INTERRUPTS_OFF, statement])


def timer():
    yield "# the time is loaded and stored: t1 lies 8 bytes past mtime"
    yield prepared("step; tick; tick; tick; steps 2; a0; steps 2; mtime; tick; step; a0",
                   program=[INTERRUPTS_OFF, "lui t1, 0x200c", "ld a0, -8(t1)", "addi t2, zero, 100", "sd t2, -8(t1)", "ld a0, -8(t1)"])
    yield "# the devices ask until they are answered: mtimecmp becomes 4, and control 0"
    yield prepared("tick; step; mip; tick; step; mip; byte 00; tick; mip; step; step; mip; tick; tick; mip; step; tick; mip; waiting",
                   program=[INTERRUPTS_OFF, "lui t1, 0x2004", "addi t2, zero, 4", "sd t2, 0(t1)", "sd zero, 16(a1)"])


def interrupts():
    seven = "addi a0, zero, 7"
    both = "byte 41; tick; tick; step"
    yield "# the set-up lets interrupts come"
    yield prepared(STANDING, "mie; mcycle; minstret; mtimecmp; control; mtcc; a1")
    yield "# the console is served before the timer; MPIE, and no MIE"
    yield prepared(both, STANDING, "mtval; address mepcc; mcycle; minstret; steps 2; a0", STANDING, "mcycle; minstret; step", STANDING,
                   "mcycle; minstret; a0", program=[seven])
    yield "# without MIE the instruction is done"
    yield prepared("step; mcycle; minstret", both, STANDING, "a0; mcycle; minstret", program=[INTERRUPTS_OFF, seven])
    yield "# an interrupt needs its bit in mie"
    for value, events in ((-1, "tick; tick; byte 01"), (-1, "tick; tick; tick"), (-1, "byte 01; byte 01; tick"),
                          (-2048, "tick; tick; byte 01"), (-2048, "tick; tick; tick"), (128, "tick; tick; byte 01"),
                          (128, "byte 01; byte 01; tick"), (0, "tick; tick; byte 01")):
        yield prepared("steps 2; mie", events, "step; mcause; address pcc; a0",
                       program=[f"addi t2, zero, {value}", "csrrw zero, mie, t2", seven])


def other_interrupts():
    yield "# an interrupt is taken where PCC cannot fetch: CHERI's exception for PCC's tag, and the console's interrupt"
    for event in ("tick", "byte 09"):
        yield prepared("steps 4; pcc", STANDING, f"mcycle; minstret; {event}; step; mcause; mtval; address pcc; mepcc; mcycle; minstret",
                       program=["addi t2, zero, 128", "csrrs zero, mstatus, t2", "cspecialrw cnull, mepcc, ct2", "mret"])
    yield "# a write of mip changes nothing"
    for value, event in ((-1, "tick"), (-1, "byte 00"), (0, "byte 00")):
        yield prepared("step", event, "steps 3; a0", STANDING,
                       program=[INTERRUPTS_OFF, f"addi t2, zero, {value}", "csrrw zero, mip, t2", "csrrs a0, mip, zero"])
    yield "# waiting for interrupts goes on"
    yield prepared("step", STANDING, "mcycle; minstret; step; a0", program=["wfi", "addi a0, zero, 7"])


def vectored():
    """Traps with the low bits of MTCC's address 1."""
    yield "# in vectored mode an interrupt goes 4 bytes a number past the base, and an exception to it"
    for events in (["byte 41; tick; tick"], ["tick; tick"], []):
        yield prepared(*events, "step", STANDING, "address mepcc; mtvec; mtcc", program=["ecall"], set_up=VECTORED)
    yield "# a return goes back, and the next interrupt to its own entry"
    yield prepared("byte 41; tick; tick; step; address pcc; steps 2; address pcc; a0; step", STANDING,
                   program=[f".org {HANDLER + 44:#x}", *TAKE_BYTE], set_up=VECTORED)
    yield "# an entry past the window of MTCC: no tag, and the next trap goes to the base, which is out of its bounds"
    program = [*number("t0", 0x8000_1000), "cspecialrw ca0, ddc, cnull", "csetaddr ca0, ca0, t0", *number("t0", 4095),
               "csetbounds ca0, ca0, t0", *number("t0", 0x8000_47f1), "csetaddr ca0, ca0, t0", "cspecialrw cnull, mtcc, ca0"]
    yield prepared(f"steps {len(program)}; byte 41; step; mcause; fields pcc", *2 * ["step; mcause; mtval; fields pcc"], program=program)
    yield "# a sealed value that stands at the entry keeps its tag, and is refused at the fetch"
    program = [*number("t0", HANDLER), "cspecialrw ca0, ddc, cnull", "csetaddr ca0, ca0, t0", *sealed("a0", 5),
               "cspecialrw cnull, mtcc, ca0", "ecall"]
    yield prepared(f"steps {len(program)}; mcause; fields pcc; step; mcause; mtval; fields pcc", program=program)


def event_at(place):
    """What comes at one of many events: now and then a byte, each tenth time a tick."""
    if place % 97 == 5:
        return f"byte {place % 251:02x}"
    return "tick" if place % 10 == 3 else "step"


def long_run():
    """9000 events, and 200 steps in which whatever still waits is served."""
    events = [event_at(place) for place in range(9000)] + 200 * ["step"]
    yield "# each byte is echoed and each period counted"
    yield line(0, COUNT_AND_ECHO, *together(events), "end; sent; s1; waiting; overrun; mtime; mcycle; minstret")


def sealed_values():
    """A sealed value is stored from ca1 into the granule after the program, and loaded into ca2."""
    typed = ["cspecialrw ca0, ddc, cnull", "addi t0, zero, 5", "csetaddr ca3, ca0, t0", "cseal ca1, ca0, ca3"]
    entry = ["cspecialrw ca0, ddc, cnull", "csealentry ca1, ca0"]
    yield "# SC keeps the tag of a sealed value: of a type, and of a sentry"
    for items in (typed, entry):
        items = items + -len(items) % 4 * ["nop"] + ["auipc t1, 0x0", "sc ca1, 64(t1)", "lc ca2, 64(t1)"]
        place = ENTRY + 4 * (len(items) - 3) + 64
        for mode in BOTH:
            yield line(mode, items, f"steps {len(items)}; trap; a1; granule {place:x}; same a1 a2")


def cases():
    for part in (first_image, programs, faults, console, timer, interrupts, other_interrupts, vectored, long_run, sealed_values):
        yield from part()
