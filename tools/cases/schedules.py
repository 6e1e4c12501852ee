"""Programs for runs on a grid of schedules, drawn with a fixed seed: steps done many at once and the same events one at a time are compared
with the model machine when a case is tried, so a case needs no other expected value than `same`.

Each program sets up a handler of traps, which skips the instruction that faulted, puts the timer off, and takes the byte that waits; then
come arithmetic, loads and stores (some misaligned or outside RAM), branches, system registers, devices, capabilities, faults, and stores
over the program's own instructions: over the next one, over one that was done before, and over one whose place in a memo of decoded
instructions is another's.
"""
import random

HEAD = "# mode | statements => same, or the schedule on which steps done many at once or single events differ from the model, and how"

SEED = 20261123
PROGRAMS = 200

# Offsets of the handler and of data, from the program's first instruction.
HANDLER, DATA = 0x300, 0x400

# Encodings that stores write over instructions: addi a0, a0, 1; addi a1, a1, 3; xor a2, a2, a0; ecall; no instruction.
WORDS = [0x00150513, 0x00358593, 0x00A64633, 0x00000073, 0x00000000]

HANDLERS = {
    0: ["csrrs t3, mcause, zero", "lui t4, 0x200c", "ld t5, -8(t4)", "addi t5, t5, 9", "lui t6, 0x2004", "sd t5, 0(t6)", "lui t6, 0x10000",
        "ld t5, 8(t6)", "blt t3, zero, back", "csrrs t3, mepc, zero", "addi t3, t3, 4", "csrrw zero, mepc, t3", "back: mret"],
    1: ["csrrs t3, mcause, zero", "lui t4, 0x200c", "addi t4, t4, -8", "ld.ddc t5, (t4)", "addi t5, t5, 9", "lui t6, 0x2004",
        "sd.ddc t5, (t6)", "lui t6, 0x10000", "addi t6, t6, 8", "ld.ddc t5, (t6)", "blt t3, zero, back", "csrrs t3, mepc, zero",
        "addi t3, t3, 4", "csrrw zero, mepc, t3", "back: mret"],
}

REGISTERS = ["a0", "a1", "a2", "a3", "a4", "a5"]
CAPABILITIES = ["ca6", "ca7", "cs4", "cs5"]


def prelude(mode):
    """Sets up s1 at the first instruction, s0 at data, ca6 and cs2 and cs3 over RAM, and the handler; interrupts are on."""
    first = ["auipc s1, 0"] if mode == 0 else ["cspecialrw cs1, pcc, cnull", "cgetaddr s1, cs1"]
    return [
        *first, f"addi t0, s1, {HANDLER}", "csrrw zero, mtvec, t0", f"addi s0, s1, {DATA}",
        "cspecialrw cs2, ddc, cnull", "csetaddr cs2, cs2, s0", "cspecialrw cs3, ddc, cnull", "csetaddr cs3, cs3, s1",
        "addi t1, zero, 64", "csetbounds ca6, cs2, t1",
        "addi t1, zero, 1", "slli t1, t1, 11", "addi t1, t1, 128", "csrrs zero, mie, t1", "csrrsi zero, mstatus, 8",
    ]


class Drawn:
    """A program that is being drawn."""

    def __init__(self, draw, mode):
        self.draw, self.mode, self.lines, self.labels = draw, mode, [], 0

    def of(self, *choices):
        return self.draw.choice(choices)

    def register(self):
        return self.draw.choice(REGISTERS)

    def capability(self):
        return self.draw.choice(CAPABILITIES)

    def add(self, *lines):
        self.lines += lines

    def label(self):
        self.labels += 1
        return f"l{self.labels}"

    def arithmetic(self):
        d, a, b = self.register(), self.register(), self.register()
        row = self.of("add", "sub", "xor", "or", "and", "sll", "srl", "sra", "slt", "sltu", "mul", "mulhu", "div", "divu", "rem", "addw",
                      "subw")
        self.add(self.of(f"{row} {d}, {a}, {b}", f"addi {d}, {a}, {self.draw.randrange(-2048, 2048)}",
                         f"slli {d}, {a}, {self.draw.randrange(64)}",
                         f"lui {d}, {self.draw.randrange(1 << 20)}", f"sltiu {d}, {a}, {self.draw.randrange(2048)}"))

    def access(self):
        size = self.of(1, 2, 4, 8)
        offset = 8 * self.draw.randrange(16) + self.of(0, 0, 0, size)
        if self.draw.random() < 0.05:
            offset += 1
        if self.draw.random() < 0.05:
            offset = self.of(-2048, 2040)
        load = self.of("lb", "lbu") if size == 1 else self.of("lh", "lhu") if size == 2 else self.of("lw", "lwu") if size == 4 else "ld"
        store = {1: "sb", 2: "sh", 4: "sw", 8: "sd"}[size]
        base = "s0" if self.mode == 0 else self.of("cs2", "cs2", "ca6")
        self.add(self.of(f"{load} {self.register()}, {offset}({base})", f"{store} {self.register()}, {offset}({base})"))

    def branch(self):
        to = self.label()
        row = self.of("beq", "bne", "blt", "bge", "bltu", "bgeu")
        self.add(f"{row} {self.register()}, {self.register()}, {to}")
        self.arithmetic()
        self.add(f"{to}: addi {self.register()}, zero, {self.draw.randrange(8)}")

    def loop(self):
        to = self.label()
        self.add(f"addi s6, zero, {self.draw.randrange(1, 6)}", f"{to}: addi s6, s6, -1")
        for _ in range(self.draw.randrange(1, 4)):
            self.of(self.arithmetic, self.access)()
        self.add(f"bne s6, zero, {to}")

    def system(self):
        d, a = self.register(), self.register()
        self.add(self.of(f"csrrw {d}, mscratch, {a}", f"csrrs {d}, mcycle, zero", f"csrrs {d}, minstret, zero", "csrrci zero, mstatus, 8",
                         "csrrsi zero, mstatus, 8", f"csrrw zero, minstret, {a}", f"csrrw {d}, mcycle, {a}", f"csrrs {d}, mip, zero",
                         f"csrrs {d}, mcause, zero", f"csrrw {d}, mie, {a}", "ecall", "ebreak", ".word 0", ".word 0xffffffff"))

    def device(self):
        register, rows = self.of((0x10000, 8, "ld"), (0x10000, 16, "ld"), (0x10000, 0, "sb"), (0x10000, 24, "sd"), (0x10000, 16, "sd"),
                                 (0x200c, -8, "ld"), (0x2004, 0, "sd"), (0x2004, 0, "ld"), (0x10000, 4, "ld")), []
        page, offset, row = register
        self.add(f"lui s7, {page}")
        if self.mode == 0:
            self.add(f"{row} {self.register()}, {offset}(s7)")
        else:
            self.add(f"addi s7, s7, {offset}", f"{row}.ddc {self.register()}, (s7)")

    def derivation(self):
        d, a, r = self.capability(), self.of("cs2", *CAPABILITIES), self.register()
        self.add(self.of(f"csetboundsimm {d}, {a}, {self.draw.randrange(200)}", f"cincoffsetimm {d}, {a}, {self.draw.randrange(-64, 64)}",
                         f"candperm {d}, {a}, {r}", f"ccleartag {d}, {a}", f"cgetlen {r}, {a}", f"cgetperm {r}, {a}", f"cgettag {r}, {a}",
                         f"csetaddr {d}, {a}, {r}", f"cincoffset {d}, {a}, {r}", f"csealentry {d}, {a}", f"cmove {d}, {a}",
                         f"cspecialrw {d}, mscratchc, {a}", f"cspecialrw {d}, ddc, cnull"))

    def capability_access(self):
        c, offset = self.capability(), 16 * self.draw.randrange(8)
        base = "s0" if self.mode == 0 else "cs2"
        self.add(self.of(f"lc {c}, {offset}({base})", f"sc {c}, {offset}({base})", f"sb {self.register()}, {offset + 3}({base})",
                         f"lc.cap {c}, (cs2)", f"ld.cap {self.register()}, ({c})", f"sd.cap {self.register()}, ({c})"))

    def jump(self):
        over = self.label()
        if self.mode == 0:
            self.add(f"jal ra, {over}")
        else:
            self.add(self.of(f"cjal cra, {over}", f"cjal cra, {over}"))
        self.arithmetic()
        self.add(f"{over}: addi a0, a0, 1")

    def far_jump(self):
        """To the instruction after the next by a capability: unsealed, or a sentry."""
        sealed = ["csealentry cs8, cs8"] if self.draw.random() < 0.5 else []
        after = 4 * (5 + len(sealed))
        jump = "jalr.cap cra, cs8" if self.mode == 0 else self.of("jalr.cap cra, cs8", "cjalr cra, 0(cs8)")
        self.add("cspecialrw cs8, pcc, cnull", f"cincoffsetimm cs8, cs8, {after}", "addi t2, zero, 0", *sealed, jump,
                 "addi a1, a1, 1", "addi a2, a2, 1")

    def invocation(self):
        """To the instruction after the next by a pair sealed with one type, its data without Execute."""
        self.add("cspecialrw cs8, pcc, cnull", "cincoffsetimm cs8, cs8, 44", "cspecialrw cs10, ddc, cnull",
                 f"addi t1, zero, {self.draw.randrange(8)}", "csetaddr cs10, cs10, t1", "addi t1, zero, -3", "candperm cs9, cs2, t1",
                 "cseal cs8, cs8, cs10", "cseal cs9, cs9, cs10", "cinvoke cs8, cs9", "addi a1, a1, 1", "addi a2, a2, 1")

    def self_modifying(self):
        """Writes an instruction over one of the program: the one after the store, or one that was done before, which is done again."""
        word = self.draw.randrange(len(WORDS))
        base, code = ("s0", "s1") if self.mode == 0 else ("cs2", "cs3")
        here = len(self.lines)
        load = f"lw t2, {0x80 + 4 * word}({base})"
        if self.draw.random() < 0.5:
            self.add(load, f"sw t2, {4 * (here + 2)}({code})", "addi a3, a3, 7")
        else:
            again = self.label()
            self.add("addi s6, zero, 2", load, f"{again}: addi a4, a4, 5", f"sw t2, {4 * (here + 2)}({code})", "addi s6, s6, -1",
                     f"bne s6, zero, {again}")

    def halt(self):
        self.add("lui s7, 0x100")
        self.add("sd a0, 0(s7)" if self.mode == 0 else "sd.ddc a0, (s7)")

    def body(self):
        parts = [self.arithmetic] * 4 + [self.access] * 4 + [self.branch, self.loop, self.system, self.system, self.device, self.device,
                                                           self.derivation, self.derivation, self.capability_access, self.jump,
                                                           self.far_jump, self.invocation, self.self_modifying]
        while len(self.lines) < 100:
            self.draw.choice(parts)()
        if self.draw.random() < 0.7:
            self.halt()


def program(draw, mode):
    """A program's statements."""
    drawn = Drawn(draw, mode)
    drawn.add(*prelude(mode))
    drawn.body()
    words = [f".word {word}" for word in WORDS]
    handler = list(HANDLERS[mode])
    return [*drawn.lines, f".org {0x80000000 + HANDLER}", *handler, f".org {0x80000000 + DATA + 0x80}", *words]


def far_apart():
    """Instructions 16 KiB apart, done in turns; and a store over one."""
    far = 0x4000
    body = [".pages 5", "auipc s1, 0", f"lui s2, {far >> 12}", "add s2, s2, s1", "addi s3, zero, 6",
            "turn: addi a0, a0, 1", "addi s4, s1, 48", "jalr ra, 20(s2)", "back: addi s3, s3, -1", "bne s3, zero, turn",
            "lui s7, 0x100", "sd a0, 0(s7)", ".org 0x80004014"]
    plain = ["addi a1, a1, 16", "addi a2, a2, 2", "jalr zero, 0(ra)"]
    stores = ["addi a1, a1, 16", "lw t0, 0(s1)", "sw t0, 36(s2)", "addi a2, a2, 2", "addi a3, a3, 3", "jalr zero, 0(ra)"]
    over = ["addi a1, a1, 16", "lw t0, 40(s2)", "sw t0, 16(s1)", "addi a2, a2, 2", "jalr zero, 0(ra)", "addi a0, a0, 9"]
    return [[*body, *tail] for tail in (plain, stores, over)]


# What a program writes over its own instructions, one for each of its turns.
TURNS = 3
HALTED = {0: ["lui s7, 0x100", "sd a0, 0(s7)"], 1: ["lui s7, 0x100", "sd.ddc a0, (s7)"]}


def added(numbers):
    """Instructions that add numbers to a0."""
    return [f"addi a0, a0, {number}" for number in numbers]


def in_turns(mode, before, at_turn, step, each):
    """Three turns: each takes what stands next in a table after the program, moves on by `step` bytes, and does `at_turn`.

    In these statements OWN is the place of the statement that is marked so, and TABLE that of the table, from the program's beginning.
    """
    on = f"addi s5, s5, {step}" if mode == 0 else f"cincoffsetimm cs5, cs5, {step}"
    statements = [*before, f"addi s3, zero, {TURNS}", *at_turn, on, "addi s3, s3, -1", "bne s3, zero, turn", *HALTED[mode]]
    while 4 * len(statements) % step:
        statements.append("addi zero, zero, 0")
    own = next(4 * place for place, statement in enumerate(statements) if statement.startswith("own:"))
    placed = [statement.replace("OWN", str(own)).replace("TABLE", str(4 * len(statements))) for statement in statements]
    return mode, [*placed, *each]


def over_own_code():
    """Programs that write over instructions that they have done, and do them again: each with its mode."""
    addressed = ["cspecialrw cs1, ddc, cnull", "cspecialrw cs2, pcc, cnull", "cgetaddr s2, cs2", "addi s2, s2, -4", "csetaddr cs1, cs1, s2",
                 "cincoffsetimm cs5, cs1, TABLE"]
    numbered = ["auipc s1, 0", "addi s5, s1, TABLE"]
    # the next instruction, through the default data capability and through a register
    yield in_turns(0, numbered, ["turn: lw t0, 0(s5)", "sw t0, OWN(s1)", "own: addi a0, a0, 1"], 4, added((16, 32, 64)))
    yield in_turns(1, addressed, ["turn: lw t0, 0(cs5)", "sw t0, OWN(cs1)", "own: addi a0, a0, 1"], 4, added((16, 32, 64)))
    # its last byte alone
    yield in_turns(0, numbered, ["turn: lb t0, 3(s5)", "addi s6, s1, OWN", "sb t0, 3(s6)", "own: addi a0, a0, 1"], 4, added((17, 33, 65)))
    # two words by one store, the second after the next instruction
    pairs = added((16, 256, 32, 512, 64, 1024))
    yield in_turns(0, [*numbered, "addi zero, zero, 0"],
                   ["turn: ld t0, 0(s5)", "addi zero, zero, 0", "addi zero, zero, 0", "sd t0, OWN(s1)", "own: addi a0, a0, 1",
                    "addi a0, a0, 2"], 8, pairs)
    yield in_turns(1, addressed, ["turn: ld t0, 0(cs5)", "addi zero, zero, 0", "sd t0, OWN(cs1)", "own: addi a0, a0, 1", "addi a0, a0, 2"],
                   8, pairs)
    # four words by a store of a capability, or of 128 bits without a tag
    fours = [statement for turn in range(TURNS) for statement in added(1 << turn << shift for shift in (1, 4, 7, 8))]
    yield in_turns(1, addressed, ["turn: clc ct0, 0(cs5)", "addi zero, zero, 0", "addi zero, zero, 0", "addi zero, zero, 0",
                                  "csc ct0, OWN(cs1)", "own: addi a0, a0, 1", "addi a0, a0, 2", "addi a0, a0, 3", "addi a0, a0, 4"],
                   16, fours)
    # the last word of RAM
    last = [".org 0x80000ffc", "jalr zero, 0(ra)"]
    mode, statements = in_turns(0, [*numbered, "lui s2, 1", "add s2, s2, s1"],
                                ["turn: lw t0, 0(s5)", "sw t0, -4(s2)", "own: jalr ra, -4(s2)", "addi a0, a0, 1", "addi a0, a0, 2"], 4,
                                ["jalr zero, 0(ra)", "jalr zero, 4(ra)", "jalr zero, 0(ra)"])
    yield mode, [".pages 1", *statements, *last]


def lines():
    yield HEAD
    draw = random.Random(SEED)
    for n in range(PROGRAMS):
        mode = n % 2
        yield f"{mode} | {'; '.join(program(draw, mode))} => same"
    for statements in far_apart():
        yield f"0 | {'; '.join(statements)} => same"
    for mode, statements in over_own_code():
        yield f"{mode} | {'; '.join(statements)} => same"
    # the store over the next instruction alone, as short as it can be
    yield "0 | auipc s1, 0; lw t0, 16(s1); sw t0, 12(s1); addi a0, a0, 1; addi a0, a0, 2 => same"


def files():
    yield "schedules.txt", list(lines())
