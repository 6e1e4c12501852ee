"""Lines of the assembly language, and what the language's rules make of each: its label, its statement and its fault."""

from cases.quoting import quoted

def values(size, operands):
    return f"values {size} {quoted(operands)}"


def text(shown):
    return f"text {quoted(shown)}"


def capability(operands):
    return f"cap {quoted(operands)}"


def inexact(bounds):
    return f"inexact {quoted(bounds)}"


def statement(line, told, fault):
    return f"statement {quoted(line)} => {told or '-'} | {fault or '-'}"


# A line, and its row, rd, rs1, rs2 and immediate.
INSTRUCTIONS = [
    ("nop", "Addi", 0, 0, 0, 0),
    ("li a0, -2048", "Addi", 10, 0, 0, 0xFFFF_FFFF_FFFF_F800),
    ("mv a0, a1", "Addi", 10, 11, 0, 0),
    ("ret", "Jalr", 0, 1, 0, 0),
    ("fence", "Fence", 0, 0, 0, 255),
    ("fence.i", "FenceI", 0, 0, 0, 0),
    ("fence a0, a1, 3", "Fence", 10, 11, 0, 3),
    ("add x1, c2, ct6", "Add", 1, 2, 31, 0),
    ("addi fp, s0, 2047", "Addi", 8, 8, 0, 2047),
    ("addi a0, a1, 0x7Ff", "Addi", 10, 11, 0, 2047),
    ("addi a0, a1, 000000000000000000000000000012", "Addi", 10, 11, 0, 12),
    ("addi a0, a1, -0", "Addi", 10, 11, 0, 0),
    ("lui t0, 0xFFFFF", "Lui", 5, 0, 0, 0xFFFF_FFFF_FFFF_F000),
    ("lui t0, 524287", "Lui", 5, 0, 0, 0x7FFF_F000),
    ("auipcc ca0, 1", "Auipc", 10, 0, 0, 0x1000),
    ("slli a0, a1, 63", "Slli", 10, 11, 0, 63),
    ("sraiw a0, a1, 31", "Sraiw", 10, 11, 0, 31),
    ("lw a0, -4(a1)", "Lw", 10, 11, 0, 0xFFFF_FFFF_FFFF_FFFC),
    ("lw a0, ( a1 )", "Lw", 10, 11, 0, 0),
    ("clw a0, 8 (ca1)", "Lw", 10, 11, 0, 8),
    ("sd a2, 8(sp)", "Sd", 0, 2, 12, 8),
    ("clc ca0, 16(csp)", "Lc", 10, 2, 0, 16),
    ("jalr ra, 4(a0)", "Jalr", 1, 10, 0, 4),
    ("csrrw a0, mcause, a1", "Csrrw", 10, 11, 0, 0x342),
    ("csrrwi zero, 4095, 31", "Csrrwi", 0, 31, 0, 4095),
    ("cspecialrw ca0, mtcc, cnull", "CSpecialRW", 10, 0, 28, 0),
    ("cspecialrw ca0, 31, ca1", "CSpecialRW", 10, 11, 31, 0),
    ("lw.ddc a0, (a1)", "LwDdc", 10, 11, 0, 0),
    ("sc.cap ca0, (ca1)", "ScCap", 0, 11, 10, 0),
    ("csetboundsimm ca0, ca1, 4095", "CSetBoundsImm", 10, 11, 0, 4095),
    ("csetbounds ca0, ca1, a2", "CSetBounds", 10, 11, 12, 0),
    ("csub a0, ca1, ca2", "CSub", 10, 11, 12, 0),
    ("cgettag a0, ca1", "CGetTag", 10, 11, 0, 0),
    ("cinvoke ca0, ca1", "CInvoke", 0, 10, 11, 0),
    ("mret", "Mret", 0, 0, 0, 0),
    ("\tadd\ta0 ,a1,\ta2 \r", "Add", 10, 11, 12, 0),
    ("add a0, a1, a2# \"# ", "Add", 10, 11, 12, 0),
    ("here:add a0, a1, a2", "Add", 10, 11, 12, 0),
]

A1 = [
    "NOP", "Nop", "bogus a0", ".: nop", "x : nop", "a: b: nop", "1: nop", ".byte1", ".ascii\"a\"", "lw.foo a0, (a1)", "\"a\"",
]

A2 = [
    "nop a0", "add a0, a1", "add a0, a1, a2, a3", "add a0, a1, a2,", "add a0,, a2", "add", "ecall a0", "addi a0, a1, -0x4",
    "addi a0, a1, +4", "addi a0, a1, 0X4", "addi a0, a1, 0x", "addi a0, a1, -", "addi a0, a1, --4", "addi a0, a1, 4a",
    "addi a0, a1, 0xg", "addi a0, a1, 4 4", "addi a0, a1, here", "addi czero, a1, 4", "addi cx5, a1, 4", "addi A0, a1, 4",
    "addi x32, a1, 4", "lw.ddc a0, 0(a1)", "lw a0, 0(a1", "lw a0, 0)", "lw a0, a1", "lw a0, 0((a1))", "lw a0, x(a1)",
    "lw a0, 0(a1) ,", "csrrw a0, sstatus, a1", "csrrw a0, MEPC, a1", "cspecialrw ca0, mepc, ca1", "beq a0, a1", "j", "j x+y",
    "j x*4", "j x+", "j x y", "j x+-0x4", "j x++4", "j +4", "la a0", "la a0, 1, 2", "la q, 1", "cla ca0, ", ".pages", ".pages x",
    ".pages 1, 2", ".mode 0 0", ".entry", ".entry 1, 2", ".org x", ".align", ".zero -", ".byte", ".byte 1,", ".dword , 1", ".ascii",
    ".ascii a", ".ascii \"a", ".ascii \"a\\t\"", ".ascii \"a\\\"", ".ascii \"a\" b", ".cap", ".cap 0", ".cap 0, 0, 0", ".cap 0, 0, 0, 0, 0",
    ".cap 0, 0, 0,", ".cap 0, , 0, 0", ".cap 0, 0, 0, +", ".cap (a0), 0, 0, 0",
]

A3 = [
    "addi a0, a1, 2048", "addi a0, a1, -2049", "addi a0, a1, 18446744073709551616", "slli a0, a1, 64", "slli a0, a1, -1",
    "slliw a0, a1, 32", "lui a0, 0x100000", "lui a0, -1", "lw a0, 2048(a1)", "csetboundsimm ca0, ca1, 4096", "csrrwi a0, 0, 32",
    "csrrw a0, 4096, a1", "cspecialrw ca0, 32, ca1", "j x + 18446744073709551616", "j x - 0x10000000000000000",
    "j -9223372036854775809", "la a0, 18446744073709551616", "cla ca0, -9223372036854775809", ".pages 0", ".pages 65537",
    ".pages -1", ".mode 2", ".entry 0x10000000000000000", ".org -1", ".org 18446744073709551616", ".align 13", ".zero 268435457",
    ".byte 256", ".byte -129", ".byte 0, 255, -128, 256", ".half 65536", ".half -32769", ".word 4294967296", ".word -2147483649",
    ".dword 18446744073709551616", ".dword -9223372036854775809", ".cap -1, 0, 0, 0", ".cap 18446744073709551616, 0, 0, 0",
    ".cap x + 18446744073709551616, 0, 0, 0", ".cap 0, -1, 0, 0", ".cap 0, 18446744073709551616, 0, 0", ".cap 0, 0, -1, 0",
    ".cap 0, 0, 65536, 0", ".cap 0, 0, 0, -1", ".cap 0, 0, 0, 2", ".cap 2, 2, 2, 2",
]

# A2 is told before A3, whichever stands first.
BOTH = [
    "addi a0, q, 2048", "csrrw a0, 4096, q", "lw a0, 2048(q)", "la q, 18446744073709551616", ".byte 256, x x", "slli a0, a1, 64, 1",
    ".cap -1, 0, 0, +", ".cap -, 0, 0, 2", ".cap 0, 0, 0, 2, 0", ".cap -1, 0, 0",
]

# Expressions, and their name and number, or their fault.
EXPRESSIONS = [
    ("x", "x 0"),
    (".", ". 0"),
    (".+16", ". 16"),
    ("x+-4", "x -4"),
    ("x--4", "x 4"),
    ("x + 4", "x 4"),
    ("_a.1\t-\t0x10", "_a.1 -16"),
    ("x-18446744073709551615", "x -18446744073709551615"),
    ("0x00fFfF", "- 65535"),
    ("-9223372036854775808", "- -9223372036854775808"),
    ("18446744073709551615", "- 18446744073709551615"),
    ("18446744073709551616", "A3"),
    ("", "A2"),
    ("1x", "A2"),
    ("x y", "A2"),
    ("4+x", "A2"),
    ("x+4+4", "A2"),
]

# Lines with their statements and faults. A statement has its kind, and expressions have a name, or -, and a number. Of one with a fault,
# which is a number out of range, there are its size and what it sets.
STATEMENTS = [
    ("j .-16", "Jal 0 0 0 0 to . -16", None),
    ("beq a0, a1, x", "Beq 0 10 11 0 to x 0", None),
    ("cjal cra, 8", "Jal 1 0 0 0 to - 8", None),
    ("la a0, x + 1", "la 10 x 1", None),
    ("cla ca0, 5", "cla 10 - 5", None),
    (".pages 1", "pages 1", None),
    (".pages 65536", "pages 65536", None),
    (".mode 0", "mode 0", None),
    (".mode 1", "mode 1", None),
    (".entry x", "entry x 0", None),
    (".org 0", "org 0", None),
    (".org 18446744073709551615", "org 18446744073709551615", None),
    (".align 0", "align 0", None),
    (".align 12", "align 12", None),
    (".zero 0", "zero 0", None),
    (".zero 268435456", "zero 268435456", None),
    (".byte 255, -128", values(1, "255, -128"), None),
    (".half 65535, -32768", values(2, "65535, -32768"), None),
    (".word 4294967295, -2147483648", values(4, "4294967295, -2147483648"), None),
    (".dword 18446744073709551615,x", values(8, "18446744073709551615,x"), None),
    (".ascii \"\"", text(""), None),
    (".ascii \"a#b\" # c", text("a#b"), None),
    (".ascii \"\\n\\0\\\\\\\"#\"#", text("\\n\\0\\\\\\\"#"), None),
    (".ascii \"a\tb\rc\"\r", text("a\tb\rc"), None),
    (".cap 18446744073709551615, 1, 65535, 1", capability("18446744073709551615, 1, 65535, 1"), None),
    (".cap 0,0,0,0", capability("0,0,0,0"), None),
    (".cap . + 8, y, y - 1, z", capability(". + 8, y, y - 1, z"), None),
    (".cap x, y, 0x17, 0", capability("x, y, 0x17, 0"), None),
    (".cap 18446744073709551615, 18446744073709551615, 65535, 1", inexact("18446744073709551615, 18446744073709551615"), None),
    (".cap x, . + 8, y - 1, z", inexact("x, . + 8"), None),
    (".cap x, 0, 65536, 0", "takes 16", "A3"),
    (".pages 0", "sets pages", "A3"),
    (".mode 2", "sets mode", "A3"),
    (".entry 18446744073709551616", "sets entry", "A3"),
    ("la a0, 18446744073709551616", "takes 8", "A3"),
    ("cla ca0, 18446744073709551616", "takes 8", "A3"),
    ("addi a0, a1, 2048", "takes 4", "A3"),
    ("j x + 18446744073709551616", "takes 4", "A3"),
    (".byte 256", "takes 1", "A3"),
    (".half 65536, 0", "takes 4", "A3"),
    (".org -1", None, "A3"),
    (".align 13", None, "A3"),
    (".zero 268435457", None, "A3"),
    ("", None, None),
    (" \t\r", None, None),
    ("# nop", None, None),
]

# Lines with their labels.
LABELS = [
    ("x: nop", "x"),
    (" _.9a:", "_.9a"),
    (".x:nop", ".x"),
    ("x: bogus", "x"),
    ("x: add a0", "x"),
    (".: nop", None),
    ("x : nop", None),
    ("9x: nop", None),
    (".ascii \":\"", None),
]

# Bytes that are no ASCII of a text.
CONTROL = (0, 8, 11, 12, 14, 31, 127, 128, 255)


def fault(line, code):
    return f"fault {quoted(line)} => {code or '-'}"


def cases():
    yield "# statement LINE => kind and operands | fault: of an instruction its row, rd, rs1, rs2 and immediate; of a line with a fault how"
    yield "# many bytes it takes, or what it sets"
    yield from (statement(line, f"{row} {rd} {rs1} {rs2} {imm:x}", None) for line, row, rd, rs1, rs2, imm in INSTRUCTIONS)
    yield from (statement(*row) for row in STATEMENTS)
    yield from (statement(line, None, "A2") for line in BOTH)
    yield "# fault LINE => code"
    for code, lines in (("A1", A1), ("A2", A2), ("A3", A3)):
        yield from (fault(line, code) for line in lines)
    yield "# a line is 255 bytes of ASCII"
    for count, code in ((256, "A9"), (255, None)):
        yield fault(count * b" ", code)
        yield fault((count - 1) * b" " + b"\r", code)
    yield from (fault(255 * b" " + bytes([byte]), "A8") for byte in CONTROL)
    yield fault(b"j x-" + 251 * b"9", "A3")
    yield "# label LINE => label"
    yield from (f"label {quoted(line)} => {label or '-'}" for line, label in LABELS)
    yield "# expression TEXT => name and number, or fault"
    yield from (f"expression {quoted(text)} => {told}" for text, told in EXPRESSIONS + [(255 * "9", "A3")])
    yield "# piece TEXT => what stands before the first comma, and what after it"
    yield f"piece {quoted(' a b ,, c')} => {quoted('a b')} {quoted(', c')}"
    yield f"piece {quoted(' c' + chr(9))} => {quoted('c')} -"


def files():
    yield "lines.txt", cases()
