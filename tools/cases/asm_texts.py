"""Texts of the assembly language: the words that they mean, the sections and symbols that they make, and their faults.

Words are from GNU as and from the manuals' tables, answers from the language's rules.
"""

from cases.quoting import quoted

# What a text assembles to: the first section's bytes are these words, lowest byte first.
PROGRAMS = [
    (
        "start:\nlui a1, 0x10000\naddi a0, zero, 65\nsb a0, 0(a1)\nsd zero, -8(a1)\nld a0, 16(a1)\nadd t6, s0, a7\n",
        [0x1000_05b7, 0x0410_0513, 0x00a5_8023, 0xfe05_bc23, 0x0105_b503, 0x0114_0fb3],
    ),
    (
        "srai a0, a1, 63\nsraiw a0, a1, 31\nauipc a0, 0xfffff\njalr ra, -4(a0)\ncsrrw a0, mscratch, a1\n"
        "csrrsi zero, 0x300, 8\necall\nmret",
        [0x43f5_d513, 0x41f5_d51b, 0xffff_f517, 0xffc5_00e7, 0x3405_9573, 0x3004_6073, 0x73, 0x3020_0073],
    ),
    (
        "start: nop\nbeq a0, zero, start\nback: jal ra, ahead\nnop\nli a0, -2048\nmv a0, a1\nahead: j back\nret\nfence",
        [0x13, 0xfe05_0ee3, 0x0100_00ef, 0x13, 0x8000_0513, 0x0005_8513, 0xff1f_f06f, 0x8067, 0x0ff0_000f],
    ),
    ("beq a0, a1, .+16", [0x00b5_0863]),
    ("beq a0, a1, .-16", [0xfeb5_08e3]),
    ("beq a0, a1, .+2048\r\n", [0x00b5_00e3]),
    ("cincoffset ca0, ca0, a1\n", [0x22b5_055b]),
    ("la a0, 0x80001800", [0x0000_2517, 0x8005_0513]),
    ("  cla ca0 , 0x80001800 # a capability", [0x0000_2517, 0x8005_155b]),
    (
        ".byte 0x21, -1, 255, -128\n.half 0x4321, -2\n.word x, x-0x80000000\nx: .dword -1",
        [0x80ff_ff21, 0xfffe_4321, 0x8000_0010, 0x10, 0xffff_ffff, 0xffff_ffff],
    ),
    (".ascii \"a#\\n\\0\\\\\\\"\" # text\n.zero 1\n.align 2\n.zero 0\n.word .+1", [0x000a_2361, 0x0000_225c, 0x8000_0009]),
    ("beq a0, a1, .+4094\nbeq a0, a1, .-4096\nj .+1048574\nj .-1048576", [0x7eb5_0fe3, 0x80b5_0063, 0x7fff_f06f, 0x8000_006f]),
]

# The faults of texts.
FAULTS = [
    # Each alone.
    ("foo", 1, "A1"),
    ("nop\n\nNOP\n", 3, "A1"),
    ("addi a0, a0", 1, "A2"),
    ("addi a0, a0, 2048", 1, "A3"),
    ("x: nop\nx: nop", 2, "A4"),
    ("beq a0, a1, nowhere", 1, "A5"),
    (".byte 1, nowhere", 1, "A5"),
    ("beq a0, a1, .+4096", 1, "A6"),
    ("beq a0, a1, .-4098", 1, "A6"),
    ("beq a0, a1, .+1", 1, "A6"),
    ("j .+1048576", 1, "A6"),
    ("la a0, -1", 1, "A6"),
    ("la a0, 0xfffff800", 1, "A6"),
    (".entry 0x80000002", 1, "A6"),
    (".entry 0x80001000", 1, "A6"),
    (".entry 0", 1, "A6"),
    (".entry -4", 1, "A6"),
    (".org 0\nnop", 2, "A7"),
    (".org 0x7fffffff\n.half 1", 2, "A7"),
    (".org 0x80001000\n.byte 1", 2, "A7"),
    (".zero 4097", 1, "A7"),
    (".byte 1\nnop", 2, "A7"),
    ("nop\n.org 0x80000003\n.byte 1", 3, "A7"),
    (".org 0x80000004\nnop\n.org 0x80000000\nnop\nnop", 5, "A7"),
    (".org 0xffffffffffffffff\n.zero 1", 2, "A7"),
    ("nop # \x7f", 1, "A8"),
    # Repeated or late directives.
    (".pages 1\n.pages 1", 2, "A2"),
    (".mode 0\n.mode 0", 2, "A2"),
    (".entry 0x80000000\n.entry 0x80000000", 2, "A2"),
    ("nop\n.pages 1", 2, "A2"),
    ("nop\n.mode 1", 2, "A2"),
    (".zero 0\n.pages 1", 2, "A2"),
    (".align 0\n.mode 0", 2, "A2"),
    (".org 0x80000000\n.mode 0", 2, "A2"),
    (".entry 0x80000000\n.mode 0", 2, "A2"),
    # Two on a line.
    ("x:\nx: foo", 2, "A4"),
    ("x:\nx: addi", 2, "A4"),
    ("x:\nx: addi a0, a0, 5000", 2, "A4"),
    ("x:\nx: j nowhere", 2, "A4"),
    (".pages 1\n.pages 65537", 2, "A2"),
    ("addi a0, 5000", 1, "A2"),
    ("addi 5000, a0, 5000", 1, "A2"),
    ("addi a0, 5, 5000", 1, "A2"),
    (".byte nowhere, 256", 1, "A3"),
    ("x: .byte nowhere, x", 1, "A3"),
    ("x: .byte x, nowhere", 1, "A3"),
    ("x: .entry x+0xffffffffffffffff", 1, "A3"),
    (".org 0xffffffffffffffff\nx: .align 12\n.dword x, nowhere\ny:\n.dword y", 2, "A7"),
    (".byte 1\nj nowhere", 2, "A5"),
    (".byte 1\nj .+1", 2, "A6"),
    # On two lines.
    ("beq a0, a1, nowhere\nfoo", 1, "A5"),
    ("j .+1\nx: nop\nx: nop", 1, "A6"),
    (".org 0\nnop\nfoo", 2, "A7"),
    (".: nop", 1, "A1"),
    # What a faulty line defines counts.
    ("foo\nj x\nx: foo", 1, "A1"),
    ("x: .zero 268435456\nnop\nfoo", 1, "A7"),
    ("j x\nx: foo", 2, "A1"),
]

# Texts whose last line has two faults, in both orders of their causes, and the code that is told by the order of the language's rules.
PAIRS = [
    # A byte that is not ASCII comes first.
    ("\x7f x: foo", "A8"),
    ("x:\nx: nop # \x7f", "A8"),
    ("foo \x7f", "A8"),
    ("\x7f addi a0", "A8"),
    ("addi a0 # \x7f", "A8"),
    ("addi a0, a0, 5000 # \x7f", "A8"),
    ("\x7f addi a0, a0, 5000", "A8"),
    ("j nowhere # \x7f", "A8"),
    ("j .+1 # \x7f", "A8"),
    (".byte 1\nnop # \x7f", "A8"),
    # A label that is there already, before what follows it.
    ("x:\nx: foo", "A4"),
    ("x:\nx: addi a0", "A4"),
    ("x:\nx: addi a0, a0, 5000", "A4"),
    ("x:\nx: j nowhere", "A4"),
    ("x:\nx: j .+1", "A4"),
    (".byte 1\nx:\nx: nop", "A4"),
    # An unknown mnemonic.
    (".byte 1\nfoo", "A1"),
    # Operands of another form, before and after what else is wrong.
    ("addi 5, a0, 5000", "A2"),
    ("lw a0, 5000(5)", "A2"),
    (".byte 256, +", "A2"),
    (".byte +, 256", "A2"),
    (".byte nowhere, +", "A2"),
    (".byte +, nowhere", "A2"),
    ("beq +, a0, nowhere", "A2"),
    ("beq a0, +, .+1", "A2"),
    (".entry 0x80000000\n.entry 4", "A2"),
    (".byte 1\naddi a0", "A2"),
    ("nop\n.pages 65537", "A2"),
    # A value out of range.
    (".byte 256, nowhere", "A3"),
    (".byte nowhere, 256", "A3"),
    (".byte 1\naddi a0, a0, 5000", "A3"),
    (".org 0\n.byte 256", "A3"),
    # A name that is unknown.
    (".byte 1\nj nowhere", "A5"),
    (".org 0\n.byte nowhere", "A5"),
    # A target out of range.
    (".byte 1\nj .+1", "A6"),
]

# Statements with each fault but A8, after lines that it needs.
FAULTY = [
    ("", "foo"),
    ("", "addi a0"),
    ("", "addi a0, a0, 5000"),
    ("x:\n", "x:"),
    ("", "j nowhere"),
    ("", "j .+1"),
    (".byte 1\n", "nop"),
]

# The faults of texts with .cap.
CAPABILITIES = [
    # Operands out of range, and a name that is unknown.
    ("x: .cap x, 1, x, 0", 1, "A3"),
    ("x: .cap x, 1, 0, x", 1, "A3"),
    (".cap .-0x80000001, 0, 0, 0", 1, "A3"),
    (".cap 0, .-0x80000001, 0, 0", 1, "A3"),
    (".cap 0, 0, .-0x7fff0000, 0", 1, "A3"),
    (".cap 0, 0, 0, .-0x7ffffffe", 1, "A3"),
    (".cap nowhere, 0, 0, 0", 1, "A5"),
    (".cap 0, nowhere, 0, 0", 1, "A5"),
    (".cap 0, 0, nowhere, 0", 1, "A5"),
    (".cap 0, 0, 0, nowhere", 1, "A5"),
    (".cap nowhere, 0, 65536, 0", 1, "A3"),
    ("x: .cap nowhere, 0, x, 0", 1, "A3"),
    # At no multiple of 16, over other bytes, outside RAM.
    (".byte 1\n.cap 0, 0, 0, 0", 2, "A7"),
    ("nop\nnop\n.cap 0, 0, 0, 0", 3, "A7"),
    (".org 0x80000008\n.byte 1\n.org 0x80000000\n.cap 0, 0, 0, 0", 4, "A7"),
    (".cap 0, 0, 0, 0\n.org 0x8000000f\n.byte 1", 3, "A7"),
    (".cap 0, 0, 0, 0\n.org 0x80000000\n.cap 0, 0, 0, 0", 3, "A7"),
    (".org 0x80001000\n.cap 0, 0, 0, 0", 2, "A7"),
    (".org 0x7ffffff0\n.cap 0, 0, 0, 0", 2, "A7"),
    (".org 0xfffffffffffffff0\n.cap 0, 0, 0, 0", 2, "A7"),
    ("j nowhere\n.cap 0, 0, 0, 0", 1, "A5"),
    (".byte 1\n.cap nowhere, 0, 0, 0", 2, "A5"),
    # Bounds that are not exact, or end above 2^64, after all other faults.
    (".cap 0x80001001, 4096, 0, 0", 1, "A11"),
    (".cap 1, 8191, 0, 0", 1, "A11"),
    (".cap 0xffffffffffffffff, 2, 0, 0", 1, "A11"),
    (".cap 1, 0xffffffffffffffff, 0, 0", 1, "A11"),
    (".cap 0xffffffffffffffff, 0xffffffffffffffff, 0, 0", 1, "A11"),
    (".cap 0, 0xffffffffffffffff, 0, 0", 1, "A11"),
    ("x: .cap x + 1, 4096, 0, 0", 1, "A11"),
    ("nop\n.cap 0x80001001, 4096, 0, 0", 2, "A7"),
    (".cap 0x80001001, 4096, 0, 2", 1, "A3"),
    (".cap 0x80001001, 4096, 0, nowhere", 1, "A5"),
    ("x:\nx: .cap 0x80001001, 4096, 0, 0", 2, "A4"),
    # It begins what is placed.
    (".cap 0, 0, 0, 0\n.mode 1", 2, "A2"),
    # Its 16 bytes are taken under every fault but A2, A8 and A9: a jump over them does not reach.
    ("j x\n.align 4\n.cap 0, 0, 65536, 0\n.zero 1048550\nx:", 1, "A6"),
    ("j x\n.align 4\n.cap nowhere, 0, 0, 0\n.zero 1048550\nx:", 1, "A6"),
    ("j x\n.cap 0, 0, 0, 0\n.zero 1048560\nx:", 1, "A6"),
    ("j x\n.align 4\n.cap 0x80001001, 4096, 0, 0\n.zero 1048550\nx:", 1, "A6"),
    ("y: j x\n.align 4\ny: .cap 0, 0, 0, 0\n.zero 1048550\nx:", 1, "A6"),
    ("j x\n.align 4\n.cap 0, 0, 0\n.zero 1048550\nx:", 3, "A2"),
    ("j x\n.align 4\n.cap 0, 0, 0, 0 # \x7f\n.zero 1048550\nx:", 3, "A8"),
    ("j x\n.align 4\n.cap 0, 0, 0, 0" + 255 * " " + "\n.zero 1048550\nx:", 3, "A9"),
]

# 1024 capabilities.
MOST = ".pages 5\n" + 1024 * ".cap 0,0,0,0\n"

# Texts with capabilities: the sections, the symbols, the capabilities as place, base, length, permissions and flag.
PUT = [
    (".mode 1\n.org 0x80000100\n.cap 0x80001000, 4095, 65535, 0", [(0x8000_0100, 16)], {},
     [(0x8000_0100, 0x8000_1000, 4095, 0xffff, 0)], {"mode": 1}),
    ("x: .cap y, 16, 0x17, 1\ny: .zero 16\nz:", [(0x8000_0000, 32)], {"x": 0x8000_0000, "y": 0x8000_0010, "z": 0x8000_0020},
     [(0x8000_0000, 0x8000_0010, 16, 0x17, 1)], {}),
    (".org 0x80000020\n.cap 2, 0, 0, 0\n.cap 3, 0, 0, 0\n.org 0x80000010\n.cap 1, 0, 0, 0\n.org 0x80000ff0\n.cap 4, 0, 0, 0\n"
     ".org 0x80000000\n.cap 0, 0, 0, 0",
     [(0x8000_0000, 16), (0x8000_0010, 16), (0x8000_0020, 32), (0x8000_0ff0, 16)], {},
     [(0x8000_0000 + place, base, 0, 0, 0) for place, base in ((0, 0), (16, 1), (32, 2), (48, 3), (0xff0, 4))], {}),
    (".cap 0xffffffffffffffff, 1, 0, 0\n.cap 0xffffffffffffffff, 0, 0, 0\n.cap 0, 4095, 0, 0\n.cap 1, 4095, 0, 0\n.cap 0, 4096, 0, 0",
     [(0x8000_0000, 80)], {},
     [(0x8000_0000 + place, base, length, 0, 0) for place, base, length in
      ((0, 2**64 - 1, 1), (16, 2**64 - 1, 0), (32, 0, 4095), (48, 1, 4095), (64, 0, 4096))], {}),
    (".pages 4097", [], {}, [], {"pages": 4097}),
    (".pages 65536\n.org 0x8fffffff\n.byte 1", [(0x8fff_ffff, 1)], {}, [], {"pages": 65536}),
    (".pages 65536\n.entry 0x8ffffffc\n.org 0x8ffffff0\n.cap 0, 0, 0, 0", [(0x8fff_fff0, 16)], {}, [(0x8fff_fff0, 0, 0, 0, 0)],
     {"pages": 65536, "entry": 0x8fff_fffc}),
]

# Texts of one line that is too long, or of one that is as long as a line may be; a byte of 128 or more comes first.
LENGTHS = [
    (255 * b" ", None),
    (256 * b" ", "A9"),
    (3 * b" " + b"\x80" + 252 * b" ", "A8"),
]

# Texts with what they make: pages, entry and mode; the sections, as where they begin and how many bytes they have; and the symbols.
SECTIONS = [
    ("", [], {}),
    ("\n \t\r\n# nothing\nx:\n.zero 0\n.align 12", [], {"x": 0x8000_0000}),
    (".zero 4096", [(0x8000_0000, 4096)], {}),
    (".org 0x80000100\nnop\n.org 0x80000000\nnop\nnop", [(0x8000_0000, 8), (0x8000_0100, 4)], {}),
    ("nop\n.org 0x80000004\nnop", [(0x8000_0000, 4), (0x8000_0004, 4)], {}),
    (".org 0x80000004\nnop\n.org 0x80000000\nnop", [(0x8000_0000, 4), (0x8000_0004, 4)], {}),
    ("nop\n.org 0x80000002\n.org 0x80000004\nnop", [(0x8000_0000, 4), (0x8000_0004, 4)], {}),
    (".org 0x80000ffc\nnop", [(0x8000_0ffc, 4)], {}),
    (".byte 1\n.align 3\nnop\n.org 0\n.zero 0", [(0x8000_0000, 12)], {}),
    ("nop", [(0x8000_0000, 4)], {}),
]

# 64 sections, and a 65th that has no place.
MANY = "".join(f".org {0x8000_0800 - 8 * number}\nnop\n.org 0\n" for number in range(64))
TOO_MANY = MANY + ".org 0x80000000\n.zero 0\n.byte 1\n"


def fault(text, code, line):
    return f"{quoted(text)} => {code} {line}"


def last_line(text):
    return text.count("\n") + 1


def assembled(text, words):
    """A case of the words in a text's first section."""
    return f"{quoted(text)} => {' '.join(f'{word:08x}' for word in words) or 'no words'}"


def assembly(text, sections, symbols, pages=1, entry=0x8000_0000, mode=0, capabilities=None):
    """A case of what a text makes: an image of version 1 where there are no capabilities, and else of version 2."""
    parts = [f"{pages} {entry:x} {mode}", " ".join(f"{at:x}+{count}" for at, count in sections) or "-",
             " ".join(f"{name}={value:x}" for name, value in symbols.items()) or "-"]
    if capabilities is not None:
        put = [f"{at:x}:{base:x}+{length:x},{perms:x},{flag}" for at, base, length, perms, flag in capabilities]
        parts.append(" ".join(["version 2"] + put))
    return f"{quoted(text)} => {'; '.join(parts)}"


def faults():
    yield "# a text => the code of its fault, and the line"
    yield "# each alone, repeated and late directives, two on a line, two on two lines, and what a faulty line defines"
    yield from (fault(text, code, line) for text, line, code in FAULTS)
    yield "# of two faults on the last line the first is told"
    yield from (fault(text, code, last_line(text)) for text, code in PAIRS)
    yield "# a line that is too long is told before what else is wrong with it"
    for before, line in FAULTY:
        yield fault(before + 255 * " " + line, "A9", last_line(before))
        yield fault(before + line + 255 * " ", "A9", last_line(before))
    for text, code in LENGTHS:
        yield assembled(text, []) if code is None else fault(text, code, 1)
    yield fault(TOO_MANY, "A7", 195)
    yield "# capabilities"
    yield from (fault(text, code, line) for text, line, code in CAPABILITIES)
    yield fault(MOST + ".cap 0,0,0,0", "A7", 1026)
    yield fault(MOST + "foo", "A1", 1026)


def assemblies():
    yield "# a text => pages, entry, mode; each section as its place and its number of bytes; each symbol with its value; in version 2 each"
    yield "# capability as its place, its base and length, its permissions and its flag"
    yield from (assembly(*row) for row in SECTIONS)
    yield assembly(".pages 4096\n.org 0x80ffffff\n.byte 1", [(0x80ff_ffff, 1)], {}, pages=4096)
    yield assembly(MANY, [(0x8000_0800 - 8 * number, 4) for number in reversed(range(64))], {})
    yield assembly("b:\n.pages 2\n.mode 1\n.entry a\nnop\n\ta: nop\n.c_1:\n_d: .zero 2\nend:", [(0x8000_0000, 10)],
                   {"b": 0x8000_0000, "a": 0x8000_0004, ".c_1": 0x8000_0008, "_d": 0x8000_0008, "end": 0x8000_000a},
                   pages=2, entry=0x8000_0004, mode=1)
    for text, sections, symbols, capabilities, others in PUT:
        yield assembly(text, sections, symbols, capabilities=capabilities, **others)
    # a label that blanks part from its colon, and two labels
    yield fault("b:\n.pages 2\n.mode 1\n.entry a\nnop\n a : nop\n\ta: nop\n.c_1: _d: nop\nend:", "A1", 6)


# A text that sends `A` and halts with 0, and one of one row.
FIRST = "lui a1, 0x10000\naddi a0, zero, 65\nsb a0, 0(a1)\nlui a1, 0x100\nsd zero, 0(a1)\n"
ONE = "cincoffset ca0, ca0, a1\n"


def image_file(words):
    """The file of an image of one page that begins with these words, in integer mode."""
    numbers = [(1, 4), (1, 4), (0x8000_0000, 8), (1, 4), (0, 4), (0x8000_0000, 8), (4 * len(words), 8)]
    return b"CHERIIMG" + b"".join(value.to_bytes(size, "little") for value, size in numbers + [(word, 4) for word in words])


# A text with a capability in RAM, and its file: header, section, count of capabilities, capability.
WITH_CAPABILITY = ".mode 1\n.org 0x80000100\n.cap 0x80001000, 4095, 65535, 0\n"
ITS_FILE = ("4348455249494d47" "02000000" "01000000" "0000008000000000" "01000000" "01000000"
            "0001008000000000" "1000000000000000" "00000000000000000000000000000000"
            "01000000" "0001008000000000" "0010008000000000" "ff0f000000000000" "ffff0000" "00000000")


def image_files():
    yield "# a text, and how many bytes of its image's file are read, with zeros after its end => the file of what is read, or a fault"
    for text, words in [(FIRST, [0x1000_05b7, 0x0410_0513, 0x00a5_8023, 0x0010_05b7, 0x0005_b023]), (ONE, [0x22b5_055b])]:
        file = image_file(words)
        yield f"{quoted(text)} {len(file)} => {file.hex()}"
    for count, code in [(51, "L8"), (31, "L1"), (53, "L9")]:
        yield f"{quoted(ONE)} {count} => {code}"
    yield f"{quoted(WITH_CAPABILITY)} 100 => {ITS_FILE}"
    for count, code in [(99, "L8"), (68, "L8"), (101, "L9")]:
        yield f"{quoted(WITH_CAPABILITY)} {count} => {code}"


def files():
    yield "faults.txt", faults()
    yield "assemblies.txt", assemblies()
    yield "image_files.txt", image_files()
