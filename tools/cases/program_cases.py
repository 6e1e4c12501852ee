"""Command lines of the program with files and streams of the tests: each row of its table of statuses, and each order of its faults.

The statuses, the order of faults and the texts are those of the program's description; images and words are made here, field by field.
"""

import re

from cases.bounds_texts import length_text, text as bounds_text, word_text
from cases.call_traces import call_traces
from cases.program_lines import BAD, FILE, LISTED, NO_IMAGE, REPLY, TEXT, UNWRITTEN, case, cut_short, fails, file_of, is_directory
from cases.program_lines import joined, missing, no_label, refused, unread
from cases.program_runs import ended_otherwise, ends, labelled_runs, not_begun, profiles, runs_without_table, traces
from cases.program_sessions import debugged, reached, replayed, tables_refused
from cases.program_sources import sources
from cases.quoting import quoted
from model.devices import RAM
from model.images import FIRST, GRANTED, MOST, MOST_END, file_v2, header, section
from model.words import ONES, ROOT_HIGH

# Texts with a fault in their last line or the one that has marks: its text, the lines, with marks around what stands over the carets,
# and what stands after those.
PAST = "(1 page; see .pages)"
NUMBERS = "-9223372036854775808 to 18446744073709551615"
NO_MNEMONIC, OPERANDS, OUT_OF_RANGE = "A1 unknown mnemonic", "A2 operands", "A3 immediate out of range"
TWICE, UNKNOWN, FAR = "A4 label twice", "A5 label unknown", "A6 target out of range"
PLACE, NOT_EXACT = "A7 place", "A11 capability not exact"
UNDERLINED = [
    (OUT_OF_RANGE, ["addi a0, a0, «4096»"], "-2048 to 2047"),
    (UNKNOWN, ["j «lop»"], ""),
    (TWICE, ["x: nop", "«x»: nop"], ""),
    (OPERANDS, ["addi «a0»"], "addi takes rd, rs1, imm"),
    (NO_MNEMONIC, ["nop", "  here: «frob» a0"], ""),
    (NO_MNEMONIC, ["«nops»"], ""),
    (OPERANDS, ["ecall «a0»"], "ecall takes no operands"),
    (OPERANDS, ["«jalr»"], "jalr takes rd, imm(rs1)"),
    (OPERANDS, ["sc.cap «a0»"], "sc.cap takes cs2, (cs1)"),
    (OPERANDS, ["la «a0»"], "la takes rd, expression"),
    (OPERANDS, [".cap «0, 1, 0»"], ".cap takes base, length, permissions, flag"),
    (OPERANDS, [".cap 0, «1x», 0, 2"], ".cap takes base, length, permissions, flag"),
    (OPERANDS, ["\taddi\ta0,\t«b0»,\t5000\t# far"], "addi takes rd, rs1, imm"),
    (OPERANDS, ["l:addi a0, «», 1"], "addi takes rd, rs1, imm"),
    (OPERANDS, ["ld a0, «a1»"], "ld takes rd, imm(rs1)"),
    (OPERANDS, ["li a0, «a1», 1"], "li takes rd, imm"),
    (OPERANDS, ["li «a0, 1, 1»"], "li takes rd, imm"),
    (OPERANDS, [".byte 1, «2 3»  "], ".byte takes one expression or more"),
    (OPERANDS, ["«.half»"], ".half takes one expression or more"),
    (OPERANDS, [".ascii «a, b»"], ".ascii takes a text in quotes"),
    (OPERANDS, [".align «x»"], ".align takes a number"),
    (OPERANDS, [".entry «1 2»"], ".entry takes an expression"),
    (OPERANDS, [".pages 2", "«.pages» 3"], ".pages stands once, before other statements"),
    (OPERANDS, [".entry 0x80000000", "«.entry» 0x80000000"], ".entry stands once"),
    (OUT_OF_RANGE, [".byte 1, «256»"], "-128 to 255"),
    (OUT_OF_RANGE, [".half x, «-32769», 65536"], "-32768 to 65535"),
    (OUT_OF_RANGE, [".word «4294967296»"], "-2147483648 to 4294967295"),
    (OUT_OF_RANGE, ["x: .byte 1, «x»"], f"is {0x80000000} (-128 to 255)"),
    (OUT_OF_RANGE, [f"x: .dword «x + {ONES}»"], NUMBERS),
    (OUT_OF_RANGE, [".pages «65537»"], "1 to 65536"),
    (OUT_OF_RANGE, [".mode «2»"], "0 to 1"),
    (OUT_OF_RANGE, [".org «-1»"], f"0 to {ONES}"),
    (OUT_OF_RANGE, [".align «13»"], "0 to 12"),
    (OUT_OF_RANGE, [".zero «268435457»"], "0 to 268435456"),
    (OUT_OF_RANGE, [".cap 0, 1, «70000», 0"], "0 to 65535"),
    (OUT_OF_RANGE, [".cap 0, 1, 0, «2»"], "0 to 1"),
    (OUT_OF_RANGE, ["lw a0, «4096 (a1)»"], "-2048 to 2047"),
    (OUT_OF_RANGE, ["slli a0, a0, «64»"], "0 to 63"),
    (OUT_OF_RANGE, ["lui a0, «0x100000»"], "0 to 1048575"),
    (OUT_OF_RANGE, ["csrrwi a0, mscratch, «32»"], "0 to 31"),
    (OUT_OF_RANGE, ["csrrw a0, «4096», a0"], "0 to 4095"),
    (OUT_OF_RANGE, [f"j «{10 ** 20}»"], NUMBERS),
    (UNKNOWN, ["x: .dword 1, x, «lop + 4», lup"], ""),
    (UNKNOWN, ["x: .cap x, «len», 0, 0"], ""),
    (UNKNOWN, ["beq a0, a1, «lop»"], ""),
    (FAR, ["j «.+3»"], f"3 bytes away (even, {-2 ** 20} to {2 ** 20 - 2})"),
    (FAR, ["beq a0, a1, «.+5000»"], "5000 bytes away (even, -4096 to 4094)"),
    (FAR, [f"la a0, «.+{2 ** 32}»"], f"{2 ** 32} bytes away ({-2 ** 31} to {2 ** 31 - 2049})"),
    (FAR, [".entry «0x80000002»"], f"0x0000000080000002 is no multiple of 4 in RAM {PAST}"),
    (PLACE, ["«.zero» 5000"], f"from 0x0000000080000000 on: past the end of RAM {PAST}"),
    (PLACE, [".org 0x1000", "«nop»"], "from 0x0000000000001000 on: below RAM"),
    (PLACE, ["nop", ".org 0x80000000", "x: «nop» # again"], "from 0x0000000080000000 on: where an earlier line places bytes"),
    (PLACE, [".byte 1", "«nop»"], "from 0x0000000080000001 on: an instruction at no multiple of 4"),
    (PLACE, ["nop", "«.cap» 0, 1, 0, 0"], "from 0x0000000080000004 on: a capability at no multiple of 16"),
    (NOT_EXACT, [".cap «0x80000001, 65537, 0, 0»"], "from 0x0000000080000001 on, 65537 bytes would be rounded"),
    (NOT_EXACT, [f".cap «{ONES}, 2, 0, 0»"], "from 0xffffffffffffffff on, 2 bytes end above 2^64"),
]


# What the authors of some of these lines probably meant.
COLON = "a label has a colon after it"
IN_REGISTER = "put the number into a register, and write"
HINTS = {
    "foo": f"{COLON}: foo:", "frob": f"{COLON}: frob:", "x: frob": f"{COLON}: frob:",
    "ecall a0": "write ecall",
    "addi a0, a0, 4096": f"{IN_REGISTER} add",
    "csrrwi a0, mscratch, 32": f"{IN_REGISTER} csrrw",
    "nops": "did you mean nop?",
    "ld a0, a1": "write ld a0, 0(a1)",
    ".byte 1, 2 3": "write .byte 1, 2, 3",
    ".ascii a, b": "a text stands in double quotes",
    ".byte 1, 256": "write .half 1, 256",
    ".half x, -32769, 65536": "write .word x, -32769, 65536",
    ".word 4294967296": "write .dword 4294967296",
    "lw a0, 4096 (a1)": "add the number, or a part of it, to the register before",
    "lui a0, 0x100000": "it takes bits 31 to 12: write 0x100",
}


def shown(base, length, address):
    """What the command `bounds` sends."""
    return joined(bounds_text(base, length, address))


def flat_image(data, pages=256, at=RAM, entry=RAM, mode=0, version=1):
    """The file of an image of one section, with no capability."""
    file = header(pages, entry, 1, mode) + section(at, data)
    if version == 1:
        return file
    return file[:8] + (2).to_bytes(4, "little") + file[12:] + (0).to_bytes(4, "little")


def images():
    yield "# an image of the bytes of a file: at RAM's beginning in 256 pages or as many more as hold it, or where the options say"
    flat = b"\x13\0\0\0\x93"
    file = f"flat {quoted(flat)}"
    opened = "open flat, make out.img"
    yield case("image flat out.img", [file], 0, opened, made=flat_image(flat))
    yield case("image flat out.img --pages 2 --mode 1", [file], 0, opened, made=flat_image(flat, 2, mode=1))
    yield case("image flat out.img --pages 1", [file], 0, opened, made=flat_image(flat, 1))
    last = RAM + 256 * 4096 - 4
    yield case(f"image flat out.img --at {last - 1} --entry {RAM}", [file], 0, opened, made=flat_image(flat, 256, last - 1))
    yield case(f"image flat out.img --at {last:#x}", [file], 0, opened, made=flat_image(flat, 257, last, last))
    yield case("image flat out.img --at 2147487740 --entry 0x80000008 --pages 3", [file], 0, opened,
               made=flat_image(flat, 3, RAM + 4092, RAM + 8))
    yield case("image flat out.img --pages 4097", [file], 0, opened, made=flat_image(flat, 4097, version=2))
    yield case("image flat out.img", ['flat ""'], 0, opened, made=flat_image(b""))
    yield "# what makes no image is refused before a file is made"
    refusals = [("--pages 0", "L4 pages, entry or mode"), ("--pages 65537", "L4 pages, entry or mode"),
                ("--pages 18446744073709551615", "L4 pages, entry or mode"), ("--mode 2", "L4 pages, entry or mode"),
                ("--entry 2", "L4 pages, entry or mode"), ("--at 0x80001000 --entry 0x80000000 --pages 1", "L6 section outside RAM"),
                ("--at 0 --entry 0x80000000", "L6 section outside RAM"),
                ("--at 18446744073709551615 --entry 0x80000000", "L6 section outside RAM")]
    for options, text in refusals:
        yield fails(f"image flat out.img {options}", [file], "open flat", f"cherisim: {text}\n  flat\n")
    yield "# of a file that is larger than RAM one byte more than RAM has room for is read: the call after it, which fails, isn't made"
    large = bytes(4098)
    yield fails("image flat out.img --pages 1", [f"flat 4097 {quoted(large)}"], "open flat", "cherisim: L6 section outside RAM\n  flat\n")
    yield fails("image flat out.img --pages 1", [f"flat 4096 {quoted(large)}"], "open flat", unread("flat"))
    yield "# an ELF is refused before the layout is looked at, unless its bytes are to be taken as they stand"
    elf = b"\x7fELF\x02\x01\x01" + bytes(13)
    told = ("cherisim: ELF, not flat bytes\n  elf\n"
            "  hint: make flat bytes of it by objcopy -O binary (docs/COMPILED.md); --flat-elf takes its bytes as they stand\n")
    for options in ("", " --at 0", " --pages 65537", " --mode 2 --entry 2"):
        yield fails(f"image elf out.img{options}", [f"elf {quoted(elf)}"], "open elf", told)
    yield fails("image elf out.img", [f"elf {quoted(elf[:4])}"], "open elf", told)
    yield fails("image elf out.img --quiet", [f"elf {quoted(elf)}"], "open elf", "cherisim: ELF, not flat bytes\n")
    yield case("image elf out.img --flat-elf", [f"elf {quoted(elf)}"], 0, "open elf, make out.img", made=flat_image(elf))
    yield fails("image elf out.img --flat-elf --mode 2", [f"elf {quoted(elf)}"], "open elf", "cherisim: L4 pages, entry or mode\n  elf\n")
    yield fails("image elf out.img --pages 0", [f"elf {quoted(elf)}"], "open elf", "cherisim: L4 pages, entry or mode\n  elf\n")
    yield case("image elf out.img", [f"elf {quoted(elf[:3])}"], 0, "open elf, make out.img", made=flat_image(elf[:3]))
    yield case("image elf out.img", [f"elf {quoted(elf[1:])}"], 0, "open elf, make out.img", made=flat_image(elf[1:]))
    yield case("image flat out.img --flat-elf", [file], 0, opened, made=flat_image(flat))
    yield fails("image none out.img", [file], "open none", missing("none"))
    yield fails("image flat out.img", [file, "made 3"], opened, cut_short("out.img"), made=flat_image(flat)[:3])


def parted(lines):
    """The number of the line with marks, what it has before them, between them and after them."""
    number, line = next((number, line) for number, line in enumerate(lines, 1) if "«" in line)
    before, _, rest = line.partition("«")
    part, _, after = rest.partition("»")
    return number, before, part, after


def text_of(lines):
    """The file a.s of lines, without their marks."""
    text = "".join(f"{line}\n" for line in lines)
    return f"a.s {quoted(text.replace('«', '').replace('»', '').encode())}"


def hinted(line):
    """What stands after the fault of a line: its hint, if it has one."""
    return f"  hint: {HINTS[line.strip()]}\n" if line.strip() in HINTS else ""


def underlined(fault, lines, words):
    """What is told of the line with marks: its text, with carets under what stands between them, words after those, and a hint."""
    number, before, part, after = parted(lines)
    front = f"  a.s:{number}: "
    under = " " * len(front) + re.sub("[^\t]", " ", before) + "^" * max(1, len(part))
    line = (before + part + after).rstrip(" \t\r")
    return f"cherisim: line {number}: {fault}\n{front}{line}\n{under}{words and ' ' + words}\n" + hinted(before + part + after)


def faulty_line(number, told):
    """What is told of a line of a.s with a fault, of which its words and what was read stand with a colon between."""
    words, _, read = told.partition(": ")
    return f"cherisim: line {number}: {words}\n  a.s:{number}: {read}\n"


def named():
    yield "# labels: those of a text are written after its image, and a listing shows those of a table"
    yield fails("asm a.s out.img --symbols a.sym", [TEXT], "open a.s, make out.img, make a.sym", missing("a.sym"), made=FIRST)
    table = 't "0000000080000000 start\\n000000008000000C halt\\n"'
    lines = LISTED.splitlines(True)
    yield case("dis first.img --symbols t", [FILE, table], 0, "open first.img, open t",
               "".join(["start:\n", *lines[:3], "halt:\n", *lines[3:]]))
    yield case("dis first.img --symbols t", [FILE, 't ""'], 0, "open first.img, open t", LISTED)
    yield "# a table may be what nm prints, in any order: what is no label there, and what has no address, is passed over"
    nm = quoted(b"000000008000000c T halt\n                 U printf\n0000000080000004 D __global_pointer$\n                 w _\n"
                b"0000000080000000 t start\n0000000080000004 t \n0000000080000000 T begin\n")
    yield case("dis first.img --symbols t", [FILE, f"t {nm}"], 0, "open first.img, open t",
               "".join(["start:\nbegin:\n", *lines[:3], "halt:\n", *lines[3:]]))
    yield case("debug first.img --symbols t", [FILE, f"t {nm}", 'input "mem halt 1\\nmem printf 1"'], 0, "open first.img, open t",
               "000000008000000c: b7\nfault B2\n")
    yield "# in whichever order a table stands, a place is that of the nearest address below, and of an address' names the first; all of"
    yield "# them stand before the word there"
    jumps = file_of("jumps.img", "j .+12; nop; nop; j .-4")
    unsorted = 't "0000000080000008 b\\n0000000080000000 a\\n0000000080000008 c\\n0000000080000010 d\\n0000000080000000 e\\n"'
    yield case("dis jumps.img --symbols t", [jumps, unsorted], 0, "open jumps.img, open t",
               "a:\ne:\n0000000080000000 00c0006f jal zero, .+12 <b+4>\n0000000080000004 00000013 addi zero, zero, 0\n"
               "b:\nc:\n0000000080000008 00000013 addi zero, zero, 0\n000000008000000c ffdff06f jal zero, .-4 <b>\n")
    yield fails("dis first.img --symbols t", [FILE, table.replace(" halt", "  halt")], "open first.img, open t", no_label("t", 2))
    yield fails("dis first.img --symbols none", [FILE], "open first.img, open none", missing("none"))
    yield fails("dis bad.img --symbols none", [BAD], "open bad.img", NO_IMAGE)
    yield from debugged(table)
    yield from replayed()
    yield from reached()
    yield from tables_refused(table)
    yield "# what setting bounds gives"
    yield case("bounds 0x80000000 4097 --address 2147487744", [], 0, sent=shown(0x80000000, 4097, 0x80001000))
    yield case("bounds 18446744073709551615 2", [], 0, sent=shown(ONES, 2, None))
    yield case("bounds 0 1", ["output 0"], 3, told=UNWRITTEN)
    yield "# what an allocator asks of a length, and what a word means"
    yield case("bounds 4097", [], 0, sent=joined(length_text(4097)))
    yield case("bounds 0x1001", ["output 20"], 3, sent=joined(length_text(4097))[:20], told=UNWRITTEN)
    yield case("word 0xffff1ffffc018004 0x80000000", [], 0, sent=joined(word_text(ROOT_HIGH, 0x80000000)))
    yield case("word --memory 0xffff000000000000 0x80000000", [], 0, sent=joined(word_text(ROOT_HIGH, 0x80000000)))
    yield case("word 0 0", ["output 0"], 3, told=UNWRITTEN)
    yield "# what was read of a faulty line stands on a line of its own after the fault, with the file and the line"
    yield from (fails("asm a.s out.img", [text_of(lines)], "open a.s", underlined(fault, lines, words)) for fault, lines,
                words in UNDERLINED)
    yield fails("asm a.s out.img", ['a.s "nop\\x01\\n"'], "open a.s", faulty_line(1, "A8 byte not ASCII: 0x01 at column 4"))
    yield "# carets stand right after a long name and a short one, and where the line's number has two digits"
    for name in ("longer-name.s", "b.s"):
        yield fails(f"asm {name} out.img", [f'{name} "\\tj\\tlop\\n"'], f"open {name}",
                    f"cherisim: line 1: {UNKNOWN}\n  {name}:1: \tj\tlop\n{' ' * (len(name) + 6)}\t \t^^^\n")
    tenth = "nop\\n" * 9 + "foo\\n"
    yield fails("asm a.s out.img", [f'a.s "{tenth}"'], "open a.s", f"cherisim: line 10: {NO_MNEMONIC}\n  a.s:10: foo\n          ^^^\n"
                + hinted("foo"))
    yield "# --quiet leaves the fault's text alone"
    yield fails("asm a.s out.img --quiet", ['a.s "addi a0, a0, 4096\\n"'], "open a.s", f"cherisim: line 1: {OUT_OF_RANGE}\n")
    yield fails("asm --quiet a.s out.img", ['a.s "nop\\x01\\n"'], "open a.s", "cherisim: line 1: A8 byte not ASCII\n")
    yield case("asm a.s out.img", ['a.s "addi a0, a0, 4096\\n"', "errors 0"], 3, "open a.s")
    for command in ("asm none out.img", "image none out.img", "dis none", "debug none", "run none 1", "audit none 1"):
        yield fails(f"{command} --quiet", [], "open none", "cherisim: file none\n")
    for command in ("dis bad.img", "debug bad.img", "run bad.img 1", "audit bad.img 1"):
        yield fails(f"{command} --quiet", [BAD], "open bad.img", "cherisim: L1 short header\n")
    for command in ("dis first.img", "debug first.img"):
        yield fails(f"{command} --symbols t --quiet", [FILE, 't "x\\n"'], "open first.img, open t",
                    "cherisim: line 1: no address and label\n")


def later(*faults, name="a.s"):
    """What is told of later lines: the number and the fault of each."""
    return "".join(f"  {name}:{number}: {fault}\n" for number, fault in faults)


# Texts whose first faulty line has marks; what is said of it, and of the lines after it that are wrong by themselves.
FURTHER = [
    (NO_MNEMONIC, ["«nops»", "nop", "add a0", "nop", "addi a0, a0, 4096"], "", [(3, OPERANDS), (5, f"{OUT_OF_RANGE}: {IN_REGISTER} add")]),
    (UNKNOWN, ["j «lop»", "nop", "frob"], "", [(3, f"{NO_MNEMONIC}: {COLON}: frob:")]),
    (TWICE, ["x: nop", "«x»: nop", "addi a0, a0, 4096 # far"], "", [(3, f"{OUT_OF_RANGE}: {IN_REGISTER} add")]),
    (OPERANDS, ["addi «a0»", "lop: addi a1"], "addi takes rd, rs1, imm", [(2, OPERANDS)]),
    (NO_MNEMONIC, ["nop", "", "«frob»", "\x7f", " " * 256, "addi a0"], "",
     [(4, "A8 byte not ASCII"), (5, "A9 line too long"), (6, OPERANDS)]),
    # of a line the first that is wrong with it by itself
    (NO_MNEMONIC, ["«frob»", "frob \x7f" + " " * 256, "addi b0, a0, 4096"], "", [(2, "A8 byte not ASCII"), (3, OPERANDS)]),
    # a label that an earlier line has is of no account, and hides nothing
    (UNKNOWN, ["x: j «lop»", "x: frob"], "", [(2, f"{NO_MNEMONIC}: {COLON}: frob:")]),
    # what is wrong only by what stands elsewhere
    (NO_MNEMONIC, ["x: «frob»", "x: nop", "j lop", "j .+3", ".byte x", ".pages 2", ".cap 0x80000001, 65537, 0, 0", ".org 0", "nop",
                   "sb"], "", [(10, OPERANDS)]),
]


def further_faults():
    yield "# what is wrong with later lines by themselves stands after that, each on a line of its own"
    yield from (fails("asm a.s out.img", [text_of(lines)], "open a.s", underlined(fault, lines, words) + later(*faults)) for fault, lines,
                words, faults in FURTHER)
    yield "# the file's name stands before each, and the last line may lack its line feed"
    name = "longer-name.s"
    yield fails(f"asm {name} out.img", [f'{name} "nop\\nfoo\\nnop\\nbar"'], f"open {name}",
                f"cherisim: line 2: {NO_MNEMONIC}\n  {name}:2: foo\n{' ' * (len(name) + 6)}^^^\n" + hinted("foo")
                + later((4, f"{NO_MNEMONIC}: {COLON}: bar:"), name=name))
    yield "# twenty of them, and how many there are besides"
    for count, more in ((21, ""), (22, "  and 1 more\n"), (23, "  and 2 more\n"), (141, "  and 120 more\n")):
        twenty = later(*((number, f"{NO_MNEMONIC}: {COLON}: frob:") for number in range(2, 22)))
        yield fails("asm a.s out.img", [text_of(["frob"] * count)], "open a.s", underlined(NO_MNEMONIC, ["«frob»"], "") + twenty + more)
    yield "# --quiet leaves them out too"
    yield from (fails("asm a.s out.img --quiet", [text_of(lines)], "open a.s", f"cherisim: line 1: {fault}\n") for fault,
                lines in ((NO_MNEMONIC, ["frob", "add a0"]), (UNKNOWN, ["j x"] + ["frob"] * 30)))


def header_lines(version, pages, entry, mode, capabilities=()):
    """What a listing with `--header` begins with."""
    yield f"# version {version}, pages {pages}, entry {entry:016x}, mode {mode}"
    yield from (f"# {place:016x} .cap 0x{base:016x}, {length}, 0x{perms:05x}, {flag}" for place, base, length, perms, flag in capabilities)


def headed():
    yield "# a listing that begins with the image's header, and with its capabilities in their order"
    front = joined(header_lines(1, 1, RAM, 0))
    yield case("dis first.img --header", [FILE], 0, "open first.img", front + LISTED)
    for pages, entry, mode, capabilities in ((2, RAM + 4, 1, [(RAM + 0x20, 0, 16, 5, 1), GRANTED]), (1, RAM, 0, [GRANTED]),
                                             (1, RAM, 1, [(RAM, 1 << 62, 3 << 62, 0, 0), (RAM + 16, ONES, 1, 0x1000, 1)]),
                                             (MOST, MOST_END - 4, 0, [])):
        file = f"some.img {quoted(file_v2(pages, entry, mode, capabilities, [(RAM + 0x10, bytes([7]))]))}"
        yield case("dis --header some.img", [file], 0, "open some.img",
                   joined(header_lines(2, pages, entry, mode, capabilities)) + "0000000080000010 .byte 0x07\n")
    empty = f"empty.img {quoted(header(2, RAM + 8, 0, 1))}"
    yield case("dis empty.img --header", [empty], 0, "open empty.img", joined(header_lines(1, 2, RAM + 8, 1)))
    lines = LISTED.splitlines(True)
    yield case("dis --header first.img --symbols t", [FILE, 't "000000008000000C halt\\n"'], 0, "open first.img, open t",
               "".join([front, *lines[:3], "halt:\n", *lines[3:]]))
    yield "# nothing is sent of a file that is no image, nor where a table is refused; and an output may fail among these lines"
    yield fails("dis bad.img --header", [BAD], "open bad.img", NO_IMAGE)
    yield fails("dis first.img --header --symbols t", [FILE, 't "halt"'], "open first.img, open t", no_label("t", 1))
    yield from (fails("dis first.img --header", [FILE, f"output {call}"], "open first.img", UNWRITTEN, (front + LISTED)[:call])
                for call in (0, 1, len(front) - 1, len(front), len(front + LISTED) - 1))


def faults():
    yield "# another fault: status 3, with its text"
    for command in ("asm none out.img", "run none 5", "dis none", "debug none"):
        yield fails(command, [FILE], "open none", missing("none"))
    for command in ("run bad.img 5", "dis bad.img", "debug bad.img"):
        yield fails(command, [BAD], "open bad.img", NO_IMAGE)
    yield fails("asm a.s out.img", ['a.s "nop\\nfrob a0\\n"'], "open a.s", underlined(NO_MNEMONIC, ["nop", "«frob» a0"], ""))
    yield fails("asm a.s out.img", [TEXT, "full"], "open a.s, make out.img", missing("out.img"))
    yield fails("run first.img 5 --input none", [FILE], "open first.img, open none", missing("none"))
    yield "# the faults in order: the command line, the file that is read first, what it says, the other file, the work"
    yield refused("run none 0 --input none", [])
    yield refused("asm none", [])
    yield fails("run none 5 --input nowhere", [], "open none", missing("none"))
    yield fails("run bad.img 5 --input none", [BAD], "open bad.img", NO_IMAGE)
    yield fails("asm none out.img", ["full"], "open none", missing("none"))
    yield fails("asm a.s out.img", ['a.s "frob\\nnop\\n"', "full"], "open a.s", underlined(NO_MNEMONIC, ["«frob»"], ""))
    yield fails("run first.img 5 --input none", [FILE, "output 0"], "open first.img, open none", missing("none"))


def failing():
    yield "# calls of files and streams that fail, by their numbers from 0"
    yield from (fails("asm a.s out.img", [TEXT.replace("a.s", f"a.s {call}", 1)], "open a.s", unread("a.s")) for call in (0, 1, 40))
    for command in ("run", "dis", "debug"):
        words = f"{command} first.img" + (" 5" if command == "run" else "")
        yield from (fails(words, [FILE.replace("first.img", f"first.img {call}", 1)], "open first.img",
                          "cherisim: L10 device failed\n  first.img\n") for call in (0, 31, 32, 67, 68))
        yield case(words, [FILE.replace("first.img", "first.img 69", 1), 'input "quit\\n"'], 0, "open first.img",
                   {"run": b"A", "dis": LISTED, "debug": b""}[command])
    yield fails("run first.img 5 --input keys", [FILE, 'keys 0 "AB"'], "open first.img, open keys", unread("keys"))
    yield "# no more is read of an input than comes before a step"
    yield case("run first.img 5 --input keys", [FILE, 'keys 1 "AB"'], 0, "open first.img, open keys", b"A")
    yield fails("run first.img 5 --input keys --gap 4", [FILE, 'keys 1 "AB"'], "open first.img, open keys", unread("keys"))
    yield case("run first.img 5 --input keys --gap 4", [FILE, 'keys 2 "ABC"'], 0, "open first.img, open keys", b"A")
    yield "# a directory where a file is named"
    for words, opened in (("asm d out.img", "open d"), ("run d 5", "open d"), ("dis d", "open d"), ("debug d", "open d"),
                          ("image d out.img", "open d"), ("asm a.s d", "open a.s, make d"),
                           ("run first.img 5 --input d", "open first.img, open d")):
        yield fails(words, [FILE, TEXT, "directory d"], opened, is_directory("d"))
    yield from (fails("asm a.s out.img", [TEXT, f"made {call}"], "open a.s, make out.img", cut_short("out.img"), made=FIRST[:call])
                for call in (0, 1, 48, 67))
    yield case("asm a.s out.img", [TEXT, "made 68"], 0, "open a.s, make out.img", made=FIRST)
    yield fails("run first.img 5", [FILE, "output 0"], "open first.img", UNWRITTEN)
    yield case("run first.img 5", [FILE, "output 1"], 0, "open first.img", b"A")
    yield case("", ["output 0"], 3, told=UNWRITTEN)
    yield from (fails("dis first.img", [FILE, f"output {call}"], "open first.img", UNWRITTEN, LISTED[:call])
                for call in (0, 1, 42, len(LISTED) - 1))
    yield from (fails("debug first.img", [FILE, 'input "step 5\\nquit\\n"', f"output {call}"], "open first.img", UNWRITTEN, REPLY[:call])
                for call in (0, 1, len(REPLY) - 1))
    yield from (fails("debug first.img", [FILE, f'input {call} "step 5\\nquit\\n"'], "open first.img", "cherisim: read failed\n", sent)
                for call, sent in ((0, ""), (6, ""), (7, REPLY), (11, REPLY)))
    yield "# an output that nobody reads any more is no failure: nothing is told of it, and the status is that of the whole"
    for words, parts, status, opened, sent, told in (
            ("run first.img 5", [], 0, "open first.img", "A", ""), ("dis first.img", [], 0, "open first.img", LISTED, ""),
            ("run first.img 4", [], 1, "open first.img", "A", "cherisim: not halted\ncherisim: steps 4, pcc 0000000080000010\n"),
            ("debug first.img", ['input "step 5\\nquit\\n"'], 0, "open first.img", REPLY, ""),
            ("bounds 4097", [], 0, "", joined(length_text(4097)), ""), ("", [], 0, "", "A", "")):
        yield from (case(words, [FILE, *parts, f"closed {call}"], status, opened, sent[:call], told)
                    for call in sorted({0, 1, len(sent) - 1}))
    yield case("--version", ["closed 0"], 0)
    yield case("--help", ["closed 0"], 2)
    yield fails("dis bad.img", [BAD, "closed 0"], "open bad.img", NO_IMAGE)
    yield "# where nothing can be told, the status is the same"
    yield case("run first.img 4", [FILE, "errors 0"], 1, "open first.img", b"A")
    yield fails("dis none", ["errors 9"], "open none", "cherisim:")


def read_whole():
    """Texts and tables that are read to their end before they are looked at, and those that are too long."""
    yield "# a text is read to its end before it is looked at: a call that fails is told, and no line of it"
    blanks = " " * 300
    for call, text in ((5, "nop\\n\\x7f\\nnop\\n"), (261, f"nop\\n{' ' * 256}\\nnop\\n"), (5, "j x\\n\\x7f\\nx: nop\\n")):
        yield fails("asm a.s out.img", [f'a.s {call} "{text}"'], "open a.s", unread("a.s"))
    yield "# its first faulty line is told, where its bytes alone make it one too"
    for number, text, told in ((2, "nop\\n\\x7f\\nnop\\n", "A8 byte not ASCII: 0x7f at column 1"),
                               (2, f"nop\\n{' ' * 256}\\nnop\\n", "A9 line too long: 256 bytes"),
                               (2, "j x\\n\\x7f\\nx: nop\\n", "A8 byte not ASCII: 0x7f at column 1"),
                               (2, f"j x\\n{blanks}\\nx: nop\\n", "A9 line too long: 300 bytes"),
                               (2, f"nop\\n{blanks}", "A9 line too long: 300 bytes"),
                               (2, f"nop\\n{blanks}\\x7f\\xff\\n", "A8 byte not ASCII: 0x7f at column 301")):
        yield fails("asm a.s out.img", [f'a.s "{text}"'], "open a.s", faulty_line(number, told))
    yield fails("asm a.s out.img", [f'a.s "nop\\nx\\x01{blanks}\\n\\x7f"'], "open a.s",
                faulty_line(2, "A8 byte not ASCII: 0x01 at column 2") + later((3, "A8 byte not ASCII")))
    for fault, lines, rest, besides in ((UNKNOWN, ["j «x»"], "\\x7f\\nnop\\n", "A8 byte not ASCII"),
                                        (NO_MNEMONIC, ["«frob»"], "\\x7f\\nnop\\n", "A8 byte not ASCII"),
                                        (UNKNOWN, ["j «x»"], f"{blanks}\\nnop\\n", "A9 line too long")):
        yield fails("asm a.s out.img", [text_of(lines)[:-1] + f'{rest}"'], "open a.s", underlined(fault, lines, "") + later((2, besides)))
    yield "# so is a table"
    for call, text, line in ((21, "0000000080000000 x\\nx\\n0000000080000000 y\\n", 2), (19, "start 0000000080000000\\n", 1)):
        yield fails("dis first.img --symbols t", [FILE, f't "{text}"'], "open first.img, open t", no_label("t", line))
        yield fails("dis first.img --symbols t", [FILE, f't {call} "{text}"'], "open first.img, open t", unread("t"))
    yield "# what has no end is too long; of what is typed no more is read than can come"
    long = "cherisim: text too long\n  /dev/zero: more than 256 MiB\n"
    yield fails("asm /dev/zero out.img", [], "open /dev/zero", long)
    for words in ("dis first.img --symbols", "debug first.img --symbols", "debug first.img --input",
                  "run first.img 100000000 --times 3 --gap 1 --input"):
        yield fails(f"{words} /dev/zero", [FILE], "open first.img, open /dev/zero", long)
    yield case("run first.img 5 --gap 1 --input /dev/zero", [FILE], 0, "open first.img, open /dev/zero", b"A")


# The words of each code, and of the faults without one; files are `a.s`, and a text's fault is that of its line 7.
TEXTS_OF_CODES = {
    "line 7: ": ("A1 unknown mnemonic", "A2 operands", "A3 immediate out of range", "A4 label twice", "A5 label unknown",
                 "A6 target out of range", "A7 place", "A8 byte not ASCII", "A9 line too long", "A10 no memory",
                 "A11 capability not exact", "P1 neither a definition nor a rule", "P2 name unknown", "P3 name twice", "P4 number",
                 "P5 range empty", "P6 part unknown", "P7 part twice", "P8 part malformed"),
    "": ("L1 short header", "L2 magic", "L3 version", "L4 pages, entry or mode", "L5 too many sections", "L6 section outside RAM",
         "L7 sections not ascending", "L8 truncated", "L9 bytes after the end", "L10 device failed", "L11 no memory",
         "L12 capability place", "L13 capability not exact", "L14 permissions or flag", "L15 too many capabilities",
         "M2 no memory", "M5 no memory"),
}
OTHER_TEXTS = [
    ("talk read", "read failed"), ("talk write", "write failed"), ("talk memory", "no memory"), ("write", "write failed"),
    ("memory", "no memory"), ("words", "read failed"), ("no file", "file a.s"),
    ("broken file", "read failed"), ("directory", "file a.s"),
    ("cut short", "L10 device failed"), ("symbols", "line 7: no address and label"),
    ("file L2", "L2 magic"), ("far A8", "line 20001: A8 byte not ASCII"), ("far A5", "line 2: A5 label unknown"),
    ("mended A8", "line 20001: A8 byte not ASCII"), ("far symbols", "line 4001: no address and label"),
    ("foreign word", "error: a word of the command line is not UTF-8"),
]


def fault_texts():
    yield "# a fault by its code => the first line of its text"
    yield from (f"{text.split()[0]} => {begin}{text}" for begin, texts in TEXTS_OF_CODES.items() for text in texts)
    yield "# a fault without a code, or of a file => the first line of its text"
    yield from (f"{name} => {text}" for name, text in OTHER_TEXTS)


def files():
    lines = ["# a command line, files and streams => the status, what is opened and made, sent, told, and what stands in the file made"]
    lines += [*ends(), *ended_otherwise(), *not_begun(), *traces(), *profiles(), *call_traces(), *labelled_runs(), *runs_without_table(),
              *images(), *named(), *further_faults(), *headed(), *faults(), *failing(), *read_whole(), *sources()]
    yield "commands.txt", lines
    yield "told.txt", fault_texts()
