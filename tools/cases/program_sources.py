"""Texts where an image may stand, and the command that runs one until it halts."""

from cases.program_lines import BAD, ELF_HINT, FILE, LISTED, NO_IMAGE, NOT_HALTED, REPLY, SENDS_A, TEXT, TEXT_HINT, TRACE, UNWRITTEN
from cases.program_lines import case, fails, is_directory, missing, no_label, refused, stood, table, unread
from cases.quoting import quoted
from model.devices import RAM
from model.images import FIRST, header, section

# The same five instructions with two labels, and what `dis` lists of them.
LABELLED = "start: lui a1, 0x10000\naddi a0, zero, 65\nsb a0, 0(a1)\nhalt: lui a1, 0x100\nsd zero, 0(a1)\n"
LINES = LISTED.splitlines(True)
WITH_LABELS = "".join(["start:\n", *LINES[:3], "halt:\n", *LINES[3:]])
# What places each instruction of a.s, and its trace with that.
SOURCES = [f"a.s:{number}: {one}" for number, one in enumerate(SENDS_A.split("; "), 1)]
SOURCED = "".join(f"{line} {source}\n" for line, source in zip(TRACE.splitlines(), SOURCES))
# The labels of a table, in place of the text's own.
OTHER = table("t", [(RAM + 4, "other")])


def text(name, lines):
    """The file of a text."""
    return f"{name} {quoted(lines.encode())}"


def gone():
    yield "# go: a text is assembled and run until the machine halts, an image is run; of either at most so many steps so many times"
    labelled = text("b.s", LABELLED)
    yield case("go a.s", [TEXT], 0, "open a.s", b"A")
    yield case("go first.img", [FILE], 0, "open first.img", b"A")
    yield case("go a.s --steps 10000000000 --times 10000", [TEXT], 0, "open a.s", b"A")
    yield case("go a.s --steps 4", [TEXT], 1, "open a.s", b"A", stood(4, RAM + 16))
    yield case("go --times=2 --steps=2 first.img", [FILE], 1, "open first.img", b"A", stood(4, RAM + 16))
    yield case("go b.s --steps 4", [labelled], 1, "open b.s", b"A", stood(4, RAM + 16, " <halt+4>"))
    yield case("go b.s --steps 4 --quiet", [labelled], 1, "open b.s", b"A", NOT_HALTED)
    yield case("go a.s --trace t", [TEXT], 0, "open a.s, make t", b"A", made=SOURCED.encode())
    yield refused("go", [])
    yield refused("go a.s 5", [TEXT])
    yield refused("go a.s --steps 0", [TEXT])
    yield refused("go a.s --steps 10000000001", [TEXT])
    yield refused("go a.s --times 10001", [TEXT])
    yield refused("go a.s --trace a.s", [TEXT])


def in_place():
    yield "# a text in place of an image, by its name: its labels are known, but where a table is named that table's are"
    labelled = text("b.s", LABELLED)
    yield case("run b.s 5", [labelled], 0, "open b.s", b"A")
    yield case("run b.s 3", [labelled], 1, "open b.s", b"A", stood(3, RAM + 12, " <halt>"))
    yield case("run b.s 3 --symbols t", [labelled, OTHER], 1, "open b.s, open t", b"A", stood(3, RAM + 12, " <other+8>"))
    yield case("run .s 3", [text(".s", LABELLED)], 1, "open .s", b"A", stood(3, RAM + 12, " <halt>"))
    yield case("dis a.s", [TEXT], 0, "open a.s", LISTED)
    yield case("dis b.s", [labelled], 0, "open b.s", WITH_LABELS)
    yield case("dis b.s --symbols t", [labelled, OTHER], 0, "open b.s, open t", "".join([*LINES[:1], "other:\n", *LINES[1:]]))
    yield case("debug a.s", [TEXT, 'input "step 5\\nquit\\n"'], 0, "open a.s", REPLY)
    yield case("debug b.s", [labelled, 'input "mem halt 1\\nmem other 1"'], 0, "open b.s", "000000008000000c: b7\nfault B2\n")
    yield "# what the text's fault is, of a file that can't be read, and of a name that ends otherwise: bytes are an image there"
    faulty = ("cherisim: line 1: A1 unknown mnemonic\n  c.s:1: frob\n         ^^^^\n"
              "  hint: a label has a colon after it: frob:\n")
    for words in ("go c.s", "run c.s 5", "audit c.s 5", "dis c.s", "debug c.s", "dis c.s --symbols none"):
        yield fails(words, ['c.s "frob\\n"'], "open c.s", faulty)
        yield fails(f"{words} --quiet", ['c.s "frob\\n"'], "open c.s", faulty.split("\n", 1)[0] + "\n")
    yield fails("go none.s", [], "open none.s", missing("none.s"))
    yield fails("go d.s", ["directory d.s"], "open d.s", is_directory("d.s"))
    yield fails("go a.s --symbols none", [TEXT], "open a.s, open none", missing("none"))
    yield fails("dis b.s --symbols t", [labelled, 't "halt"'], "open b.s, open t", no_label("t", 1))
    yield fails("go a.s", [TEXT.replace("a.s", "a.s 40", 1)], "open a.s", unread("a.s"))
    yield fails("go bad.img", [BAD], "open bad.img", NO_IMAGE)
    for name in ("a.S", "a.s.img", "s", "a.sx"):
        yield fails(f"run {name} 5", [text(name, f"nop{' ' * 32}\n")], f"open {name}", f"cherisim: L2 magic\n  {name}\n{TEXT_HINT}")
    yield fails("dis b.s --header", [labelled, "output 0"], "open b.s", UNWRITTEN)


def lines_of(name, places):
    """The file of this name with a table of lines of a source: the place of each instruction from RAM's beginning on."""
    return f"{name} " + quoted("".join(f"{RAM + 4 * index:016x} {place}\n" for index, place in enumerate(places)).encode())


def asked_for_lines():
    yield "# the line of each placed instruction: of a text its own, but where a table is named that table's"
    yield fails("asm a.s out.img --lines l", [TEXT], "open a.s, make out.img, make l", missing("l"), made=FIRST)
    yield case("run first.img 5 --trace t", [FILE], 0, "open first.img, make t", b"A", made=TRACE.encode())
    yield case("run first.img 5 --trace t --lines l", [FILE, lines_of("l", SOURCES)], 0, "open first.img, open l, make t", b"A",
               made=SOURCED.encode())
    yield case("go a.s --trace t --lines l", [TEXT, lines_of("l", SOURCES)], 0, "open a.s, open l, make t", b"A", made=SOURCED.encode())
    yield case("go a.s --trace t --lines l", [TEXT, 'l ""'], 0, "open a.s, open l, make t", b"A", made=TRACE.encode())
    yield case("audit first.img 5 --trace t --lines l --symbols s --quiet", [FILE, lines_of("l", SOURCES), 's ""'], 0,
               "open first.img, open s, open l, make t", made=SOURCED.encode())
    yield "# a place has a colon, and is shown in printable ASCII; of several at one address the first; what nm prints has it after a tab"
    first, *rest = TRACE.splitlines(True)
    for place, shown in (("m.c:7", "m.c:7"), ("m.s:1: a\tm.c:7", "m.c:7"), ("T main\tm.c:7", "m.c:7"), ("d:1\t/s/m.c:7", "/s/m.c:7"),
                         ("m.s:1: sé\x7f", "m.s:1: s???"), (":" + 239 * "x", ":" + 239 * "x"), (":" + 240 * "x", ":" + 239 * "x")):
        yield case("run first.img 1 --trace t --lines l --quiet", [FILE, lines_of("l", [place])], 1, "open first.img, open l, make t",
                   told=NOT_HALTED, made=f"{first[:-1]} {shown}\n".encode())
    for place in ("", "main", "T main", "m.c:7\tmain"):
        yield case("run first.img 1 --trace t --lines l --quiet", [FILE, lines_of("l", [place])], 1, "open first.img, open l, make t",
                   told=NOT_HALTED, made=first.encode())
    twice = lines_of("l", ["a.s:1: one"])[:-1] + f'{RAM:016x} a.s:2: two\\n"'
    yield case("run first.img 1 --trace t --lines l --quiet", [FILE, twice], 1, "open first.img, open l, make t", told=NOT_HALTED,
               made=f"{first[:-1]} a.s:1: one\n".encode())
    yield "# a label stands before it; in a session, where the machine stands, and after a word; at the trap of a run"
    yield case("debug a.s", [TEXT, 'input "step 1\\ndis 0x80000004 1\\nback 1"'], 0, "open a.s",
               f"events 1 out - pc {RAM + 4:016x} running {SOURCES[1]}\n{LINES[1][:-1]} {SOURCES[1]}\n"
               f"events -1 out - pc {RAM:016x} running {SOURCES[0]}\n")
    yield case("debug first.img --symbols s --lines l", [FILE, table("s", [(RAM, "start")]), lines_of("l", SOURCES), 'input "step 1"'], 0,
               "open first.img, open s, open l", f"events 1 out - pc {RAM + 4:016x} <start+4> running {SOURCES[1]}\n")
    faults = text("e.s", "start: nop\n  ld a0, 0(zero)  # nothing there\n")
    yield case("run e.s 2", [faults], 1, "open e.s", told=stood(2, 0, f"; first trap: load access fault, mtval {0:016x},"
               f" mepc {RAM + 4:016x} <start+4> e.s:2: ld a0, 0(zero), step 2\n  no RAM or a device at {0:016x}"))
    yield "# a load of a value is two instructions; of a line what is no instruction isn't shown"
    load = text("f.s", "a: la  a1 , a ; comment\nb:nop\n.word 19\n c: d:\nnop # e".replace(" ; comment", "# comment").replace("c: d:", "c:"))
    words = "auipc a1, 0x0", "addi a1, a1, 0", "addi zero, zero, 0", "addi zero, zero, 0", "addi zero, zero, 0"
    yield case("debug f.s", [load, 'input "dis 0x80000000 5"'], 0, "open f.s", "".join(
        f"{RAM + 4 * index:016x} {label} {word:08x} {shown}{place and ' ' + place}\n" for index, (label, word, shown, place) in enumerate(zip(
            ("<a>", "<a+4>", "<b>", "<b+4>", "<c>"), (0x00000597, 0x00058593, 0x13, 0x13, 0x13), words,
            ("f.s:1: la a1 , a", "f.s:1: la a1 , a", "f.s:2: nop", "", "f.s:5: nop")))))
    yield "# faults of a table, and files that are one"
    yield fails("run first.img 5 --lines l", [FILE, 'l "x\\n"'], "open first.img, open l",
                "cherisim: line 1: no address and line of a source\n  l:1\n")
    yield fails("run first.img 5 --lines l --quiet", [FILE, lines_of("l", SOURCES)[:-1] + '80000000 a:1"'], "open first.img, open l",
                "cherisim: line 6: no address and line of a source\n")
    yield fails("debug first.img --lines none", [FILE], "open first.img, open none", missing("none"))
    for words in ("asm a.s out.img --lines a.s", "asm a.s out.img --lines out.img", "asm a.s out.img --symbols l --lines l",
                  "run first.img 5 --trace l --lines l", "dis first.img --lines l", "run first.img 5 --lines", "debug first.img --lines -"):
        yield refused(words, [TEXT, FILE])


def mistaken():
    yield "# a file that is no image by its header: whether it is an ELF, or a text, by the bytes that are read of it"
    elf = b"\x7fELF\x02\x01\x01" + bytes(9) + b"\x02\x00\xf3\x00" + bytes(44)
    words = ("go f", "run f 5", "audit f 5", "dis f", "debug f")
    for command in words:
        yield fails(command, [f"f {quoted(elf)}"], "open f", f"cherisim: L2 magic\n  f\n{ELF_HINT}")
        yield fails(f"{command} --quiet", [f"f {quoted(elf)}"], "open f", "cherisim: L2 magic\n")
        yield fails(command, ['f "start: nop\\n\\tj start # again, and again\\r\\n"'], "open f", f"cherisim: L2 magic\n  f\n{TEXT_HINT}")
    short, long = "L1 short header", "L2 magic"
    for fault, held, hint in ((short, elf[:4], ELF_HINT), (short, elf[:31], ELF_HINT), (short, elf[:3], ""), (short, b"", ""),
                              (short, b"nop\n", TEXT_HINT), (short, b"\t", TEXT_HINT), (short, b"~", TEXT_HINT), (short, b"nop\x7f", ""),
                              (short, b"\x1f", ""), (short, b"nop \xc3\xa9\n", ""), (long, b"a" * 31 + b"\0", ""),
                              (long, b"\x7fElf" + bytes(28), ""), (long, b" " + elf, ""), (long, FIRST[1:], "")):
        yield fails("run f 5", [f"f {quoted(held)}"], "open f", f"cherisim: {fault}\n  f\n{hint}")
    yield "# nothing is said of an image's later faults, nor of a file that can't be read"
    yield fails("run f 5", [f"f {quoted(b'CHERIIMG' + b'text' * 6)}"], "open f", "cherisim: L3 version\n  f\n")
    yield fails("run f 5", [f"f 31 {quoted(b'nop ' * 8)}"], "open f", "cherisim: L10 device failed\n  f\n")


def given():
    yield "# a file that is named - is standard input"
    first = f"input {quoted(FIRST)}"
    yield case("run - 5", [first], 0, "", b"A")
    yield case("run - 4", [first], 1, "", b"A", stood(4, RAM + 16))
    yield case("go -", [first], 0, "", b"A")
    yield fails("go --steps 5 -", ['input "nop\\n"'], "", f"cherisim: L1 short header\n  -\n{TEXT_HINT}")
    yield case("dis -", [first], 0, "", LISTED)
    yield case("audit - 5 --quiet --trace t", [first], 0, "make t", made=TRACE.encode())
    yield case("asm - out.img", ['input "lui a1, 0x10000\\naddi a0, zero, 65\\nsb a0, 0(a1)\\nlui a1, 0x100\\nsd zero, 0(a1)\\n"'], 0,
               "make out.img", made=FIRST)
    yield fails("asm - out.img", ['input "frob\\n"'], "",
                "cherisim: line 1: A1 unknown mnemonic\n  -:1: frob\n       ^^^^\n" "  hint: a label has a colon after it: frob:\n")
    yield case("image - out.img --pages 1", ['input "\\x13\\x00\\x00\\x00"'], 0, "make out.img",
               made=header(1, RAM, 1, 0) + section(RAM, b"\x13\0\0\0"))
    yield case("dis first.img --symbols -", [FILE, f'input "{RAM:016x} start\\n{RAM + 12:016x} halt\\n"'], 0, "open first.img", WITH_LABELS)
    yield fails("run - 5", [f"input 40 {quoted(FIRST)}"], "", "cherisim: L10 device failed\n  -\n")
    yield "# it is read for one file, and for none where it holds a session's commands"
    for words in ("debug -", "debug first.img --symbols -", "debug first.img --input -", "run - 5 --input -", "dis - --symbols -",
                  "audit first.img 5 --symbols - --policy -", "asm - -"):
        yield refused(words, [FILE])


def sources():
    assert SENDS_A.replace("; ", "\n") == LABELLED.replace("start: ", "").replace("halt: ", "").strip()
    yield from gone()
    yield from in_place()
    yield from asked_for_lines()
    yield from mistaken()
    yield from given()
