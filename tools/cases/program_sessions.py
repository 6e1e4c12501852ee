"""Sessions by the program: commands with labels, schedules, tables that are refused, and what code can reach."""

from cases.explanations import access, begun, reply, root, written
from cases.program_lines import BAD, FILE, NO_IMAGE, case, fails, file_of, integer, is_directory, missing, no_label, refused, unread
from cases.quoting import quoted
from cases.reaching import answered
from cases.sessions import ECHO_THREE
from model.devices import RAM
from model.images import FIRST, file_v2
from model.listings import with_names
from model.origins import fields
from model.schedules import Schedule
from model.sessions import Session
from model.texts import Program, machine_of
from model.words import NULL_HIGH, SPACE


def fields_of_first():
    """The first granule of the first image, as the debugger shows what no event wrote."""
    low, high = (int.from_bytes(FIRST[-20:][at:at + 8], "little") for at in (0, 8))
    return f"{RAM:016x} {fields((high ^ NULL_HIGH, low, False))}"


def labelled(session):
    """Sessions whose replies show labels after addresses."""
    labels = [(RAM, "start"), (RAM, "begin"), (RAM + 12, "halt")]
    names = 't "' + "".join(f"{address:016x} {name}\\n" for address, name in labels) + '"'
    yield "# after an address that `why`, `dis` or a line of events shows stands its label"
    first = reply(begun(RAM, "100005b7 lui a1, 0x10000"), f"effect: {written('ca1', 0x10000000)}")
    store = reply(begun(RAM + 8, "00a58023 sb a0, 0(a1)"),
                  access("store of 1 byte", root("ddc", 0), "ddc", "store", 0x10000000, 1, 0, SPACE, True),
                  "effect: device store 1 byte at 0000000010000000: 41")
    yield session("why\nstep 2\nwhy\nback 1\ntrap 3", with_names(
        f"{first}\nevents 2 out - pc 0000000080000008 running\n{store}\nevents -1 out - pc 0000000080000004 running\n"
        "events 3 out 41 pc 0000000080000010 running\n", labels), names)
    yield session("dis 0x80000000 5", with_names(
        "".join(f"{RAM + 4 * at:016x} {line}\n" for at, line in enumerate((
            "100005b7 lui a1, 0x10000", "04100513 addi a0, zero, 65", "00a58023 sb a0, 0(a1)", "001005b7 lui a1, 0x100",
            "0005b023 sd zero, 0(a1)"))), labels), names)
    yield session("why", f"{first}\n", 't "0000000080000004 after\\n"')


def debugged(table):
    """Sessions over the first image whose commands name the labels of a table, `start` and `halt` among them."""
    def session(typed, answered, table=table):
        return case("debug first.img --symbols t", [FILE, table, f"input {quoted(typed.encode())}"], 0, "open first.img, open t", answered)

    yield "# a session takes a label where it takes an address; a label that the table lacks is an operand of another form"
    yield session("until halt 9", "events 3 out 41 pc 000000008000000c <halt> running\n")
    yield session("stop at halt\nstop at start\ngo\nstops", "at 000000008000000c\nat 000000008000000c\nat 0000000080000000\n"
                  "events 3 out 41 pc 000000008000000c <halt> running\nat 000000008000000c\nat 0000000080000000\n")
    yield session("mem start 5\nmem 2147483660 1", "0000000080000000: b7 05 00 10 13\n000000008000000c: b7\n")
    yield session("dis halt 1\nmem halt 1", "000000008000000c <halt> 001005b7 lui a1, 0x100\n000000008000000c: b7\n")
    yield session("mem start+8 5\nuntil halt-8\nstop at start+0xc\ngo", "0000000080000008: 23 80 a5 00 b7\n"
                  "events 1 out - pc 0000000080000004 <start+4> running\nat 000000008000000c\n"
                  "events 2 out 41 pc 000000008000000c <halt> running\n")
    for typed in ("until stop 9", "mem stop 1", "dis stop 1", "mem Start 1", "mem star 1", "mem starts 1", "mem start: 1", "mem start+ 1",
                  "mem start start", "until halt halt", "step start", "tick halt", "trap start", "byte start", "reg start", "mem stop+4",
                  "dis halt+2", "stop at stop", "stop at halt halt", "stop halt", "go halt", "stops halt", "help halt"):
        yield session(typed + "\nmem start 1", "fault B2\n0000000080000000: b7\n")
    yield session("start 1\nhalt", "fault B1\nfault B1\n")
    yield "# of a name that stands twice the first address counts; a number is a number beside any labels"
    twice = 't "0000000080000010 x\\n0000000080000004 x\\n0000000080000008 _0x80000000\\n000000008000000C a\\n"'
    yield session("mem x 1\nmem a 1\nmem 0x8000000a 1\nmem _0x80000000 1",
                  "0000000080000010: 23\n000000008000000c: b7\n000000008000000a: a5\n0000000080000008: 23\n", twice)
    yield "# words are disassembled from a multiple of 4 on, and bytes are shown in RAM"
    places = 't "0000000080000002 odd\\n0000000080000FFF last\\nFFFFFFFFFFFFFFFF far\\n0000000000000000 zero\\n"'
    yield session("dis odd 1\nmem odd 1\nmem last 1\nmem last 2\nmem far 1\nmem zero 1\nuntil far 1",
                  "fault B2\n0000000080000002: 00\n0000000080000fff: 00\nfault B3\nfault B3\nfault B3\n"
                  "events 1 out - pc 0000000080000004 <odd+2> running\n", places)
    yield "# a place that holds a capability is a register, or else a special register, or else a label or a number, a multiple of 16"
    image_line = f"image: {fields_of_first().replace(' ', ' <a2> ', 1)}\n"
    register_line = f"opening state: ca2 {integer(0)}\n"
    named = 't "0000000080000000 a2\\n0000000080000000 first\\n000000008000000C halt\\n0000000080000010 mtdc\\n0000000080001000 after\\n"'
    yield session("origin first\norigin 0x80000000\norigin a2\norigin ca2\nlost first\norigin mtdc\nchanged first 2", "".join([
        image_line, image_line, register_line, register_line, "no tag was lost at 0000000080000000 <a2>\n",
        f"opening state: mtdc {integer(0)}\n", "events 2 out - pc 0000000080000008 <a2+8> running\n"]), named)
    yield session("origin first+0\nlost halt-12\nlost halt+4", image_line + "no tag was lost at 0000000080000000 <a2>\n"
                  "no tag was lost at 0000000080000010 <mtdc>\n", named)
    for typed in ("origin halt", "lost halt", "changed halt 1", "origin second", "changed first", "origin first+8", "back first",
                  "ago first"):
        yield session(typed + "\nmem first 1", "fault B2\n0000000080000000: b7\n", named)
    yield session("origin after\nlost after\nchanged after 1\nago", "fault B3\nfault B3\nfault B3\nevents 0\n", named)
    yield from labelled(session)
    yield "# without a table, and with an empty one, there are no labels"
    yield session("mem start 1\nmem 0x80000000 1", "fault B2\n0000000080000000: b7\n", 't ""')
    yield case("debug first.img", [FILE, table, 'input "mem start 1\\nmem 0x80000000 1"'], 0, "open first.img",
               "fault B2\n0000000080000000: b7\n")


def replayed():
    """Sessions on a schedule: what isn't given is as of `run`."""
    echo = file_of("echo.img", ECHO_THREE)

    def session(words, typed, gap, tick, keys):
        model = Session(ECHO_THREE, Schedule(gap, tick, keys))
        files = [f"keys {quoted(keys)}"] if keys else []
        lines = "".join(f"{line}\n" for line in typed)
        return case(f"debug echo.img {words}", [echo, *files, f"input {quoted(lines.encode())}"], 0,
                    "open echo.img, open keys" if keys else "open echo.img", "".join(map(model.answer, typed)))

    yield "# a session on a schedule does the steps of a run, as many as halt it; what isn't given is as there"
    yield session("--input keys --gap 1", ["step 22"], 1, 100, b"ABC")
    yield session("--gap 7 --input keys --tick 3", ["step 10", "until 0x80000024 100", "go", "step 1"], 7, 3, b"ABC")
    yield session("--input keys", ["step 1100", "reg a0", "go", "reg a2"], 1000, 100, b"ABC")
    yield session("--gap 1", ["step 1000"], 1, 100, b"")
    yield session("--tick 0", ["step 1000"], 1000, 0, b"")
    yield session("--tick 1000000 --gap 1000000 --input keys", ["step 1000000", "step 1000000", "step 1"], 1000000, 1000000, b"ABC")
    yield "# the input is read after the table"
    yield fails("debug echo.img --input none", [echo], "open echo.img, open none", missing("none"))
    yield fails("debug echo.img --input d", [echo, "directory d"], "open echo.img, open d", is_directory("d"))
    yield fails("debug echo.img --symbols none --input keys", [echo, 'keys "A"'], "open echo.img, open none", missing("none"))
    for words in ("--gap 0", "--gap 1000001", "--tick 1000001", "--gap x", "--input", "--tick", "--tick 1 --tick 1"):
        yield refused(f"debug echo.img {words}", [echo])


def tables_refused(table):
    """Sessions over the first image whose table of labels is not read."""
    yield "# the table is read after the image, and refused as that of a listing"
    for wrong, line in ((table.replace(" halt", "  halt"), 2), (table.replace(" start", " 80000000"), 1),
                        (table.replace("C halt", "C h:"), 2),
                        ('t "start 0000000080000000"', 1), ('t "\\n"', 1), ('t "80000000 T start"', 1),
                        (table.replace(" start", " T\\tstart"), 1), (table.replace(" halt", " TT halt"), 2),
                        ('t "                 U start\\n                 U"', 2), ('t "                  U start"', 1)):
        yield fails("debug first.img --symbols t", [FILE, wrong], "open first.img, open t", no_label("t", line))
    yield fails("debug first.img --symbols none", [FILE], "open first.img, open none", missing("none"))
    yield fails("debug first.img --symbols d", [FILE, "directory d"], "open first.img, open d", is_directory("d"))
    yield fails("debug first.img --symbols t", [FILE, table.replace("t ", "t 0 ", 1)], "open first.img, open t", unread("t"))
    yield fails("debug bad.img --symbols none", [BAD], "open bad.img", NO_IMAGE)
    yield refused("debug first.img --symbols", [FILE])
    yield refused("debug --symbols t", [FILE, table])


# Gives up root but for a capability, in ca0 and PCC, that loads all; then capabilities in RAM of two pages, by their places.
GIVES_UP = ("cspecialrw ca0, pcc, cnull; addi a2, zero, 23; candperm ca0, ca0, a2; cincoffsetimm ca0, ca0, 24; "
            "cspecialrw cnull, ddc, ca7; jalr.cap cnull, ca0")
GRANTS = [(RAM + 0xF0, 0x10000000, 1, 0x8, 0), (RAM + 0x100, RAM, 16, 0x5, 0), (RAM + 0x110, RAM, 0x120, 0xFBFF, 1),
          (RAM + 0x1100, 0x100000, 8, 0x9, 0), (RAM + 0x1110, 0, 0, 0, 0)]
# Labels: two of one address, of which the first counts; none within 4096 bytes of the last place, and then one there.
LABELS = [(RAM + 0x104, "table"), (RAM + 0x100, "first"), (RAM + 0x100, "second"), (RAM + 0x2000, "after")]
MORE_LABELS = [*LABELS, (RAM + 0x1100, "first")]


def reached():
    """Sessions that ask what is reachable, with labels."""
    code = b"".join(word.to_bytes(4, "little") for word in Program(GIVES_UP).words.values())
    caps = f"caps.img {quoted(file_v2(2, RAM, 0, GRANTS, [(RAM, code)]))}"
    held = [f".org {place:#x}; .cap {start:#x}, {length}, {perms:#x}, {flag}" for place, start, length, perms, flag in GRANTS]
    program = "; ".join([".pages 2", GIVES_UP, *held])

    def asked(labels, typed, answer):
        table = "t " + quoted("".join(f"{address:016x} {name}\n" for address, name in labels))
        return case("debug caps.img --symbols t", [caps, table, f"input {quoted(typed)}"], 0, "open caps.img, open t", answer)

    def session(labels, *lines, steps=6):
        machine = machine_of(program, steps)
        done = f"events {steps} out - pc {RAM + 4 * steps:016x} running\n" if steps else ""
        answer = "".join(f"{line}\n" for typed in lines for line in answered(machine, typed, labels))
        return asked(labels, (f"step {steps}\n" if steps else "") + "\n".join(lines), done + answer)

    yield "# what is reachable is shown with the label at a granule's address or fewer than 4096 bytes below it"
    for line in ("reach", "reach members", "reach dot", "reach json", "reach doors"):
        yield session(LABELS, line)
    yield session(MORE_LABELS, "reach members")
    yield session(LABELS, "reach members", steps=0)
    yield session([], "reach members", "may send")
    yield session(LABELS, "may send", "may halt", "may system", "may timer", "may hold 0")
    yield "# a question takes a label where it takes an address"
    yield session(MORE_LABELS, "may load table 1", "may store second 1", "may store table 4096", "may execute first 1",
                  "may learn after 4096", "may load table 1 through doors", "may store after 4096 through doors", "may store first+4 1",
                  "may learn after-0x1000 8 through doors")
    for typed in ("may load tabel 1", "may load table+ 1", "may load table", "may load table table", "may hold table", "may table 1",
                  "reach table"):
        yield asked(LABELS, typed, "fault B2\n")
