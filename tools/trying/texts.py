"""Texts of the assembly language: the images that the program writes of them, and the faults that the library answers."""
import re

from .image_files import read_back
from .machines import Machine, Refused
from .reading import unquoted
from .image_cases import loaded

# A fault of a text, as the program tells it: the fault alone, a line that begins with the file and the line, and carets, if any, and a
# hint, if there is one; then a line for each of later lines, and how many there are besides.
HINT = r"  hint: ([^\n]*)\n"
TOLD = re.compile(r"cherisim: line (\d+): (A\d+) [^\n]*\n  a\.s:\1(?:: [^\n]*\n(?:[ \t]+\^+(?: [^\n]*)?\n)?|\n)(?:" + HINT + r")?"
                  r"(?:  a\.s:\d+: A[12389] [^\n]*\n){0,20}(?:  and \d+ more\n)?")


def fault_of(bench, text):
    """The code and the line of a text's fault, as the library answers them, or None."""
    try:
        Machine.of_text(bench.library, text)
    except Refused as refused:
        return f"{refused.code()} {refused.line}"
    return None


def assembled(bench, text, *words):
    """The image that the program writes of a text; or the code and the line of its fault, which the library answers too."""
    bench.file("a.s", text)
    status, _, told = bench.run("asm", "a.s", "a.img", *words)
    fault = fault_of(bench, text)
    if status == 0:
        return (bench.contents("a.img"), None) if fault is None else (None, f"{fault} of the library alone")
    match = TOLD.fullmatch(told.decode())
    came = f"{match[2]} {match[1]}" if match else told.decode()
    return None, came if came == fault else f"{came} of the program, {fault} of the library"


def hint(bench, case):
    """A text in quotes whose last line is faulty: the hint that stands after its fault."""
    bench.file("a.s", unquoted(case.inputs)[0])
    status, _, told = bench.run("asm", "a.s", "a.img")
    found = re.search(HINT, told.decode())
    return f"status {status}" if status != 3 else found[1] if found else "no hint"


def words_of(contents):
    """The words of a section, whose bytes stand lowest first."""
    return " ".join(contents[at:at + 4][::-1].hex() for at in range(0, len(contents), 4))


def first_section(bench, case):
    """A text in quotes: the words of its first section, or its fault's code and line."""
    file, fault = assembled(bench, unquoted(case.inputs)[0])
    if fault:
        return fault
    sections = read_back(file).sections
    return words_of(sections[0][1]) if sections else "no words"


def symbols_of(bench):
    """The symbols of a table that the program wrote."""
    lines = bench.contents("a.sym").decode().splitlines()
    return " ".join(f"{name}={int(value, 16):x}" for value, name in map(str.split, lines)) or "-"


def parts(bench, case):
    """A text in quotes: pages, entry and mode, its sections, its symbols and its capabilities, or its fault's code and line."""
    file, fault = assembled(bench, unquoted(case.inputs)[0], "--symbols", "a.sym")
    if fault:
        return fault
    image = read_back(file)
    sections = " ".join(f"{address:x}+{len(contents)}" for address, contents in image.sections) or "-"
    told = f"{image.pages} {image.entry:x} {image.mode}; {sections}; {symbols_of(bench)}"
    if image.version == 2:
        told += "; version 2" + "".join(f" {place:x}:{base:x}+{length:x},{perms:x},{flag}"
                                        for place, base, length, perms, flag in image.capabilities)
    return told


def image_file(bench, case):
    """A text in quotes, and how many bytes of its image's file are read, with zeros after its end: the file of what is read, where the
    machine of it is that of the text, or the code of the fault."""
    text, rest = unquoted(case.inputs)
    file, fault = assembled(bench, text)
    if fault:
        return fault
    count = int(rest)
    read = file[:count] + bytes(max(count - len(file), 0))
    machine, fault = loaded(bench, read)
    if fault:
        return fault
    of_text = Machine.of_text(bench.library, text)
    return read.hex() if machine.ram() == of_text.ram() and list(machine.tagged()) == list(of_text.tagged()) else "another machine"
