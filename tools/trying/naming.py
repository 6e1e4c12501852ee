"""Names of registers and rows, by what the assembler takes and the disassembler shows."""
import re

from model.names import CAPABILITY_NAMES, NAMES

from .instructions import text_of
from .machines import RAM, Machine, Refused
from .reading import Left, unquoted
from .rows import BY_VARIANT, ROWS, decoded, encoded


def instruction_of(bench, text):
    """The instruction of a text's first word, or None where the text has the fault of its operands."""
    try:
        machine = Machine.of_text(bench.library, text.encode())
    except Refused as refused:
        if refused.code() != "A2":
            raise
        return None
    return decoded(bench.library, int.from_bytes(machine.read(RAM, 4), "little"))[0]


def shown_names(bench):
    """The names of rows as the disassembler shows them: of each name the rows, and of each row its names in both modes."""
    named, names = {}, {}
    for row in ROWS:
        names[row.variant] = [text_of(bench.library, row.value, mode).split()[0] for mode in (False, True)]
        for name in names[row.variant]:
            named[name] = row.variant
    return named, names


def row_named(bench, name):
    """The row of a name, and its names in both modes; the assembler is to take the name for the row that shows it."""
    named, names = bench.once("names", lambda: shown_names(bench))
    if name not in named:
        return "-"
    variant = named[name]
    row = BY_VARIANT[variant]
    operands = text_of(bench.library, row.value, names[variant].index(name) == 1).partition(" ")[2]
    machine = Machine.of_text(bench.library, f"{name} {operands}".encode())
    found = decoded(bench.library, int.from_bytes(machine.read(RAM, 4), "little"))[1]
    return f"{found.variant} {' '.join(names[variant])}"


def written_with(slots, registers, mode):
    """Operands as slots write them: a register by the mode's name, of a capability or of a number, or an address in a register."""
    def name(which, kind):
        return (CAPABILITY_NAMES if kind == "Capability" or kind == "ByMode" and mode else NAMES)[registers[which]]
    forms = {"Rd": lambda kind: name("rd", kind), "Rs2": lambda kind: name("rs2", kind),
             "Address": lambda kind: f"{registers['imm']}({name('rs1', kind)})", "Authority": lambda kind: f"({name('rs1', kind)})"}
    return ", ".join(forms[slot](kind) for slot, kind in re.findall(r"(\w+)\((\w+)\)", slots))


def slots_of(bench, name, expected):
    """What a row is written with: operands that the answer's slots write are those that are shown, in both modes."""
    row = BY_VARIANT[shown_names(bench)[0][name]]
    registers = {"rd": 10, "rs1": 11, "imm": 4} if row.format == "Immediate" else {"rs1": 11, "rs2": 12}
    word = encoded(bench.library, row.name, **registers)
    shown = [text_of(bench.library, word, mode).partition(" ")[2] for mode in (False, True)]
    return expected if shown == [written_with(expected, registers, mode) for mode in (False, True)] else " | ".join(shown)


def number_named(bench, asked, text):
    """The number that a text names, as an operand of an instruction that has such a one, or `-`."""
    line_of, field = {"register": ("add {}, zero, zero", "rd"), "csr": ("csrrw zero, {}, zero", "imm"),
                      "scr": ("cspecialrw cnull, {}, cnull", "rs2")}[asked]
    if text != text.strip():
        raise Left
    insn = instruction_of(bench, line_of.format(text))
    return "-" if insn is None else f"{getattr(insn, field)}"


def name_of(bench, asked, words):
    """The name of a number, as the disassembler shows it, or `-` where it shows a number."""
    n = int(words[0])
    if asked == "register_name":
        shown = text_of(bench.library, encoded(bench.library, "jalr", rd=n), words[1] == "1")
        return shown.split()[1].rstrip(",")
    word = encoded(bench.library, "csrrw", imm=n) if asked == "csr_name" else encoded(bench.library, "cspecialrw", rs2=n)
    shown = text_of(bench.library, word, False).split()[2].rstrip(",")
    return "-" if shown[0].isdigit() else shown


def name(bench, case):
    """What is asked, and a text in quotes or a number: `register`, `csr`, `scr`, `row` or `slots` of a text, `register_name` of a number
    in a mode, `csr_name` or `scr_name` of a number."""
    asked, _, rest = case.inputs.partition(" ")
    if not rest.startswith('"'):
        return name_of(bench, asked, rest.split())
    text = unquoted(rest)[0].decode()
    if asked == "row":
        return row_named(bench, text)
    return slots_of(bench, text, case.expected) if asked == "slots" else number_named(bench, asked, text)
