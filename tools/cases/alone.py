"""Cases that neither the C libraries nor the program show, which the proved program alone tries: lines of other files, and calls of their
own.

A permission's set, a number that is not a type, a reserved type opened, a jump from where nothing is fetched, a text's pieces, a name
with a blank after it, an expression longer than a line, what halted devices do, and amounts that no shift has.
"""
from cases import asm_lines, checks, integers, rights
from model.words import SPACE

RESERVED = "3fffe4"
AMOUNTS = {"slli": 64, "srli": 64, "srai": 64, "slliw": 32, "srliw": 32, "sraiw": 32}
BYTES_OF_A_LINE = 255


def cases(lines):
    return [line for line in lines if not line.startswith("#")]


def of(module, name):
    """The cases of a file of a module."""
    return cases(dict(module.files())[name])


def is_fetched(line):
    """Whether a jump within PCC is fetched: from RAM, and through a PCC with Execute."""
    perms, address = int(line.split()[1][:4], 16), int(line.split()[2], 16)
    return perms & 2 and address >> 32 == 0


def has_amount(line):
    """Whether a row of integers is an instruction: of a shift, whether it has the amount."""
    name, _, amount = line.split(" => ")[0].split()
    return int(amount, 16) < AMOUNTS.get(name, SPACE)


def lines():
    yield "# what neither the libraries nor the program show => as in the files that these cases stand in too"
    yield "# a permission's set, by its bit and by names; whether a number is a type"
    yield from (line for line in cases(rights.lines()) if line.split()[0] in ("set", "names"))
    yield "type 40000 => 0"
    yield "# a reserved type opens too"
    yield from (line for line in cases(rights.lines()) if line.startswith("opened") and line.split()[1][4:10] == RESERVED)
    yield "# a target where nothing is fetched"
    yield from (line for line in cases(checks.jumps()) if line.startswith("target") and not is_fetched(line))
    yield "# what stands before a text's first comma, and what after it"
    yield from (line for line in of(asm_lines, "lines.txt") if line.startswith("piece"))
    yield "# a name with a blank after it, and the fault of an expression of as many bytes as a line has"
    yield 'register "a0 " => None'
    yield f'expression "{"9" * BYTES_OF_A_LINE}" => Some(A3)'
    yield "# a number that halts the devices, and one that is stored into transmit then => what is loaded of halt, the byte that is sent,"
    yield "# and the first number"
    yield from ("halted 3 141 => 0 41 3", "halted 8877665544332211 141 => 0 41 8877665544332211")
    yield "# amounts that no shift has"
    yield from (f"integer {line}" for line in cases(integers.lines()) if not has_amount(line))


def files():
    yield "alone.txt", list(lines())
