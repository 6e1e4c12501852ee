"""Cases of integer arithmetic: a few values for every row, with what the model gives of them (tools/model/integers.py)."""

from model.integers import BASE, BRANCH, MULTIPLICATION, WITH_IMMEDIATE, u
from model.words import ONES

LEAST = 2**63
NUMBERS = [(7, 3), (u(-7), 3), (u(-7), u(-3)), (LEAST, ONES), (ONES, ONES), (7, u(-3)), (0x123456789ABCDEF0, 0x0FEDCBA987654321),
           (0x80000000, 0xFFFFFFFF), (u(-2**31), u(-1)), (5, 0), (0xFFFFFFFF80000005, 0x100000000), (LEAST, LEAST)]
SHIFTS = [(1, 63), (LEAST, 63), (LEAST, 1), (0x123456789ABCDEF0, 68), (u(-5), 1),
          (0xFFFFFFFF80000000, 31), (0x80000001, 33), (ONES, 0), (0x7FFFFFFF, 4)]


def rows(functions, count):
    return [(row, a, b, int(f(a, b))) for row, f in functions.items()
            for a, b in (SHIFTS if row.startswith(("Sll", "Srl", "Sra")) else NUMBERS)[:count]]


def lines():
    yield "# a mnemonic, rs1's number, and rs2's or the immediate => the result; of a branch 1 where it is taken"
    values = [("Lui", 9, 0x12345000, 0x12345000)] + rows(BASE, 9) + rows({row: BASE[like] for row, like in WITH_IMMEDIATE.items()}, 4)
    for row, a, b, want in values + rows(BRANCH, 6) + rows(MULTIPLICATION, 12):
        yield f"{row.lower()} {a:x} {b:x} => {want:x}"
    yield "# zero divisors, overflow and high halves of products, by the unprivileged manual's words"
    yield from AT_THE_ENDS


AT_THE_ENDS = """\
div 8000000000000000 ffffffffffffffff => 8000000000000000
divu 7 0 => ffffffffffffffff
rem 7 0 => 7
divw ffffffff80000000 ffffffffffffffff => ffffffff80000000
remw ffffffff80000000 ffffffffffffffff => 0
mulh 8000000000000000 8000000000000000 => 4000000000000000
mulhu ffffffffffffffff ffffffffffffffff => fffffffffffffffe
mulhsu ffffffffffffffff ffffffffffffffff => ffffffffffffffff""".splitlines()


def files():
    yield "integers.txt", list(lines())
