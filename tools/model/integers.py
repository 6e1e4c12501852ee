"""What each row over integers gives, in Python's whole numbers, by the unprivileged manual's words on each instruction."""

from model.words import ONES, SPACE


def s(n, bits=64):
    """The low bits as a signed number."""
    n %= 2**bits
    return n - 2**bits if n >= 2**(bits - 1) else n


def u(n):
    """The low 64 bits."""
    return n % SPACE


def w(n):
    """The low 32 bits, sign-extended."""
    return u(s(n, 32))


def toward_zero(a, b):
    q = abs(a) // abs(b)
    return -q if (a < 0) != (b < 0) else q


def div(a, b, bits):
    a, b = s(a, bits), s(b, bits)
    return u(-1 if b == 0 else s(toward_zero(a, b), bits))


def rem(a, b, bits):
    a, b = s(a, bits), s(b, bits)
    return u(a if b == 0 else a - b * toward_zero(a, b))


def low(n):
    return n % 2**32


# Rows of two registers, and rows with an immediate, each with the row of registers that gives the same.
BASE = {
    "Add": lambda a, b: u(a + b), "Sub": lambda a, b: u(a - b),
    "Slt": lambda a, b: int(s(a) < s(b)), "Sltu": lambda a, b: int(a < b),
    "Xor": lambda a, b: a ^ b, "Or": lambda a, b: a | b, "And": lambda a, b: a & b,
    "Sll": lambda a, b: u(a << (b & 63)), "Srl": lambda a, b: a >> (b & 63), "Sra": lambda a, b: u(s(a) >> (b & 63)),
    "Addw": lambda a, b: w(a + b), "Subw": lambda a, b: w(a - b),
    "Sllw": lambda a, b: w(low(a) << (b & 31)), "Srlw": lambda a, b: w(low(a) >> (b & 31)), "Sraw": lambda a, b: u(s(a, 32) >> (b & 31)),
}
WITH_IMMEDIATE = {
    "Addi": "Add", "Slti": "Slt", "Sltiu": "Sltu", "Xori": "Xor", "Ori": "Or", "Andi": "And", "Slli": "Sll", "Srli": "Srl", "Srai": "Sra",
    "Addiw": "Addw", "Slliw": "Sllw", "Srliw": "Srlw", "Sraiw": "Sraw",
}
BRANCH = {
    "Beq": lambda a, b: a == b, "Bne": lambda a, b: a != b, "Blt": lambda a, b: s(a) < s(b), "Bge": lambda a, b: s(a) >= s(b),
    "Bltu": lambda a, b: a < b, "Bgeu": lambda a, b: a >= b,
}
MULTIPLICATION = {
    "Mul": lambda a, b: u(a * b), "Mulh": lambda a, b: u(s(a) * s(b) >> 64),
    "Mulhsu": lambda a, b: u(s(a) * b >> 64), "Mulhu": lambda a, b: a * b >> 64,
    "Div": lambda a, b: div(a, b, 64), "Divu": lambda a, b: ONES if b == 0 else a // b,
    "Rem": lambda a, b: rem(a, b, 64), "Remu": lambda a, b: a if b == 0 else a % b,
    "Mulw": lambda a, b: w(a * b), "Divw": lambda a, b: div(a, b, 32), "Divuw": lambda a, b: ONES if low(b) == 0 else w(low(a) // low(b)),
    "Remw": lambda a, b: rem(a, b, 32), "Remuw": lambda a, b: w(a) if low(b) == 0 else w(low(a) % low(b)),
}
