"""Lines of assembly with the words that they mean, from outside the program.

The words are those of isa_vectors.py: of GNU as for RV64IM, Zicsr, Zifencei and the privileged rows, and put together from the fields of
CHERI-RISC-V's encodings for the others. The lines are the rows' forms, each row by each of its names.
"""
import re

from cases.asm_texts import PROGRAMS, assembled
from cases.isa_vectors import made
from model.integers import s as signed
from model.names import CSR_NAMES, SCR_NAMES
from model.row_forms import SECOND
from model.rows import shown


def lines(row, rd, rs1, rs2, imm):
    """The lines that mean the instruction, by each name of its row, in integer mode's first; registers of control and status by number
    too."""
    text, other = (shown(row, {"rd": rd, "rs1": rs1, "rs2": rs2, "imm": signed(imm)}, mode) for mode in (False, True))
    if row.startswith("csrr"):
        target, _, source = text.split(", ")
        return [f"{target}, {imm}, {source}"] + [text] * (imm in CSR_NAMES)
    # the second line of what stands in hexadecimal is decimal
    return [text] + [re.sub("0x[0-9a-f]+", lambda found: str(int(found[0], 16)), other)] * (row in SECOND)


table = [(word, line) for word, _, mnemonic, rd, rs1, rs2, imm in made for line in lines(mnemonic, rd, rs1, rs2, imm)]
table += [(0x01 << 25 | number << 20 | 11 << 15 | 10 << 7 | 0x5B, f"cspecialrw ca0, {name}, ca1") for number, name in SCR_NAMES.items()]


def cases():
    yield "# a text => the words of its first section"
    yield from (assembled(text, words) for text, words in PROGRAMS)
    yield "# lines with their words: each row by each of its names"
    yield from (assembled(line, [word]) for word, line in table)


def files():
    yield "assembled.txt", cases()
