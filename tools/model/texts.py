"""Texts of the assembly language: the words, the data, the capabilities and the labels that correct ones mean (docs/ASSEMBLY.md), by the
encodings of rows.py; and their machines. What a text must not hold to be correct is not looked for.
"""
import re
from typing import NamedTuple

from model.capabilities import capability
from model.devices import RAM
from model.integers import s
from model.machine import Machine
from model.memory import WORD
from model.names import CSRS, REGISTERS, SCRS
from model.row_forms import FORM
from model.rows import PLAIN, made, slots

# What stands before a comment, the statements of that, and a statement's label, name and operands.
TEXT = r'"(?:\\.|[^"\\])*"'
CODE, PARTS = re.compile(rf'(?:{TEXT}|[^"#])*'), re.compile(rf'(?:{TEXT}|[^";])+')
STATEMENT = re.compile(r"(?:([\w.]+):)?\s*([\w.]*)\s*(.*)")
EXPRESSION = re.compile(r"(-?[\w.]+)(?:([+-])(-?\w+))?")
# What a row with another name is, with its operands in their places.
ALIASES = {"nop": "addi zero, zero, 0", "li": "addi {0}, zero, {1}", "mv": "addi {0}, {1}, 0", "j": "jal zero, {0}",
           "ret": "jalr zero, 0(ra)"}
# What rows that may stand without operands have then.
ALONE = {"fence": "fence zero, zero, 255", "fence.i": "fence.i zero, zero, 0"}
DATA = {".byte": 1, ".half": 2, ".word": 4, ".dword": 8}
ESCAPED = {"n": "\n", "0": "\0", "\\": "\\", '"': '"'}


class Grant(NamedTuple):
    """A capability that a text gives a granule: its place and its parts."""
    place: int
    base: int
    length: int
    perms: int
    flag: int


def statements(text):
    """The labels, names and operands of a text, whose statements may be parted by `;` too."""
    for statement in (part for line in text.split("\n") for part in PARTS.findall(CODE.match(line)[0])):
        label, name, rest = STATEMENT.fullmatch(statement.strip()).groups()
        operands = [rest] if name == ".ascii" else re.split(r"\s*,\s*", rest) if rest else []
        if name in ALIASES or name in ALONE and not rest:
            name, _, rest = (ALIASES.get(name) or ALONE[name]).format(*operands).partition(" ")
            operands = rest.split(", ")
        yield label, name, operands


class Program:
    """What a text means."""

    def __init__(self, text):
        self.pages, self.mode, self.entry, self.labels = 1, 0, RAM, {}
        self.words, self.data, self.grants = {}, {}, []
        place, held = RAM, []
        for label, name, operands in statements(text):
            if name == ".align":
                place += -place % 2 ** int(operands[0])
            self.labels |= {label: place} if label else {}
            held.append((place, name, operands))
            place = int(operands[0], 0) if name == ".org" else place + self.size_of(name, operands)
        for it in held:
            self.take(*it)

    @staticmethod
    def size_of(name, operands):
        """How many bytes a statement takes."""
        if name in DATA:
            return DATA[name] * len(operands)
        if name == ".ascii":
            return len(ascii_of(operands))
        if name in (".zero", ".cap"):
            return WORD if name == ".cap" else int(operands[0], 0)
        return 8 if name in ("la", "cla") else 0 if name[:1] in ("", ".") else 4

    def take(self, place, name, operands):
        """Takes a statement at its place, with all labels known."""
        if name in (".pages", ".mode", ".entry"):
            setattr(self, name[1:], self.value_of(operands[0], place))
        elif name == ".cap":
            self.grants.append(Grant(place, *(self.value_of(it, place) for it in operands)))
        elif name == ".ascii":
            self.data[place] = ascii_of(operands)
        elif name in DATA:
            size = DATA[name]
            self.data[place] = b"".join((self.value_of(it, place) % 2 ** (8 * size)).to_bytes(size, "little") for it in operands)
        elif name in ("la", "cla"):
            target, distance = REGISTERS[operands[0]], self.value_of(operands[1], place) - place
            upper = (distance + 0x800) // 0x1000 * 0x1000
            self.words[place] = made("auipc", {"rd": target, "upper": upper})
            self.words[place + 4] = made("cincoffsetimm" if name == "cla" else "addi",
                                         {"rd": target, "rs1": target, "signed": distance - upper})
        elif name[:1] not in ("", "."):
            self.words[place] = self.word(place, name, operands)

    def word(self, place, name, operands):
        """The word of a row at a place."""
        row = PLAIN.get(name, name)
        names, words = slots(FORM[row]), re.findall(r"[^\s,()]+", ", ".join(operands))
        if len(words) == len(names) - 1:
            words.insert(1, "0")
        return made(row, {slot: self.operand(slot, word, place) for slot, word in zip(names, words, strict=True)})

    def operand(self, slot, word, place):
        """What an operand's word holds."""
        if slot in ("rd", "rs1", "rs2"):
            return REGISTERS[word]
        if slot in ("csr", "scr"):
            table = CSRS if slot == "csr" else SCRS
            return table[word] if word in table else int(word, 0)
        number = self.value_of(word, place)
        if slot in ("branch", "jump"):
            return number - place
        return s(number << 12, 32) if slot == "upper" else number

    def value_of(self, text, place=0):
        """The value of an expression: a number, a label or the statement's own place, and maybe a number after it."""
        name, sign, more = EXPRESSION.fullmatch(text.replace(" ", "")).groups()
        value = place if name == "." else self.labels[name] if name in self.labels else int(name, 0)
        return value + int(f"{sign or ''}{more or '0'}", 0)

    def symbols(self):
        """The labels in their order, as a table of symbols has them."""
        return [(address, name) for name, address in self.labels.items()]

    def machine(self):
        """The machine in the opening state of the text's image."""
        machine = Machine(self.pages, self.entry, self.mode)
        for place, contents in self.data.items():
            machine.memory.write(place, contents)
        for place, word in self.words.items():
            machine.memory.write(place, word.to_bytes(4, "little"))
        for place, base, length, perms, flag in self.grants:
            machine.memory.put(place, capability(base, base + length, base, perms, flag))
        return machine


def ascii_of(operands):
    """The bytes of a text in quotes."""
    return re.sub(r"\\(.)", lambda found: ESCAPED[found[1]], operands[0][1:-1]).encode()


def machine_of(text, steps=0):
    """The machine of a text after so many steps."""
    machine = Program(text).machine()
    for _ in range(steps):
        machine.step()
    return machine
