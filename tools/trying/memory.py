"""Scripts of memory, and searches for tags.

Numbers are read and written by instructions, in a copy of the machine, whose faults tell misaligned from outside; what they leave is
written into the machine itself.
"""
from model.seen import planes
from model.words import NULL_HIGH

from .libraries import Cap
from .machines import PCC, RAM, Machine, Refused
from .reading import Words, bytes_of, cap_text, number

NAMES = {1: ("lbu", "sb"), 2: ("lhu", "sh"), 4: ("lwu", "sw"), 8: ("ld", "sd"), 16: ("lc", "sc")}
MISALIGNED = 4, 6
# what a number of pages out of range is refused with
NO_PAGES = "L4"


class Memory:
    """What a script's calls are made to."""

    def __init__(self, bench, pages):
        self.bench, self.machine = bench, Machine.flat(bench.library, pages=pages)

    def accessed(self, size, address, stored=None):
        """A copy that did a load or a store through the default data capability, and its fault's name."""
        copy = self.machine.copy()
        # the instruction stands where the access doesn't
        copy.set_scr(PCC, self.bench.root(RAM if address >= RAM + 64 else RAM + 512))
        copy.set_reg(11, number(address))
        copy.set_reg(12, stored or number(0))
        self.bench.place(copy, NAMES[size][stored is not None], rd=0 if stored else 10, rs1=11, rs2=12 if stored else 0)
        fault = self.bench.fault(copy)
        if fault is None:
            return copy, None
        return copy, "M4" if fault[0] in MISALIGNED else "M3"

    def read(self, words):
        size, address = words.decimal(), words.hex()
        copy, fault = self.accessed(size, address)
        if fault:
            return fault
        loaded = copy.reg(10).address
        if loaded != int.from_bytes(self.machine.read(address, size), "little"):
            return "cherisim_read gives other bytes"
        return f"{loaded:x}"

    def write(self, words):
        size, address, value = words.decimal(), words.hex(), words.hex()
        copy, fault = self.accessed(size, address, number(value))
        if fault:
            return fault
        self.machine.write(address, (value % (1 << 8 * size)).to_bytes(size, "little"))
        if copy.read(address & ~15, 16) != self.machine.read(address & ~15, 16):
            return "cherisim_write leaves other bytes"
        return "ok"

    def readc(self, words):
        address = words.hex()
        copy, fault = self.accessed(16, address)
        if fault:
            return fault
        value = self.machine.read_cap(address)
        return cap_text(value) if value.key() == copy.reg(10).key() else "cherisim_read_cap gives another value"

    def writec(self, words):
        address, value = words.hex(), words.value()
        copy, fault = self.accessed(16, address, value)
        if fault:
            return fault
        self.machine.write_cap(address, value)
        return "ok" if copy.read_cap(address).key() == self.machine.read_cap(address).key() else "cherisim_write_cap leaves another value"

    def fill(self, words):
        try:
            self.machine.write(words.hex(), bytes_of(words.word()))
        except Refused as refused:
            return {"range": "M3"}[refused.code()]
        return "ok"

    def tagged(self, words):
        start, end = words.hex(), words.hex()
        found = []
        for address in self.machine.tagged(start):
            if address >= end:
                break
            found.append(f"{address:x}")
        return " ".join(found) or "none"

    def planes(self, _):
        return " ".join(f"{word:x}" for word in planes(self.machine.tagged(), self.machine.pages()))


def script(bench, case):
    """A number of pages, answered by how many there are or the fault; or that and, after `;`, calls."""
    pages, *calls = case.inputs.split(";")
    try:
        memory = Memory(bench, int(pages, 16))
    except Refused as refused:
        return {NO_PAGES: "M1"}[refused.code()]
    if not calls:
        return f"{memory.machine.pages():x}"
    answers = []
    for call in calls:
        words = Words(bench.library, call)
        answers.append(getattr(memory, words.word())(words))
    return "; ".join(answers)


def search(bench, case):
    """Words, as the tags of RAM: the index of the first that isn't 0, by the first tagged granule, or how many there are."""
    words = [int(word, 16) for word in case.inputs.split()]
    machine = Machine.flat(bench.library, pages=-(-len(words) // 4))
    tagged = Cap(0, NULL_HIGH, True)
    for place, word in enumerate(words):
        for granule in range(64):
            if word >> granule & 1:
                machine.write_cap(RAM + 1024 * place + 16 * granule, tagged)
    first = next(machine.tagged(0), None)
    return f"{len(words) if first is None else (first - RAM) // 1024}"
