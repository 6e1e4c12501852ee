"""What is told of a machine: answers to queries, as cases over programs have them.

A machine is asked through a view: `held(name)` is the value of a general or special capability register, `csr(name)` the number of a
register of control and status, `read(address, size)` bytes of RAM, `value(address)` that of a granule, `ram()` and `tags()` all of
memory, `halted()` the number of the halt or None, `timer()` mtime and mtimecmp, and `console()` the bytes that wait, overrun and control.
"""
from model.capabilities import base, flag, otype, perms, top
from model.devices import RAM
from model.memory import PAGE, WORD, in_word
from model.names import CSRS, NAMES, REGISTERS
from model.words import NULL_HIGH

NULL = NULL_HIGH, 0, False


class View:
    """The view of a model machine."""

    def __init__(self, machine):
        self.machine = machine
        self.csr, self.read, self.value = machine.csr, machine.memory.read, machine.memory.value

    def held(self, name):
        return self.machine.registers[REGISTERS[name]] if name in REGISTERS else self.machine.special[name]

    def ram(self):
        return bytes(self.machine.memory.ram)

    def tags(self):
        return sorted(self.machine.memory.tags)

    def halted(self):
        return self.machine.halted

    def timer(self):
        return self.machine.devices.mtime, self.machine.devices.mtimecmp

    def console(self):
        devices = self.machine.devices
        return bytes(devices.queue), devices.overrun, bool(devices.control)


def spaced(contents):
    """Bytes as two digits each, parted by spaces, or `-` where there are none."""
    return bytes(contents).hex(" ") or "-"


def granule_text(value):
    """A value's 16 bytes as they stand in memory, in two halves, and its tag."""
    memory = in_word(value)
    return f"{memory[:8].hex()} {memory[8:].hex()} {value[2]:d}"


def value_text(value):
    """A value: its address alone where it is a null capability with an address; else tag, bounds, address, permissions, flag and type."""
    if value[0] == NULL_HIGH and not value[2]:
        return f"{value[1]:x}"
    return (f"v:{value[2]:d} b:{base(value):x} t:{top(value):x} a:{value[1]:x} p:{perms(value):x} f:{flag(value)} "
            f"o:{otype(value):x}")


def trap(view):
    """mcause and mtval where the last step trapped, with PCC at 0, where MTCC stands at first."""
    return f"{view.csr('mcause'):x} {view.csr('mtval'):x}" if view.held("pcc")[1] == 0 else "none"


def registers(view):
    """The registers that hold anything but 0."""
    held = ((name, view.held(name)) for name in NAMES)
    return "".join(f"{name}={value_text(value)}," for name, value in held if value != NULL)


def doubles(contents):
    """The numbers of 8 bytes that are not 0, from RAM's beginning on."""
    numbers = ((RAM + at, int.from_bytes(contents[at:at + 8], "little")) for at in range(0, len(contents), 8))
    return "".join(f"{address:x}={number:x}," for address, number in numbers if number)


def planes(tags, pages):
    """The words of tags of so many pages of which these granules are tagged, a bit a granule."""
    words = [0] * (4 * pages)
    for address in tags:
        number = (address - RAM) // WORD
        words[number // 64] |= 1 << number % 64
    return words


def memory(view):
    """What stands in all of RAM, and after it the words of its tags."""
    contents = view.ram()
    return doubles(contents) + "".join(f"{word:x}," for word in planes(view.tags(), len(contents) // PAGE))


def halted(view):
    number = view.halted()
    return "no" if number is None else f"{number:x}"


WHOLE = {
    "trap": trap,
    "registers": registers,
    "ram": lambda view: doubles(view.read(RAM, PAGE)),
    "memory": memory,
    "waiting": lambda view: spaced(view.console()[0]),
    "halted": halted,
    "mtime": lambda view: f"{view.timer()[0]:x}",
    "mtimecmp": lambda view: f"{view.timer()[1]:x}",
    "overrun": lambda view: f"{view.console()[1]:d}",
    "control": lambda view: f"{view.console()[2]:d}",
}
# What a query of one register tells.
OF_REGISTER = {
    "address": lambda value: f"{value[1]:x}",
    "permissions": lambda value: f"{perms(value):x}",
    "fields": lambda value: f"{value[1]:x} {otype(value):x} {value[2]:d}",
    "bits": lambda value: f"{value[0]:016x} {value[1]:016x} {value[2]:d}",
    "bytes": granule_text,
}


def seen(view, query):
    """`trap`, `registers`, `ram`, `memory`, `waiting`, `halted` and the devices' state; `granule AT` and `word AT` of memory;
    `same NAME NAME`; `address`, `permissions`, `fields`, `bits` or `bytes` and a register's name; and else a register's name."""
    what, *rest = query.split()
    if what == "granule":
        return granule_text(view.value(int(rest[0], 16)))
    if what == "word":
        return f"{int.from_bytes(view.read(int(rest[0], 16), 4), 'little'):x}"
    if what == "same":
        return f"{view.held(rest[0]) == view.held(rest[1]):d}"
    if rest:
        return OF_REGISTER[what](view.held(rest[0]))
    if what in WHOLE:
        return WHOLE[what](view)
    return f"{view.csr(what):x}" if what in CSRS else value_text(view.held(what))
