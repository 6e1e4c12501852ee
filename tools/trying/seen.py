"""A machine of the library as tools/model/seen.py asks one what is to be seen of it."""
from model.names import CSRS, REGISTERS, SCRS


class View:
    """The view of a machine of the library."""

    def __init__(self, machine):
        self.machine = machine
        self.read, self.ram, self.tags, self.halted, self.console = (machine.read, machine.ram, machine.tagged, machine.halted,
                                                                     machine.console)

    def held(self, name):
        return (self.machine.reg(REGISTERS[name]) if name in REGISTERS else self.machine.scr(SCRS[name])).key()

    def csr(self, name):
        return self.machine.csr(CSRS[name])

    def value(self, address):
        return self.machine.read_cap(address).key()

    def timer(self):
        timer = self.machine.timer()
        return timer.mtime, timer.mtimecmp
