"""Where RAM begins, where the devices' registers lie, and what halt, timer and console do with loads, stores, ticks and bytes."""
from model.words import ONES, SPACE

RAM = 0x80000000
HALT = 0x100000
TIMER_COMPARE, TIMER = 0x2004000, 0x200BFF8
TRANSMIT, RECEIVE, STATUS, CONTROL = 0x10000000, 0x10000008, 0x10000010, 0x10000018
# The bits of the interrupts in mip and mie.
TIMER_BIT, EXTERNAL_BIT = 1 << 7, 1 << 11
# How many bytes wait at the most.
WAITING = 64


class Devices:
    """Halt, timer and console."""

    def __init__(self):
        self.halted, self.mtime, self.mtimecmp = None, 0, ONES
        self.queue, self.overrun, self.control = bytearray(), False, 0
        self.sent = bytearray()

    def copy(self):
        other = Devices()
        vars(other).update(vars(self), queue=self.queue[:], sent=self.sent[:])
        return other

    def pending(self):
        """The interrupts that are asked for."""
        return TIMER_BIT * (self.mtime >= self.mtimecmp) | EXTERNAL_BIT * (self.control and len(self.queue) > 0)

    def tick(self):
        self.mtime = (self.mtime + 1) % SPACE

    def byte(self, byte):
        if len(self.queue) < WAITING:
            self.queue.append(byte)
        else:
            self.overrun = True

    def load(self, address, size):
        """What a load gives, or None where no register takes it."""
        given = {HALT: 0, TIMER_COMPARE: self.mtimecmp, TIMER: self.mtime, TRANSMIT: 0, RECEIVE: self.queue[0] if self.queue else 0,
                 STATUS: bool(self.queue) + 2 * self.overrun, CONTROL: self.control}
        if size != 8 or address not in given:
            return None
        if address == RECEIVE:
            del self.queue[:1]
        return given[address]

    def store(self, address, size, number):
        """Stores, and says whether a register takes it."""
        if address == TRANSMIT and size in (1, 8):
            self.sent.append(number & 0xFF)
            return True
        if size != 8 or address not in (HALT, TIMER_COMPARE, TIMER, RECEIVE, STATUS, CONTROL):
            return False
        if address == HALT:
            self.halted = number
        elif address == TIMER_COMPARE:
            self.mtimecmp = number
        elif address == TIMER:
            self.mtime = number
        elif address == STATUS:
            self.overrun = self.overrun and not number & 2
        elif address == CONTROL:
            self.control = number & 1
        return True
