"""A machine of the library, as the readers of cases use it."""
from ctypes import byref, c_uint8, c_uint32, c_uint64, c_size_t

from model import names
from model.devices import RAM
from model.memory import PAGE
from model.words import SPACE

from .libraries import Asked, Cap, Console, Halted, Handle, Ran, Sent, Timer, calls

PCC, DDC, MTCC, MTDC, MSCRATCHC, MEPCC = SCRS = tuple(names.SCRS.values())
MSTATUS, MIE, MSCRATCH, MCAUSE, MTVAL, MIP, MCYCLE, MINSTRET = (
    names.CSRS[name] for name in "mstatus mie mscratch mcause mtval mip mcycle minstret".split())

# Statuses that are no fault of an image or of a text, and why a run stopped.
OK, RANGE, STEPS, HALTED, BUFFER, ADDRESS, TRAP, UNSEAL, SEALED_JUMP = (
    calls.CONSTANTS[name] for name in "OK RANGE STEPS HALTED BUFFER ADDRESS TRAP UNSEAL SEALED_JUMP".split())
OTHERS = {calls.CONSTANTS[name.upper().replace(" ", "_")]: name for name in ("no memory", "no machine", "range", "full")}
# What ends a stretch, in cases.
ENDS = {0: "none", TRAP: "trap", UNSEAL: "unseal", SEALED_JUMP: "sealed jump"}


class Refused(Exception):
    """A call that answered another status than CHERISIM_OK."""

    def __init__(self, status, line=0):
        super().__init__(code_of(status))
        self.status, self.line = status, line

    def code(self):
        return code_of(self.status)


def code_of(status):
    """The code of a fault, or the words of another status."""
    if 1 <= status <= 15:
        return f"L{status}"
    return f"A{status - 32}" if 33 <= status <= 43 else OTHERS.get(status, f"status {status}")


def must(status):
    if status != OK:
        raise Refused(status)


def buffer_of(contents):
    """Bytes as C takes them; a call of no bytes takes a pointer all the same."""
    return (c_uint8 * max(len(contents), 1)).from_buffer_copy(contents or b"\0")


class Machine:
    """A machine, which is freed with this object."""

    def __init__(self, library):
        self.library, self.handle = library, Handle()
        self.at = byref(self.handle)
        self.sent_cell, self.number_cell, self.cap_cell = Sent(), c_uint64(), Cap()

    def __del__(self):
        self.library.cherisim_free(self.at)

    @classmethod
    def of_image(cls, library, image):
        """The machine in the opening state of an image's file."""
        machine = cls(library)
        must(library.cherisim_new(buffer_of(image), len(image), machine.at))
        return machine

    @classmethod
    def flat(cls, library, contents=b"", pages=1, address=RAM, entry=RAM, mode=False):
        machine = cls(library)
        must(library.cherisim_new_flat(buffer_of(contents), len(contents), address, entry, pages, mode, machine.at))
        return machine

    @classmethod
    def of_text(cls, library, text):
        """The machine of a text in the assembly language; a refusal has its fault's line."""
        machine, line = cls(library), c_uint64()
        status = library.cherisim_assemble(buffer_of(text), len(text), machine.at, byref(line))
        if status != OK:
            raise Refused(status, line.value)
        return machine

    def copy(self):
        other = Machine(self.library)
        must(self.library.cherisim_copy(self.at, other.at))
        return other

    # ---- events

    def step(self):
        """One step; the byte that it sends, or None."""
        must(self.library.cherisim_step(self.at, byref(self.sent_cell)))
        return self.sent_cell.byte if self.sent_cell.sends else None

    def tick(self):
        must(self.library.cherisim_tick(self.at))

    def receive(self, byte):
        must(self.library.cherisim_receive(self.at, byte))

    def run(self, steps, tick=0, before=0, address=None, at_end=False, room=4096):
        """A run: how many steps it did, the bytes that they sent, and why it stopped."""
        asked = Asked(steps, tick, before, address or 0, address is not None, at_end)
        room, ran = max(room, 1), Ran()
        buffer = (c_uint8 * room)()
        must(self.library.cherisim_run(self.at, byref(asked), buffer, room, byref(ran)))
        return ran.steps, bytes(buffer[:ran.sent]), ran.stop

    # ---- what it holds

    def got(self, call, kind, *given):
        """What a call puts into a value of a kind."""
        value = kind()
        must(call(self.at, *given, byref(value)))
        return value

    def reg(self, n):
        return self.got(self.library.cherisim_reg, Cap, n)

    def regs(self):
        values = (Cap * 32)()
        must(self.library.cherisim_all_regs(self.at, values))
        return values

    def scr(self, n):
        return self.got(self.library.cherisim_scr, Cap, n)

    def csr(self, n):
        must(self.library.cherisim_csr(self.at, n, byref(self.number_cell)))
        return self.number_cell.value

    def pc(self):
        must(self.library.cherisim_scr(self.at, PCC, byref(self.cap_cell)))
        return self.cap_cell.address

    def pages(self):
        return self.got(self.library.cherisim_pages, c_uint32).value

    def read(self, address, length):
        buffer = (c_uint8 * max(length, 1))()
        must(self.library.cherisim_read(self.at, address, buffer, length))
        return bytes(buffer)[:length]

    def read_cap(self, address):
        return self.got(self.library.cherisim_read_cap, Cap, address)

    def ram(self):
        """All of RAM."""
        return self.read(RAM, self.pages() * PAGE)

    def tagged(self, start=RAM):
        """The addresses of the tagged granules from one on, in ascending order."""
        library, found = self.library, c_uint64()
        while True:
            status = library.cherisim_next_tagged(self.at, start, byref(found))
            if status == RANGE:
                return
            must(status)
            yield found.value
            start = found.value + 16
            if start >= SPACE:
                return

    def halted(self):
        """The number with which it is halted, or None."""
        halted = self.got(self.library.cherisim_halted, Halted)
        return halted.number if halted.halted else None

    def timer(self):
        return self.got(self.library.cherisim_timer, Timer)

    def console(self):
        """The bytes that wait, whether one was lost, and whether a byte that waits interrupts."""
        queue, console = (c_uint8 * 64)(), Console()
        must(self.library.cherisim_console(self.at, queue, byref(console)))
        return bytes(queue)[:console.waiting], console.overrun, console.control

    # ---- writing

    def set_reg(self, n, value):
        must(self.library.cherisim_set_reg(self.at, n, value))

    def set_scr(self, n, value):
        must(self.library.cherisim_set_scr(self.at, n, value))

    def set_csr(self, n, value):
        must(self.library.cherisim_set_csr(self.at, n, value))

    def write(self, address, contents):
        must(self.library.cherisim_write(self.at, address, buffer_of(contents), len(contents)))

    def write_cap(self, address, value):
        must(self.library.cherisim_write_cap(self.at, address, value))

    # ---- questions

    def next_ends(self):
        return self.got(self.library.cherisim_next_ends, c_uint32).value

    def why(self):
        """The text that says what the next step will do, and why."""
        room, length = 65536, c_size_t()
        text = (c_uint8 * room)()
        must(self.library.cherisim_why(self.at, text, room, byref(length)))
        return bytes(text[:length.value]).decode("ascii")
