"""Scripts of the devices, by loads and stores of a machine."""
from cases.values import bytes_text

from .machines import MIP, PAGE, PCC, RAM
from .reading import Left, Words, bytes_of, number

LOADS = {1: "lbu", 2: "lhu", 4: "lwu", 8: "ld"}
STORES = {1: "sb", 2: "sh", 4: "sw", 8: "sd"}
INTERRUPTS = MIP
INSTRUCTION = RAM + 64
REFUSALS = ("V1", "V2")


class Devices:
    """What a script's calls are made to. Loads and stores are refused by one fault, whichever way there is no register; so the answer's
    name of it is taken over where there is a fault."""

    def __init__(self, bench, expected):
        self.bench, self.machine, self.expected = bench, bench.root_machine(), expected

    def accessed(self, machine, names, size, address, value=0):
        """Does a load or a store: whether no device answers, and the byte that it sends, if it does. Where RAM answers no device does."""
        if machine.halted() is not None:
            # a machine that is halted does nothing
            raise Left
        machine.set_scr(PCC, self.bench.root(INSTRUCTION))
        machine.set_reg(11, number(address))
        machine.set_reg(12, number(value))
        loads = names is LOADS
        self.bench.place(machine, names[size], rd=10 if loads else 0, rs1=11, rs2=0 if loads else 12)
        if machine.next_ends():
            return True, None
        sent = machine.step()
        if RAM <= address < RAM + PAGE:
            moved = machine.reg(10 if loads else 12).address % (1 << 8 * size)
            if machine.read(address, size) != moved.to_bytes(size, "little"):
                raise ValueError("RAM doesn't answer")
            return True, sent
        return False, sent

    def refusal(self):
        return self.expected if self.expected in REFUSALS else "refused"

    def loaded(self, machine, size, address):
        refused, _ = self.accessed(machine, LOADS, size, address)
        return self.refusal() if refused else f"{machine.reg(10).address:x}"

    def read(self, words):
        return self.loaded(self.machine, words.decimal(), words.hex())

    def peek(self, words):
        """What a load would give, and what it would take stays."""
        return self.loaded(self.machine.copy(), 8, words.hex())

    def write(self, words):
        size, address, value = words.decimal(), words.hex(), words.hex()
        refused, sent = self.accessed(self.machine, STORES, size, address, value)
        if refused:
            return self.refusal()
        if sent is not None:
            return f"byte {sent:x}"
        halted = self.machine.halted()
        return "ok" if halted is None else f"halt {halted:x}"

    def gives(self, words):
        size, address = words.decimal(), words.hex()
        return f"{not self.accessed(self.machine.copy(), LOADS, size, address)[0]:d}"

    def takes(self, words):
        size, address = words.decimal(), words.hex()
        return f"{not self.accessed(self.machine.copy(), STORES, size, address)[0]:d}"

    def sends(self, words):
        address, value = words.hex(), words.hex()
        sent = self.accessed(self.machine.copy(), STORES, 1, address, value)[1]
        return "none" if sent is None else f"{sent:x}"

    def tick(self, _):
        self.machine.tick()
        return "ok"

    def receive(self, words):
        for byte in bytes_of(words.word()):
            self.machine.receive(byte)
        return "ok"

    def interrupts(self, _):
        return f"{self.machine.csr(INTERRUPTS):x}"

    def state(self, _):
        timer, halted = self.machine.timer(), self.machine.halted()
        waiting, overrun, control = self.machine.console()
        number_of = "-" if halted is None else f"{halted:x}"
        return f"{timer.mtime:x} {timer.mtimecmp:x} {bytes_text(waiting)} {overrun:d} {control:d} {number_of}"


def script(bench, case):
    """Calls to the devices as they begin."""
    devices, answers = Devices(bench, ""), []
    for call, devices.expected in zip(case.inputs.split(";"), case.expected.split("; ")):
        words = Words(bench.library, call)
        answers.append(getattr(devices, words.word())(words))
    return "; ".join(answers)
