"""Direct instruction injection: a client plays random instructions over a socket, and compares each record with the model machine.

CHERISIM_INJECTED says how many instructions in all.
"""
import contextlib
import os
import random
import socket
import struct
import threading
import unittest

from support import RAM
from cherisim import Cap, Machine
from cherisim import rvfi_dii
from model.machine import LOADS, STORES
from model.machine import Machine as ModelMachine
from model.row_forms import FORMS
from model.rows import made

COUNT = int(os.environ.get("CHERISIM_INJECTED", "8000"))
OF_A_TRACE = 500
ONES = (1 << 64) - 1
V1, V2 = struct.Struct("<10Q8B"), struct.Struct("<8sQQQ5B3xQQQ")
LONG = ("order", "pc_rdata", "pc_wdata", "insn", "rs1_rdata", "rs2_rdata", "rd_wdata", "mem_addr", "mem_rdata", "mem_wdata")
SHORT = ("mem_rmask", "mem_wmask", "rs1_addr", "rs2_addr", "rd_addr", "trap", "halt", "intr")
NONE = dict.fromkeys((*LONG, *SHORT), 0)

# Where an instruction may be: RAM's first pages; data lies above.
CODE, DATA, PAGES = RAM, RAM + 0x8000, 16


def instructions(form):
    """The rows of a form, but for fences."""
    return [row for row in FORMS[form].split() if not row.startswith("fence")]


class Player:
    """Draws instructions, and what their records are by the model machine."""

    def __init__(self, drawn):
        self.drawn, self.machine, self.order = drawn, ModelMachine(PAGES), 0

    def next(self):
        """A word and its record."""
        return self.drawn.choice((self.arithmetic, self.arithmetic, self.immediate, self.upper, self.branch, self.jump, self.memory))()

    def played(self, row, **operands):
        """Does an instruction where PC stands: its word and its record."""
        word, machine = made(row, operands), self.machine
        before, begun = [value[1] for value in machine.registers], machine.pc
        machine.memory.write(begun, word.to_bytes(4, "little"))
        insn = machine.step().insn
        rd, rs1, rs2 = (getattr(insn, name) for name in ("rd", "rs1", "rs2"))
        record = {**NONE, "order": self.order, "insn": word, "pc_rdata": begun, "pc_wdata": machine.pc, "rs1_addr": rs1, "rs2_addr": rs2,
                  "rs1_rdata": before[rs1], "rs2_rdata": before[rs2], "rd_addr": rd, "rd_wdata": machine.registers[rd][1]}
        self.order += 1
        size = STORES.get(row) or LOADS.get(row, (0,))[0]
        if size:
            kind, address = "w" if row in STORES else "r", before[rs1] + insn.imm & ONES
            record |= {"mem_addr": address, f"mem_{kind}mask": (1 << size) - 1, f"mem_{kind}data": machine.memory.number(address, size)}
        return word, record

    def registers(self, *names):
        return {name: self.drawn.randrange(32) for name in names}

    def arithmetic(self):
        return self.played(self.drawn.choice(instructions("rd, rs1, rs2")), **self.registers("rd", "rs1", "rs2"))

    def immediate(self):
        row, imm = self.drawn.choice(instructions("rd, rs1, signed")), self.drawn.randrange(-2048, 2048)
        return self.played(row, signed=imm, **self.registers("rd", "rs1"))

    def upper(self):
        return self.played(self.drawn.choice(("lui", "auipc")), upper=self.drawn.getrandbits(20) << 12, **self.registers("rd"))

    def by(self):
        """How far to another instruction of the first pages."""
        return self.drawn.randrange(CODE, CODE + 0x800, 4) - self.machine.pc

    def branch(self):
        return self.played(self.drawn.choice(instructions("rs1, rs2, branch")), branch=self.by(), **self.registers("rs1", "rs2"))

    def jump(self):
        return self.played("jal", jump=self.by(), **self.registers("rd"))

    def memory(self):
        """A store or a load at an address in register 31, which stands in DATA after an auipc of its own."""
        row = self.drawn.choice((*LOADS, *STORES))
        size, offset = STORES.get(row) or LOADS[row][0], self.drawn.randrange(-2048, 2048)
        offset &= -size
        address = self.machine.registers[31][1] + offset & ONES
        if not DATA - 0x2000 <= address < DATA + 0x2000 or address % size:
            return self.played("auipc", rd=31, upper=DATA - RAM)
        if row in STORES:
            return self.played(row, rs1=31, stored=offset, **self.registers("rs2"))
        return self.played(row, rs1=31, signed=offset, rd=self.drawn.randrange(31))


class Client:
    """An engine's side of the socket."""

    def __init__(self, port):
        self.socket = socket.create_connection(("127.0.0.1", port), timeout=60)
        self.version = 1

    def send(self, *packets):
        self.socket.sendall(b"".join(struct.pack("<IHBB", word, 0, command, 0) for command, word in packets))

    def take(self, size):
        data = b""
        while len(data) < size:
            came = self.socket.recv(size - len(data))
            if not came:
                raise EOFError
            data += came
        return data

    def record(self):
        """A record, in the version that was agreed."""
        if self.version == 1:
            return dict(zip((*LONG, *SHORT), V1.unpack(self.take(V1.size))))
        magic, size, order, insn, trap, halt, intr, mode, width, before, after, flags = V2.unpack(self.take(V2.size))
        fields = {**NONE, "order": order, "insn": insn, "trap": trap, "halt": halt, "intr": intr, "pc_rdata": before, "pc_wdata": after}
        assert (magic, mode, width) == (b"trace-v2", 3, 2)
        if flags & 1:
            name, rd, rs1, rs2, *places = struct.unpack("<8s3Q3B5x", self.take(40))
            fields.update(zip(("rd_wdata", "rs1_rdata", "rs2_rdata", "rd_addr", "rs1_addr", "rs2_addr"), (rd, rs1, rs2, *places)))
            assert name == b"int-data"
        if flags & 2:
            name, *four, read, write, address = struct.unpack("<8s32s32sIIQ", self.take(88))
            loaded, stored = (int.from_bytes(it, "little") for it in four)
            fields.update(mem_rdata=loaded, mem_wdata=stored, mem_rmask=read, mem_wmask=write, mem_addr=address)
            assert name == b"mem-data"
        assert size == 64 + 40 * (flags & 1) + 44 * (flags & 2)
        return fields


class Injection(unittest.TestCase):
    def setUp(self):
        self.door = rvfi_dii.listening(0)
        self.server = threading.Thread(target=self.serve, daemon=True)
        self.server.start()
        self.client = Client(self.door.getsockname()[1])

    def serve(self):
        connection, _ = self.door.accept()
        with connection, contextlib.suppress(ValueError, OSError):
            rvfi_dii.Injected(Machine.flat(b"", pages=PAGES)).talk(connection)

    def tearDown(self):
        self.client.socket.close()
        self.server.join()
        self.door.close()

    def test_address(self):
        self.assertEqual(self.door.getsockname()[0], "127.0.0.1")

    def test_random_instructions(self):
        """Half of the traces in version 1, and half in version 2."""
        drawn = random.Random(86)
        for begun in range(0, COUNT, OF_A_TRACE):
            if begun >= COUNT // 2 and self.client.version == 1:
                self.agree()
            player = Player(drawn)
            played = [player.next() for _ in range(min(OF_A_TRACE, COUNT - begun))]
            self.client.send(*((1, word) for word, _ in played), (0, 0))
            for word, expected in played:
                self.assertEqual(self.client.record(), expected, hex(word))
            self.assertEqual(self.client.record(), {**NONE, "halt": 1})

    def agree(self):
        """Asks for version 2, and takes it."""
        self.client.send((0, int.from_bytes(b"VERS", "big")), (ord("v"), 2))
        self.assertEqual(self.client.record(), {**NONE, "halt": 3})
        self.assertEqual(self.client.take(16), b"version=" + struct.pack("<Q", 2))
        self.client.version = 2

    def test_traps(self):
        """A trap, and then a fetch that fails, where an instruction can't be put."""
        self.client.send((1, 0), (1, 0x13))
        self.assertEqual(self.client.record(), {**NONE, "pc_rdata": RAM, "trap": 1})
        self.assertEqual(self.client.record(), {**NONE, "order": 1, "insn": 0x13, "trap": 1})

    def test_ends(self):
        self.client.send((7, 0))
        self.assertRaises((EOFError, ConnectionError), self.client.record)


class Placed(unittest.TestCase):
    """What stands where an instruction is put stays, but for what the instruction stores there."""

    def test_taken_back(self):
        opening = Machine.flat(bytes(range(64)))
        opening.set_cap(RAM + 32, Cap.make(RAM, RAM + 64))
        injected = rvfi_dii.Injected(opening)
        injected.machine.pc = RAM + 36
        injected.do(0x00000013)
        self.assertEqual((injected.machine.mem[:], injected.machine.cap_at(RAM + 32).tag), (opening.mem[:], True))
        injected.machine.pc, injected.machine.regs["a0"], injected.machine.regs["a1"] = RAM + 32, RAM + 32, 0xABCD
        injected.do(0x00B51123)  # sh a1, 2(a0): the upper half of itself
        expected = bytearray(opening.mem[:])
        expected[34:36] = b"\xcd\xab"
        self.assertEqual((injected.machine.mem[:], injected.machine.cap_at(RAM + 32).tag), (bytes(expected), False))
        injected.reset()
        self.assertEqual(injected.machine.mem[:], opening.mem[:])


if __name__ == "__main__":
    unittest.main()
