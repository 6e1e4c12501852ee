"""Direct instruction injection: instructions come on a socket, each is done, and its record goes back, as TestRIG's engines ask for them.

    python3 -m cherisim.rvfi_dii 5001

Packets are those of RVFI-DII, in the layouts of versions 1 and 2, with the lowest byte of each number first. The socket is on the loopback
interface alone. An instruction is put into RAM at PC and taken back after its step: where PC lies outside RAM, or PCC forbids the fetch,
the step is a trap as of any machine, and an instruction that loads its own granule sees itself there.
"""
from __future__ import annotations

import argparse
import socket
import struct
import sys
from typing import Any, Dict, Optional, Sequence

from . import Cap, Machine, OutOfRange
from .records import LONG, SHORT, packed, record

INSTRUCTION, END, VERSION = 1, 0, ord("v")
"""The commands of a packet: do an instruction, end the trace and begin anew, take a version of the layout."""
ASKS = int.from_bytes(b"VERS", "big")
"""The instruction of an END that asks which versions there are: VERS."""
PACKET = 8
"""Bytes of a packet that comes."""

_ADDRESS = "127.0.0.1"
_HALTED, _SUPPORTED = 1, 3                       # in the field halt: the trace ended; and version 2 is known
_MACHINE, _OF_64_BITS = 3, 2                     # the mode, and the width of registers
_WITH_INTEGERS, _WITH_MEMORY = 1 << 0, 1 << 1    # what follows the head of version 2
_NOTHING: Dict[str, Any] = dict.fromkeys((*LONG, *SHORT), 0)


def _number(it: Any) -> int:
    return it.address if isinstance(it, Cap) else int(it)


def version_2(fields: Dict[str, Any]) -> bytes:
    """The packet of a record in version 2: its head, and where it isn't empty what is said of integer registers and of memory."""
    f, flags, more = {name: _number(it) for name, it in fields.items() if name != "text"}, 0, b""
    if not f["halt"]:
        flags |= _WITH_INTEGERS
        more += struct.pack("<8s3Q3B5x", b"int-data", f["rd_wdata"], f["rs1_rdata"], f["rs2_rdata"], f["rd_addr"], f["rs1_addr"],
                            f["rs2_addr"])
    if f["mem_rmask"] or f["mem_wmask"]:
        flags |= _WITH_MEMORY
        more += struct.pack("<8s32s32sIIQ", b"mem-data", f["mem_rdata"].to_bytes(32, "little"), f["mem_wdata"].to_bytes(32, "little"),
                            f["mem_rmask"], f["mem_wmask"], f["mem_addr"])
    head = struct.pack("<8sQQQ5B3xQQQ", b"trace-v2", 64 + len(more), f["order"], f["insn"], f["trap"], f["halt"], f["intr"], _MACHINE,
                       _OF_64_BITS, f["pc_rdata"], f["pc_wdata"], flags)
    return head + more


class Injected:
    """A machine whose instructions are given to it, and the version of the packets that it answers."""

    def __init__(self, opening: Machine) -> None:
        self._opening, self.version = opening, 1
        self.machine, self.order = opening.copy(), 0

    def reset(self) -> None:
        """To the opening state."""
        self.machine, self.order = self._opening.copy(), 0

    def do(self, word: int) -> Dict[str, Any]:
        """Does an instruction, and answers its record."""
        machine, pc = self.machine, self.machine.pc
        granule = pc & -16
        try:
            kept: Optional[Cap] = machine.cap_at(granule)
            machine.mem[pc:pc + 4] = struct.pack("<I", word)
        except OutOfRange:
            kept = None
        fields = {**record(machine, self.order), "insn": word, "halt": 0}
        self.order += 1
        if kept is not None:
            self._take_back(pc, granule, kept, fields)
        return fields

    def _take_back(self, pc: int, granule: int, kept: Cap, fields: Dict[str, Any]) -> None:
        """Puts back what stood where the instruction was put, but for what the instruction stored there."""
        begin, end = fields["mem_addr"], fields["mem_addr"] + fields["mem_wmask"].bit_length()
        if begin < granule + 16 and granule < end:
            for n in range(pc, pc + 4):
                if not begin <= n < end:
                    self.machine.mem[n] = kept.memory[n - granule]
        else:
            self.machine.set_cap(granule, kept)

    def answer(self, packet: bytes) -> bytes:
        """The packet that answers one that came."""
        word, _time, command, _padding = struct.unpack("<IHBB", packet)
        if command == INSTRUCTION:
            return self._packed(self.do(word))
        if command == END and word == ASKS:
            return packed({**_NOTHING, "halt": _SUPPORTED})
        if command == END:
            self.reset()
            return self._packed({**_NOTHING, "halt": _HALTED})
        if command == VERSION and word in (1, 2):
            self.version = word
            return b"version=" + struct.pack("<Q", word)
        raise ValueError(f"no command {command} with {word:#x}")

    def _packed(self, fields: Dict[str, Any]) -> bytes:
        return packed(fields) if self.version == 1 else version_2(fields)

    def talk(self, connection: socket.socket) -> None:
        """Answers packets up to the end."""
        came = bytearray()
        while True:
            data = connection.recv(65536)
            if not data:
                return
            came += data
            whole = len(came) // PACKET * PACKET
            connection.sendall(b"".join(self.answer(bytes(came[n:n + PACKET])) for n in range(0, whole, PACKET)))
            del came[:whole]


def listening(port: int) -> socket.socket:
    """A socket on the loopback interface alone; port 0 takes a free one."""
    made = socket.socket()
    made.setsockopt(socket.SOL_SOCKET, socket.SO_REUSEADDR, 1)
    made.bind((_ADDRESS, port))
    made.listen(1)
    return made


def _parser() -> argparse.ArgumentParser:
    made = argparse.ArgumentParser(prog="python3 -m cherisim.rvfi_dii", description=(__doc__ or "").splitlines()[0])
    made.add_argument("port", type=int, help="on the loopback interface; 0 takes a free one")
    made.add_argument("--pages", type=int, default=2048, help="of RAM from 0x80000000 on, 4096 bytes each (2048)")
    made.add_argument("--mode", type=int, choices=(0, 1), default=0, help="integer mode or capability mode")
    made.add_argument("--once", action="store_true", help="end after the first conversation")
    return made


def main(given: Optional[Sequence[str]] = None) -> int:
    """Has one conversation after the other."""
    asked = _parser().parse_args(given)
    opening = Machine.flat(b"", pages=asked.pages, capability_mode=bool(asked.mode))
    with listening(asked.port) as door:
        print(f"listening on {_ADDRESS} port {door.getsockname()[1]}", flush=True)
        while True:
            connection, _ = door.accept()
            with connection:
                try:
                    Injected(opening).talk(connection)
                except (OSError, ValueError) as error:
                    print(f"the conversation ended: {error}", file=sys.stderr)
            if asked.once:
                return 0


if __name__ == "__main__":
    sys.exit(main())
