"""QEMU as another machine beside this one: its stub for GDB, over a pipe or a socket of a folder, and what its registers are."""
from __future__ import annotations

import os
import re
import shutil
import socket
import struct
import subprocess
import time
from typing import Dict, List, Optional, Sequence

from ._wire import Wire

SYSTEM, USER = "qemu-system-riscv64", "qemu-riscv64"
"""The programs, of Debian's packages qemu-system-misc and qemu-user."""

# RV64IM in machine mode alone: what else QEMU's CPU has by itself is taken away.
CPU = ("rv64,a=false,f=false,d=false,c=false,s=false,u=false,h=false,v=false,zba=false,zbb=false,zbc=false,zbs=false,mmu=false,pmp=false,"
       "marchid=0,mimpid=0")
# Debian's QEMU has no smaller board with RAM at 0x80000000 and a timer at 0x2000000.
WORDS = ("-machine", "spike", "-cpu", CPU, "-m", "1M", "-bios", "none", "-display", "none", "-monitor", "none", "-serial", "null", "-S",
         "-gdb", "stdio")
_PIECE = 1024  # bytes of memory in one packet
_REGISTER = re.compile(r'<reg name="(\w+)" bitsize="\d+"(?: regnum="(\d+)")?')
_WAIT = 10.0   # seconds until a socket has to be there


class Stub:
    """A conversation with QEMU's stub, over two files. The stub of user mode waits until each of its packets is acknowledged; that of a
    whole machine doesn't, and is told nothing."""

    def __init__(self, came: int, goes: int, acknowledges: bool) -> None:
        self._goes, self._held = goes, bytearray()

        def read(_wait: bool) -> Optional[bytes]:
            return os.read(came, 65536) or None

        self._wire = Wire(read, self._held.extend)
        self._wire.acknowledges = acknowledges

    def ask(self, *packets: str) -> List[str]:
        """Sends packets at once, and answers their replies. Raises EOFError where QEMU ended."""
        for packet in packets:
            self._wire.send(packet.encode())
        replies = []
        for packet in packets:
            self._flush()
            reply = self._wire.packet()
            if reply is None:
                raise EOFError(f"QEMU ended at {packet}")
            replies.append(reply.decode("latin-1"))
        self._flush()
        return replies

    def _flush(self) -> None:
        data = bytes(self._held)
        self._held.clear()
        while data:
            data = data[os.write(self._goes, data):]

    def numbers(self) -> Dict[str, int]:
        """The numbers of all registers, by the descriptions that QEMU has."""
        found, number = {}, 0
        target = self._described("target.xml")
        for part in re.findall(r'href="([\w.-]+)"', target):
            for name, given in _REGISTER.findall(self._described(part)):
                number = int(given) if given else number
                found[name], number = number, number + 1
        return found

    def _described(self, part: str) -> str:
        text, last = "", "m"
        while last == "m":
            reply = self.ask(f"qXfer:features:read:{part}:{len(text):x},ffb")[0]
            last, text = reply[:1], text + reply[1:]
        return text

    @staticmethod
    def registers(given: str) -> Sequence[int]:
        """x0 to x31 and pc, of the reply to g."""
        return struct.unpack("<33Q", bytes.fromhex(given[:33 * 16]))

    def write(self, address: int, data: bytes) -> None:
        """Writes bytes of RAM."""
        pieces = [(address + n, data[n:n + _PIECE]) for n in range(0, len(data), _PIECE)]
        for reply in self.ask(*(f"M{at:x},{len(piece):x}:{piece.hex()}" for at, piece in pieces)):
            if reply != "OK":
                raise ValueError(f"QEMU answers {reply} to a write of RAM")

    def read(self, address: int, length: int) -> bytes:
        """Bytes of RAM."""
        asked = (f"m{address + n:x},{min(_PIECE, length - n):x}" for n in range(0, length, _PIECE))
        return b"".join(map(bytes.fromhex, self.ask(*asked)))


class System(Stub):
    """A whole machine of QEMU, which stands until it is told to step."""

    def __init__(self) -> None:
        self.process = subprocess.Popen([SYSTEM, *WORDS], stdin=subprocess.PIPE, stdout=subprocess.PIPE, stderr=subprocess.DEVNULL)
        assert self.process.stdin and self.process.stdout
        super().__init__(self.process.stdout.fileno(), self.process.stdin.fileno(), False)
        self.ask("Qqemu.sstep=1")  # steps with interrupts and with time

    def close(self) -> None:
        """Ends it."""
        self.process.kill()
        self.process.wait()
        for stream in (self.process.stdin, self.process.stdout):
            if stream:
                stream.close()


class User(Stub):
    """A program in QEMU's user mode, by a socket in a folder."""

    def __init__(self, program: str, folder: str) -> None:
        path = os.path.join(folder, "gdb.socket")
        self.process = subprocess.Popen([USER, "-g", path, program], stdin=subprocess.DEVNULL, stdout=subprocess.DEVNULL,
                                        stderr=subprocess.DEVNULL)
        self._socket, end = socket.socket(socket.AF_UNIX), time.monotonic() + _WAIT
        while self._socket.connect_ex(path):
            if time.monotonic() > end or self.process.poll() is not None:
                self.close()
                raise EOFError("QEMU opens no socket")
            time.sleep(0.01)
        super().__init__(self._socket.fileno(), self._socket.fileno(), True)

    def close(self) -> None:
        """Ends it."""
        self.process.kill()
        self.process.wait()
        self._socket.close()


def missing(program: str) -> str:
    """What is said where a program isn't installed, else nothing."""
    return "" if shutil.which(program) else f"skipped: {program} is not installed"
