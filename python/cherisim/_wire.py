"""The frames of GDB's remote serial protocol: `$`, data, `#` and the sum of the data's bytes modulo 256 in two digits."""
from __future__ import annotations

import re
from typing import Callable, Optional

BOUND = 0x4000
"""How many bytes of data a frame may have."""
INTERRUPT = 0x03
"""The byte that stops a machine which runs."""

_DIGITS = re.compile(rb"[0-9a-fA-F]{2}")


class TooLong(Exception):
    """A frame has more data than BOUND: it was read to its end, and dropped."""


class Wire:
    """One end of a conversation. `read` answers bytes that came (waiting for some, where it is told to), none where none wait, and None at
    the end; `write` sends bytes."""

    def __init__(self, read: Callable[[bool], Optional[bytes]], write: Callable[[bytes], None]) -> None:
        self._read, self._write = read, write
        self._came, self._last = bytearray(), b""
        self.acknowledges, self.ended = True, False

    def _wait(self, wait: bool = True) -> None:
        came = None if self.ended else self._read(wait)
        if came is None:
            self.ended = True
        else:
            self._came += came

    def _skip(self) -> bool:
        """Drops what stands before a frame, sends the last one again for each `-`, and answers whether a frame begins."""
        begin = self._came.find(b"$")
        for _ in range(self._came.count(b"-", 0, begin if begin >= 0 else len(self._came))):
            self._write(self._last)
        del self._came[:begin if begin >= 0 else len(self._came)]
        return begin >= 0

    def packet(self) -> Optional[bytes]:
        """The data of the next frame whose sum is right; None where nothing more comes. Raises TooLong."""
        while True:
            while not self._skip():
                if self.ended:
                    return None
                self._wait()
            end = self._came.find(b"#")
            while end < 0 or len(self._came) < end + 3:
                if self.ended:
                    return None
                self._wait()
                end = self._came.find(b"#", max(0, end))
            data, digits = bytes(self._came[1:end]), bytes(self._came[end + 1:end + 3])
            del self._came[:end + 3]
            good = bool(_DIGITS.fullmatch(digits)) and int(digits, 16) == sum(data) % 256
            if self.acknowledges:
                self._write(b"+" if good else b"-")
            if good and len(data) > BOUND:
                raise TooLong
            if good:
                return re.sub(rb"\}(.)", lambda it: bytes([it[1][0] ^ 0x20]), data, flags=re.DOTALL)

    def send(self, data: bytes) -> None:
        """Sends a frame."""
        data = re.sub(rb"[#$}*]", lambda it: b"}" + bytes([it[0][0] ^ 0x20]), data)
        self._last = b"$" + data + b"#%02x" % (sum(data) % 256)
        self._write(self._last)

    def interrupted(self) -> bool:
        """Whether an interrupt, or the end, came while the machine runs."""
        self._wait(False)
        while self._came[:1] in (b"+", b"-"):
            del self._came[:1]
        if self._came[:1] == bytes([INTERRUPT]):
            del self._came[:1]
            return True
        return self.ended
