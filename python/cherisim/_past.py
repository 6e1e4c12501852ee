"""What a machine was given since the opening state of its image: what `Machine(.., past=True)` remembers."""
from __future__ import annotations

from bisect import bisect_left, bisect_right
from ctypes import byref, c_size_t, c_uint64, create_string_buffer
from typing import Any, Callable, List, Optional, Tuple, Union

from . import _library as c
from ._caps import Cap
from ._faults import refusal
from ._library import lib
from ._names import _SHOWN, REGISTERS, SCRS
from ._origins import Link, Place

STEPS, TICKS, BYTE = (c.CONSTANTS[f"GAVE_{name}"] for name in ("STEPS", "TICKS", "BYTE"))
_KINDS = tuple(c.CONSTANTS[f"IN_{name}"] for name in ("REGISTER", "SPECIAL", "MEMORY"))
_FULL = c.CONSTANTS["FULL"]
_SPECIAL = {number: name for name, number in SCRS.items()}
_LINKS = 64  # the room for links that is tried first
WRITES = (lib.cherisim_set_reg, lib.cherisim_set_scr, lib.cherisim_set_csr, lib.cherisim_write, lib.cherisim_write_cap)
"""The calls that change a machine between two events."""


def image_of(text: bytes) -> bytes:
    """The image file of a text in the assembly language. Raises TextFault."""
    size, line, room = c_size_t(), c_uint64(), create_string_buffer(0)
    status = lib.cherisim_image(text, len(text), room, 0, byref(size), byref(line))
    if status == _FULL:
        room = create_string_buffer(size.value)
        status = lib.cherisim_image(text, len(text), room, len(room), byref(size), byref(line))
    if status:
        raise refusal(status, "Machine", line.value)
    return room.raw[:size.value]


def _named(place: c.Place) -> Place:
    """A place, as it is shown: a register's name, or a granule's address."""
    number: int = place.number
    return number if place.kind == _KINDS[2] else _SPECIAL[number] if place.kind == _KINDS[1] else _SHOWN[number]


class Past:
    """The bytes of an image, and what its machine was given, in order: steps, ticks and bytes, each counted as an event."""

    def __init__(self, image: bytes) -> None:
        self.image = image
        self._given: List[Tuple[int, int]] = []  # of each entry its kind and its number
        self._before: List[int] = []             # how many events were before it
        self._sent: List[int] = []               # how many bytes were sent before the call that gave it
        self.events = 0

    def copy(self) -> Past:
        """The same, on its own from here on."""
        other = Past(self.image)
        other._given, other._before, other._sent, other.events = self._given[:], self._before[:], self._sent[:], self.events
        return other

    def note(self, kind: int, number: int, sent: int) -> None:
        """Notes what was given, with how many bytes were sent before the call that gave it."""
        if kind != BYTE and not number:
            return
        if self._given and kind != BYTE and (kind, sent) == (self._given[-1][0], self._sent[-1]):
            self._given[-1] = kind, self._given[-1][1] + number
        else:
            self._given.append((kind, number))
            self._before.append(self.events)
            self._sent.append(sent)
        self.events += 1 if kind == BYTE else number

    def note_run(self, steps: int, tick: int, before: int, sent: int, halted: Callable[[], bool]) -> None:
        """Notes steps with numbers from before + 1 on, and the tick after each that is a multiple of `tick`; none follows the halt."""
        at, end = before, before + steps
        while at < end:
            mark = min(end, (at // tick + 1) * tick) if tick else end
            self.note(STEPS, mark - at, sent)
            at = mark
            if tick and at % tick == 0 and (at < end or not halted()):
                self.note(TICKS, 1, sent)

    def keep(self, events: int) -> Tuple[int, List[Tuple[int, int]]]:
        """Forgets all but the first events. Answers how many bytes were sent before the last call that gave some of them, and what that
        call gave."""
        at = bisect_right(self._before, events - 1)
        del self._given[at:], self._before[at:], self._sent[at:]
        self.events = events
        if not at:
            return 0, []
        if self._given[-1][0] != BYTE:
            self._given[-1] = self._given[-1][0], events - self._before[-1]
        return self._sent[-1], self._given[bisect_left(self._sent, self._sent[-1]):]

    def _of(self, call: Any, *given: Any) -> int:
        """The status of a call over the image and what was given."""
        rows = (c.Given * len(self._given))(*((number, kind) for kind, number in self._given))
        status: int = call(self.image, len(self.image), rows, len(rows), *given)
        return status

    def back(self, events: int, machine: Any) -> None:
        """Puts the machine as it stood before the last events into a handle."""
        status = self._of(lib.cherisim_back, events, machine)
        if status:
            raise refusal(status, "back")

    def text(self, call: Any, place: c.Place, labels: bytes) -> str:
        """What a call tells of a place, with labels."""
        room, length, line = create_string_buffer(4096), c_size_t(), c_uint64()
        while True:
            status = self._of(call, byref(place), labels, len(labels), room, len(room), byref(length), byref(line))
            if status != _FULL:
                break
            room = create_string_buffer(length.value)
        if status:
            raise refusal(status, call.__name__, line.value)
        return room.raw[:length.value].decode("ascii")

    def links(self, call: Any, place: c.Place, most: Optional[int]) -> List[Link]:
        """The links of a place, the newest first, so many at most."""
        room, count = _LINKS if most is None else most, c_size_t()
        while True:
            rows = (c.Link * room)()
            status = self._of(call, byref(place), rows, room, byref(count))
            if status:
                raise refusal(status, call.__name__)
            if most is not None or count.value < room:
                return [_link(row) for row in rows[:count.value]]
            room *= 4


def _link(row: c.Link) -> Link:
    """A link, of what C gives."""
    return Link(row.before + 1 if row.written else 0, row.pc if row.written else None, _named(row.place),
                _named(row.source) if row.has_source else None, Cap._of(row.value))


def place_for(where: Union[str, int], address_of: Callable[[Union[str, int]], int]) -> c.Place:
    """A register before a special register before a granule, by its address or a label, as C takes it."""
    for kind, names in zip(_KINDS, (REGISTERS, SCRS)):
        if where in names:
            return c.Place(names[str(where)], kind)
    return c.Place(address_of(where), _KINDS[2])
