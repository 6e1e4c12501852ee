"""Deeds: what is done with a machine in the middle of a case, in order, and what is told between.

The events are `step`, `steps N`, `advance N` (the same steps, as many at once as the machine does), `tick`, `byte HH`; `stretch LETTERS`
are events as one stretch, a letter each, and `scheduled STEPS GAP TICK KEYS` a run on a schedule, maybe with the number of the byte that
can't be sent. What is no event is a query.
"""
from model.schedules import Schedule
from model.seen import View, seen, spaced

# the byte of a stretch's letter b
LETTER_BYTE = 0x41


class Deeds:
    """A machine whose deeds are done by `step`, `tick`, `byte`, `advance`, `stretch` and `run_scheduled` of who it is; seen by a view."""

    def __init__(self, view):
        self.view, self.sent, self.end, self.cut = view, bytearray(), "running", None

    def settle(self):
        """Notes how the machine stands after a run."""
        number = self.view.halted()
        self.end = "running" if number is None else f"halted {number:x}"

    def steps(self, count):
        """So many steps, one at a time."""
        for _ in range(count):
            self.step()
        self.settle()

    def verdict(self):
        """The status and the line of the end, as the program tells it."""
        if self.end == "running":
            return "1 cherisim: not halted"
        number = int(self.end.split()[1], 16)
        return f"1 cherisim: halted with {number}" if number else "0 -"

    def scheduled(self, steps, gap, tick, keys="-", *fails_at):
        """A run on a schedule. Where a byte can't be sent, which the sink fails at, the run ends after the step that sent it."""
        self.run_scheduled(int(steps), Schedule(int(gap), int(tick), keys.replace("-", "").encode()), *map(int, fails_at))
        self.settle()

    def told(self, query):
        if query in ("ends", "verdict"):
            return getattr(self, query)()
        if query == "end":
            return self.end if self.cut is None else f"cut {self.cut}"
        return spaced(self.sent) if query == "sent" else seen(self.view, query)

    def do(self, deed):
        """Does a deed: what is told of it, or None."""
        name, *words = deed.split()
        if name in ("step", "tick"):
            return getattr(self, name)()
        if name in ("steps", "advance"):
            return getattr(self, name)(int(words[0]))
        if name == "byte":
            return self.byte(int(words[0], 16))
        return getattr(self, name)(*words) if name in ("stretch", "scheduled") else self.told(deed)

    def answers(self, deeds):
        """What is told of deeds, which are done in order."""
        return [told for told in map(self.do, deeds) if told is not None]


class OfModel(Deeds):
    """A model machine."""

    def __init__(self, machine):
        super().__init__(View(machine))
        self.machine, self.sent = machine, machine.devices.sent
        self.tick, self.byte, self.advance = machine.tick, machine.byte, self.steps

    def step(self):
        self.machine.step()

    def ends(self):
        return self.machine.next_ends() or "none"

    def stretch(self, letters):
        """How many events were met, and why the next one was not."""
        for done, letter in enumerate(letters.strip("-")):
            why = self.machine.next_ends() if letter == "s" else None
            if why:
                return f"{done} {why}"
            {"s": self.step, "t": self.tick, "b": lambda: self.byte(LETTER_BYTE)}[letter]()
        return f"{len(letters.strip('-'))} none"

    def run_scheduled(self, steps, schedule, fails_at=None):
        for kind, byte in schedule.events(steps, lambda: self.machine.halted is not None):
            self.machine.byte(byte) if kind == "byte" else {"step": self.step, "tick": self.tick}[kind]()
            if fails_at is not None and len(self.sent) > fails_at:
                del self.sent[fails_at:]
                self.cut = 1
                return
