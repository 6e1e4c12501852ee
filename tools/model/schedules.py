"""Runs on a schedule: which bytes and ticks come around which steps (docs/ARCHITECTURE.md, the run of `cherisim run`)."""
from typing import NamedTuple


class Schedule(NamedTuple):
    """A byte of `keys` comes before each step whose number from 0 is a multiple of `gap`, and a tick after each whose number from 1 is one
    of `tick`, or none where that is 0."""
    gap: int
    tick: int
    keys: bytes = b""

    def byte_before(self, done):
        """The byte before the step after so many, or None."""
        place, rest = divmod(done, self.gap)
        return self.keys[place] if not rest and place < len(self.keys) else None

    def ticks_after(self, done):
        """Whether a tick comes after so many steps."""
        return self.tick != 0 and done % self.tick == 0

    def events(self, steps, is_halted):
        """The events of a run of so many steps at most, each with its byte, up to the halt: none comes after it."""
        for done in range(steps):
            if is_halted():
                return
            byte = self.byte_before(done)
            if byte is not None:
                yield "byte", byte
            yield "step", None
            if self.ticks_after(done + 1) and not is_halted():
                yield "tick", None
