"""Programs that run on the whole machine, and what is seen of it between their events and after them."""
from itertools import groupby

from model.deeds import LETTER_BYTE, Deeds

from .machines import BUFFER, ENDS, SEALED_JUMP, TRAP, UNSEAL, Machine
from .reading import bytes_of
from .seen import View


def text_of(first, statements):
    """The text of a line and of statements, which are parted by `; `."""
    return "\n".join([first, *statements.split("; ")]).encode()


def in_mode(mode, statements):
    return text_of(f".mode {mode}", statements)


class Outcome(Deeds):
    """A machine of the library in the middle of a case: the bytes that it has sent, and how it stood after the last run of events."""

    def __init__(self, machine):
        super().__init__(View(machine))
        self.machine, self.tick, self.byte = machine, machine.tick, machine.receive

    def step(self):
        byte = self.machine.step()
        if byte is not None:
            self.sent.append(byte)

    def advance(self, count):
        """The same steps, as many at once as the machine does."""
        self.run(count)
        self.settle()

    def run(self, steps, before=0, **asked):
        """A run, which goes on where its buffer was full: how many steps it did, and why it stopped."""
        done = 0
        while True:
            count, sent, stop = self.machine.run(steps - done, before=before + done, **asked)
            done += count
            self.sent += sent
            if stop != BUFFER:
                return done, stop

    # ---- stretches

    def ends(self):
        return ENDS[self.machine.next_ends()]

    def stretch(self, letters):
        """The events of letters as one stretch: how many were met, and why the next one was not."""
        done = 0
        for _, group in groupby(letters.strip("-")):
            met, why = self.met("".join(group))
            done += met
            if why:
                return f"{done} {ENDS[why]}"
        return f"{done} none"

    def met(self, letters):
        """Meets events of one letter: how many, and what ended the stretch, or 0."""
        if letters[0] == "s":
            done, stop = self.run(len(letters), at_end=True)
            return (done, stop) if stop in (TRAP, UNSEAL, SEALED_JUMP) else (len(letters), 0)
        for letter in letters:
            {"t": self.tick, "b": lambda: self.byte(LETTER_BYTE)}[letter]()
        return len(letters), 0

    # ---- schedules

    def run_scheduled(self, steps, schedule, fails_at=None):
        """Runs on a schedule: from one byte to the next at once, or where a byte can't be sent a step at a time."""
        done, (gap, tick, keys) = 0, schedule
        while done < steps and self.machine.halted() is None and self.cut is None:
            byte = schedule.byte_before(done)
            if byte is not None:
                self.byte(byte)
            place = done // gap
            left = min(steps, (place + 1) * gap if place + 1 < len(keys) else steps) - done
            done += self.run(left, tick=tick, before=done)[0] if fails_at is None else self.single(schedule, done, fails_at)

    def single(self, schedule, done, fails_at):
        """One step of such a run, whose byte may be the one that can't be sent, and else the tick after it."""
        byte = self.machine.step()
        if byte is not None and len(self.sent) == fails_at:
            self.cut = 1
            return 1
        self.sent += b"" if byte is None else bytes([byte])
        if schedule.ticks_after(done + 1) and self.machine.halted() is None:
            self.tick()
        return 1


def program(bench, case):
    """The mode, ` | `, statements or `file` and the bytes of an image's file, ` | `, and what is done and asked in order."""
    mode, statements, deeds = case.inputs.split(" | ")
    if mode == "file":
        machine = Machine.of_image(bench.library, bytes_of(statements))
    else:
        machine = Machine.of_text(bench.library, in_mode(mode, statements))
    return "; ".join(Outcome(machine).answers(deeds.split("; ")))


def worlds(bench, case):
    """The mode, statements, those that the first and the second image have after them, and deeds: what is told of both worlds, once
    where it is the same."""
    mode, statements, one, two, deeds = case.inputs.split(" | ")
    told = [Outcome(Machine.of_text(bench.library, in_mode(mode, f"{statements}; {more}"))).answers(deeds.split("; "))
            for more in (one, two)]
    return "; ".join(first if first == second else f"{first} / {second}" for first, second in zip(*told))
