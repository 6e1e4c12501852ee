"""Sessions of the debugger with a past, over a machine whose steps are recorded as they are given.

Where a session has a schedule, its own events are those that the schedule has in turn: a byte before a step, the step, and a tick after
it.
"""
from model import calls, origins, recorded
from model.origins import Event, held
from model.sessions import Optional, Refused, Session, number, one_of, place_of
from model.words import ONES


def distance(session, word):
    """Reads a number of events, or the first word of `to stop`."""
    return word if word == "to" else number(1, ONES)(session, word)


class Past(Session):
    """A session of the machine of a text."""

    OPERANDS = Session.OPERANDS | {"ago": (), "back": (distance, Optional(one_of("stop"), lambda session: None)),
                                   "changed": (place_of, Session.COUNT), "origin": (place_of,), "lost": (place_of,), "calls": ()}

    def begin(self):
        super().begin()
        self.events, self.given, self.opening = [], [], self.machine.state()

    def meet(self, kind, byte):
        if kind == "step":
            self.events.append(recorded.event(self.machine))
        else:
            super().meet(kind, byte)
            state = self.machine.state()
            self.events.append(Event(state, state, {}, ""))

    def give(self, kind, byte=None, is_own=False):
        self.given.append((kind, byte, is_own))
        super().give(kind, byte, is_own)

    def on_ago(self):
        return f"events {self.count}\n"

    def on_back(self, count, stop):
        if (count == "to") != (stop == "stop") or not stop and count > self.count:
            raise Refused("B2")
        before = self.count
        if stop:
            self.to_stop()
        else:
            self.stand_after(self.given[:before - count])
        return self.told(before, len(self.machine.devices.sent))

    def stand_after(self, given):
        """To where events lead from the opening state."""
        self.begin()
        for event in given:
            self.give(*event)

    def to_stop(self):
        """Back to the last step before which a stop holds; all events come again where there is none."""
        given, last = self.given, None
        self.look(self.stops)
        self.begin()
        for event in given:
            if event[0] == "step" and not self.is_halted() and self.is_at(self.stops):
                last = self.count
            self.give(*event)
        if last is None:
            raise Refused("B2")
        self.stand_after(given[:last])

    def on_changed(self, place, most):
        """Events of the session's own steps, up to the halt or to one after which the place holds another value."""
        before, value = self.standing(), held(self.machine.state(), self.within(place))
        for _ in range(most):
            if self.is_halted() or held(self.machine.state(), place) != value:
                break
            self.own()
        return self.told(*before)

    def on_origin(self, place):
        return "".join(f"{line}\n" for line in origins.origin(self.events, self.opening, self.within(place)))

    def on_lost(self, place):
        return "".join(f"{line}\n" for line in origins.lost(self.events, self.within(place)))

    def on_calls(self):
        return "".join(f"{line}\n" for line in calls.lines(self.events))

    def answers(self, lines):
        """The replies to lines, one after the other."""
        return "".join(map(self.answer, lines))


class LongPast(Past):
    """Without a record of its events: a session that isn't asked where a value came from."""

    meet = Session.meet
