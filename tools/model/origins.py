"""Where a value came from and where its tag went, over a recorded run, by the words of docs/DEBUGGER.md.

A place is what it is in and a name or an address: a register's number, a special register's name, or a granule's address. An event has
what places held before it and after it, by place how it made what it wrote there, and the line that a trace has of it but for its
number. Ticks and bytes write nothing. In lines LABEL stands after each address that has a label where there is a table of symbols.
"""

from itertools import groupby
from typing import NamedTuple, Optional

from model.capabilities import base, flag, has, in_bounds, is_unsealed, otype, perms, set_bounds, top
from model.names import CAPABILITY_NAMES, SPECIALS
from model.reach import State
from model.rights import EXECUTE, GREATEST_SEALING_TYPE, LOAD_CAPABILITY, SEAL, SENTRY, UNSEAL
from model.words import SPACE, decoded

REGISTER, SPECIAL, GRANULE = "register", "special", "granule"
PCC, DDC, MTCC, MEPCC = ((SPECIAL, name) for name in ("pcc", "ddc", "mtcc", "mepcc"))


class Making(NamedTuple):
    """A way to make a value, the place that it is made of (a number has none), the place of an authority, and an address or a length."""
    way: str
    source: Optional[tuple] = None
    by: Optional[tuple] = None
    number: int = 0


NUMBER = Making("number")

# The rows that load and store double words.
DOUBLE_LOADS, DOUBLE_STORES = {"ld", "ld.ddc", "ld.cap"}, {"sd", "sd.ddc", "sd.cap"}


class Event(NamedTuple):
    """What an event found and left, what it wrote by places, its line, and the step that it is, if it is one that the machine does."""
    before: State
    after: State
    writes: dict
    line: str
    step: Optional[NamedTuple] = None


def held(state, place):
    """The value at a place."""
    kind, n = place
    if kind == REGISTER:
        return state.registers[n]
    if kind == GRANULE:
        return *state.granule(n)[:2], n in state.tags
    return {"pcc": state.pcc, "ddc": state.ddc, **dict(zip(SPECIALS, state.specials))}[n]


# ---- texts

LABEL = "\0"


def placed(address):
    """An address, and the place of its label."""
    return f"{address:016x}{LABEL}"


def name_of(place):
    kind, n = place
    return CAPABILITY_NAMES[n] if kind == REGISTER else placed(n) if kind == GRANULE else n


def fields(value):
    """A value's fields, as `reg` shows them."""
    view = perms(value) & 0xFFF | perms(value) >> 12 << 15
    return (f"v:{value[2]:d} a:{value[1]:016x} b:{base(value):016x} t:{top(value):017x} p:{view:05x} f:{flag(value)} "
            f"o:{otype(value):05x}")


def notes(source, value):
    """What of a tagged source isn't in the value that is made of it."""
    if not source[2]:
        return ""
    if not value[2]:
        return ", tag cut"
    told = [("bounds cut", (base(source), top(source)) != (base(value), top(value))), ("permissions cut", perms(source) != perms(value)),
            ("sealed", is_unsealed(source) and not is_unsealed(value)), ("unsealed", not is_unsealed(source) and is_unsealed(value))]
    return "".join(f", {text}" for text, holds in told if holds)


def source_text(event, place):
    """A place, where the value came from that an event wrote there, and what was cut."""
    source = event.writes[place].source
    if source is None:
        return f"{name_of(place)} from no capability"
    return f"{name_of(place)} from {name_of(source)}{notes(held(event.before, source), held(event.after, place))}"


def written_text(number, event, place):
    """The line of the event of this number that wrote a place."""
    return f"{source_text(event, place)}: {number} {event.line}"


def instruction(event):
    """Where an event's instruction stands, its word and its text."""
    return event.line.partition(": ")[0]


def stretch_lines(links, written):
    """The lines of links one after the other that differ in their numbers and values alone: of more than three all between the first and
    the last are one line, with their count."""
    if len(links) < 4:
        return [line for link in links for line in written(*link)]
    _, event, place = links[0]
    return [*written(*links[0]), f"{source_text(event, place)}, {len(links) - 2} times: {instruction(event)}", *written(*links[-1])]


def link_lines(links, written):
    """The lines of links, newest first."""
    stretches = groupby(links, lambda link: (source_text(*link[1:]), instruction(link[1])))
    return [line for _, stretch in stretches for line in stretch_lines(list(stretch), written)]


def opening_text(opening, place):
    """The line of a place that no event wrote."""
    kind = "image" if place[0] == GRANULE else "opening state"
    return f"{kind}: {name_of(place)} {fields(held(opening, place))}"


# ---- the conditions of the tag

class Asked:
    """What is asked of a making over what places held before it: each condition as its text, and whether it holds."""

    def __init__(self, making, state):
        self.source, self.by, self.number = making.source, making.by, making.number
        self.value = making.source and held(state, making.source)
        self.authority = making.by and held(state, making.by)

    def capability(self):
        return "a capability is written", False

    def keeps(self):
        return "the instruction keeps the tag", False

    def tag(self):
        return f"tag of {name_of(self.source)}", self.value[2]

    def seal(self):
        return f"seal of {name_of(self.source)}", is_unsealed(self.value)

    def window(self):
        address = self.number % SPACE
        return (f"window of {name_of(self.source)}: {placed(address)}",
                decoded(self.value[0], address) == decoded(self.value[0], self.value[1]))

    def length(self):
        return self.bytes_of(self.source, self.value, self.number)

    def exact(self):
        return f"exact bounds: {placed(self.value[1])} + {self.number}", set_bounds(self.value, self.number)[1]

    def execute(self):
        return f"permit execute of {name_of(self.source)}", has(self.value, EXECUTE)

    # what a seal is opened with: none but an object type's
    def sealed(self):
        return f"seal of {name_of(self.source)}", otype(self.value) <= GREATEST_SEALING_TYPE

    # a trap and a return open a sentry
    def seal_or_entry(self):
        return f"seal of {name_of(self.source)}", is_unsealed(self.value) or self.value[2] and otype(self.value) == SENTRY

    # ---- of the authority

    @staticmethod
    def bytes_of(place, value, size):
        return (f"length of {name_of(place)}: {placed(value[1])} + {size} in {placed(base(value))} to {top(value):017x}",
                base(value) <= value[1] and value[1] + size <= top(value))

    def by_tag(self):
        return f"tag of {name_of(self.by)}", self.authority[2]

    def by_seal(self):
        return f"seal of {name_of(self.by)}", is_unsealed(self.authority)

    def by_loads(self):
        return f"permit load capability of {name_of(self.by)}", has(self.authority, LOAD_CAPABILITY)

    def by_seals(self):
        return f"permit seal of {name_of(self.by)}", has(self.authority, SEAL)

    def by_unseals(self):
        return f"permit unseal of {name_of(self.by)}", has(self.authority, UNSEAL)

    def by_length(self):
        return self.bytes_of(self.by, self.authority, 1)

    def by_type(self):
        return f"type of {name_of(self.by)}", self.authority[1] <= GREATEST_SEALING_TYPE

    def by_same_type(self):
        return f"type of {name_of(self.by)}", in_bounds(self.authority) and self.authority[1] == otype(self.value)


# The conditions of each way, in order.
WAYS = {
    "number": "capability", "copied": "tag", "cleared": "keeps", "loaded": "tag by_loads", "moved": "tag seal window",
    "bounded": "tag seal length", "bounded exactly": "tag seal length exact", "restricted": "tag seal", "flagged": "tag seal",
    "sealed": "tag by_tag seal by_seal by_seals by_length by_type",
    "unsealed": "tag by_tag sealed by_seal by_unseals by_length by_same_type",
    "entry": "tag seal execute", "linked": "tag seal window execute", "opened": "tag", "entered": "tag window",
    "resumed": "tag seal_or_entry window",
}


def conditions(making, state):
    """The conditions of a making up to and with the first that is false."""
    asked, words = Asked(making, state), WAYS[making.way].split()
    # a trap and a return leave a value whose address is right as it is
    if making.way == "resumed" and asked.value[1] == making.number:
        words = ["tag"]
    for word in words:
        text, holds = getattr(asked, word)()
        yield text, holds
        if not holds:
            return


# ---- what is sought

def is_lost(event, place):
    """Whether the tag at a place goes at an event that writes it: there, or in the source, was one."""
    source = event.writes[place].source
    were = [held(event.before, it)[2] for it in (place, source) if it]
    return any(were) and not held(event.after, place)[2]


def last(events, place, does=lambda event, place: True):
    """The number of the last event that wrote a place and does what is sought, or None."""
    numbers = range(len(events), 0, -1)
    return next((it for it in numbers if place in events[it - 1].writes and does(events[it - 1], place)), None)


def chain(events, place):
    """The links of what a place holds, newest first, each with its event's number, and the place that they lead down to, if they do."""
    links = []
    while place and (number := last(events, place)):
        event = events[number - 1]
        links.append((number, event, place))
        events, place = events[:number - 1], event.writes[place].source
    return links, place


def origin(events, opening, place):
    """The lines of `origin`, newest first."""
    links, end = chain(events, place)
    return link_lines(links, lambda *link: [written_text(*link)]) + ([opening_text(opening, end)] if end else [])


# ---- where tags went

def loss_lines(number, event, place):
    """The lines of an event at which a tag went: what it wrote, and the conditions of the tag."""
    told = (f"  {'ok' if holds else 'no'} {text}" for text, holds in conditions(event.writes[place], event.before))
    return [written_text(number, event, place), *told]


def had_tag(event, place):
    """Whether the source of what an event wrote at a place had its tag."""
    source = event.writes[place].source
    return source is not None and held(event.before, source)[2]


class Half(NamedTuple):
    """A double word that was copied: where from and where to, and the numbers of its load and its store."""
    source: int
    target: int
    load: int
    store: int


def accessed(event, rows):
    """The instruction of a step that does one of these rows, and the address that it accesses."""
    if event.step is None or event.step.trap or event.step.insn.row not in rows:
        return None
    insn = event.step.insn
    return insn, (event.before.registers[insn.rs1][1] + insn.imm) % SPACE


def half(events, store):
    """The double word that the event of this number stored of a register that a load had written last, or None."""
    stored = accessed(events[store - 1], DOUBLE_STORES)
    load = stored and last(events[:store - 1], (REGISTER, stored[0].rs2))
    loaded = load and accessed(events[load - 1], DOUBLE_LOADS)
    return Half(loaded[1], stored[1], load, store) if loaded else None


def copied(events, store, granule):
    """The double words of a granule that the event of this number wrote last, the lower one first, if both were copied from a granule that
    held a tagged capability of their bits at both loads; or None."""
    earlier = last(events[:store - 1], (GRANULE, granule))
    halves = [earlier and half(events, earlier), half(events, store)]
    if not all(halves):
        return None
    lower, upper = sorted(halves, key=lambda it: it.target)
    if (lower.target, upper.target) != (granule, granule + 8) or upper.source != lower.source + 8:
        return None
    value = held(events[store - 1].after, (GRANULE, granule))
    for number in (lower.load, upper.load):
        state = events[number - 1].before
        if lower.source not in state.tags or held(state, (GRANULE, lower.source))[:2] != value[:2]:
            return None
    return lower, upper


def data_lines(events, store, granule):
    """What is known of data that the event of this number stored into a granule."""
    halves = copied(events, store, granule)
    if halves:
        return [f"{placed(granule)} was copied as data from {placed(halves[0].source)}, a tagged capability then:",
                *(f"{number} {events[number - 1].line}" for it in halves for number in (it.load, it.store))]
    place = GRANULE, granule
    number = last(events[:store], place, is_lost)
    return loss_lines(number, events[number - 1], place) if number else []


def losses(events, place):
    """The lines of `lost`, or none."""
    if not events or held(events[-1].after, place)[2]:
        return []
    links, _ = chain(events, place)
    tags = [n for n, link in enumerate(links) if had_tag(*link[1:])]
    if tags:
        return link_lines(links[:tags[0] + 1], loss_lines)
    if not links or links[-1][2][0] != GRANULE or links[-1][1].writes[links[-1][2]] != NUMBER:
        return []
    told = data_lines(events, links[-1][0], links[-1][2][1])
    return told and link_lines(links[:-1], loss_lines) + told


def lost(events, place):
    return losses(events, place) or [f"no tag was lost at {name_of(place)}"]
