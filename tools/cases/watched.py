"""Runs that a policy watches, as the model meets them: what they send, what is told, in words or as objects, and the status; and audits
of runs."""

from cases.reaching import place_name, text
from model import objects, policy, reach
from model.capabilities import base, top
from model.listings import named_address
from model.machine import SEALED_JUMP
from model.schedules import Schedule

# What a run's options are where they aren't given.
GAP, TICK = 1000, 100
# The rows that may jump through a seal, and so be a call.
CALLS = ("cinvoke", "jalr", "jalr.cap")


def held(found, number, labels):
    """The places that lead to a member, and the member, as `may` answers them."""
    way = " -> ".join(place_name(found[link].place, labels) for link in reach.chain(found, number))
    return f"{way} {text(found[number].value)}"


def broken_by(found, breach, labels):
    """The member that breaks a rule, as an object, and the way to it in words."""
    number = breach.member
    return objects.member(number, found[number], place_name(found[number].place), labels), held(found, number, labels)


def run(machine, steps, schedule, look, after=lambda pc, step: None):
    """Runs a machine so many steps at most, up to its halt, with a look before each step at how many were done, which ends the run where
    it answers something; after each step `after` is called with PCC's address before it. What ended it, and how many steps it had."""
    done = 0
    for kind, byte in schedule.events(steps, lambda: machine.halted is not None):
        if kind == "byte":
            machine.byte(byte)
        elif kind == "tick":
            machine.tick()
        else:
            pc, told = machine.pc, look(done)
            if told:
                return told, done
            after(pc, machine.step())
            done += 1
    return "", done


class Terms:
    """The terms in force of rules in a run, and the members before its next step, where a rule applies or it may be a call."""

    def __init__(self, machine, rules):
        self.machine, self.rules, self.terms, self.found = machine, rules, rules, []

    def is_asked(self):
        """Whether a rule applies; then the members are known."""
        applies = any(policy.applies(rule, self.machine.fetched_at()) for rule in self.rules)
        insn = self.machine.next_insn()
        lends = insn and insn.row in CALLS and any(rule.or_caller for rule in self.rules)
        self.found = reach.members(self.machine.state()) if applies or lends else []
        return applies

    def after(self, pc, step):
        """After a step from an address."""
        if step.why == SEALED_JUMP and step.insn.row in CALLS:
            self.terms = policy.terms_after(self.rules, self.terms, pc, self.machine.pc, self.found)


def met(machine, rules, steps, schedule, labels, json=False):
    """Runs a machine so many steps at most, up to its halt or to a step before which a rule that applies is broken: what is told of that,
    or nothing, and how many steps it had."""
    terms = Terms(machine, rules)

    def look(done):
        breach = policy.first_breach(terms.terms, machine.fetched_at(), terms.found) if terms.is_asked() else None
        if breach and json:
            return objects.stopped(breach, done, machine.pc, *broken_by(terms.found, breach, labels), labels)
        return breach and policy.stopped(breach, done, named_address(machine.pc, labels), held(terms.found, breach.member, labels))
    return run(machine, steps, schedule, look, terms.after)


def audited(machine, rules, steps, gap=GAP, tick=TICK, keys=b"", labels=(), json=False):
    """The status of an audit by a policy, and its text: each part of a rule that is broken, where it is first."""
    terms, seen, told = Terms(machine, rules), set(), []

    def look(done):
        for breach in policy.breaches(terms.terms, machine.fetched_at(), terms.found) if terms.is_asked() else ():
            if (breach.rule.line, breach.part) not in seen:
                seen.add((breach.rule.line, breach.part))
                by, way = broken_by(terms.found, breach, labels)
                told.append(objects.finding(breach, done + 1, machine.pc, by, way, labels) if json
                            else policy.listed(breach, done + 1, named_address(machine.pc, labels), way))
    run(machine, steps, Schedule(gap, tick, keys), look, terms.after)
    return 1 if told else 0, "".join(told)


def entered(machine, steps, gap=GAP, tick=TICK, keys=b"", json=False):
    """The rules for what a run enters: each time that PCC's bounds are others and not empty, a rule that isn't among those so far."""
    last, rules = None, []

    def look(_):
        nonlocal last
        pcc = machine.special["pcc"]
        bounds = base(pcc), top(pcc)
        if bounds != last and bounds[0] < bounds[1]:
            rule = policy.entry(bounds, reach.members(machine.state()))
            rules.extend([] if rule in rules else [rule])
        last = bounds
    run(machine, steps, Schedule(gap, tick, keys), look)
    return "".join(map(objects.entry, rules) if json else rules)


def ran(machine, rules, steps, gap=GAP, tick=TICK, keys=b"", labels=(), json=False):
    """The status of a watched run, and what is told. A run that takes all of its steps is one without a trap: those are told too."""
    told, done = met(machine, rules, steps, Schedule(gap, tick, keys), labels, json)
    if json and not told:
        return objects.untrapped(machine, done, labels)
    if told or machine.halted == 0:
        return 1 if told else 0, told
    assert machine.csrs["mcause"] == 0
    ended = "not halted" if machine.halted is None else f"halted with {machine.halted}"
    return 1, f"cherisim: {ended}\ncherisim: steps {done}, pcc {named_address(machine.pc, labels)}\n"
