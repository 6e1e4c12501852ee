"""Programs on a grid of schedules: steps many at once, as a run on a schedule does them, and the same events one at a time; both beside the
model machine (tools/model/machine.py), which is asked for all of the state."""
from model.names import CSRS, SCRS
from model.schedules import Schedule
from model.texts import Program

from .machines import Machine
from .programs import Outcome, in_mode

STEPS = 200
TICKS = 0, 1, 3, 10, 50
GAPS = 0, 1, 2, 7, 20, 1000
KEYS = b"eleven bytes"


def state_of(outcome):
    """All of the state after a run, by name."""
    machine = outcome.machine
    timer, (queue, overrun, control) = machine.timer(), machine.console()
    return {
        "end": machine.halted(), "sent": bytes(outcome.sent), "registers": [value.key() for value in machine.regs()], "ram": machine.ram(),
        "tags": list(machine.tagged()), "timer": (timer.mtime, timer.mtimecmp), "console": (queue, overrun, control),
        "csrs": [machine.csr(n) for n in CSRS.values()], "scrs": [machine.scr(n).key() for n in SCRS.values()],
    }


def modelled(model):
    """The same of the model."""
    devices, memory = model.devices, model.memory
    return {
        "end": model.halted, "sent": bytes(devices.sent), "registers": model.registers, "ram": bytes(memory.ram),
        "tags": sorted(memory.tags), "timer": (devices.mtime, devices.mtimecmp),
        "console": (bytes(devices.queue), devices.overrun, bool(devices.control)),
        "csrs": [model.csr(name) for name in CSRS], "scrs": [model.special[name] for name in SCRS],
    }


def singly(outcome, schedule):
    """The events of a schedule one at a time, up to the step that halts."""
    machine = outcome.machine
    for kind, byte in schedule.events(STEPS, lambda: machine.halted() is not None):
        if kind == "byte":
            machine.receive(byte)
        else:
            {"step": outcome.step, "tick": machine.tick}[kind]()


def by_model(model, schedule):
    """The state of the model after the events of a schedule."""
    for kind, byte in schedule.events(STEPS, lambda: model.halted is not None):
        if kind == "byte":
            model.byte(byte)
        else:
            {"step": model.step, "tick": model.tick}[kind]()
    return modelled(model)


def schedule(bench, case):
    """The mode, ` | `, and statements: `same`, or the first schedule on which one of the two ways differs from the model, and in what."""
    mode, statements = case.inputs.split(" | ")
    text = in_mode(mode, statements)
    machine, model = Machine.of_text(bench.library, text), Program(text.decode()).machine()
    for tick in TICKS:
        for gap in GAPS:
            given = Schedule(max(gap, 1), tick, KEYS if gap else b"")
            at_once, one_by_one = Outcome(machine.copy()), Outcome(machine.copy())
            at_once.run_scheduled(STEPS, given)
            singly(one_by_one, given)
            expected = by_model(model.copy(), given)
            for way, outcome in (("at once", at_once), ("one by one", one_by_one)):
                came = state_of(outcome)
                differing = [name for name in came if came[name] != expected[name]]
                if differing:
                    return f"tick {tick}, gap {gap}, {way}: {', '.join(differing)}"
    return "same"
