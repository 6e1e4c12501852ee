"""The kernel of the compartments under the policy of the example: without a mistake and with each, and compartments that lend what they
have, also where a rule has `or caller`. What comes of it is what the model of a machine meets (model/machine.py, cases/watched.py)."""

from cases.quoting import quoted
from cases.watched import ran
from model import policy
from model.texts import Program
from trying.kernel import STEPS, kernel_and_pieces
from trying.policies import policy_of
from trying.reaching import mistaken

EXAMPLE = "a-start+a-call+a-door b-start+b-door"
# A mistake or none, the compartments A and B, and the steps from one tick to the next, or 0; and whose rules have `or caller`.
HONEST = [f"none {EXAMPLE} 0", f"none {EXAMPLE} 3", "none a-yield b 0", "none a-yield b-busy 10", "none a-keep b-look 0",
          "none a-local b 0", "none a-integer+a-allowed b 0", "none a-past+a-allowed+a-data b 0", "none a-write-code+a-allowed+a-data b 0"]
PLANTED = [f"{name} {EXAMPLE} 0" for name in ("frame-left", "system-left", "seal-left", "two-pages", "table-left", "data-passed",
                                              "data-keeps", "sentry-left", "link-left")]
# DDC is null but where a compartment fills it.
FILLED = [f"ddc-left {EXAMPLE} 0", "ddc-left a-keep b-look 0"]
LENT = ["none a-start+a-lend+a-call+a-lent b-start+b-borrow 0", "none a-start+a-lend+a-not-global+a-call+a-lent b-start+b-keeper 0"]
# The same with `or caller` in B's rule or in A's. Without a call, and of the kernel's mistakes, nothing is lent.
CALLED = [f"data-passed {EXAMPLE} 0 B", f"data-passed {EXAMPLE} 3 B", *(f"{inputs} B" for inputs in LENT),
          "none a-start+a-lend+a-call+a-lent b-start+b-keeper 0 B", f"none {EXAMPLE} 0 A B"]
UNCALLED = [f"data-passed {EXAMPLE} 0 A", "ddc-left a-keep b-look 0 B", f"frame-left {EXAMPLE} 0 A B"]


def line(inputs):
    mistake, a, b, tick, *callers = inputs.split()
    kernel, pieces = kernel_and_pieces()
    made = Program(mistaken("".join([kernel, *(pieces[name] for name in [*b.split("+"), *a.split("+")])]), mistake))
    read, fault = policy.read(policy_of(callers), made.labels)
    assert not fault, fault
    machine = made.machine()
    status, told = ran(machine, read, STEPS, tick=int(tick), labels=made.symbols())
    return f"{inputs} => {status} {quoted(bytes(machine.devices.sent))} {quoted(told)}"


def lines():
    yield "# a mistake in the kernel or in a compartment, or none, the compartments A and B, the steps from one tick to the next, and"
    yield "# whose rules have `or caller` => the status of a run under examples/compartments.policy, what it sends, and what is told"
    for about, given in (("no mistake: attacks keep to the policy too", HONEST),
                         ("mistakes: the run stops before the first step of a compartment that reaches what they leave", PLANTED),
                         ("DDC as A left it, in B: it is null where no compartment fills it", FILLED),
                         ("what A lends B isn't what B may have by these rules", LENT),
                         ("it is by a rule about B with `or caller`", CALLED),
                         ("but not what nobody lent it by a call", UNCALLED)):
        yield f"# {about}"
        yield from map(line, given)


def files():
    yield "breaches.txt", lines()
