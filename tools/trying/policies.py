"""Runs of the kernel of the compartments under the policy of the example."""

from cases.quoting import quoted

from .kernel import STEPS, joined
from .paths import POLICY
from .reaching import mistaken


def or_caller(rules, name):
    """A policy in which the rule about the code of this name has `or caller`."""
    head = f"when pc in {name}:"
    lines = rules.splitlines()
    if sum(line.startswith(head) for line in lines) != 1:
        raise ValueError(f"no rule, or several, about {name}")
    return "".join(f"{line}, or caller\n" if line.startswith(head) else f"{line}\n" for line in lines)


def policy_of(names):
    """The policy of the example, with `or caller` in the rules about the code of these names."""
    with open(POLICY, encoding="utf-8") as file:
        rules = file.read()
    for name in names:
        rules = or_caller(rules, name)
    return rules


def breach(bench, case):
    """A mistake in the kernel or in a compartment, or `none`, the compartments A and B, the steps from one tick to the next, and whose
    rules have `or caller`: the status, what is sent and what is told."""
    name, a, b, tick, *callers = case.inputs.split()
    image, told = bench.image_of(mistaken(joined(bench, a, b).decode(), name).encode(), "--symbols", "a.sym")
    if image is None:
        return told
    bench.file("a.policy", policy_of(callers).encode())
    status, sent, told = bench.run("run", "a.img", str(STEPS), "--tick", tick, "--policy", "a.policy", "--symbols", "a.sym")
    return f"{status} {quoted(sent)} {quoted(told)}"
