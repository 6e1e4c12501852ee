#!/usr/bin/env python3
"""The contracts in the pages: those that docs/PROVED.md quotes, and docs/CALLS.md, which has a line for each public call.

    calls.py            writes them
    calls.py --check    says where they differ from crates/*/src, and ends with 1 if they do

In docs/PROVED.md a part `<!-- made by calls.py: CRATE CALL ..; CRATE CALL .. -->` has the whole contract of each call that it names, as
its file writes it, without the comments between its clauses.
"""
import os
import sys

sys.path.insert(0, os.path.join(os.path.dirname(os.path.abspath(__file__)), ".."))
from pages.contracts import calls_of, definitions_of, first_sentence
from pages.made import fill
from pages.markdown import cut, table
from toolchain import crates

SCRIPT = os.path.basename(__file__)
PROVED, CALLS = "docs/PROVED.md", "docs/CALLS.md"


def quoted(call):
    """A call with its contract, under its name."""
    clauses = [line for _, lines in call.clauses() for line in lines]
    return "\n".join([f"// {call.crate}: {call.name}", *call.signature(), *clauses])


def calls_named(what):
    """The calls of a crate that are named after it."""
    crate, *names = what.split()
    calls = {call.name: call for call in calls_of(crate)}
    missing = [name for name in names if name not in calls]
    if missing:
        sys.exit(f"{PROVED}: {crate} has no public call {', '.join(missing)} with a contract")
    return [calls[name] for name in names]


def contracts(what):
    """The contracts of some calls."""
    return "```rust\n" + "\n\n".join(quoted(call) for part in what.split("; ") for call in calls_named(part)) + "\n```"


def named(call):
    """The definitions that a call's contract names, each file with its own."""
    return "; ".join(f"{', '.join(f'`{name}`' for name in names)} ({file})" for file, names in definitions_of(call).items())


def escaped(text):
    return text.replace("|", "\\|")


def row(call):
    return [f"`{call.name}`", named(call), escaped(cut(call.sentence()))]


def all_calls(_):
    """The calls of each crate under its own heading, with what the crate is."""
    parts = []
    for crate in crates():
        rows = [row(call) for call in calls_of(crate)]
        parts.append(f"## {crate}\n\n{first_sentence(crate)}")
        if rows:
            parts.append(table(["Call", "Definitions that it names", "What it does"], rows))
    return "\n\n".join(parts)


def main(given):
    if given not in ([], ["--check"]):
        print(__doc__)
        return 2
    well = [fill(page, SCRIPT, made, bool(given)) for page, made in ((PROVED, contracts), (CALLS, all_calls))]
    return 0 if all(well) else 1


if __name__ == "__main__":
    sys.exit(main(sys.argv[1:]))
