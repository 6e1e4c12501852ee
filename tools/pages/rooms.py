#!/usr/bin/env python3
"""The crates in docs/ARCHITECTURE.md: what each stands on.

    rooms.py            writes the table
    rooms.py --check    says where it differs from crates.txt, and ends with 1 if it does

What a crate stands on is the least of what crates.txt names: each brings what it stands on itself. Crates have the order of crates.txt.
What each is stands in docs/CALLS.md (tools/pages/calls.py).
"""
import os
import sys

sys.path.insert(0, os.path.join(os.path.dirname(os.path.abspath(__file__)), ".."))
from pages.made import fill
from pages.markdown import table
from toolchain import below, crates


def brought(crate, known):
    """What whoever stands on a crate stands on by it, libraries too."""
    return {need for it in [crate, *below(crate, known)] for need in known[it]}


def least(crate, known):
    """What a crate stands on, but for what another of these brings."""
    spared = set().union(*[brought(other, known) for other in known[crate] if other in known])
    return [need for need in known[crate] if need not in spared]


def rooms(_):
    known = crates()
    return table(["Crate", "Stands on"], [[crate, ", ".join(least(crate, known))] for crate in known])


def main(given):
    if given not in ([], ["--check"]):
        print(__doc__)
        return 2
    return 0 if fill("docs/ARCHITECTURE.md", os.path.basename(__file__), rooms, bool(given)) else 1


if __name__ == "__main__":
    sys.exit(main(sys.argv[1:]))
