#!/usr/bin/env python3
"""The pictures of docs/REACH.md: what code can reach in examples/compartments.s, as the debugger's `reach dot` draws it.

    python3 tools/pages/pictures.py            draws them anew; it takes Graphviz's program dot
    python3 tools/pages/pictures.py --check    says whether each graph in docs/pictures is what the program answers

Each picture stands beside its graph: NAME.dot and NAME.svg in docs/pictures. The program is the proved one, as the gate leaves it.
"""
import os
import subprocess
import sys
import tempfile

TOP = os.path.abspath(os.path.join(os.path.dirname(os.path.abspath(__file__)), "..", ".."))
PICTURES = os.path.join(TOP, "docs", "pictures")
EXAMPLE = os.path.join(TOP, "examples", "compartments.s")
PROGRAM = os.path.join(TOP, "crates", "cherisim", "out", "cherisim")

# What is typed before the graph is asked for: to A's first entry, and on to the kernel's next one.
GRAPHS = {"reach-a": ["until a_code 1000"], "reach-kernel": ["until a_code 1000", "until trap 1000"]}


def called(*words, typed="", folder=None):
    """What a command prints; it must end well and tell nothing."""
    ran = subprocess.run(words, input=typed, capture_output=True, text=True, cwd=folder, timeout=120, check=False)
    if ran.returncode or ran.stderr:
        raise ValueError(f"{' '.join(words)}: status {ran.returncode}: {ran.stderr.strip()}")
    return ran.stdout


def graph(room, typed):
    """The graph where these commands lead."""
    said = called(PROGRAM, "debug", "a.img", "--symbols", "a.sym", typed="\n".join([*typed, "reach dot", ""]), folder=room)
    return said[said.index("digraph"):]


def graphs():
    """The graphs by their names."""
    with tempfile.TemporaryDirectory(prefix="pictures-") as room:
        called(PROGRAM, "asm", EXAMPLE, "a.img", "--symbols", "a.sym", folder=room)
        return {name: graph(room, typed) for name, typed in GRAPHS.items()}


def path(name):
    return os.path.join(PICTURES, name)


def read(name):
    with open(path(name), encoding="utf-8") as file:
        return file.read()


def draw(name, text):
    """Writes a graph, and its picture beside it."""
    with open(path(f"{name}.dot"), "w", encoding="utf-8") as file:
        file.write(text)
    drawn = called("dot", "-Tsvg", path(f"{name}.dot"))
    with open(path(f"{name}.svg"), "w", encoding="utf-8") as file:
        file.write(drawn)


def differing(name, text):
    """What is wrong with a picture, or nothing."""
    if read(f"{name}.dot") != text:
        return f"docs/pictures/{name}.dot is not what the program answers"
    nodes = text.count("[label=") - text.count("->")
    return "" if read(f"{name}.svg").count('class="node"') == nodes + 1 else f"docs/pictures/{name}.svg has not the graph's nodes"


def main():
    made = graphs()
    if sys.argv[1:] == ["--check"]:
        told = [line for line in (differing(name, text) for name, text in made.items()) if line]
        print(*told, sep="\n", end="\n" if told else "")
        return 1 if told else 0
    os.makedirs(PICTURES, exist_ok=True)
    for name, text in made.items():
        draw(name, text)
    return 0


if __name__ == "__main__":
    sys.exit(main())
