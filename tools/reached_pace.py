#!/usr/bin/env python3
"""Says what the search for reachable capabilities takes (crate reached), for memories of several sizes and contents.

    python3 tools/reached_pace.py [RUNS]        seconds of this process's children; the best of RUNS runs, 5 if it isn't said

The program that it times stands in tools/reached_pace.txt, a line `=== PATH` before each of its files. It is proved and built in a folder
of its own, over the crates below it in crates/*/out/rlib, as `rt lib` in crates/word_cap and crates/reached leaves them.
"""
import os
import re
import resource
import subprocess
import sys
import tempfile

from toolchain import ROOT, below, built, compiler, crates, kit, over_the_logic

NAME = "reached_pace"
NEEDS = ["base", "cap_format", "cap_bounds", "word_cap", "tagged_memory", "reached"]

# Pages, tags, what each capability opens, and how many searches are timed.
KINDS = ["256 bytes at its own place", "all of RAM", "the next one's granule", "all up to the next one",
         "three eighths of RAM, two in turns"]
SEARCHES = [(16, 32, 0, 20000), (16, 32, 1, 20000), (16, 32, 2, 20000), (16, 4096, 1, 200), (16, 4096, 4, 200), (4096, 64, 0, 2000),
            (4096, 100000, 0, 10), (4096, 100000, 1, 10), (4096, 100000, 2, 10), (4096, 100000, 4, 2),
            (4096, 1048576, 0, 2), (4096, 1048576, 1, 2), (4096, 1048576, 2, 2), (4096, 1048576, 4, 1)]


def lay_out(room):
    """Writes the program's files."""
    with open(os.path.join(ROOT, "tools", f"{NAME}.txt"), encoding="utf-8") as file:
        parts = re.split(r"^=== (.*)\n", file.read(), flags=re.MULTILINE)[1:]
    for path, text in zip(parts[::2], parts[1::2]):
        os.makedirs(os.path.join(room, os.path.dirname(path)), exist_ok=True)
        with open(os.path.join(room, path), "w", encoding="utf-8") as file:
            file.write(text.rstrip() + "\n")


def build(room):
    """Proves, builds and links the program in its folder."""
    libraries, known = os.path.join(kit(), "rlibs"), {**crates(), NAME: NEEDS}
    given = ["--crate-name", NAME, "src/main.rt", "--extern", f"std={libraries}/std.rlib"]
    for need in NEEDS:
        given += ["--extern", f"{need}={built(need)}"]
    for folder in [libraries, *(os.path.dirname(built(it)) for it in below(NAME, known) if it in known)]:
        given += ["-L", f"dependency={folder}"]
    given += ["--antt-project", os.path.join(kit(), "rattle", "logic", "antt-project.json")]
    toolchain = ["--toolchain", os.path.join(kit(), "toolchain")]
    linked = ["--target", "x86_64-unknown-linux-gnu", *toolchain, "-o", NAME, f"{NAME}.o"]
    linked += [os.path.join(kit(), "c", it) for it in ("libos_c.a", "liblibc_c.a")]
    for words in ([compiler(), "check", *given, *over_the_logic(1), "-o", "checked"],
                  [compiler(), "build", *given, "--crate-checked", "checked", *toolchain, "--backend", "llvm", "-o", f"{NAME}.o"],
                  [os.path.join(kit(), "bin", "rattle-link"), *linked]):
        ran = subprocess.run(words, cwd=room, capture_output=True, text=True, check=False)
        if ran.returncode:
            sys.exit(ran.stdout + ran.stderr)


def seconds(room, *words):
    """The processor time of one run of the program, and what it prints."""
    before = resource.getrusage(resource.RUSAGE_CHILDREN)
    ran = subprocess.run([os.path.join(room, NAME), *map(str, words)], capture_output=True, text=True, check=True)
    after = resource.getrusage(resource.RUSAGE_CHILDREN)
    return after.ru_utime + after.ru_stime - before.ru_utime - before.ru_stime, ran.stdout.strip()


def main(words):
    runs = int(words[0]) if words else 5
    with tempfile.TemporaryDirectory() as room:
        lay_out(room)
        build(room)
        for pages, tags, kind, turns in SEARCHES:
            times = []
            for _ in range(runs):
                made, _ = seconds(room, pages, tags, kind, 0)
                searched, members = seconds(room, pages, tags, kind, turns)
                times.append((searched - made) / turns)
            size = f"{pages * 4} KB" if pages < 256 else f"{pages // 256} MB"
            taken = f"{min(times) * 1e6:.1f} microseconds"
            print(f"{size}, {tags} capabilities, each opens {KINDS[kind]}: {members} members, {taken}", flush=True)


if __name__ == "__main__":
    main(sys.argv[1:])
