"""The crates of the repository, and how the toolchain's compiler is called for one of them."""
import os
import shutil
import sys

ROOT = os.path.dirname(os.path.dirname(os.path.abspath(__file__)))
# The proved program, as the gate leaves it.
PROGRAM = os.path.join(ROOT, "crates", "cherisim", "out", "cherisim")


def program_given(words):
    """The program that the first of a script's words names, or else the proved one. The script ends where it isn't there."""
    program = os.path.abspath(words[0] if words else PROGRAM)
    if not os.path.exists(program):
        sys.exit(f"no program {os.path.relpath(program, ROOT)}: the gate leaves it there")
    return program


def kit():
    """The folder of the toolchain that `rt` belongs to."""
    found = shutil.which("rt")
    if not found:
        sys.exit("no rt on the path")
    return os.path.dirname(os.path.dirname(os.path.realpath(found)))


def crates():
    """The crates of crates.txt, each with what it stands on."""
    found = {}
    with open(os.path.join(ROOT, "crates.txt"), encoding="utf-8") as file:
        for line in file:
            name, colon, needs = line.partition("#")[0].partition(":")
            if colon:
                found[name.split()[0]] = needs.split()
    return found


def folder_of(crate):
    return os.path.join(ROOT, "crates", crate)


def below(crate, known):
    """The crates that a crate stands on, directly or not."""
    found = []
    for need in known[crate]:
        if need in known:
            found += [it for it in [*below(need, known), need] if it not in found]
    return found


def built(crate):
    """Where a library of the repository stands once it is built."""
    return os.path.join(folder_of(crate), "out", "rlib", f"{crate}.rlib")


def compiler():
    return os.path.join(kit(), "bin", "rattle")


def words(crate, known):
    """What the compiler is given to check a crate in its folder, or in a copy of it, over the libraries below it."""
    libraries = os.path.join(kit(), "rlibs")
    rlib = lambda it: built(it) if it in known else os.path.join(libraries, f"{it}.rlib")
    root = next(it for it in ("src/main.rt", "src/lib.rt") if os.path.exists(os.path.join(folder_of(crate), it)))
    given = ["--crate-name", crate, root, "--extern", f"std={rlib('std')}"]
    for need in known[crate]:
        given += ["--extern", f"{need}={rlib(need)}"]
    for room in [libraries, *(os.path.dirname(rlib(it)) for it in below(crate, known))]:
        given += ["-L", f"dependency={room}"]
    return [*given, "--antt-project", os.path.join(kit(), "rattle", "logic", "antt-project.json")]


def over_the_logic(jobs):
    """What a check is given besides: the logic as it was built, and how many jobs."""
    return ["--logic-built", os.path.join(kit(), "logic_built"), "--jobs", str(jobs)]
