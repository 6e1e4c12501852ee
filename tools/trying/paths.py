"""Where everything stands that the cases are tried with."""
import importlib.util
import os

TOP = os.path.abspath(os.path.join(os.path.dirname(os.path.abspath(__file__)), "..", ".."))


def below(*names):
    return os.path.join(TOP, *names)


# Files of cases, and those of them that the proved program reads too.
CASES = below("cases")
PROVED_CASES = below("crates", "conformance", "data")
# The kernel with two compartments, their policy, and other pieces of compartments.
KERNEL = below("examples", "compartments.s")
POLICY = below("examples", "compartments.policy")
COMPARTMENTS = below("cases", "kernel")
# Programs that fill memories with capabilities.
REACHES = below("cases", "reaches")
# The table of instructions.
ROWS = below("crates", "isa_rows", "src", "table.rt")
# The library in front of the C library's calls.
FAILING_DEVICES = below("tools", "trying", "failing_devices.c")
# What is tried, as the gate leaves it.
LIBRARY = below("c", "build")
PROGRAM = below("crates", "cherisim", "out", "cherisim")


def module_alone(name):
    """A module of python/cherisim by itself: the package would load a library."""
    found = importlib.util.spec_from_file_location(name, below("python", "cherisim", f"{name}.py"))
    module = importlib.util.module_from_spec(found)
    found.loader.exec_module(module)
    return module


def cases_of(name):
    """Where the file of cases of a name stands."""
    proved = os.path.join(PROVED_CASES, f"{name}.txt")
    return proved if os.path.exists(proved) else os.path.join(CASES, f"{name}.txt")
