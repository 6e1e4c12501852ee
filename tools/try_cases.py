#!/usr/bin/env python3
"""Tries the cases over the two C libraries and over the program `cherisim`.

    python3 tools/try_cases.py [--jobs N] [--library DIR] [--program PATH] [NAME ..]

Names of files of cases try these alone. DIR has libcherisim.so, which exports both libraries (c/build), PATH is the proved program
(crates/cherisim/out/cherisim). Prints how many cases each file has, a case that fails with its file, its line, what was expected and what
came, and at the end `N passed, M failed`. tools/trying/files.py has the table of the files: a count that isn't the table's is a failure.
"""
import argparse
import os
import sys
import tempfile
from concurrent.futures import ProcessPoolExecutor
from concurrent.futures.process import BrokenProcessPool

from trying.bench import Bench
from trying.files import FILES
from trying.libraries import NAME
from trying.paths import LIBRARY, PROGRAM
from trying.reading import Left

BY_NAME = {file.name: file for file in FILES}
# What cases share in a process.
BENCH = []


def begin(library, program, folder):
    """Begins a process that tries cases."""
    BENCH.append(Bench(library, program, folder))


def tried(name, cases):
    """What came of cases of a file where it isn't what is expected, and how many of them the proved program alone tries."""
    failures, left = [], 0
    for case in cases:
        try:
            came = BY_NAME[name].reader(BENCH[0], case)
        except Left:
            left += 1
            continue
        except Exception as error:  # pylint: disable=broad-except
            came = f"{type(error).__name__}: {error}"
        if came != case.expected:
            failures.append((case, came))
    return failures, left


def tell(name, case, came):
    """Tells of a case that failed."""
    inputs = case.inputs.partition("\n")[0]
    print(f"{name}.txt, line {case.line}: {inputs}\n  expected {case.expected}\n  came     {came}")


def counted(file, cases, left):
    """Tells how many cases a file has, and whether they are as many as the table says."""
    print(f"{file.name}: {cases} cases", flush=True)
    if left:
        print(f"  {left} of them by the proved program alone")
    if (cases, left) == (file.cases, file.left):
        return True
    print(f"  expected {file.cases} cases, {file.left} of them by the proved program alone")
    return False


def try_files(pool, files):
    """Tries files in the processes of a pool, and tells of each in order: how many cases passed, and how many failed."""
    passed = failed = 0
    read = [(file, file.read()) for file in files]
    work = [(file, cases, [pool.submit(tried, file.name, cases[at:at + file.piece]) for at in range(0, len(cases), file.piece)])
            for file, cases in read]
    for file, cases, pieces in work:
        failures, left = [], 0
        for piece in pieces:
            failures_of_piece, left_of_piece = piece.result()
            failures, left = failures + failures_of_piece, left + left_of_piece
        for case, came in failures:
            tell(file.name, case, came)
        passed += len(cases) - left - len(failures)
        failed += len(failures) + (not counted(file, len(cases), left))
    return passed, failed


def read_arguments():
    """The command line's options, and the files that it names."""
    parser = argparse.ArgumentParser(description=__doc__, formatter_class=argparse.RawDescriptionHelpFormatter)
    parser.add_argument("names", nargs="*", metavar="NAME", help="a file of cases, without its ending")
    parser.add_argument("--jobs", type=int, default=4, help="processes side by side")
    parser.add_argument("--library", default=LIBRARY, metavar="DIR")
    parser.add_argument("--program", default=PROGRAM, metavar="PATH")
    given = parser.parse_args()
    unknown = [name for name in given.names if name not in BY_NAME]
    if unknown:
        parser.error(f"no file of cases: {', '.join(unknown)}")
    missing = [path for path in (os.path.join(given.library, NAME), given.program) if not os.path.exists(path)]
    if missing:
        parser.error(f"not there: {', '.join(missing)}")
    return given, [file for file in FILES if file.name in given.names] if given.names else FILES


def main():
    given, files = read_arguments()
    with tempfile.TemporaryDirectory(prefix="cases-") as folder:
        begins = {"initializer": begin, "initargs": (given.library, os.path.abspath(given.program), folder)}
        with ProcessPoolExecutor(given.jobs, **begins) as pool:
            passed, failed = try_files(pool, files)
    print(f"{passed} passed, {failed} failed")
    return 1 if failed else 0


if __name__ == "__main__":
    try:
        sys.exit(main())
    except BrokenProcessPool:
        sys.exit("a process that tried cases ended")
