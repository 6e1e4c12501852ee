"""Writes riscv-arch-test's signature of a test: the words from begin_signature up to end_signature, one a line in 8 hexadecimal digits.

    python3 signature.py FLAT SYMBOLS STEPS > SIGNATURE

FLAT has the test's bytes from 0x80000000 on, as `objcopy -O binary` makes them, and SYMBOLS its labels, as `nm` prints them. The status
is 1 where the test doesn't halt within so many steps, or halts with another number than 0.
"""
import argparse
import sys

from cherisim import Machine

WORD = 4  # bytes of a line


def signature(machine):
    """The lines of a machine that is done with its test."""
    data = machine.mem["begin_signature":"end_signature"]
    return [f"{int.from_bytes(data[n:n + WORD], 'little'):08x}" for n in range(0, len(data), WORD)]


def main(given, out):
    parser = argparse.ArgumentParser(description=__doc__.splitlines()[0])
    parser.add_argument("flat")
    parser.add_argument("symbols")
    parser.add_argument("steps", type=int)
    parser.add_argument("--pages", type=int, default=1024, help="of RAM, 4096 bytes each (1024)")
    asked = parser.parse_args(given)
    with open(asked.flat, "rb") as flat, open(asked.symbols, encoding="ascii") as symbols:
        machine = Machine.flat(flat.read(), pages=asked.pages, symbols=symbols.read())
    ran = machine.run(asked.steps)
    if ran.halted != 0:
        print(f"{asked.flat}: " + ("not halted" if ran.halted is None else f"halted {ran.halted}") + f" after {ran.steps} steps, pc "
              + machine.symbols.shown(machine.pc), file=sys.stderr)
        return 1
    out.write("".join(f"{line}\n" for line in signature(machine)))
    return 0


if __name__ == "__main__":
    sys.exit(main(sys.argv[1:], sys.stdout))
