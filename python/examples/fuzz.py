"""A small fuzzer: it mutates inputs of a program until one makes it trap, and keeps those that reach new places.

    python3 fuzz.py [--executions 50000] [--seed 1]

The program reads `CH`, a length and so many bytes, and copies them into a table of 16 bytes without looking at the length. Its capability
to the table does look: the seventeenth byte traps. The machine after its set-up is made once, and each input runs in a copy of it.
"""
import argparse
import random
import sys

from cherisim import Cap, Machine, Perms, RAM, Stop

TEXT = """
        .mode   1                       # ca1: the console, ca2: the table, ca3: halt
        cjal    cra, get
        li      t0, 67                  # 'C'
        bne     a0, t0, done
        cjal    cra, get
        li      t0, 72                  # 'H'
        bne     a0, t0, done
        cjal    cra, get
        mv      a4, a0
copy:   beq     a4, zero, done
        cjal    cra, get
        csb     a0, 0(ca2)
        cincoffsetimm ca2, ca2, 1
        addi    a4, a4, -1
        j       copy
get:    cld     a0, 16(ca1)             # does a byte wait?
        beq     a0, zero, done
        cld     a0, 8(ca1)
        cjalr   cnull, 0(cra)
done:   csd     zero, 0(ca3)
"""
TABLE = RAM + 0x800
MOST_STEPS = 2000
MOST_BYTES = 64


def ready():
    """The machine after its set-up."""
    machine = Machine(text=TEXT)
    machine.regs["ca1"] = Cap.make(0x10000000, 0x10000020, perms=Perms.Load | Perms.Store)
    machine.regs["ca2"] = Cap.make(TABLE, TABLE + 16, perms=Perms.Load | Perms.Store)
    machine.regs["ca3"] = Cap.make(0x00100000, 0x00100008, perms=Perms.Store)
    machine.scrs["ddc"] = 0
    return machine


def walked(machine, data):
    """Runs an input: answers the jumps from place to place that it takes, and whether it ends before a trap."""
    machine.receive(data)
    edges, before = set(), machine.pc
    for _ in range(MOST_STEPS):
        if machine.halted is not None:
            return edges, False
        if machine.next_ends is Stop.TRAP:
            return edges, True
        machine.step()
        at = machine.pc
        if at != before + 4:
            edges.add((before, at))
        before = at
    return edges, False


def mutated(drawn, data):
    """An input with a few changes."""
    data = bytearray(data)
    for _ in range(drawn.randint(1, 3)):
        at, how = drawn.randint(0, len(data)), drawn.randrange(4)
        if how == 0:
            data[at:at + 1] = [drawn.randrange(256)]
        elif how == 1:
            data[at:at] = [drawn.randrange(256)]
        elif how == 2:
            data[at:at + 1] = []
        else:
            data += drawn.randbytes(drawn.randint(1, 16))
    return bytes(data[:MOST_BYTES])


def main(given):
    parser = argparse.ArgumentParser(description=__doc__.splitlines()[0])
    parser.add_argument("--executions", type=int, default=50000)
    parser.add_argument("--seed", type=int, default=1)
    asked = parser.parse_args(given)
    begun, drawn, corpus, reached = ready(), random.Random(asked.seed), [b""], set()
    for number in range(1, asked.executions + 1):
        data, machine = mutated(drawn, drawn.choice(corpus)), begun.copy()
        edges, traps = walked(machine, data)
        if traps:
            print(f"execution {number}: the input {data.hex()} traps:\n{machine.why()}", end="")
            return 0
        if not edges <= reached:
            reached |= edges
            corpus.append(data)
    print(f"{asked.executions} executions, {len(reached)} jumps, no trap")
    return 1


if __name__ == "__main__":
    sys.exit(main(sys.argv[1:]))
