"""Whatever a compartment's instructions are, no byte outside its data changes: tried on random programs.

    python3 property.py [--count 100000] [--seed 1] [--leak 0]

A runs in capability mode. It holds capabilities to its 256 bytes of data, and PCC to its code without Access_System_Registers; DDC and
all other registers are null. docs/AUTHORITY.md says what holds until the first trap, unsealing or sealed jump: bytes and tags outside its
data stay, nothing is sent, nothing halts, and the special registers are as they were. With --leak N the capabilities have N bytes more
than the policy says: then the test has to fail.
"""
import argparse
import random
import sys
from collections import Counter

from cherisim import Cap, Machine, Perms, RAM, Stop

CODE, DATA = (RAM, RAM + 0x100), (RAM + 0x800, RAM + 0x900)
STEPS, WORDS = 200, 20000  # the most steps of a program, and how many instructions programs are drawn from
HELD = range(8, 16)  # the registers that hold them
SCRS = ("mtcc", "mtdc", "mscratchc", "mepcc")


def rows():
    """The machine's instructions as (value, mask, weight): docs/PROGRAMMING.md, Encodings. What mostly traps here is rare."""
    def of(mask, weight, *groups):
        return [(base | field << at, mask, weight) for base, at, fields in groups for field in fields]
    branches, system, whole = (0, 1, 4, 5, 6, 7), (1, 2, 3, 5, 6, 7), (0x00000073, 0x00100073, 0x30200073, 0x10500073)
    capability = (8, 9, 0x0B, 0x0C, 0x0D, 0x0E, 0x0F, 0x10, 0x11, 0x14, 0x20, 0x21)
    return [
        *of(0x7F, 2, (0, 0, (0x37, 0x17))), *of(0x7F, 1, (0, 0, (0x6F,))),
        *of(0x707F, 8, (0x03, 12, range(7)), (0x23, 12, range(5)), (0x0F, 12, range(3)), (0x5B, 12, (1, 2))),
        *of(0x707F, 8, (0x13, 12, (0, 2, 3, 4, 6, 7)), (0x1B, 12, (0,)), (0x63, 12, branches)),
        *of(0x707F, 1, (0x67, 12, (0,)), (0x73, 12, system)),
        *of(0xFC00707F, 2, (0x1013, 26, (0,)), (0x5013, 26, (0, 0x10))),
        *of(0xFE00707F, 2, (0x33, 12, range(8)), (0x40000033, 12, (0, 5)), (0x02000033, 12, range(8))),
        *of(0xFE00707F, 2, (0x3B, 12, (0, 1, 5)), (0x4000003B, 12, (0, 5)), (0x0200003B, 12, (0, 4, 5, 6, 7))),
        *of(0xFE00707F, 2, (0x1B, 12, (1, 5)), (0x4000001B, 12, (5,))),
        *of(0xFE00707F, 8, (0x5B, 25, capability)), *of(0xFE00707F, 1, (0x5B, 25, (1,))),
        *of(0xFE007FFF, 8, (0xF800005B, 7, range(8, 13))), *of(0xFE007FFF, 1, (0xF800005B, 7, range(5)), (0xFC00005B, 7, (1,))),
        *of(0xFFF0707F, 8, (0xFA00005B, 20, (*range(8, 15), 0x1F)), (0xFE00005B, 20, (*range(12), 0x0F, 0x11))),
        *of(0xFFF0707F, 1, (0xFA00005B, 20, (*range(7), 0x17)), (0xFE00005B, 20, (0x0C,))),
        *of(0xFFFFFFFF, 1, *((word, 0, (0,)) for word in whole)),
    ]


def operands(drawn, opcode):
    """Fields outside a row's mask: an address from a register that is held, aligned immediates, branches that stay in the code."""
    rd, rs1, rs2, high = drawn.randrange(8, 24), drawn.choice(HELD), drawn.randrange(8, 24), drawn.choice((0, 0, 0, 0, 1, 2, 4, 7))
    if opcode == 0x63:
        rd, high = drawn.choice((8, 12, 16, 20)), 0
    elif opcode == 0x23:
        rd = drawn.choice((0, 16))
    elif opcode in (0x03, 0x0F):
        rs2 = drawn.choice((0, 16))
    return rd << 7 | rs1 << 15 | rs2 << 20 | high << 25


def instructions(drawn, count):
    """Words of rows, one in ten with any operands."""
    table, words = rows(), []
    for value, mask, _ in drawn.choices(table, [weight for _, _, weight in table], k=count):
        fields = operands(drawn, value & 0x7F) if drawn.random() < 0.9 else drawn.getrandbits(32)
        words.append((value | fields & ~mask & 0xFFFFFFFF).to_bytes(4, "little"))
    return words


def ready(leak):
    """The machine before A runs: all bytes that are not A's are B's."""
    machine = Machine.flat(bytes([0xB5]) * 4096, capability_mode=True)
    machine.mem[slice(*CODE)] = machine.mem[slice(*DATA)] = bytes(256)
    perms = Perms.Global | Perms.Load | Perms.Store | Perms.Load_Capability | Perms.Store_Capability | Perms.Store_Local_Capability
    for register in HELD:
        machine.regs[register] = Cap.make(DATA[0], DATA[1] + leak, address=DATA[0] + 16 * (register - HELD[0]), perms=perms)
    machine.scrs["ddc"] = 0
    machine.scrs["pcc"] = Cap.make(*CODE, perms=Perms.Global | Perms.Execute | Perms.Load, flag=True)
    return machine


def seen(machine):
    """What has to stay, beside A's code."""
    memory, tags = machine.mem, [at for at in machine.tags() if not DATA[0] <= at < DATA[1]]
    return memory[CODE[1]:DATA[0]], memory[DATA[1]:], tags, machine.halted, machine.time, [machine.scrs[name] for name in SCRS]


def main(given):
    parser = argparse.ArgumentParser(description=__doc__.splitlines()[0])
    parser.add_argument("--count", type=int, default=100000)
    parser.add_argument("--seed", type=int, default=1)
    parser.add_argument("--leak", type=int, default=0)
    asked = parser.parse_args(given)
    begun, drawn, stops, steps, wrote = ready(asked.leak), random.Random(asked.seed), Counter(), 0, 0
    words, before = instructions(drawn, WORDS), seen(begun)
    for number in range(asked.count):
        machine, code = begun.copy(), b"".join(drawn.choices(words, k=64))
        machine.mem[slice(*CODE)] = code
        ran = machine.run(STEPS, until="trap")
        if seen(machine) != before or machine.mem[slice(*CODE)] != code or ran.sent:
            print(f"seed {asked.seed}, program {number}: A changes what it does not hold")
            return 1
        stops[ran.stop] += 1
        steps += ran.steps
        wrote += any(machine.mem[slice(*DATA)])
    ends = ", ".join(f"{stops[stop]} {stop.name}" for stop in Stop if stops[stop])
    print(f"{asked.count} programs, {steps} steps ({ends}); {wrote} wrote to A's data, none elsewhere")
    return 0


if __name__ == "__main__":
    sys.exit(main(sys.argv[1:]))
