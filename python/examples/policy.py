"""Tests a compartment's policy: whatever address it tries, it stores to the 16 bytes that it is given and nowhere else."""
from cherisim import Cap, Machine, Perms

DATA = 0x80000800
EBREAK = 0x80000004


def stores(offset):
    """Whether a compartment that holds a capability to 16 bytes, and no other data, gets past a store at this offset."""
    machine = Machine(text=f".mode 1\ncsb a1, {offset}(ca0)\nebreak\n")
    machine.scrs["ddc"] = 0
    machine.scrs["pcc"] = machine.scrs["pcc"].and_perms(Perms.Execute)
    machine.regs["ca0"] = Cap.make(DATA, DATA + 16, perms=Perms.Load | Perms.Store)
    machine.run(10, until="trap")
    return machine.pc == EBREAK


assert [offset for offset in range(-2048, 2048) if stores(offset)] == list(range(16))
print("stores to its 16 bytes, and nowhere else")
