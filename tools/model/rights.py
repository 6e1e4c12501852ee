"""Permissions and object types, by the tables of CHERI-RISC-V."""

# The hardware permissions, by their bits from 0 on.
(GLOBAL, EXECUTE, LOAD, STORE, LOAD_CAPABILITY, STORE_CAPABILITY, STORE_LOCAL, SEAL, CINVOKE, UNSEAL, ACCESS_SYSTEM_REGISTERS,
 SET_CID) = (1 << bit for bit in range(12))
# The user permissions, from bit 12 on; rows read and write them from bit 15 on.
USER0, USER1, USER2, USER3 = (1 << bit for bit in range(12, 16))
ALL = 0xFFFF
# The letters of the hardware permissions.
LETTERS = "GXRWcCLsiuSd"
NO_SYSTEM_ACCESS = ALL ^ ACCESS_SYSTEM_REGISTERS

# The types of what is not sealed and of a sentry, and the greatest that an authority may seal with: the four above are reserved.
UNSEALED = 0x3FFFF
SENTRY = 0x3FFFE
GREATEST_SEALING_TYPE = 0x3FFFB


def letters(perms):
    """The hardware permissions, a letter each."""
    return "".join(letter if perms >> bit & 1 else "-" for bit, letter in enumerate(LETTERS))
