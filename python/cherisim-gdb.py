"""For GDB 13 and later: capabilities with their permissions in letters, and rows of CHERI in `x/i`.

    (gdb) source python/cherisim-gdb.py

It asks the bridge (docs/GDB.md), and so is of use after `target remote`.
"""
import gdb
import gdb.disassembler
import gdb.printing

LETTERS = "GXRWcCLsiuSd"  # the permissions of bits 0 to 11, as docs/GLOSSARY.md has them
UNSEALED, SENTRY = 0x3FFFF, 0x3FFFE
# The opcodes whose words GDB has no text for, or another: loads and stores, fences, upper immediates, jumps, and CHERI's own.
OPCODES = (0x03, 0x0F, 0x17, 0x23, 0x5B, 0x67, 0x6F)


class Capability:
    """Shows a register of the type `capability`."""

    def __init__(self, value):
        self.value = value

    def to_string(self):
        """Whether it is tagged, its address, bounds, permissions and seal."""
        it = {name: int(self.value[name].format_string(format="d")) for name in ("tag", "perms", "address", "base", "top", "otype")}
        perms = "".join(letter if it["perms"] >> bit & 1 else "-" for bit, letter in enumerate(LETTERS))
        seal = {UNSEALED: "", SENTRY: " sentry"}.get(it["otype"], f" sealed {it['otype']:#x}")
        return f"{'tagged' if it['tag'] else 'data'} {it['address']:#x} in [{it['base']:#x}, {it['top']:#x}) {perms}{seal}"


class Rows(gdb.disassembler.Disassembler):
    """Takes the text of a row from the machine, which knows its mode."""

    def __init__(self):
        super().__init__("cherisim")

    def __call__(self, info):
        result = gdb.disassembler.builtin_disassemble(info)
        word = int.from_bytes(bytes(info.read_memory(4, 0)), "little")
        if word & 0x7F in OPCODES or result.string.startswith("."):
            words = gdb.execute(f"monitor dis {info.address:#x} 1", to_string=True).split()
            text = [it for it in words if not it.startswith("<")][2:]
            if text:
                return gdb.disassembler.DisassemblerResult(length=4, string=" ".join(text))
        return result


def printers():
    """The printer of capabilities."""
    found = gdb.printing.RegexpCollectionPrettyPrinter("cherisim")
    found.add_printer("capability", "^capability$", Capability)
    return found


gdb.printing.register_pretty_printer(None, printers(), replace=True)
gdb.disassembler.register_disassembler(Rows(), "riscv:rv64")
