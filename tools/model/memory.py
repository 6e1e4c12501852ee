"""RAM: its bytes, and the set of its tagged granules."""
from model.devices import RAM
from model.words import NULL_HIGH

PAGE = 4096
# The bytes of a granule, and so of a capability.
WORD = 16


def in_word(value):
    """A value's 16 bytes in memory."""
    return value[1].to_bytes(8, "little") + (value[0] ^ NULL_HIGH).to_bytes(8, "little")


def of_word(contents, tag):
    """The value of 16 bytes in memory and a tag."""
    return int.from_bytes(contents[8:], "little") ^ NULL_HIGH, int.from_bytes(contents[:8], "little"), tag


class Memory:
    """RAM of so many pages."""

    def __init__(self, pages=1):
        self.ram, self.tags = bytearray(PAGE * pages), set()

    def copy(self):
        other = Memory(0)
        other.ram, other.tags = self.ram[:], set(self.tags)
        return other

    def holds(self, address, size):
        return RAM <= address and address + size <= RAM + len(self.ram)

    def read(self, address, size):
        return self.ram[address - RAM:address - RAM + size]

    def number(self, address, size, signed=False):
        return int.from_bytes(self.read(address, size), "little", signed=signed)

    def write(self, address, contents):
        """Writes bytes, and takes the tags of their granules."""
        self.ram[address - RAM:address - RAM + len(contents)] = contents
        if self.tags:
            self.tags.difference_update(range(address // WORD * WORD, address + len(contents), WORD))

    def value(self, address):
        return of_word(self.read(address, WORD), address in self.tags)

    def put(self, address, value):
        """Puts a value into a granule."""
        self.write(address, in_word(value))
        if value[2]:
            self.tags.add(address)
