"""Values that the tests begin with, and what they read of values."""

from model.capabilities import ONE, set_address, set_bounds
from model.words import NULL_HIGH, ROOT_HIGH


def root(address):
    """All addresses and permissions."""
    return ROOT_HIGH, address, True


def page(address=0x80001000):
    """4095 bytes from 0x80001000 on, at an address in its window."""
    return set_address(set_bounds(root(0x80001000), 4095)[0], address)


def read(name, value):
    """The number that a row gives of a value."""
    return ONE[name](value)[1]


def in_memory(value):
    """The upper half of a value's word as it stands in memory."""
    return value[0] ^ NULL_HIGH
