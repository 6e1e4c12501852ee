"""Cases as they stand in files, and the words of their inputs."""
from typing import NamedTuple

from model.words import NULL_HIGH, ONES

from .libraries import Cap, Word

NAMED = {"n": 10, "t": 9, "r": 13, "0": 0}


class Left(Exception):
    """A case that neither the libraries nor the program can show: the proved program tries it."""


class Case(NamedTuple):
    """A line of a file, or a block of lines from this one on."""
    line: int
    inputs: str
    expected: str


def lines_of(text):
    """The cases of a file, a line each; `#` begins a comment."""
    for number, line in enumerate(text.split("\n"), 1):
        if line and not line.startswith("#"):
            inputs, _, expected = line.partition(" => ")
            yield Case(number, inputs, expected)


def blocks_of(text):
    """The cases of a file of blocks, which empty lines part: each that has a program."""
    number = 1
    for block in text.split("\n\n"):
        if "\n@" in block:
            yield Case(number, block, "as it stands")
        number += block.count("\n") + 2


def unescaped(text):
    """The bytes that a text with escapes means."""
    first, *pieces = text.split("\\")
    contents = bytearray(first.encode())
    for piece in pieces:
        if piece[:1] == "x":
            contents += bytes.fromhex(piece[1:3]) + piece[3:].encode()
        else:
            contents += bytes([NAMED[piece[:1]]]) + piece[1:].encode()
    return bytes(contents)


def unquoted(text):
    """The bytes of a text in quotes, and what stands after it."""
    opening, inner, rest = text.split('"', 2)
    if opening:
        raise ValueError(f"no quote before {opening}")
    return unescaped(inner), rest


def bytes_of(word):
    """Bytes as cases have them: pairs of digits, `-` for none, `HH*COUNT` for bytes of one value, and such parts joined by `+`."""
    contents = b""
    for part in word.split("+"):
        digits, _, count = ("" if part == "-" else part).partition("*")
        contents += bytes.fromhex(digits) * int(count or 1)
    return contents


def number(value):
    """A number as a register holds it."""
    return Cap(value & ONES, NULL_HIGH, False)


def cap_text(value):
    """A value's three words: bits 127..64 of its word, its address, and its tag."""
    return f"{value.upper:016x} {value.address:x} {value.tag:d}"


class Words:
    """The words of a case's inputs, from left to right."""

    def __init__(self, library, inputs):
        self.library, self.rest = library, inputs.split()
        self.rest.reverse()

    def more(self):
        return bool(self.rest)

    def word(self):
        return self.rest.pop()

    def hex(self):
        return int(self.rest.pop(), 16)

    def decimal(self):
        return int(self.rest.pop())

    def bit(self):
        return {"0": False, "1": True}[self.rest.pop()]

    def call(self):
        """The number of the call that fails, or None."""
        word = self.rest.pop() if self.rest else "-"
        return None if word == "-" else int(word)

    def cap_word(self):
        """The word of the next two words: its high half and its address."""
        upper = self.hex()
        return Word(self.hex(), upper)

    def value(self):
        """The value of the next three words; what is tagged is to be well-formed."""
        word = self.cap_word()
        tag = self.bit()
        value = self.library.cheri_cap(word, tag)
        if value.tag != tag:
            raise ValueError("a tag on a malformed word")
        return value
