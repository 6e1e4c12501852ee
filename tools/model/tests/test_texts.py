"""Texts of the assembly language, beside the words that GNU as and the fields of encodings give."""

import unittest

from cases.quoting import quoted
from model.devices import RAM
from model.texts import Program
from trying.paths import cases_of
from trying.reading import lines_of, unquoted


def section(program):
    """The words of a program from RAM's beginning on, up to the last that it places."""
    end = max([RAM, *(place + 4 for place in program.words), *(place + len(contents) for place, contents in program.data.items())])
    memory = program.machine().memory
    return [memory.number(place, 4) for place in range(RAM, end, 4)]


class Texts(unittest.TestCase):
    """What statements place."""

    def test_lines_have_the_words_of_their_cases(self):
        with open(cases_of("assembled"), encoding="utf-8", newline="") as file:
            for case in lines_of(file.read()):
                text = unquoted(case.inputs)[0].decode()
                words = [] if case.expected == "no words" else [int(word, 16) for word in case.expected.split()]
                self.assertEqual(section(Program(text)), words, quoted(text))

    def test_places_labels_and_grants(self):
        program = Program(".pages 2\n.mode 1\n.entry go # here\none: .byte 1; .align 3\ngo: nop\n.org 0x80001000\n.cap go, 16, 5, 0\nend:")
        self.assertEqual((program.pages, program.mode, program.entry), (2, 1, RAM + 8))
        self.assertEqual(program.symbols(), [(RAM, "one"), (RAM + 8, "go"), (RAM + 0x1010, "end")])
        machine = program.machine()
        self.assertEqual((machine.pc, machine.memory.tags, machine.memory.number(RAM + 8, 4)), (RAM + 8, {RAM + 0x1000}, 0x13))


if __name__ == "__main__":
    unittest.main()
