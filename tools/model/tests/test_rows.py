"""Words of rows, beside those of the standards' encodings."""

import re
import unittest

from model.integers import s
from model.row_forms import FORM
from model.rows import HOLDS, Insn, decode, made, slots
from trying.paths import cases_of


def encodings():
    """The words of the file of encodings, with their instructions or None."""
    with open(cases_of("encodings"), encoding="utf-8") as file:
        for digits, answer in re.findall(r"^([0-9a-f]{8}) => (.*)$", file.read(), re.MULTILINE):
            name, *numbers = answer.split()
            yield int(digits, 16), Insn(name, *map(int, numbers[:3]), s(int(numbers[3], 16))) if numbers else None


class Rows(unittest.TestCase):
    """What words decode to, and back."""

    def test_words_decode_to_their_instructions(self):
        for word, insn in encodings():
            self.assertEqual(decode(word), insn, f"{word:08x}")

    def test_instructions_have_their_words(self):
        rows = [(word, insn) for word, insn in encodings() if insn]
        self.assertEqual({insn.row for _, insn in rows}, set(FORM))
        for word, insn in rows:
            self.assertEqual(made(insn.row, {slot: getattr(insn, HOLDS.get(slot, slot)) for slot in slots(FORM[insn.row])}), word)


if __name__ == "__main__":
    unittest.main()
