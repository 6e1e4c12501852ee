"""Parts that scripts make, words by hand, and the dates of figures."""

import unittest

from pages.made import by_hand, filled
from pages.markdown import MOST_IN_A_CELL, cells_of, cut
from pages.words import count, long_cells, long_choices, old_figures

PAGE = "One two.\n\n<!-- made by a.py: that -->\n\nthree\n\n<!-- end -->\n\n| four | -- |\n"


class Parts(unittest.TestCase):
    def test_a_part_is_made_anew_for_its_script_alone(self):
        self.assertIn("\n\nTHAT\n\n<!-- end -->", filled(PAGE, "a.py", str.upper))
        self.assertEqual(filled(PAGE, "b.py", str.upper), PAGE)

    def test_what_stands_is_made_again(self):
        once = filled(PAGE, "a.py", str.upper)
        self.assertEqual(filled(once, "a.py", str.upper), once)

    def test_words_by_hand_are_counted_without_bars_and_dashes(self):
        self.assertNotIn("three", by_hand(PAGE))
        self.assertEqual(count(PAGE), 3)


class Limits(unittest.TestCase):
    def test_a_cell_may_be_full_and_no_more(self):
        full = "x " * MOST_IN_A_CELL
        self.assertEqual(list(long_cells(f"| {full} | {full} |\n")), [])
        self.assertEqual([words for _, words in long_cells(f"| {full} y | z |\n")], [MOST_IN_A_CELL + 1])

    def test_what_scripts_make_has_no_longer_cells(self):
        part = "a " * MOST_IN_A_CELL
        self.assertEqual([cut("a, b"), cut(f"a: b, {part}")], ["a, b", "a: b, .."])
        self.assertEqual(list(cells_of(["a", "b", part, "c"])), ["a; b", part, "c"])

    def test_a_bar_in_code_ends_no_cell(self):
        self.assertEqual(len(list(long_cells("| " + "x \\| " * (MOST_IN_A_CELL + 1) + " |\n"))), 1)

    def test_a_choice_has_two_sentences_and_no_more(self):
        self.assertEqual(list(long_choices("- One, as `a.b`. Two.\nOne. Two. Three.\n")), [])
        self.assertEqual(list(long_choices("- One. Two. Three.\n")), [("One. Two. Three.", 3)])

    def test_figures_have_a_date_in_their_section_or_above_all(self):
        page = "# A\n{}\n## B\nIt takes 3 seconds.{}\n## C\nNo figure.\n"
        self.assertEqual(len(list(old_figures(page.format("", ""), "2026-01-01"))), 1)
        self.assertEqual(list(old_figures(page.format("Measured on 2026-01-01.", ""), "2026-01-01")), [])
        self.assertEqual(list(old_figures(page.format("", " Measured on 2026-01-02."), "2026-01-01")), [])

    def test_an_old_date_is_refused(self):
        self.assertEqual(len(list(old_figures("## B\nmeasured on 2026-01-01: 3 ms", "2026-01-02"))), 1)


if __name__ == "__main__":
    unittest.main()
