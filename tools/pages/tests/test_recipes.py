"""Where the files of a recipe belong, and how often one is told."""

import unittest

from pages.recipes import changed, files, names, room_of, title


class Recipes(unittest.TestCase):
    def test_a_file_belongs_to_its_crate_or_folder(self):
        self.assertEqual(room_of("crates/alu/specs/Integer.antt"), ("alu", "specs/Integer"))
        self.assertEqual(room_of("crates/alu/src/arithmetic.rt"), ("alu", "src/arithmetic.rt"))
        self.assertEqual(room_of("tools/model/integers.py"), ("tools", "model/integers.py"))
        self.assertEqual(room_of("README.md"), ("top", "README.md"))

    def test_each_recipe_has_a_title_and_tells_each_file_once(self):
        for name in names():
            paths = [path for path, _ in changed(name)]
            self.assertEqual(len(paths), len(set(paths)), name)
            self.assertEqual(sum(map(str.isdigit, " ".join(files(name)).replace(";", " ").replace(",", " ").split())), len(paths), name)
            self.assertFalse(title(name).startswith("diff"), name)

    def test_what_scripts_make_is_no_part_of_a_recipe(self):
        made = ("cases/", "docs/PROGRAMMING.md", "docs/MODEL.md", "docs/CALLS.md")
        self.assertEqual([path for name in names() for path, _ in changed(name) if path.startswith(made)], [])


if __name__ == "__main__":
    unittest.main()
