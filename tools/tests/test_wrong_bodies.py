"""What a check of wrong bodies puts in place of the proofs of other functions."""
import os
import tempfile
import unittest
from unittest import mock

import try_wrong_bodies

MADE = """"proofs/moves/add/Statement"
{"Statement":{"symbol":"moves::add"}}
"proofs/moves/add/Proof"
{"MadeProof":{"symbol":"moves::add"}}
"proofs/moves/Adds/TheImpl/Statement"
{"ImplStatement":{"symbol":"moves::Adds"}}
"proofs/moves/+walk/Statement"
{"Statement":{"symbol":"moves::walk"}}
"proofs/moves/+walk/Proof"
{"MadeProof":{"symbol":"moves::walk"}}
"proofs/moves/Adds/add/Statement"
{"Statement":{"symbol":"moves::Adds::add"}}
"proofs/moves/Adds/add/Proof"
{"MemberProof":{"symbol":"moves::Adds::add"}}
"proofs/moves/Trait/of/Statement"
{"Statement":{"symbol":"moves::Trait::of"}}
"""


class Holes(unittest.TestCase):
    def setUp(self):
        room = tempfile.TemporaryDirectory()
        self.addCleanup(room.cleanup)
        self.room = room.name
        os.makedirs(os.path.join(self.room, "lang", "antt"))
        with open(os.path.join(self.room, "lang", "antt", "made.json"), "w", encoding="utf-8") as file:
            file.write(MADE)
        patched = mock.patch.object(try_wrong_bodies, "built", lambda crate: self.room)
        patched.start()
        self.addCleanup(patched.stop)

    def test_functions_with_a_proof_of_their_own_are_listed(self):
        self.assertEqual(try_wrong_bodies.places_of("moves"), ["moves/add", "moves/+walk"])

    def test_a_crate_that_is_not_built_lists_none(self):
        with mock.patch.object(try_wrong_bodies, "built", lambda crate: os.path.join(self.room, "none")):
            self.assertEqual(try_wrong_bodies.places_of("moves"), [])

    def test_a_recursive_function_goes_by_its_name(self):
        self.assertTrue(try_wrong_bodies.is_place_of("moves/+walk", {"moves::walk"}))
        self.assertFalse(try_wrong_bodies.is_place_of("moves/add", {"moves::walk"}))

    def test_every_other_proof_is_a_hole(self):
        with mock.patch.object(try_wrong_bodies, "words", lambda crate, known: []):
            checker = try_wrong_bodies.Checker("moves", {})
        with tempfile.TemporaryDirectory() as copy:
            folder = os.path.join(copy, "proofs", "moves", "add")
            os.makedirs(folder)
            with open(os.path.join(folder, "Answers.antt"), "w", encoding="utf-8"):
                pass
            self.assertEqual(checker.lay_holes(copy, {"moves::walk"}), ["--allow-holes"])
            self.assertEqual(os.listdir(folder), ["Proof.antt"])
            self.assertFalse(os.path.exists(os.path.join(copy, "proofs", "moves", "+walk")))
            with open(os.path.join(folder, "Proof.antt"), encoding="utf-8") as file:
                self.assertIn("add_spec = ?", file.read())


if __name__ == "__main__":
    unittest.main()
