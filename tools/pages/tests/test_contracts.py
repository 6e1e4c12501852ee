"""What is read of contracts."""

import unittest

from pages.contracts import Call, head_at, owners, sentence_of

SOURCE = """impl<C: CapRep> Machine<C> {
    /// Does it.
    pub fn run(&mut self, most: u64) -> Out
        requires { most < 5 }
        // A comment.
        ensures state { self.new
            ≡ after self.old }
        ensures byte { result ≡ 1 }
    {
        0
    }

    pub fn plain(&self) -> u64 {
        0
    }
}

pub trait Source {
    fn failures(&self) -> u64
        ensures { result ≡ failed self.now };
}

impl Source for Reader {
    fn failures(&self) -> u64 {
        0
    }
}
""".split("\n")


def line(text):
    return next(at for at, it in enumerate(SOURCE) if text in it)


class Contracts(unittest.TestCase):
    def test_a_head_goes_up_to_the_body(self):
        call = Call("machine", "Machine::run", "", "Does it.", head_at(SOURCE, line("fn run")))
        self.assertEqual(call.signature(), ["pub fn run(&mut self, most: u64) -> Out"])
        self.assertEqual([name for name, _ in call.clauses()], ["requires", "ensures state", "ensures byte"])
        self.assertEqual(len(call.clauses()[1][1]), 2)
        self.assertNotIn("most < 5", call.ensures())

    def test_a_head_without_a_promise_is_none(self):
        self.assertIsNone(head_at(SOURCE, line("fn plain")))

    def test_a_trait_s_head_ends_with_its_clause(self):
        self.assertEqual(head_at(SOURCE, line("fn failures"))[-1].strip(), "ensures { result ≡ failed self.now }")

    def test_each_line_has_its_owner(self):
        of_lines = list(owners(SOURCE))
        self.assertEqual(of_lines[line("fn run")], ("Machine", False))
        self.assertEqual(of_lines[line("fn failures")], ("Source", False))
        self.assertEqual(of_lines[line("impl Source for") + 1], ("Reader", True))

    def test_a_sentence_ends_with_a_period_before_a_capital(self):
        self.assertEqual(sentence_of("Of 2.5 and `a.b`, e.g. one. Then two."), "Of 2.5 and `a.b`, e.g. one.")


if __name__ == "__main__":
    unittest.main()
