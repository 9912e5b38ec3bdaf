# SPDX-FileCopyrightText: 2026 The PPVM Authors
# SPDX-License-Identifier: Apache-2.0
"""Words looked up in terms and bases: found in whichever way they are written, and never silently missed."""
import unittest

from pebblelinen import Basis, InputError, Model, Position, Qubit, Refusal, Terms, Word

N = 128
FIELDS = {"Z63": 0.8, "Z64": 0.75, "X63 X64": 0.05, "Y63 Y64": 0.05}
SHARED = [(0.1, {"X63": 0.5, "Y63": 0.5j, "X64": 0.5, "Y64": 0.5j})]


def ways(by_site):
    """Every way of writing a word."""
    word = Word(by_site, n=N)
    letters = {int(qubit): letter for qubit, letter in word.letters.items()}
    qubits = {Qubit(qubit): letter for qubit, letter in letters.items()}
    backwards = " ".join(reversed(by_site.split()))
    return [by_site, backwards, f"  {by_site}  ", word, word.text, word.text.replace("I", "_I"), letters, qubits]


NO_WORDS = [5, None, 0.5, ("X63 X64", 0.05), ["X63"], b"Z63", Position(0), Qubit(63), "X63X64", "X63 X63", {63: "XX"}]
REFUSED = ["x63", "X128", "XYZ", "", "X" * 129]


class Lookups(unittest.TestCase):
    def setUp(self):
        self.terms = Model(N, FIELDS, SHARED).action("Z63")
        self.basis = Basis(N, {"Z63": 1.0, "X63 X64": 0.5})

    def test_in(self):
        for word in ways("X63 X64"):
            self.assertIn(word, self.terms)
            self.assertIn(word, self.basis)
        for word in ways("X63 Z64"):
            self.assertNotIn(word, self.terms)
            self.assertNotIn(word, self.basis)
        self.assertIn("Z63", self.basis)
        self.assertIn("I0", self.terms)
        self.assertNotIn("I0", self.basis)
        self.assertNotIn("Z63", Basis(N))
        self.assertNotIn("Z63", Terms(N, [], []))

    def test_values(self):
        for word in ways("X63 X64"):
            self.assertEqual(self.terms[word], 0.05)
            self.assertEqual(self.terms.get(word), 0.05)
        for word in ways("X63 Z64"):
            self.assertEqual(repr(self.terms[word]), "0.0")
            self.assertIsNone(self.terms.get(word))
            self.assertEqual(self.terms.get(word, 7), 7)
        self.assertEqual({word.by_site: self.terms[word] for word, _ in self.terms}, self.terms.by_site())

    def test_what_is_no_word_raises(self):
        others = [(word, InputError) for word in [*NO_WORDS, Word("Z63", n=64)]]
        for word, error in others + [(word, Refusal) for word in REFUSED]:
            for call in [
                lambda: word in self.terms,
                lambda: word in self.basis,
                lambda: self.terms[word],
                lambda: self.terms.get(word),
                lambda: self.terms.get(word, 0.0),
            ]:
                with self.subTest(word=word), self.assertRaises(error):
                    call()

    def test_a_word_that_is_listed_twice(self):
        terms = Terms.of([("X0", 1.0), ("Z0", 2.0), ("X0", 3.0)], n=1)
        self.assertIn("X0", terms)
        self.assertEqual(terms["Z0"], 2.0)
        for call in (lambda: terms["X0"]), (lambda: terms.get("X")):
            with self.assertRaisesRegex(InputError, "the word X0 is listed in places 0 and 2: it has no one value"):
                call()
        self.assertIn("X0", Basis(1, terms))


if __name__ == "__main__":
    unittest.main()
