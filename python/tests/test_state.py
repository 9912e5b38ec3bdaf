# SPDX-FileCopyrightText: 2026 The PPVM Authors
# SPDX-License-Identifier: Apache-2.0
"""Product states: the ways to give one, and expectations against full density matrices."""
import functools
import math
import random
import unittest

import numpy as np

import dense
from pebblelinen import Basis, InputError, ProductState, Qubit, Terms

LABELS = {"0": "Z", "1": "-Z", "+": "X", "-": "-X", "+i": "Y", "-i": "-Y", "r": "Y", "l": "-Y"}


def density(vectors):
    """The density matrix of a product of Bloch vectors."""
    letters = [dense.LETTERS[letter] for letter in "XYZ"]
    each = [(dense.LETTERS["I"] + sum(x * letter for x, letter in zip(v, letters))) / 2 for v in vectors]
    return functools.reduce(np.kron, each, np.eye(1))


def random_vector(rng):
    if rng.random() < 0.4:
        return ProductState(1, rng.choice([*LABELS])).vectors[0].tolist()
    v = np.array([rng.choice([0.0, rng.uniform(-1, 1), rng.gauss(0, 1)]) for _ in range(3)])
    return (v / max(1.0, np.linalg.norm(v))).tolist()


class Expectations(unittest.TestCase):
    def test_random_states(self):
        rng = random.Random(71)
        for case in range(80):
            n = case % 5
            vectors = [random_vector(rng) for _ in range(n)]
            texts = rng.sample(dense.register(n), rng.randint(1, min(4**n, 20)))
            terms = [(text, rng.uniform(-1, 1)) for text in texts]
            expected = np.trace(density(vectors) @ dense.operator_of(n, terms)).real
            basis = Basis(n, terms)
            found = ProductState(n, vectors).expectation(basis.words, basis.coefficients)
            self.assertAlmostEqual(found, expected, delta=1e-13)

    def test_wide_registers(self):
        """Qubits on all lanes, against a loop over letters."""
        rng = random.Random(72)
        n = 256
        for _ in range(10):
            vectors = [random_vector(rng) for _ in range(n)]
            words = [{q: rng.choice("XYZ") for q in rng.sample(range(n), rng.randint(0, 5))} for _ in range(50)]
            values = [rng.uniform(-1, 1) for _ in words]
            products = [math.prod(vectors[q]["XYZ".index(a)] for q, a in word.items()) for word in words]
            basis = Basis(n, list(zip([" ".join(f"{a}{q}" for q, a in w.items()) or "I0" for w in words], values)))
            found = ProductState(n, vectors).expectation(basis.words, basis.coefficients)
            self.assertAlmostEqual(found, math.fsum(x * p for x, p in zip(values, products)), delta=1e-13)

    def test_as_terms_have_it(self):
        rng = random.Random(73)
        for _ in range(30):
            n = rng.randint(1, 70)
            state = "".join(rng.choices("01+-rl", k=n))
            words = ["".join(rng.choices("IXYZ", (20, 1, 1, 1), k=n)) for _ in range(30)]
            terms = Terms.of([(word, rng.uniform(-1, 1)) for word in words], n=n)
            found = ProductState(n, state).expectation(terms.words, terms.values)
            self.assertEqual(found, terms.expectation(state))


class Ways(unittest.TestCase):
    def vectors(self, n, given):
        return ProductState(n, given).vectors.tolist()

    def test_ways(self):
        up, down, x, y = [0, 0, 1], [0, 0, -1], [1, 0, 0], [0, 1, 0]
        for given, expected in [
            ("0", [up, up]),
            ("-i", [[0, -1, 0]] * 2),
            ("+i", [y, y]),
            ("0+", [up, x]),
            ("1r", [down, y]),
            (["1", "+i"], [down, y]),
            ([0.5, 0, 0], [[0.5, 0, 0]] * 2),
            (np.array([0, 0, 0.25]), [[0, 0, 0.25]] * 2),
            ([[0, 0, 0.5], "-"], [[0, 0, 0.5], [-1, 0, 0]]),
            ({}, [up, up]),
            ({1: "1"}, [up, down]),
            ({"all": "+", Qubit(0): [0, 0, 0]}, [[0, 0, 0], x]),
            ({"all": [0, 0.6, 0.8], "1": "0"}, [[0, 0.6, 0.8], up]),
            (ProductState(2, "1"), [down, down]),
        ]:
            self.assertEqual(self.vectors(2, given), expected, given)
        self.assertEqual(self.vectors(3, [0, 0, 1]), [[0, 0, 1]] * 3)
        self.assertEqual(self.vectors(3, ["0", "1", "+"]), [up, down, x])
        self.assertEqual(self.vectors(0, "1"), [])
        for label, letter in LABELS.items():
            terms = Terms.of([(letter.strip("-"), 1.0)], n=1)
            found = ProductState(1, label).expectation(terms.words, terms.values)
            self.assertEqual(found, -1 if "-" in letter else 1)

    def test_plain_values_give_it_back(self):
        for n, given in [(3, "0"), (2, "+l"), (2, {0: [0.1, 0.2, 0.3]}), (0, "0"), (1, "-i"), (3, {1: [-0.0, 0, 1]})]:
            state = ProductState(n, given)
            self.assertEqual(ProductState(n, state.plain()), state)
            self.assertEqual(ProductState(n, state.exceptions()), state)
        self.assertEqual(ProductState(4, {"all": [0, 0, 0.5], 2: "+i"}).exceptions(), {"all": [0, 0, 0.5], "2": "+i"})
        self.assertEqual(ProductState(3, {1: "+i"}).plain(), "0r0")

    def test_what_is_no_state(self):
        for given, said in [
            ("2", "the state '2' has 1 letter"),
            ("0+1", "has 3 letters"),
            ("0x", "the state of qubit 1 is 'x'"),
            (["0"], "has 1 entry"),
            ([1, 0], "has 2 numbers"),
            ([1, 1, 0], "length 1.414"),
            ([math.nan, 0, 0], "length nan"),
            ([["0"], "1"], "the state of qubit 0 has 1 number"),
            ({2: "0"}, "qubit 2 is outside the register of 2 qubits"),
            ({"2": "0"}, "qubit 2 is outside"),
            ({"some": "0"}, "'some' is no qubit"),
            ({-1: "0"}, "a qubit is -1"),
            ({0: "0", "0": "1"}, "qubit 0 has two states"),
            ({0: "up"}, "the state of qubit 0 is 'up'"),
            ({"all": 1}, "the state of all qubits is 1"),
            (5, "the state is 5"),
            (ProductState(3), "of 3 qubits"),
        ]:
            with self.subTest(given), self.assertRaises(InputError) as caught:
                ProductState(2, given, ("state",))
            self.assertIn(said, str(caught.exception))
            self.assertEqual(caught.exception.path[:1], () if said.startswith("a qubit") else ("state",))


if __name__ == "__main__":
    unittest.main()
