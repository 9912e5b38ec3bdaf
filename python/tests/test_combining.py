# SPDX-FileCopyrightText: 2026 The PPVM Authors
# SPDX-License-Identifier: Apache-2.0
"""Combinations of words: the action on them, sums, and expectations in product states, against full matrices."""
import functools
import random
import unittest

import numpy as np

import any_k
import dense
from pebblelinen import Basis, InputError, Model, Terms, Word

setUpModule = any_k.without_warning

HALF = 0.5**0.5
# Each state as a vector, as the guide says it.
STATES = {
    "0": [1, 0],
    "1": [0, 1],
    "+": [HALF, HALF],
    "-": [HALF, -HALF],
    "r": [HALF, 1j * HALF],
    "l": [HALF, -1j * HALF],
}


def random_terms(rng, n, count, whole=False):
    texts = ["".join(rng.choices("IXYZ", k=n)) for _ in range(count)]
    values = [float(rng.randint(-3, 3)) if whole else rng.uniform(-1, 1) for _ in texts]
    return Terms.of(list(zip(texts, values)), n=n)


def as_matrix(terms):
    return dense.operator_of(terms.n, [(word.text, value) for word, value in terms])


class Sums(unittest.TestCase):
    def test_sums_and_multiples(self):
        rng = random.Random(5)
        for case in range(60):
            n = case % 4
            a, b = random_terms(rng, n, rng.randrange(9), True), random_terms(rng, n, rng.randrange(9), True)
            for found, expected in [
                (a + b, as_matrix(a) + as_matrix(b)),
                (a - b, as_matrix(a) - as_matrix(b)),
                (2 * a - b / 2 + -a * 3, 2 * as_matrix(a) - as_matrix(b) / 2 - 3 * as_matrix(a)),
                (sum([a, b, a]), 2 * as_matrix(a) + as_matrix(b)),
            ]:
                self.assertTrue(np.array_equal(as_matrix(found), expected))
                words = [word for word, _ in found]
                # The order is the library's, each word comes once, and none has 0.
                self.assertEqual(words, sorted(set(words)))
                self.assertNotIn(0.0, found.values)

    def test_words_on_all_lanes_are_in_the_librarys_order(self):
        rng = random.Random(6)
        texts = ["".join(rng.choices("IXYZ", k=256)) for _ in range(200)]
        texts += [f"{p}{q}" for q in (0, 63, 64, 127, 128, 191, 192, 255) for p in "XYZ"]
        terms = Terms.of([(text, 1.0) for text in texts], n=256) + 0
        words = [word for word, _ in terms]
        self.assertEqual(words, sorted(words))
        self.assertEqual(len(words), 224)

    def test_values_are_added_in_the_order_in_which_they_stand(self):
        terms = Terms.of([("X", 1.0), ("X", 1e16), ("X", -1e16)], n=1)
        self.assertEqual(len(terms + 0), 0)
        self.assertEqual((terms + Terms.of([("X", 1.0)], n=1)).by_site(), {"X0": 1.0})

    def test_numbers_of_numpy(self):
        a = Terms.of({"X0": 1.0, "Z1": -2.0}, n=2)
        for two in np.float64(2), np.float32(2), np.int64(2):
            for found in two * a, a * two, a / (1 / two):
                self.assertIsInstance(found, Terms)
                self.assertEqual(found.by_site(), {"X0": 2.0, "Z1": -4.0})
        for array in np.ones(2), np.ones(1), np.ones((2, 4)):
            with self.assertRaisesRegex(InputError, "a real number is needed"):
                array * a
            with self.assertRaises(TypeError):
                array + a

    def test_what_cannot_be_added(self):
        a = Terms.of({"X0": 1.0}, n=2)
        with self.assertRaises(InputError):
            a + Terms.of({"X0": 1.0}, n=3)
        for other in 1, 0.0, "X0", None:
            with self.assertRaises(TypeError):
                a + other
            with self.assertRaises(TypeError):
                a - other
        for factor in "2", 1j, True, a:
            with self.assertRaises(InputError):
                a * factor
        with self.assertRaises(InputError):
            a / None

    def test_terms_that_are_used_stay_as_they_were(self):
        a = Terms.of({"Z0": 1.0, "X0": 2.0}, n=1)
        a + a, -a, 2 * a, a / 2
        self.assertEqual(list(a.by_site().items()), [("Z0", 1.0), ("X0", 2.0)])


class Action(unittest.TestCase):
    def test_the_action_on_a_combination(self):
        rng = random.Random(7)
        for case in range(30):
            n = 1 + case % 3
            given = dense.random_model(rng, n, True)
            model = Model(n, *given)
            texts = dense.register(n)
            image = dense.superoperator(n, *given)
            terms = random_terms(rng, n, rng.randrange(9), True)
            vector = np.zeros(len(texts))
            for word, value in terms:
                vector[texts.index(word.text)] += value
            found = {word.text: value for word, value in model.action(terms)}
            self.assertEqual([found.get(text, 0.0) for text in texts], (image @ vector).real.tolist())

    def test_ways_to_give_a_combination(self):
        model = Model(2, {"X0 X1": 1.0, "Z0": 0.5})
        expected = (2 * model.action("Z0") - model.action("X0 Z1")).by_site()
        for given in [
            {"Z0": 2.0, "X0 Z1": -1.0},
            [("ZI", 2), ("XZ", -1)],
            {Word("Z0", n=2): 2.0, Word("XZ", n=2): -1.0},
            Terms.of({"ZI": 2, "XZ": -1}, n=2),
            Basis(2, {"ZI": 2, "XZ": -1}).terms(),
            iter([("ZI", 2), ("XZ", -1)]),
        ]:
            self.assertEqual(model.action(given).by_site(), expected)
        # Letters by their qubits are a word.
        self.assertEqual(model.action({0: "Z"}).by_site(), model.action("Z0").by_site())
        self.assertEqual(len(model.action({})), 0)
        self.assertEqual(len(model.action([])), 0)
        for given, said in (5, "is no word"), ([5], "a pair is needed"), ({"Z0": "X"}, "a real number is needed"):
            with self.assertRaises(InputError) as caught:
                model.action(given)
            self.assertIn(said, str(caught.exception))


class Expectations(unittest.TestCase):
    def test_every_word_in_every_product_state(self):
        for n in 1, 2:
            for state in map("".join, np.array(np.meshgrid(*[list(STATES)] * n)).reshape(n, -1).T):
                vector = functools.reduce(np.kron, (STATES[letter] for letter in state))
                for text in dense.register(n):
                    expected = (np.conj(vector) @ dense.matrix_of(text) @ vector).real
                    found = Terms.of({text: 1.0}, n=n).expectation(state)
                    self.assertAlmostEqual(found, expected, delta=1e-15)
                    self.assertIn(found, (-1.0, 0.0, 1.0))

    def test_combinations(self):
        rng = random.Random(8)
        for case in range(60):
            n = case % 5
            terms = random_terms(rng, n, rng.randrange(20))
            state = "".join(rng.choices("01+-rl", k=n))
            vector = functools.reduce(np.kron, (STATES[letter] for letter in state), np.ones(1))
            expected = (np.conj(vector) @ as_matrix(terms) @ vector).real
            self.assertAlmostEqual(terms.expectation(state), expected, delta=1e-14)

    def test_128_and_256_qubits(self):
        for n in 128, 256:
            far = n - 28
            terms = Terms.of({"Z0 Z63": 1.0, f"Z64 X{far} Y{n - 1}": 2.0, "X0": 4.0, "I0": 8.0}, n=n)
            state = list("0" * n)
            self.assertEqual(terms.expectation("".join(state)), 9.0)
            state[63], state[far], state[n - 1] = "1", "-", "l"
            self.assertEqual(terms.expectation("".join(state)), 8.0 - 1.0 + 2.0)
            state[far] = "+"
            self.assertEqual(terms.expectation("".join(state)), 8.0 - 1.0 - 2.0)

    def test_the_sum_is_rounded_once(self):
        terms = Terms.of([("Z0", 1.0), ("Z1", 1e16), ("Z0 Z1", -1e16)], n=2)
        self.assertEqual(terms.expectation("00"), 1.0)

    def test_what_is_no_state(self):
        terms = Terms.of({"Z0": 1.0}, n=2)
        for state, said in [
            ("0", "has 1 letter: one for each of 2 qubits is needed"),
            ("000", "has 3 letters"),
            ("0i", "qubit 1 has the state 'i': 0, 1, +, -, r or l is needed"),
            (0, "is no product state"),
        ]:
            with self.assertRaises(InputError) as caught:
                terms.expectation(state)
            self.assertIn(said, str(caught.exception))
        outside = Terms(1, np.array([[0, 0, 0, 0, 2, 0, 0, 0]], np.uint64), [1.0])
        with self.assertRaises(InputError) as caught:
            outside.expectation("0")
        self.assertIn("the word Z1 has a letter at or above qubit 1", str(caught.exception))

    def test_the_rate_of_change_of_an_expectation(self):
        # Decay of Z from |1>: its expectation -1 grows by 2 times the rate.
        model = Model(1, jumps=[(0.25, {"X": 0.5, "Y": 0.5j})])
        self.assertEqual(model.action("Z").expectation("1"), 0.5)
        self.assertEqual(model.action("Z").expectation("0"), 0.0)


if __name__ == "__main__":
    unittest.main()
