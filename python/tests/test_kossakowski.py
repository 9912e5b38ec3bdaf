# SPDX-FileCopyrightText: 2026 The PPVM Authors
# SPDX-License-Identifier: Apache-2.0
"""Kossakowski matrices: the convention in both pictures against full matrices, the warning where K is not positive,
and a matrix in parts."""
import inspect
import json
import random
import unittest
import warnings
from unittest import mock

import numpy as np

import dense
import test_command
import test_guide
from pebblelinen import InputError, Model, NotPositive, Refusal, kossakowski, modelfile, split_matrix


def random_k(rng, count):
    """A positive K that is not symmetric."""
    half = np.array([[complex(rng.uniform(-1, 1), rng.uniform(-1, 1)) for _ in range(count)] for _ in range(count)])
    return half @ half.conj().T


def random_operators(rng, n, count):
    words = dense.register(n)
    return [
        [(rng.choice(words), complex(rng.uniform(-1, 1), rng.uniform(-1, 1))) for _ in range(2)] for _ in range(count)
    ]


def random_state(rng, n):
    state = random_k(rng, 2**n)
    return state / np.trace(state)


def changed(state, operators, k):
    """The rate of change of a state by K[n][m] A_m ρ A_n†, and by K[n][m] A_n ρ A_m†."""

    def part(left, right):
        product = right.conj().T @ left
        return left @ state @ right.conj().T - (product @ state + state @ product) / 2

    places = range(len(operators))
    ours = sum(k[n][m] * part(operators[m], operators[n]) for n in places for m in places)
    others = sum(k[n][m] * part(operators[n], operators[m]) for n in places for m in places)
    return ours, others


class Convention(unittest.TestCase):
    def test_both_pictures(self):
        rng = random.Random(9)
        for _ in range(10):
            operators, k, state = random_operators(rng, 2, 3), random_k(rng, 3), random_state(rng, 2)
            given = [dense.operator_of(2, terms) for terms in operators]
            ours, others = changed(state, given, k)
            for matrix, expected in (k, ours), (k.T, others):
                model = Model(2, matrices=[(operators, matrix)])
                for text in dense.register(2):
                    image = dense.operator_of(2, [(word.text, x) for word, x in model.action(text)])
                    moved = np.trace(state @ image)
                    self.assertAlmostEqual(moved, np.trace(expected @ dense.matrix_of(text)), 12)
            self.assertGreater(abs(ours - others).max(), 1e-3)

    def test_the_lowering_operator(self):
        """|0><1|, which is sigmap() and destroy(2) in QuTiP, takes Z to 1."""
        lowering = dense.operator_of(1, [("X", 0.5), ("Y", 0.5j)])
        self.assertEqual(lowering.tolist(), [[0, 1], [0, 0]])
        decay = Model(1, jumps=[(1.0, {"X": 0.5, "Y": 0.5j})]).action("Z")
        self.assertEqual((decay["I"], decay["Z"]), (1.0, -1.0))

    def test_it_stands_where_people_read(self):
        guide = test_guide.GUIDE.read_text()
        texts = {"guide": guide, "Model": inspect.getdoc(Model), "kossakowski": kossakowski.__doc__}
        for name, text in texts.items():
            with self.subTest(name):
                for said in "K[n][m] (A_m ρ A_n†", "K[n][m] (A_n† p A_m":
                    self.assertIn(said, text)
                self.assertIn("If yours is K[n][m] A_n ρ A_m†, give K.T", text)
        for name in "guide", "Model":
            for said in "(X + iY)/2", "sigmap()", "destroy(2)", "NotPositive":
                self.assertIn(said, texts[name])
        for said in "K[n][m] A_m ρ A_n†", "if yours is K[n][m] A_n ρ A_m†, give K transposed":
            self.assertIn(said, modelfile.__doc__)


class Positive(unittest.TestCase):
    def warned(self, call):
        with warnings.catch_warnings(record=True) as caught:
            warnings.simplefilter("always")
            call()
        self.assertTrue(all(each.category is NotPositive for each in caught))
        self.assertTrue(all(each.filename == __file__ for each in caught), "the line of the user")
        return [str(each.message) for each in caught]

    def model(self, *matrices):
        return lambda: Model(3, matrices=matrices)

    def test_a_negative_eigenvalue(self):
        after = ": it is accepted, and the curve may grow beyond what a state allows"
        for k, eigenvalue in [
            ([[-0.5]], "-0.5"),
            ([[1, 2], [2, 1]], "-1"),
            ([[1, 2j], [-2j, 1]], "-1"),
            ([[0, 1e-3], [1e-3, 0]], "-0.001"),
            ([[1, 0], [0, -1e-9]], "-1e-09"),
            (np.diag([2.0**200, -(2.0**199)]), "-8.03469e+59"),
        ]:
            operators = ["Z0", "Z1"][: len(k)]
            said = self.warned(self.model((operators, k)))
            self.assertEqual(said, [f"matrix 0: K has the eigenvalue {eigenvalue}, below 0{after}"])

    def test_another_k(self):
        model = Model(3, {"Z0": 1.0}, [(1.0, "X0")], [(["Z0"], [[1]]), (["Z1"], [[1]])])
        (said,) = self.warned(lambda: model.with_k(matrix=1, k=[[-0.5]]))
        self.assertIn("matrix 1: K has the eigenvalue -0.5, below 0, and -0.5 with all matrices added up", said)
        self.assertEqual(self.warned(lambda: model.with_k(matrix=1, k=[[0.5]])), [])
        with self.assertWarns(NotPositive):
            model = model.with_k(matrix=0, k=[[-1]])
        # It was said once: nothing about K changes here.
        self.assertEqual(self.warned(lambda: model.with_rate(jump=0, rate=2)), [])
        self.assertEqual(self.warned(lambda: model.with_coefficient(word="Z0", coefficient=2)), [])

    def test_the_curve_grows(self):
        with self.assertWarns(NotPositive):
            model = Model(1, matrices=[(["Z"], [[-0.5]])])
        self.assertEqual(model.action("X")["X"], 1.0)

    def test_rounding_is_no_reason(self):
        rng = random.Random(10)
        for count in 1, 2, 3, 8, 64:
            vector = np.array([complex(rng.uniform(-1, 1), rng.uniform(-1, 1)) for _ in range(count)])
            operators = random_operators(rng, 3, count)
            for scale in 1, 1e-50, 1e50:
                k = scale * np.outer(vector, vector.conj())
                self.assertEqual(self.warned(self.model((operators, (k + k.conj().T) / 2))), [])
        self.assertEqual(self.warned(self.model(([], []), (["X0"], [[0]]))), [])

    def test_matrices_that_add_up(self):
        """Parts over the same operators are judged together."""
        whole = (["Z0", "Z1"], np.eye(2))
        part = (["Z1", {"Z0": 1}], [[0, -0.5], [-0.5, 0]])
        self.assertEqual(self.warned(self.model(whole, part)), [])
        self.assertEqual(self.warned(self.model(part, whole)), [])
        (said,) = self.warned(self.model(whole, part, part, part))
        self.assertIn("matrix 1: K has the eigenvalue -0.5, below 0, and -0.5 with all matrices added up", said)
        (said,) = self.warned(self.model((["X0"], [[1]]), (["Z0"], [[-0.25]])))
        self.assertIn("matrix 1: K has the eigenvalue -0.25", said)
        self.assertEqual(self.warned(self.model((["Z0", "Z0"], [[1, -2], [-2, 4]]))), [])

    def test_no_warning_where_it_is_refused(self):
        with self.assertRaises(Refusal):
            Model(1, matrices=[(["Z"], [[-1]]), (["Z"], [[float("nan")]])])


class Parts(unittest.TestCase):
    def test_they_add_up(self):
        rng = random.Random(11)
        with mock.patch.object(kossakowski, "MOST_OPERATORS", 4):
            for count in range(1, 9):
                k, operators = random_k(rng, count), list(range(count))
                whole, pairs = np.zeros((count, count), complex), np.zeros((count, count), int)
                for listed, part in split_matrix(operators, k):
                    self.assertLessEqual(len(listed), 4)
                    whole[np.ix_(listed, listed)] += part
                    pairs[np.ix_(listed, listed)] += part != 0
                self.assertEqual(whole.tolist(), k.tolist())
                self.assertTrue((pairs == 1).all(), "each pair of operators stands in one part")

    def test_seventy_operators(self):
        rng = random.Random(12)
        operators, k = random_operators(rng, 2, 70), random_k(rng, 70)
        parts = split_matrix(operators, k)
        self.assertEqual(len(parts), 3)
        model = Model(2, matrices=parts)
        self.assertEqual(model.pairs, 70 * 71 // 2)
        expected = dense.superoperator(2, [], [], [(operators, k)])
        texts = dense.register(2)
        for column, text in enumerate(texts):
            action = model.action(text)
            found = [action[each] for each in texts]
            self.assertLess(abs(np.array(found) - expected[:, column]).max(), 1e-9)

    def test_zeros_have_no_part(self):
        words = [f"Z{q}" for q in range(128)]
        parts = split_matrix(words, np.eye(128))
        self.assertEqual(len(parts), 3)
        self.assertEqual(Model(128, matrices=parts).pairs, 128)

    def test_most_operators_of_a_full_k(self):
        words = [f"Z{q}" for q in range(91)]
        self.assertEqual(Model(128, matrices=split_matrix(words[:90], np.ones((90, 90)))).pairs, 4095)
        with self.assertRaisesRegex(Refusal, "jumps and pairs: at most 4096"):
            Model(128, matrices=split_matrix(words, np.ones((91, 91))))

    def test_other_shapes(self):
        for k in [[1, 2]], [[1]], np.zeros((3, 2)):
            with self.assertRaisesRegex(InputError, r"K has the shape .*: \(2, 2\) is needed, for 2 operators"):
                split_matrix(["X0", "X1"], k)
        for k in 5, "K", [["1", "0"], ["0", "1"]], [[1, 0], [1]], [[None, 0], [0, 1]]:
            with self.assertRaises(InputError):
                split_matrix(["X0", "X1"], k)


class Command(test_command.Case):
    def test_help(self):
        for name in "action", "leakage", "generator", "degree":
            _, out, _ = self.run_command(name, "--help")
            self.assertIn("if yours is K[n][m] A_n ρ A_m†, give K transposed", out)

    def test_warnings(self):
        self.write('qubits = 1\n[[matrices]]\noperators = ["Z"]\nk = [[-0.5]]')
        status, out, error = self.run_command("action", self.path, "X")
        self.assertEqual(status, 0)
        self.assertIn("X0   1.0", out)
        said = f"{self.path}: matrix 0: K has the eigenvalue -0.5, below 0: it is accepted, and the curve may grow"
        self.assertTrue(error.startswith(f"pebblelinen: warning: {said}"), error)
        status, out, error = self.run_command("action", self.path, "X", "--json")
        self.assertEqual(status, 0)
        (warning,) = json.loads(out)["warnings"]
        self.assertTrue(warning.startswith(said))


if __name__ == "__main__":
    unittest.main()
