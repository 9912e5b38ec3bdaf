# SPDX-FileCopyrightText: 2026 The PPVM Authors
# SPDX-License-Identifier: Apache-2.0
"""What is shared is read-only, and what is writable is one's own; a qubit indexes no array of positions."""
import copy
import pickle
import unittest

import numpy as np

from pebblelinen import Basis, InputError, Model, Position, Qubit, Terms, Word, basis, row, words

# X0, Y1 and Z0 Z1: the lanes of x, then those of z.
LANES = np.zeros((3, 8), np.uint64)
LANES[:, [0, 4]] = [[1, 0], [2, 2], [0, 3]]
NUMBERS = np.array([1.0, -2.0, 0.5])


class Pickles(unittest.TestCase):
    def test_of_words_of_two_lanes(self):
        """Of before registers had 256 qubits: they are not taken for others."""
        before = "was pickled when words had 4 lanes"
        terms, model = Terms(2, LANES, NUMBERS), Model(2, {"XX": 1.0}, [(1.0, "Z0")])
        narrow = {**terms.__dict__, "lanes": np.zeros(12, np.uint64)}
        with self.assertRaisesRegex(InputError, before):
            copy.copy(terms).__setstate__(narrow)
        tables = {**model._tables, "h_words": model._tables["h_words"][:4]}
        with self.assertRaisesRegex(InputError, before):
            copy.copy(model).__setstate__({**model.__dict__, "_tables": tables})
        with self.assertRaisesRegex(InputError, "4 lanes: a word has 8"):
            words.made((1, 0, 0, 0), 2)
        with self.assertRaisesRegex(InputError, "shape"):
            basis._copied(2, LANES[:, :4], NUMBERS)
        for thing in terms, model, Basis(2, terms), Word("XZ", n=2):
            self.assertEqual(repr(pickle.loads(pickle.dumps(thing))), repr(thing))


class Arrays(unittest.TestCase):
    def setUp(self):
        self.lanes, self.numbers = LANES.copy(), NUMBERS.copy()

    def unchanged(self):
        self.assertEqual((self.lanes.tolist(), self.numbers.tolist()), (LANES.tolist(), NUMBERS.tolist()))

    def read_only(self, *arrays):
        for array in arrays:
            with self.assertRaisesRegex(ValueError, "read-only"):
                array *= 2

    def test_a_basis_of_given_arrays(self):
        basis = Basis.from_arrays(2, self.lanes, self.numbers)
        with self.assertRaisesRegex(ValueError, "read-only"):
            basis.coefficients *= 2
        self.read_only(basis.coefficients, basis.words, basis.lanes)
        self.unchanged()
        basis.coefficients = basis.coefficients * 2
        basis.coefficients *= 2
        self.assertEqual(basis.coefficients.tolist(), (4 * NUMBERS).tolist())
        self.read_only(basis.words, basis.lanes)
        self.unchanged()

    def test_a_basis_of_terms(self):
        terms = Terms(2, self.lanes, self.numbers)
        basis = Basis(2, terms)
        self.assertFalse(np.shares_memory(basis.coefficients, terms.values))
        basis.coefficients *= 2
        self.assertEqual(terms.values.tolist(), NUMBERS.tolist())
        self.unchanged()

    def test_a_basis_of_words(self):
        basis = Basis(2, {"XI": 1.0, "IY": 2.0})
        basis.coefficients *= 2
        basis.coefficients[0] = 7.0
        self.assertEqual(basis.by_site(), {"X0": 7.0, "Y1": 4.0})
        self.read_only(basis.words, basis.lanes)
        for given in basis, Basis.from_arrays(2, basis.words, basis.coefficients):
            for other in given.copy(), copy.copy(given), copy.deepcopy(given), pickle.loads(pickle.dumps(given)):
                other.coefficients *= 2
                self.assertEqual(other.by_site(), {"X0": 14.0, "Y1": 8.0})
                self.assertEqual(basis.by_site(), {"X0": 7.0, "Y1": 4.0})

    def test_terms(self):
        model = Model(2, {"XX": 1.0, "ZI": 0.5})
        leaked = model.leakage(Basis(2, {"YZ": 1.0}), max_basis=9)
        for terms in Terms(2, self.lanes, self.numbers), model.action("YZ"), leaked:
            self.read_only(terms.values, terms.words, terms.lanes)
            terms.values.copy()[0] = 5.0
        self.assertTrue(np.shares_memory(Terms(2, self.lanes, self.numbers).values, self.numbers))
        self.unchanged()

    def test_rows(self):
        csr = Model(1, {"Z": 1.0}).csr(Basis(1, {"X": 1.0, "Y": 1.0}))
        self.read_only(*row(csr, position=0))
        csr.data *= 2
        self.assertEqual(row(csr, position=0)[1].tolist(), [4.0])


    def test_what_a_model_was_built_from(self):
        k = np.eye(2)
        model = Model(2, Terms(2, self.lanes, self.numbers), matrices=[(["Z0", "Z1"], k)])
        again = model.with_k(matrix=0, k=k)
        for each in model, again, copy.deepcopy(model), pickle.loads(pickle.dumps(model)):
            self.read_only(each.hamiltonian.words, each.hamiltonian.values, each.matrices[0].k)
            self.assertEqual(each, model)
        k *= 2
        self.numbers *= 2
        self.assertEqual(model.matrices[0].k.tolist(), np.eye(2).tolist())
        self.assertEqual(model.hamiltonian.values.tolist(), NUMBERS.tolist())
        self.assertEqual(model, again)

    def test_combinations(self):
        basis = Basis(2, {"XI": 1.0, "IZ": 2.0})
        terms = basis.terms()
        for each in terms, terms + terms, 2 * terms, -terms, terms / 2, Model(2, {"XI": 1.0}).action(terms):
            self.read_only(each.words, each.values)
            with self.assertRaises(AttributeError):
                each.values = [1.0, 2.0]
        basis.coefficients *= 2
        self.assertEqual(terms.values.tolist(), [1.0, 2.0])


class Attributes(unittest.TestCase):
    def test_they_cannot_be_set(self):
        model, basis = Model(2, {"XX": 1.0}), Basis(2, {"ZI": 1.0})
        things = [
            (model, ["n", "hamiltonian", "jumps", "matrices", "pairs", "rate"]),
            (basis, ["n", "words", "lanes", "coefficient"]),
            (model.action("ZI"), ["n", "words", "lanes", "values", "value"]),
            (model.leakage(basis, max_basis=5), ["n", "values"]),
        ]
        for thing, names in things:
            before = copy.copy(thing.__dict__)
            for name in names:
                kind = type(thing).__name__
                with self.assertRaisesRegex(AttributeError, f"{name} of a {kind} cannot be set: make another {kind}"):
                    setattr(thing, name, 3)
            self.assertEqual(thing.__dict__.keys(), before.keys())
        self.assertEqual((model.n, basis.n), (2, 2))
        basis.coefficients = [2.0]
        self.assertEqual(basis.by_site(), {"Z0": 2.0})

    def test_copies_cannot_be_either(self):
        model = Model(2, {"XX": 1.0})
        for thing in model, Basis(2, {"ZI": 1.0}), model.action("ZI"):
            for other in copy.copy(thing), copy.deepcopy(thing), pickle.loads(pickle.dumps(thing)):
                with self.assertRaises(AttributeError):
                    other.n = 3


class Qubits(unittest.TestCase):
    def test_they_index_nothing(self):
        basis = Basis(2, {"XI": 1.0, "IY": 2.0})
        csr = Model(2, {"ZI": 1.0}).csr(basis)
        for by_position in basis.coefficients, basis.words, [1, 2], "ab", csr, csr.data, range(2):
            with self.assertRaises((IndexError, TypeError)):
                by_position[Qubit(1)]
        with self.assertRaises((IndexError, TypeError)):
            basis.coefficients[Qubit(1)] = 5.0
        self.assertEqual(basis.coefficients[Position(1)], 2.0)
        self.assertEqual(["a", "b"][int(Qubit(1))], "b")


if __name__ == "__main__":
    unittest.main()
