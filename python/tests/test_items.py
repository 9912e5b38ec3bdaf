# SPDX-FileCopyrightText: 2026 The PPVM Authors
# SPDX-License-Identifier: Apache-2.0
"""Looking into a model, and the same model with another number, which must be the model that is built anew."""
import copy
import pickle
import random
import unittest
from fractions import Fraction

import numpy as np

import any_k
import dense
from pebblelinen import InputError, Jump, Matrix, Model, Refusal, Word, _library

setUpModule = any_k.without_warning


def models(count=40):
    """(n, what was given, the model) of random models."""
    rng = random.Random(3)
    for case in range(count):
        n = 1 + case % 4
        given = dense.random_model(rng, n, case % 2 == 0)
        yield rng, n, given, Model(n, *given)


class Reading(unittest.TestCase):
    def test_a_model_says_what_it_was_given(self):
        for _, n, (hamiltonian, jumps, matrices), model in models():
            self.assertEqual([(word.text, x) for word, x in model.hamiltonian], hamiltonian)
            found = [(jump.rate, [(word.text, x) for word, x in jump.operator]) for jump in model.jumps]
            self.assertEqual(found, jumps)
            self.assertEqual(len(model.matrices), len(matrices))
            for found, (operators, k) in zip(model.matrices, matrices):
                texts = [[(word.text, x) for word, x in operator] for operator in found.operators]
                self.assertEqual(texts, operators)
                self.assertTrue(np.array_equal(found.k, k))

    def test_what_is_read_can_be_given_again(self):
        for _, n, given, model in models():
            again = Model(n, model.hamiltonian, model.jumps, model.matrices)
            self.assertEqual(again, model)
            self.assertEqual(hash(again), hash(model))
            self.assertTrue(all(map(np.array_equal, again._tables.values(), model._tables.values())))

    def test_words_and_numbers_of_one_term(self):
        model = Model(3, {"Z0": 0.0, "III": 0.5}, [(0.25, "X2"), (0.0, {"Y1": -2}), (1, {"Y1": 1j})])
        self.assertEqual(model.hamiltonian.by_site(), {"Z0": 0.0, "I0": 0.5})
        self.assertEqual(model.jumps[0], Jump(0.25, ((Word("X2", n=3), 1),)))
        shown = ["X2, rate 0.25", "-2.0 Y1, rate 0.0", "1.0j Y1, rate 1.0"]
        self.assertEqual([str(jump) for jump in model.jumps], shown)
        self.assertEqual((Model(2).jumps, Model(2).matrices, len(Model(2).hamiltonian)), ((), (), 0))
        matrix = Model(2, matrices=[(["Z0", {"X1": 0.5, "Y1": 0.5j}], np.eye(2))]).matrices[0]
        self.assertIsInstance(matrix, Matrix)
        self.assertEqual(str(matrix), "Z0, 0.5 X1 + 0.5j Y1, K 2 × 2")

    def test_what_is_read_cannot_be_written(self):
        model = Model(2, {"Z0": 1.0}, [(1.0, "X0")], [(["Z0"], [[1]])])
        for array in model.hamiltonian.values, model.hamiltonian.words, model.matrices[0].k:
            with self.assertRaises(ValueError):
                array[0] = 2

    def test_copies_are_equal(self):
        for _, _, _, model in models(10):
            self.assertEqual(pickle.loads(pickle.dumps(model)), model)
            self.assertEqual(copy.deepcopy(model), model)

    def test_equal_models(self):
        model = Model(2, {"Z0": 1.0}, [(1.0, "X0")], [(["Z0"], [[1]])])
        self.assertEqual(model, Model(2, {"ZI": 1}, [(1, {0: "X"})], [([{"ZI": 1}], [[1 + 0j]])]))
        for other in [
            Model(3, {"Z0": 1.0}, [(1.0, "X0")], [(["Z0"], [[1]])]),
            Model(2, {"Z1": 1.0}, [(1.0, "X0")], [(["Z0"], [[1]])]),
            Model(2, {"Z0": 2.0}, [(1.0, "X0")], [(["Z0"], [[1]])]),
            Model(2, {"Z0": 1.0}, [(0.25, {"X0": 2})], [(["Z0"], [[1]])]),
            Model(2, {"Z0": 1.0}, [(1.0, "X0")], [(["Z0"], [[2]])]),
            Model(2, {"Z0": 1.0}, [(1.0, "X0")]),
            "a model",
        ]:
            self.assertNotEqual(model, other)
        # Both rates come to 1 in the library's table, and what was given differs all the same.
        self.assertNotEqual(Model(1, jumps=[(4.0, {"X": 0.5})]), Model(1, jumps=[(1.0, "X")]))


class Changing(unittest.TestCase):
    def test_another_rate(self):
        for rng, n, (hamiltonian, jumps, matrices), model in models():
            for place, (_, operator) in enumerate(jumps):
                rate = rng.random()
                changed = [*jumps[:place], (rate, operator), *jumps[place + 1 :]]
                again = model.with_rate(jump=place, rate=rate)
                self.assertEqual(again, Model(n, hamiltonian, changed, matrices))
                self.assertEqual(again.jumps[place].rate, rate)
            self.assertEqual(model, Model(n, hamiltonian, jumps, matrices))

    def test_another_coefficient(self):
        for rng, n, (hamiltonian, jumps, matrices), model in models():
            texts = [text for text, _ in hamiltonian]
            for place, text in enumerate(texts):
                if texts.count(text) == 1:
                    x = rng.uniform(-2, 2)
                    changed = [*hamiltonian[:place], (text, x), *hamiltonian[place + 1 :]]
                    again = model.with_coefficient(word=text, coefficient=x)
                    self.assertEqual(again, Model(n, changed, jumps, matrices))

    def test_another_k(self):
        for rng, n, (hamiltonian, jumps, matrices), model in models(80):
            for place, (operators, k) in enumerate(matrices):
                # Of another number of pairs too.
                k = np.diag([rng.choice([0.0, rng.random()]) for _ in operators])
                changed = [*matrices[:place], (operators, k), *matrices[place + 1 :]]
                self.assertEqual(model.with_k(matrix=place, k=k), Model(n, hamiltonian, jumps, changed))
            self.assertEqual(model, Model(n, hamiltonian, jumps, matrices))

    def test_only_the_item_that_changes_is_read(self):
        model = Model(128, [(f"Z{q}", 1.0) for q in range(128)], [(1.0, f"X{q}") for q in range(128)])
        lent, call = [], _library.call

        def watched(name, *arguments):
            if name == "build_model":
                lent.append(len(arguments[0]))
            return call(name, *arguments)

        _library.call = watched
        try:
            model.with_rate(jump=64, rate=0.5)
            model.with_coefficient(word="Z64", coefficient=0.5)
        finally:
            _library.call = call
        self.assertEqual(lent, [128, 128])

    def test_refusals_name_the_item(self):
        model = Model(2, {"Z0": 1.0, "Z1": 1.0}, [(1.0, "X0"), (1.0, "X1")], 2 * [(["Z0"], [[1]])])
        for call, said, path in [
            (lambda: model.with_rate(jump=1, rate=-0.5), "jump 1 has the rate -0.5, below 0", ("jumps", 1, "rate")),
            (lambda: model.with_rate(jump=1, rate=np.nan), "jump 1 has the rate nan", ("jumps", 1, "rate")),
            (
                lambda: model.with_coefficient(word="Z1", coefficient=np.inf),
                "Hamiltonian item 1 has the number inf",
                ("hamiltonian", 1),
            ),
            (lambda: model.with_k(matrix=1, k=[[1j]]), "matrix 1: K[0][0]", ("matrices", 1, "k", 0, 0)),
            (lambda: model.with_k(matrix=1, k=[[1, 2]]), "matrix 1 has 2 entries", ("matrices", 1, "k")),
        ]:
            with self.assertRaises(Refusal) as caught:
                call()
            self.assertIn(said, str(caught.exception))
            self.assertEqual(caught.exception.path, path)

    def test_items_that_are_not_there(self):
        model = Model(2, [("Z0", 1.0), ("Z0", 2.0)], [(1.0, "X0")])
        for call, said in [
            (lambda: model.with_rate(jump=1, rate=1), "there is no jump 1: the model has 1, counted from 0"),
            (lambda: model.with_rate(jump=-1, rate=1), "the place of a jump is -1"),
            (lambda: model.with_rate(jump=0, rate="1"), "the rate of jump 0 is '1'"),
            (lambda: model.with_k(matrix=0, k=[[1]]), "there is no matrix 0: the model has 0"),
            (lambda: model.with_coefficient(word="Z1", coefficient=1), "the word Z1 does not stand"),
            (lambda: model.with_coefficient(word="Z0", coefficient=1), "the word Z0 stands 2 times"),
        ]:
            with self.assertRaises(InputError) as caught:
                call()
            self.assertIn(said, str(caught.exception))


class Numbers(unittest.TestCase):
    def test_numbers_of_every_type(self):
        model = Model(1, [("X", 2.0)] * 3, [(2.0, [("X", 2.0), ("Y", 2j)])])
        for two in 2, 2.0, np.float64(2), np.float32(2), np.int64(2), Fraction(2):
            self.assertEqual(Model(1, [("X", two)] * 3, [(two, [("X", two), ("Y", 2j)])]), model)
        self.assertEqual(Model(1, [("X", 2.0)] * 3, [(2, [("X", np.complex64(2)), ("Y", 2j)])]), model)

    def test_numbers_that_are_none_are_named(self):
        for wrong in "2", True, None, 10**400, 1j, [2]:
            for given, path in [
                (([("X", 1), ("Y", wrong)],), ("hamiltonian", 1)),
                (([], [(1, "X"), (wrong, "X")]), ("jumps", 1, "rate")),
                (([], [(1, "X"), (1, [("X", 1), ("Y", 2), ("Z", wrong)])]), ("jumps", 1, "operator", 2)),
                (([], [], [(["X", {"Y": wrong}], np.eye(2))]), ("matrices", 0, "operators", 1, 0)),
            ]:
                if wrong == 1j and "operator" in str(path):
                    continue
                with self.assertRaises(InputError) as caught:
                    Model(1, *given)
                self.assertEqual(caught.exception.path, path)
                self.assertIn("number is needed", str(caught.exception))


class Texts(unittest.TestCase):
    def test_words_already_read_make_the_same_model_as_texts(self):
        rng = random.Random(4)
        for n in 1, 2, 7, 8, 9, 63, 64, 65, 127, 128, 129, 191, 192, 193, 255, 256:
            texts = ["".join(rng.choices("IXYZ", k=n)) for _ in range(24)]
            words = [Word(text, n=n) for text in texts]

            def built(given):
                hamiltonian = [(word, 1.0) for word in given[:8]]
                jumps = [(0.5, [(a, 1.0), (b, 2j)]) for a, b in zip(given[8:16], given[16:])]
                return Model(n, hamiltonian, jumps, [(given[:3], np.eye(3))])

            model = built(texts)
            self.assertEqual(built(words), model)
            self.assertEqual(built([*words[:12], *texts[12:]]), model)
            self.assertEqual([word for word, _ in model.hamiltonian], words[:8])

    def test_words_of_another_register_are_named(self):
        words = [Word("X0", n=2), Word("X0", n=3)]
        with self.assertRaises(InputError) as caught:
            Model(2, [], [(1.0, "X0"), (1.0, [(word, 1.0) for word in words])])
        self.assertEqual(caught.exception.path, ("jumps", 1, "operator", 1))
        with self.assertRaises(InputError) as caught:
            Model(2, [], [], [(["X0"], [[1]]), ([words[0], words[1]], np.eye(2))])
        self.assertEqual(caught.exception.path, ("matrices", 1, "operators", 1, 0))


if __name__ == "__main__":
    unittest.main()
