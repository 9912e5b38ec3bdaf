# SPDX-FileCopyrightText: 2026 The PPVM Authors
# SPDX-License-Identifier: Apache-2.0
"""The action of a model on words, against full matrices."""
import random
import unittest

import numpy as np

import any_k
import dense
from pebblelinen import Model, Word


setUpModule = any_k.without_warning


class Action(unittest.TestCase):
    def compare(self, rng, n, whole):
        given = dense.random_model(rng, n, whole)
        model = Model(n, *given)
        expected = dense.superoperator(n, *given)
        texts = dense.register(n)
        for column, text in enumerate(texts):
            found = {word.text: value for word, value in model.action(text)}
            numbers = np.array([found.get(each, 0.0) for each in texts])
            deviation = abs(numbers - expected[:, column]).max()
            self.assertLessEqual(deviation, 0.0 if whole else 1e-12, (given, text))
            self.assertNotIn(0.0, found.values())

    def test_every_word_of_whole_numbers_exactly(self):
        rng = random.Random(1)
        for case in range(40):
            self.compare(rng, case % 4, True)

    def test_every_word_of_other_numbers(self):
        rng = random.Random(2)
        for case in range(40):
            self.compare(rng, case % 4, False)

    def test_examples(self):
        # P5 to P9 of the definition.
        self.assertEqual(Model(1, {"Z": 0.5}).action("X").by_site(), {"Y0": -1.0})
        self.assertEqual(Model(1, [], [(0.25, "Z")]).action("X").by_site(), {"X0": -0.5})
        decay = Model(1, [], [(1.0, {"X": 0.5, "Y": 0.5j})])
        self.assertEqual(decay.action("Z").by_site(), {"I0": 1.0, "Z0": -1.0})
        self.assertEqual(len(decay.action("I")), 0)
        pair = Model(2, [], [], [(["XI", "IX"], [[1, 1j], [-1j, 1]])])
        self.assertEqual(pair.action("IZ").by_site(), {"Z1": -2.0, "X0 Y1": -2.0})

    def test_words_given_in_any_way(self):
        ways = [
            Model(3, {"X0 Z2": 0.5}, [(0.25, "Y1")]),
            Model(3, [("XIZ", 0.5)], [(0.25, {"IYI": 1})]),
            Model(3, [({0: "X", 2: "Z"}, 0.5)], [(0.25, {1: "Y"})]),
            Model(3, [(Word("X_I_Z", n=3), 0.5)], [(0.25, [(Word("Y1", n=3), 1 + 0j)])]),
        ]
        for model in ways:
            for word in "Z0 X1", "ZXI", {0: "Z", 1: "X"}, Word("Z0 X1", n=3):
                self.assertEqual(model.action(word).by_site(), ways[0].action("ZXI").by_site())

    def test_words_are_in_order_and_are_arrays(self):
        model = Model(2, {"XI": 1, "ZZ": 0.5, "IY": 0.25})
        terms = model.action("YX")
        self.assertEqual(terms.words.dtype, np.uint64)
        self.assertEqual(terms.words.shape, (len(terms), 8))
        words = [word for word, _ in terms]
        self.assertEqual(words, sorted(words))
        self.assertIn("2 qubits", repr(terms))

    def test_tables_grow_for_actions_that_touch_many_words(self):
        # Half of the other words anticommute with a word, and each product is a word of its own.
        texts = [text for text in dense.register(6) if text != "IIIIII"]
        model = Model(6, [(text, 1.0) for text in texts])
        for word in "XYZIXY", "IIZIII":
            terms = model.action(word)
            self.assertEqual(len(terms), 2048)
            self.assertEqual(set(abs(terms.values)), {2.0})

    def test_a_model_without_items(self):
        for n in 0, 1, 128, 256:
            model = Model(n)
            self.assertEqual(len(model.action("I" * n)), 0)
        self.assertEqual(repr(model), "Model of 256 qubits: 0 Hamiltonian terms, 0 jumps, 0 pairs")

    def test_the_last_qubit(self):
        for n in 128, 129, 192, 256:
            last = n - 1
            model = Model(n, {f"Z{last}": 0.5})
            self.assertEqual(model.action(f"X{last}").by_site(), {f"Y{last}": -1.0})
            self.assertEqual(len(model.action(f"X{last - 1}")), 0)
            # Nor on the qubits at the same bit of other lanes.
            self.assertEqual(len(model.action(" ".join(f"X{q}" for q in range(last % 64, last, 64)))), 0)
            self.assertEqual(model.action(f"X63 X{last}").by_site(), {f"X63 Y{last}": -1.0})

    def test_models_on_sites_of_a_large_register(self):
        """Against matrices: small models on sites at and above 128 and at the ends of lanes, in any order."""
        rng = random.Random(20)
        ends = [63, 64, 127, 128, 191, 192, 255]
        for case in range(12):
            n = 1 + case % 3
            sites = rng.sample(ends, n) if case % 2 else rng.sample(range(128, 256), n)
            given = dense.random_model(rng, n, True)
            model = Model(256, *dense.moved(sites, 256, *given))
            expected = dense.superoperator(n, *given)
            for column, text in enumerate(dense.register(n)):
                terms = model.action(dense.placed(text, sites, 256)).by_site()
                words = [Word(dense.placed(each, sites, 256), n=256).by_site for each in dense.register(n)]
                found = np.array([terms.pop(word, 0.0) for word in words])
                self.assertTrue((found == expected[:, column]).all())
                self.assertEqual(terms, {})

    def test_many_matrices(self):
        matrices = [([f"X{q}", f"X{q + 1}"], [[1, 0.5j], [-0.5j, 1]]) for q in range(7)]
        model = Model(8, [], [], matrices)
        self.assertEqual(model.pairs, 21)
        self.assertEqual(model.action("Z0").by_site(), {"Z0": -2.0, "Y0 X1": 1.0})


if __name__ == "__main__":
    unittest.main()
