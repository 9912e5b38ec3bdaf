# SPDX-FileCopyrightText: 2026 The PPVM Authors
# SPDX-License-Identifier: Apache-2.0
"""Bases: prune, cap, admission and leakage, against the rules written plainly."""
import copy
import pickle
import random
import threading
import unittest

import numpy as np

import any_k
import dense
from pebblelinen import Basis, Entry, InputError, Model, Position, Terms, Word


setUpModule = any_k.without_warning


def pruned(entries, drop_tol, protected):
    if drop_tol <= 0:
        return entries
    return [(w, x) for w, x in entries if abs(x) >= drop_tol or w in protected]


def capped(entries, limit, protected):
    if len(entries) <= limit:
        return entries
    fixed = [i for i, (w, _) in enumerate(entries) if w in protected]
    others = sorted(set(range(len(entries))) - set(fixed), key=lambda i: -abs(entries[i][1]))
    kept = sorted(fixed + others[: max(limit - len(fixed), 0)])
    return [entries[i] for i in kept]


def admitted(entries, listed, limit):
    room = max(limit - len(entries), 0)
    largest = sorted(range(len(listed)), key=lambda i: -abs(listed[i][1]))[:room]
    return entries + [(listed[i][0], 0.0) for i in sorted(largest)]


def leaked(model, entries, protected, room, tau_add):
    """Of at most 4,096 entries."""
    sums = {}
    known = {w for w, _ in entries} | set(protected)
    for word, x in sorted(entries, key=lambda entry: -abs(entry[1])):
        for q, value in model.action(word):
            if q.text not in known:
                sums[q.text] = sums.get(q.text, 0.0) + x * value
    order = sorted(sums, key=lambda text: Word(text, n=model.n))
    kept = sorted(order, key=lambda text: -abs(sums[text]))[:room]
    return [(text, sums[text]) for text in order if text in kept and abs(sums[text]) > tau_add]


def pairs(basis):
    return [(entry.word.text, entry.coefficient) for entry in basis]


class Bases(unittest.TestCase):
    def entries(self, rng, n=3):
        words = dense.register(n)
        numbers = [-1.0, -0.5, -0.25, 0.0, -0.0, 0.25, 0.5, 1.0, 3.0]
        return [(rng.choice(words), rng.choice(numbers)) for _ in range(rng.randrange(12))]

    def test_prune_cap_and_admission(self):
        rng = random.Random(3)
        for _ in range(300):
            entries, listed = self.entries(rng), self.entries(rng)
            protected = [word for word, _ in self.entries(rng)[:3]]
            drop_tol, limit = rng.choice([-1, 0, 0.25, 0.3, 2]), rng.randrange(14)
            basis = Basis(3, entries)
            self.assertEqual(basis.prune(drop_tol=drop_tol, protected=protected), len(basis))
            self.assertEqual(pairs(basis), pruned(entries, drop_tol, protected))
            basis = Basis(3, entries)
            self.assertEqual(basis.cap(limit=limit, protected=protected), len(basis))
            self.assertEqual(pairs(basis), capped(entries, limit, protected))
            basis = Basis(3, entries)
            self.assertEqual(basis.admit(listed, limit=limit), len(basis))
            self.assertEqual(pairs(basis), admitted(entries, listed, limit))

    def test_leakage(self):
        rng = random.Random(4)
        for case in range(150):
            model = Model(3, *dense.random_model(rng, 3, case % 2))
            entries = self.entries(rng)
            protected = [word for word, _ in self.entries(rng)[:3]]
            limit, tau_add = rng.choice([0, 1, 5, 10, 64]), rng.choice([None, -1, 0, 0.5])
            terms = model.leakage(
                Basis(3, entries), max_basis=limit, tau_add=tau_add, protected=protected
            )
            expected = leaked(model, entries, protected, max(limit - len(entries), 0), 2.0**-40 if tau_add is None else tau_add)
            self.assertEqual([(word.text, value) for word, value in terms], expected)

    def test_leakage_limits(self):
        model = Model(2, {"XX": 1.0, "ZI": 0.5, "IZ": 0.25})
        basis = Basis(2, {"XY": 1.0})
        self.assertEqual(len(model.leakage(basis, max_basis=1)), 0)
        self.assertEqual(len(model.leakage(basis, max_basis=1, admit_basis=2)), 1)
        self.assertEqual(len(model.leakage(basis, max_basis=2, admit_basis=0)), 1)
        all_ = model.leakage(basis, max_basis=65_536)
        self.assertEqual(len(all_), 3)
        self.assertEqual(len(model.leakage(basis, max_basis=9, tau_add=all_.largest())), 0)
        self.assertEqual(len(model.leakage(Basis(2), max_basis=9)), 0)

    def test_examples(self):
        # P10 to P12 of the definition, and prune at 1.
        words = ["XI", "YI", "ZI", "IX"]
        for limit, protected, kept in (2, [], [0, 1]), (2, ["IX"], [0, 3]), (0, ["IX"], [3]):
            basis = Basis(2, zip(words, [3, -1, 1, 0.5]))
            basis.cap(limit=limit, protected=protected)
            self.assertEqual([entry.word.text for entry in basis], [words[i] for i in kept])
        basis = Basis(2, zip(words, [3, -1, 1, 0.5]))
        self.assertEqual(basis.prune(drop_tol=1), 3)

    def test_many_candidates(self):
        """More words touched by one action, and more candidates, than are lent at first."""
        texts = [text for text in dense.register(6) if text != "IIIIII"]
        model = Model(6, [(text, 1.0) for text in texts])
        basis = Basis(6, {"XYZIXY": 1.0, "IIZIII": 0.25})
        terms = model.leakage(basis, max_basis=65_536, tau_add=-1.0)
        reached = {w for word in ("XYZIXY", "IIZIII") for w, _ in model.action(word)}
        self.assertEqual({word for word, _ in terms}, reached - {entry.word for entry in basis})
        self.assertEqual(basis.admit(terms, limit=1000), 1000)
        self.assertEqual(basis.admit(terms, limit=65_536), 1000 + len(terms))

    def test_several_passes(self):
        words = dense.register(6) + ["I" * 5 + "X"] * 100
        basis = Basis(6, [(word, 1.0 + i / 8192) for i, word in enumerate(words)])
        self.assertEqual(len(basis), 4196)
        model = Model(6, {"ZZIIII": 0.5}, [(0.5, {"X5": 0.5, "Y5": 0.5j})])
        self.assertEqual(len(model.leakage(basis, max_basis=65_536, tau_add=-1)), 0)
        half = Basis(6, [(word, 1.0) for word in words if word[0] != "Y"])
        terms = model.leakage(half, max_basis=65_536)
        self.assertEqual({word.text[0] for word, _ in terms}, {"Y"})

    def test_shown_by_position(self):
        basis = Basis(128, {"X12 Z40": 0.5, "Z0": -1})
        lines = str(basis).splitlines()
        self.assertEqual(lines[0], "basis of 2 entries on 128 qubits")
        self.assertEqual(lines[1], "position 0: X12 Z40, coefficient 0.5")
        self.assertEqual(lines[2], "position 1: Z0, coefficient -1.0")
        long = str(Basis(3, [(word, 1) for word in dense.register(3)]))
        self.assertTrue(long.endswith(".. and 44 more"))
        self.assertEqual(repr(basis), "Basis of 2 entries on 128 qubits")

    def test_entries_positions_and_qubits(self):
        basis = Basis(128, [("X12 Z40", 0.5), ("Z0", -1), ("X12 Z40", 2)])
        self.assertEqual(basis.entry(position=1), Entry(Position(1), Word("Z0", n=128), -1.0))
        self.assertEqual(basis.positions("Z40 X12"), [Position(0), Position(2)])
        self.assertEqual(basis.touching(qubit=40), [Position(0), Position(2)])
        self.assertEqual(basis.touching(qubit=127), [])
        self.assertEqual(basis.by_site(), {"X12 Z40": 2.0, "Z0": -1.0})
        for position in 3, -1, 0.5, "0":
            with self.assertRaises(InputError):
                basis.entry(position=position)
        with self.assertRaises(InputError):
            basis.touching(qubit=128)

    def test_coefficients_can_be_set(self):
        basis = Basis(1, {"X": 1, "Y": 2})
        basis.coefficients = [3, 4]
        self.assertEqual(basis.coefficients.tolist(), [3.0, 4.0])
        for given in [1], [1, 2, 3], ["1", "2"], [1j, 2], [[1, 2]], None, 5:
            with self.assertRaises(InputError):
                basis.coefficients = given

    def test_copies(self):
        basis = Basis(1, {"X": 1, "Y": 2})
        for other in basis.copy(), copy.copy(basis), copy.deepcopy(basis), pickle.loads(pickle.dumps(basis)):
            self.assertEqual(pairs(other), pairs(basis))
            other.prune(drop_tol=10)
            self.assertEqual(len(basis), 2)
        model = copy.deepcopy(pickle.loads(pickle.dumps(Model(1, {"Z": 0.5}))))
        self.assertEqual(model.action("X").by_site(), {"Y0": -1.0})

    def test_terms(self):
        terms = Terms(2, [[1, 0, 0, 0, 0, 0, 0, 0], [2, 0, 0, 0, 2, 0, 0, 0]], [1.0, -2.0])
        self.assertEqual(str(terms), "X0   1.0\nY1  -2.0")
        self.assertEqual(terms.largest(), 2.0)
        self.assertEqual(dict(terms)[Word("Y1", n=2)], -2.0)
        basis = Basis(2, terms)
        self.assertEqual(basis.by_site(), {"X0": 1.0, "Y1": -2.0})
        self.assertEqual(str(Terms(2, [], [])), "")
        self.assertEqual(Terms(2, [], []).largest(), 0.0)

    def test_other_registers_are_not_taken(self):
        model, basis = Model(2, {"XX": 1}), Basis(3, {"X0": 1})
        with self.assertRaises(InputError):
            model.leakage(basis, max_basis=5)
        with self.assertRaises(InputError):
            basis.cap(limit=1, protected=[Word("X0", n=2)])
        with self.assertRaises(InputError):
            basis.admit(model.action("ZI"), limit=5)

    def test_threads(self):
        model = Model(6, [(text, 1.0) for text in dense.register(6)[1:400]])
        basis = Basis(6, [(text, 1.0) for text in dense.register(6)[400:800]])
        expected = model.leakage(basis, max_basis=65_536).values.tolist()
        found = []

        def work():
            for _ in range(5):
                found.append(model.leakage(basis, max_basis=65_536).values.tolist() == expected)

        threads = [threading.Thread(target=work) for _ in range(4)]
        for thread in threads:
            thread.start()
        for thread in threads:
            thread.join()
        self.assertEqual(found, [True] * 20)


if __name__ == "__main__":
    unittest.main()
