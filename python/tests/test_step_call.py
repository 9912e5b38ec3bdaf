# SPDX-FileCopyrightText: 2026 The PPVM Authors
# SPDX-License-Identifier: Apache-2.0
"""The step across the C interface: every lent table after an answer and after a refusal, against the definition written
plainly (stepping.py). What stands in work tables, and past the basis, is anything."""
import random
import unittest

import numpy as np

import any_k
import dense
import stepping
from pebblelinen import Model, _library
from pebblelinen._lanes import WORD_LANES
from pebblelinen._tables import _TYPES
from pebblelinen.leakage import TAU_ADD
from pebblelinen.words import table

setUpModule = any_k.without_warning

# The tables with a place for each position, in the order in which 9 asks for them, and how many for each.
FOR_POSITIONS = {
    "order": 1,
    "place_order": 1,
    "cand_sums": 1,
    "list_values": 1,
    "work_sums": 1,
    "grown_words": WORD_LANES,
    "start": 1,
    "evolved": 1,
}


class Lent:
    """A basis in tables with places past its words, and work tables, all filled with anything."""

    def __init__(self, rng, n, entries, *, places=24, protected=(), touched=64, candidates=64, room=512, **lengths):
        self.n, self.len = n, len(entries)
        words = table([text for text, _ in entries], n, "words")
        self.words = np.array([rng.getrandbits(64) for _ in range(WORD_LANES * places)], np.uint64)
        self.words[: len(words)] = words
        self.coeffs = np.array([rng.uniform(-9, 9) for _ in range(places)])
        self.coeffs[: self.len] = [x for _, x in entries]
        self.protected = table(list(protected), n, "protected")
        named = _library.call("step_sizes", n, places, len(self.protected) // WORD_LANES, touched, candidates, room)
        self.work = {}
        for name, *_ in named._fields_:
            length = lengths.get(name, getattr(named, name))
            self.work[name] = np.array([rng.randrange(1000) for _ in range(length)], _TYPES.get(name, np.uint64))
        # Repeated words are found at once only in slots that are zero.
        self.work["heads"][:], self.work["nexts"][:] = 0, 0

    def state(self):
        return [each.tobytes() for each in (self.words, self.coeffs, *self.work.values())]

    def step(self, model, *, dt, max_basis, admit_basis=None, tau_add=None, drop_tol=0.0):
        limits = _library.Limits(
            max_basis,
            admit_basis is not None,
            admit_basis or 0,
            tau_add is not None,
            TAU_ADD if tau_add is None else tau_add,
        )
        answer = _library.call(
            "step",
            *model._lent(),
            self.words,
            self.coeffs,
            self.len,
            self.protected,
            limits,
            dt,
            drop_tol,
            *self.work.values(),
        )
        status = answer.status
        return (status.refusal, status.first, status.second), answer.entries, answer.products


class Definition(unittest.TestCase):
    def held(self, rng, n, given, entries, protected, **rules):
        model, lent = Model(n, *given), Lent(rng, n, entries, protected=protected)
        before, words, coeffs = lent.state(), lent.words.copy(), lent.coeffs.copy()
        try:
            texts, numbers, products = stepping.Device(n, *given).step(
                [text for text, _ in entries], [x for _, x in entries], protected=protected, **rules
            )
        except stepping.Refused as refused:
            (number, *_), *counts = lent.step(model, **rules)
            self.assertEqual(number, refused.args[0])
            self.assertEqual(counts, [0, 0])
            self.assertEqual(lent.state()[:2], before[:2])
            self.assertFalse(any(each.any() for each in lent.work.values()))
            return f"refusal {number}"
        self.assertEqual(lent.step(model, **rules), ((0, 0, 0), len(texts), products))
        k = len(texts)
        self.assertEqual(lent.words[: WORD_LANES * k].tobytes(), table(texts, n, "words").tobytes())
        self.assertEqual(lent.coeffs[:k].tobytes(), np.array(numbers, np.float64).tobytes())
        rest = lent.words[WORD_LANES * k :], lent.coeffs[k:]
        if rules["drop_tol"] > 0:
            self.assertFalse(any(each.any() for each in rest))
        elif any(each.any() for each in rest):
            # Nothing was cut off: what stood there stands there still.
            self.assertEqual(rest[0].tobytes(), words[WORD_LANES * k :].tobytes())
            self.assertEqual(rest[1].tobytes(), coeffs[k:].tobytes())
        self.assertFalse(any(each.any() for each in lent.work.values()))
        return k

    def test_random_models(self):
        rng = random.Random(71)
        seen = []
        for case in range(120):
            n = 1 + case % 2
            every = dense.register(n)
            entries = [
                (text, rng.choice([0.0, -0.0, 1.0, -0.5, 0.3, 1e-3, *(case % 9 == 4) * [1.5e308]]))
                for text in rng.sample(every, rng.randint(0, min(len(every), 8)))
            ]
            rules = {
                "dt": rng.choice([0.0, 1e-4, 1e-3, -1e-3, 0.01, *(case % 9 == 5) * [1e9]]),
                "max_basis": rng.randint(0, 4**n + 2),
                "admit_basis": rng.choice([None, rng.randint(0, 4**n + 2)]),
                "tau_add": rng.choice([None, 0.0, -1.0, 0.25, 3.0]),
                "drop_tol": rng.choice([0.0, -1.0, 1e-5, 1e-4, 0.01, 0.3]),
            }
            protected = rng.sample(every, rng.choice([0, 0, 1, 3]))
            seen.append(self.held(rng, n, dense.random_model(rng, n, True), entries, protected, **rules))
        self.assertGreater(len({*seen}), 8, seen)
        self.assertLess({"refusal 14", "refusal 16"}, {*seen})


class Refusals(unittest.TestCase):
    model = Model(2, {"X0 X1": 1.0, "Z1": 0.5})
    entries = [("ZI", 1.0), ("XI", 0.5)]
    rules = {"dt": 0.25, "max_basis": 16}

    def refused(self, expected, lent, zero, **rules):
        before = lent.state()
        self.assertEqual(lent.step(self.model, **self.rules | rules), (expected, 0, 0))
        self.assertEqual(lent.state()[:2], before[:2])
        if zero:
            self.assertFalse(any(each.any() for each in lent.work.values()))
        else:
            self.assertEqual(lent.state(), before)

    def test_tables_too_short(self):
        """9, in the order lent; a table that asks for more than its places is refused before those behind it."""
        rng = random.Random(72)
        needs = {"h_index": None, "j_index": None, "mask": None, "order": 2, "heads": 3, "nexts": 3, "place_order": 3}
        needs |= {"cand_sums": 2, "list_values": 2, "work_sums": 2, "grown_words": 2, "start": 2, "evolved": 2}
        short = {}
        for name in reversed(needs):
            short[name] = 0
            lent = Lent(rng, 2, self.entries, protected=["YY"], **short)
            needed = needs[name] or _library.call("step_sizes", 2, 2, 1, 1, 1, 1).__getattribute__(name)
            self.refused((9, needed, 0), lent, False)
        # One place less than each asks for, in words.
        for name, each in FOR_POSITIONS.items():
            length = each * (3 if name == "place_order" else 2)
            self.assertEqual(Lent(rng, 2, self.entries, **{name: length}).step(self.model, **self.rules)[0][0], 13)
            lent = Lent(rng, 2, self.entries, **{name: length - 1})
            self.refused((9, length // each, (length - 1) // each), lent, False)
        # No words ask for no place.
        none = dict.fromkeys(needs, 0) | dict.fromkeys(["stage_rows", "columns", "list_words", "cand_words"], 0)
        lent = Lent(rng, 2, [], places=0, **none)
        self.assertEqual(lent.step(self.model, **self.rules), ((0, 0, 0), 0, 0))

    def test_no_room(self):
        """13: the table, and its places."""
        rng = random.Random(73)
        self.refused((13, 1, 1), Lent(rng, 2, self.entries, touched=1), True)
        self.refused((13, 2, 0), Lent(rng, 2, self.entries, place_work=0), True)
        self.refused((13, 3, 0), Lent(rng, 2, self.entries, list_words=0), True)
        # Two words are there, and three when YX enters.
        for name, each in FOR_POSITIONS.items():
            length = each * (3 if name == "place_order" else 2)
            self.refused((13, 3, 2), Lent(rng, 2, self.entries, **{name: length}), True)
        self.refused((13, 3, 2), Lent(rng, 2, self.entries, places=2, room=64), True)
        self.refused((13, 3, 1), Lent(rng, 2, self.entries, columns=1), True)

    def test_the_input(self):
        """8, 9, 11, 7, 12, in this order: each input has all that follows wrong too."""
        rng = random.Random(74)
        worst = {"max_basis": 70_000, "admit_basis": 80_000, "dt": float("inf")}
        worst |= {"drop_tol": float("nan"), "tau_add": float("nan")}

        def lent():
            made = Lent(rng, 2, [("ZI", 1.0), ("ZI", float("nan"))], protected=["YY"])
            made.words[0] |= np.uint64(4)
            made.protected[0] |= np.uint64(4)
            return made

        many = lent()
        many.len = 70_001
        self.refused((8, 70_001, 0), many, False, **worst)
        self.refused((8, 70_000, 0), lent(), False, **worst)
        worst["max_basis"] = 4
        self.refused((8, 80_000, 0), lent(), False, **worst)
        worst["admit_basis"] = None
        cut = lent()
        cut.protected = cut.protected[:7]
        self.refused((9, 0, 7), cut, False, **worst)
        self.refused((11, 0, 0), lent(), False, **worst)
        made = lent()
        made.words[0] ^= np.uint64(4)
        self.refused((11, 0, 0), made, False, **worst)
        made.protected[0] ^= np.uint64(4)
        self.refused((7, 1, 0), made, False, **worst)
        made.coeffs[1] = 1.5e308
        for name in "dt", "drop_tol", "tau_add":
            self.refused((7, 2, 0), made, False, **worst)
            worst[name] = 0.1
        self.refused((12, 1, 0), made, False, **worst)


if __name__ == "__main__":
    unittest.main()
