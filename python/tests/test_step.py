# SPDX-FileCopyrightText: 2026 The PPVM Authors
# SPDX-License-Identifier: Apache-2.0
"""The predictor-corrector step: bit for bit against the definition written plainly (stepping.py), its refusals in their
order, and what it promises."""
import random
import unittest
from unittest import mock

import numpy as np

import any_k
import dense
import stepping
import test_refusals
from pebblelinen import Basis, InputError, Model, Position, Refusal, Stepped, step

NAN, INF = float("nan"), float("inf")
TURN = Model(1, {"Z": 1.0})

setUpModule = any_k.without_warning


def bits(numbers):
    return np.array(numbers, np.float64).tobytes()


def texts(basis):
    return [entry.word.text for entry in basis]


def state(basis):
    return basis.words.tolist(), bits(basis.coefficients)


class Definition(unittest.TestCase):
    def held(self, n, given, entries, **rules):
        """Holds a step, and its parts as a run takes them, to the definition; what kind of answer it was."""
        model, basis = Model(n, *given), Basis(n, entries)
        before = state(basis)
        words, numbers = [text for text, _ in entries], [x for _, x in entries]
        try:
            expected = stepping.Device(n, *given).step(words, numbers, **rules)
        except stepping.Refused as refused:
            with self.assertRaises(Refusal) as caught:
                model.step(basis, **rules)
            number, *values = refused.args
            found = caught.exception.values
            self.assertEqual(caught.exception.number, number, refused.args)
            if number == 14:
                (name, place) = values
                self.assertEqual({name: int(x) for x in found.values()}, {name: place})
                self.assertEqual(list(found), [name])
            else:
                self.assertEqual([found["m"], found["s"]], values)
            self.assertEqual(state(basis), before)
            return f"refusal {number}"
        found = model.step(basis, **rules)
        self.assertEqual(texts(found.basis), expected[0])
        self.assertEqual(bits(found.basis.coefficients), bits(expected[1]))
        self.assertEqual(found.products, expected[2])
        given_rules = {"admit_basis": None, "tau_add": None, "drop_tol": 0.0, "protected": (), **rules}
        dt = given_rules.pop("dt")
        parts = step.rules_of(n, **given_rules)
        grown = step.grow(model, basis, dt, parts)
        step.shorten(grown.evolved, parts)
        self.assertEqual((state(grown.evolved), grown.products), (state(found.basis), found.products))
        self.assertEqual(state(basis), before)
        return len(expected[0])

    def rules(self, rng, n, protected):
        return {
            "dt": rng.choice([0.0, 1e-4, 1e-3, -1e-3, 0.01]),
            "max_basis": rng.randint(0, 4**n + 2),
            "admit_basis": rng.choice([None, rng.randint(0, 4**n + 2)]),
            "tau_add": rng.choice([None, 0.0, -1.0, 0.25, 3.0]),
            "drop_tol": rng.choice([0.0, -1.0, 1e-5, 1e-4, 0.01, 0.3]),
            "protected": protected,
        }

    def test_random_models(self):
        rng = random.Random(61)
        seen = []
        for case in range(120):
            n = 1 + case % 2 + (case % 20 == 7)
            every = dense.register(n)
            chosen = rng.sample(every, rng.randint(0, min(len(every), 8)))
            entries = [(text, rng.choice([0.0, -0.0, 1.0, -0.5, 0.3, 1e-3])) for text in chosen]
            rules = self.rules(rng, n, rng.sample(every, rng.choice([0, 0, 1, 3])))
            seen.append(self.held(n, dense.random_model(rng, n, True), entries, **rules))
        self.assertGreater(len({*seen}), 8, seen)

    def test_numbers_too_large(self):
        """Sums of a leakage or of an evolution, and steps that are too long: refused part by part, with nothing changed."""
        rng = random.Random(62)
        seen = []
        for case in range(60):
            n = 1 + case % 2
            every = dense.register(n)
            entries = [(text, rng.choice([1e300, 1.5e308, -1.7e308, 1.0])) for text in rng.sample(every, 2)]
            rules = {"dt": rng.choice([0.0, 0.001, 0.01, 1e9]), "max_basis": rng.randint(1, 6)}
            seen.append(self.held(n, dense.random_model(rng, n, True), entries, **rules))
        self.assertLess({"refusal 14", "refusal 16"}, {*seen})

    def test_examples(self):
        given = [("Z", 1.0)], [], []
        large = [("X", 1.5e308)]
        # The first leakage runs without room too.
        self.assertEqual(self.held(1, given, large, dt=0.0, max_basis=1), "refusal 14")
        TURN.evolve(Basis(1, large), dt=0.0)
        self.assertEqual(self.held(1, given, [], dt=0.5, max_basis=4), 0)
        # What raising admit_basis alone may lose.
        one, rules = Basis(1, {"X": 1.0}), {"dt": 0.5, "drop_tol": 0.3, "max_basis": 1}
        self.assertEqual(TURN.step(one, **rules).basis.by_site(), {"X0": 1.0})
        self.assertEqual(list(TURN.step(one, admit_basis=2, **rules).basis.by_site()), ["Y0"])
        self.assertEqual(self.held(1, given, [("X", 1.0)], **rules), 1)
        self.assertEqual(self.held(1, given, [("X", 1.0)], admit_basis=2, **rules), 1)

    def test_the_second_hop(self):
        """It starts from the predicted numbers, and the corrector from those given: Z0 moves to Y0 X1 alone, which moves on
        within the same step."""
        given = [("XX", 1.0), ("IZ", 0.5)], [], []
        entries = [("ZI", 1.0)]
        self.assertEqual(self.held(2, given, entries, dt=0.25, max_basis=2), 2)
        self.assertEqual(self.held(2, given, entries, dt=0.25, max_basis=16), 3)
        stepped = Model(2, *given).step(Basis(2, entries), dt=0.25, max_basis=16)
        self.assertIsInstance(stepped, Stepped)
        self.assertEqual(list(stepped.basis.by_site()), ["Z0", "Y0 X1", "Y0 Y1"])


class Parts(unittest.TestCase):
    def test_each_goes_where_it_belongs(self):
        """The order of the library's calls where a run takes the parts of a step, and what each of them is given."""
        asked = []

        def spied(name, of):
            kept = getattr(of, name)

            def call(self, *arguments, **named):
                first = self if of is Basis else arguments[0]
                asked.append((name, len(first), {k: x for k, x in named.items() if k in ("limit", "max_basis", "admit_basis")}))
                return kept(self, *arguments, **named)

            return mock.patch.object(of, name, call)

        model, basis = Model(2, {"X0 X1": 1.0, "Z1": 0.5}), Basis(2, {"Z0": 1.0})

        def parts(**limits):
            rules = step.rules_of(2, **{"admit_basis": None, **limits}, tau_add=None, drop_tol=0.0, protected=())
            step.shorten(step.grow(model, basis, 0.25, rules).evolved, rules)

        with spied("leakage", Model), spied("evolve", Model):
            with spied("admit", Basis), spied("prune", Basis), spied("cap", Basis):
                parts(max_basis=2, admit_basis=3)
        limits = {"max_basis": 2, "admit_basis": 3}
        expected = [("leakage", 1, limits), ("admit", 1, {"limit": 3}), ("evolve", 2, {})]
        expected += [("leakage", 2, limits), ("admit", 2, {"limit": 3}), ("evolve", 3, {})]
        expected += [("prune", 3, {}), ("cap", 3, {"limit": 2})]
        self.assertEqual(asked, expected)
        asked.clear()
        with spied("leakage", Model), spied("evolve", Model):
            parts(max_basis=2)
        self.assertEqual([name for name, *_ in asked], ["leakage", "evolve"])

    def test_grown(self):
        """What a run sees of a step: the grown basis before and after the evolution."""
        model, basis = Model(2, {"X0 X1": 1.0, "Z1": 0.5}), Basis(2, {"Z0": 1.0})
        rules = step.rules_of(2, max_basis=1, admit_basis=3, tau_add=None, drop_tol=0.0, protected=())
        grown = step.grow(model, basis, 0.25, rules)
        self.assertEqual(grown.before.by_site(), {"Z0": 1.0, "Y0 X1": 0.0, "Y0 Y1": 0.0})
        self.assertEqual(state(grown.evolved), state(model.evolve(grown.before, dt=0.25).basis))
        step.shorten(grown.evolved, rules)
        stepped = model.step(basis, dt=0.25, max_basis=1, admit_basis=3)
        self.assertEqual(state(grown.evolved), state(stepped.basis))


class Promises(unittest.TestCase):
    """Over random models and bases of any numbers."""

    def random(self, rng):
        n = rng.choice([1, 2, 2, 3])
        every = dense.register(n)
        model = Model(n, *dense.random_model(rng, n, False))
        chosen = rng.sample(every, rng.randint(1, min(len(every), 12)))
        basis = Basis(n, [(text, rng.uniform(-1, 1)) for text in chosen])
        rules = {
            "dt": rng.choice([0.01, 0.1, 0.4]),
            "max_basis": rng.randint(0, 4**n),
            "admit_basis": rng.choice([None, rng.randint(0, 4**n)]),
            "tau_add": rng.choice([None, 0.0, 0.1]),
            "drop_tol": rng.choice([0.0, 1e-6, 1e-3, 0.1]),
            "protected": rng.sample(every, rng.choice([0, 1, 4])),
        }
        return model, basis, rules

    def test_what_stays(self):
        rng = random.Random(63)
        for _ in range(150):
            model, basis, rules = self.random(rng)
            after = texts(model.step(basis, **rules).basis)
            fixed = [text for text in texts(basis) if text in rules["protected"]]
            self.assertLessEqual(len(after), max(rules["max_basis"], len(fixed)))
            self.assertLessEqual({*fixed}, {*after})
            self.assertEqual(len({*after}), len(after))

    def test_nobody_is_lost(self):
        """Where only max_basis is raised and stays at or below admit_basis, or only drop_tol is lowered on one side of
        1e-4: every word that was kept is kept, with the same coefficient."""
        rng = random.Random(64)
        more = 0
        for case in range(300):
            model, basis, rules = self.random(rng)
            other = dict(rules)
            if case % 2:
                rules["admit_basis"] = max(rules["admit_basis"] or 0, rules["max_basis"])
                other |= rules
                other["max_basis"] = rng.randint(rules["max_basis"], rules["admit_basis"])
            else:
                other["drop_tol"] = rules["drop_tol"] * rng.choice([0.0, 0.1, 1.0])
                if (other["drop_tol"] >= 1e-4) != (rules["drop_tol"] >= 1e-4):
                    continue
            kept, wider = (model.step(basis, **each).basis.by_site() for each in (rules, other))
            self.assertLessEqual(kept.items(), wider.items())
            more += len(wider) > len(kept)
        self.assertGreater(more, 20)


class Refusals(test_refusals.Case):
    def asked(self, basis, **rules):
        return lambda: TURN.step(basis, **{"dt": 0.1, "max_basis": 4, **rules})

    def test_order(self):
        """Counts, words, numbers, then repeated words; each input has all that follows wrong too."""
        again = [("X", NAN), ("X", 1.0)]
        wide = np.array([[2, 0, 0, 0, 0, 0, 0, 0]] * 2, np.uint64)
        worst = {"dt": INF, "drop_tol": NAN, "tau_add": NAN, "protected": wide}
        many = np.zeros((65_537, 8), np.uint64)
        outside = Basis.from_arrays(1, wide, [NAN, 0.0])
        of = {"limit": 65_536}

        def count(said, count, basis, **rules):
            self.refused(8, {"count": count, **of}, f"{said}: at most 65536", self.asked(basis, **worst | rules))

        count("the basis has 65537 entries", 65_537, Basis.from_arrays(1, many), max_basis=70_000, admit_basis=80_000)
        count("there are 65537 protected words", 65_537, outside, protected=many, max_basis=70_000)
        count("max_basis is 70000", 70_000, outside, max_basis=70_000, admit_basis=80_000)
        count("admit_basis is 80000", 80_000, outside, admit_basis=80_000)
        said = "basis word at position 0 has a bit at or above qubit 1: X1"
        self.refused(11, {"position": Position(0), "qubits": 1}, said, self.asked(outside, **worst))
        said, values = "the protected word in place 0 has a bit at or above qubit 1", {"place": 0, "qubits": 1}
        self.refused(11, values, said, self.asked(Basis(1, again), **worst), (0,))
        worst["protected"] = np.zeros(9, np.uint64)
        said = "the protected words have 9 lanes: the last word is cut off"
        self.refused(9, {"needed": 8, "given": 9}, said, self.asked(outside, **worst))
        worst["protected"] = ()
        said = "the coefficient at position 0 is nan: a finite number is needed"
        self.refused(7, {"position": Position(0)}, said, self.asked(Basis(1, again), **worst))
        again[0] = ("X", 1.5e308)
        for name, x in [("dt", "inf"), ("drop_tol", "nan"), ("tau_add", "nan")]:
            said = f"{name} is {x}: a finite number is needed"
            self.refused(7, {"threshold": name}, said, self.asked(Basis(1, again), **worst))
            self.refused(7, {"threshold": name}, said, self.asked(Basis(1), **worst))
            worst[name] = 0.1
        said = "the word X0 at position 1 stood at a lower position"
        self.refused(12, {"position": Position(1)}, said, self.asked(Basis(1, again)))

    def test_as_the_parts_refuse(self):
        """Where a part has the same test, it says the same."""
        basis = Basis(1, {"X": 1.0, "Y": NAN})
        for call, rules in [
            (TURN.evolve, {"dt": 0.1, "drop_tol": 0.0}),
            (TURN.leakage, {"max_basis": 70_000}),
            (TURN.leakage, {"max_basis": 4, "protected": np.array([2] + 7 * [0], np.uint64)}),
            (TURN.leakage, {"max_basis": 4, "protected": np.zeros(7, np.uint64)}),
        ]:
            refusals = []
            for each in (lambda: call(basis, **rules)), self.asked(basis, **rules):
                with self.assertRaises(Refusal) as caught:
                    each()
                refusals.append((str(caught.exception), caught.exception.values, caught.exception.path))
            self.assertEqual(*refusals)

    def test_repeated_words(self):
        """Among many, wherever they stand."""
        rng = random.Random(65)
        for _ in range(20):
            lanes = np.array([[rng.randrange(2**60) for _ in range(8)] for _ in range(300)], np.uint64)
            first, second = sorted(rng.sample(range(300), 2))
            self.assertIsNone(step._first_again(lanes))
            lanes[second] = lanes[first]
            self.assertEqual(step._first_again(lanes), second)
        # The letters on all qubits have sums of their own.
        letters = Basis(256, [(f"{a}{q}", 0.0) for q in range(256) for a in "XYZ"]).words
        self.assertEqual(len({*step._sums(letters).tolist()}), 768)
        # Two words whose sums are equal are looked at.
        with mock.patch.object(step, "_FACTORS", np.zeros(16, np.uint64)):
            self.assertIsNone(step._first_again(lanes[:2] if second > 1 else lanes[2:4]))
            self.assertEqual(step._first_again(lanes), second)

    def test_a_late_refusal_changes_nothing(self):
        """The corrector's: words have been admitted twice by then."""
        model = Model(2, {"X0 X1": 1.0, "Z1": 0.5})
        basis = Basis(2, {"Z0": 1.0})
        before, kept = state(basis), Model.evolve
        calls = []

        def evolve(self, *arguments, **named):
            calls.append(len(arguments[0]))
            if len(calls) == 2:
                raise Refusal(14, "late", {})
            return kept(self, *arguments, **named)

        rules = step.rules_of(2, max_basis=16, admit_basis=None, tau_add=None, drop_tol=0.0, protected=())
        with mock.patch.object(Model, "evolve", evolve), self.assertRaises(Refusal):
            step.grow(model, basis, 0.25, rules)
        self.assertEqual((calls, state(basis)), ([2, 3], before))

    def test_what_cannot_be_handed_over(self):
        basis = Basis(1, {"X": 1.0})
        for call in [
            lambda: TURN.step(Basis(2), dt=1, max_basis=4),
            lambda: TURN.step([("X", 1.0)], dt=1, max_basis=4),
            lambda: TURN.step(basis, dt="1", max_basis=4),
            lambda: TURN.step(basis, dt=1, max_basis=4.5),
            lambda: TURN.step(basis, dt=1, max_basis=-1),
            lambda: TURN.step(basis, dt=1, max_basis=4, admit_basis="8"),
            lambda: TURN.step(basis, dt=1, max_basis=4, drop_tol=None),
        ]:
            with self.assertRaises(InputError):
                call()
        with self.assertRaises(TypeError):
            TURN.step(basis, dt=1)


if __name__ == "__main__":
    unittest.main()
