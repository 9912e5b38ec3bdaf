# SPDX-FileCopyrightText: 2026 The PPVM Authors
# SPDX-License-Identifier: Apache-2.0
"""Runs: curves against exponentials of full matrices and closed forms, their losses, interrupts and checkpoints, and
what is refused before anything is computed."""
import contextlib
import io
import json
import math
import random
import tempfile
import unittest
import warnings
from pathlib import Path
from unittest import mock

import numpy as np
import scipy.sparse.linalg

import dense
import test_state
from pebblelinen import Basis, Curve, InputError, Model, Refusal, Run, _progress, noise, plan, resume, run
from pebblelinen.resuming import run_of

NAN, INF = float("nan"), float("inf")


def exact(n, given, entries, times, vectors):
    """The expectation at each time, by full matrices: the observable evolved as one of them, in no basis of words."""
    hamiltonian, jumps, _ = given
    one = scipy.sparse.identity(2**n, format="csr")

    def matrix(terms):
        return scipy.sparse.csr_matrix(dense.operator_of(n, terms))

    def between(left, right):
        # Rows one after another: left p right is the product of this with p.
        return scipy.sparse.kron(left, right.T, format="csr")

    h = matrix(hamiltonian)
    generator = 1j * (between(h, one) - between(one, h))
    for rate, terms in jumps:
        jump = matrix(terms)
        square = jump.conj().T @ jump
        generator += rate * (between(jump.conj().T, jump) - (between(square, one) + between(one, square)) / 2)
    now, p, found = 0.0, dense.operator_of(n, entries).reshape(-1), []
    state = test_state.density(vectors)
    for time in times:
        p = scipy.sparse.linalg.expm_multiply(generator * (time - now), p, traceA=0.0) if time > now else p
        now = time
        found.append(np.trace(state @ p.reshape(2**n, 2**n)).real)
    return np.array(found)


def random_device(rng, n):
    """Neighbours that are coupled, with decay and dephasing: a valid model."""

    def on(sites, letters):
        return dense.placed(letters, sites, n)

    hamiltonian = [(on([q, q + 1], a + a), rng.uniform(-1, 1)) for q in range(n - 1) for a in "XYZ"]
    hamiltonian += [(on([q], rng.choice("XYZ")), rng.uniform(-1, 1)) for q in range(n)]
    jumps = [(rng.uniform(0, 0.3), [(on([q], "X"), 0.5), (on([q], "Y"), 0.5j)]) for q in range(n)]
    jumps += [(rng.uniform(0, 0.3), [(on([q], "Z"), 1.0)]) for q in range(n)]
    return hamiltonian, jumps, []


def same(curve, other):
    """Whether two curves are equal in every bit."""
    arrays = [
        [c.times, c.values, *c.words.values(), *c.steps, c.basis.words, c.basis.coefficients] for c in (curve, other)
    ]
    bits = [[each.tobytes() for each in every] for every in arrays]
    plain = [(c.name, list(c.words), c.finished, c.settings) for c in (curve, other)]
    return bits[0] == bits[1] and plain[0] == plain[1]


CHAIN = Model(
    6,
    {f"{a}{q} {a}{q + 1}": 1.0 for q in range(5) for a in "XYZ"} | {f"Z{q}": 0.5 for q in range(6)},
    [(0.05, {f"X{q}": 0.5, f"Y{q}": 0.5j}) for q in range(6)],
)
Z2 = Basis(6, {"Z2": 1.0})
ASKED = {
    "times": [0.0, 0.1, 0.25],
    "dt": 0.05,
    "max_basis": 60,
    "admit_basis": 90,
    "drop_tol": 1e-5,
    "protected": ["Z2"],
    "words": ["Z2", "X2 Y3"],
    "state": {"all": "1", 3: [0.1, 0.2, 0.3]},
}


class Curves(unittest.TestCase):
    def test_over_all_words(self):
        """Where the basis has all words nothing is lost, whatever the steps."""
        rng = random.Random(81)
        for case in range(12):
            n = 1 + case % 4
            given = random_device(rng, n)
            vectors = [test_state.random_vector(rng) for _ in range(n)]
            entries = [(text, rng.uniform(-1, 1) * (rng.random() < 0.3)) for text in dense.register(n)]
            times = sorted(rng.uniform(0, 2) for _ in range(4))
            curve = Model(n, *given).run(
                Basis(n, entries), times=times, dt=rng.choice([None, 0.3]), max_basis=4**n, state=vectors
            )
            np.testing.assert_allclose(curve.values, exact(n, given, entries, times, vectors), rtol=0, atol=1e-12)
            self.assertEqual(curve.times.tolist(), times)
            self.assertEqual(curve.estimate.tolist(), [0.0] * 4)

    def test_that_grow(self):
        """From one word alone, in short steps and with room for all: within a tolerance at every time, and within the
        estimate, which is far above the error."""
        rng = random.Random(82)
        for case in range(10):
            n = 2 + case % 4
            given = random_device(rng, n)
            vectors = [test_state.random_vector(rng) for _ in range(n)]
            observable = dense.placed(rng.choice("XYZ"), [rng.randrange(n)], n)
            times = [0.0, 0.2, 0.5, 1.0]
            curve = Model(n, *given).run(
                Basis(n, {observable: 1.0}), times=times, dt=0.1, max_basis=4**n, admissions=3, state=vectors
            )
            off = abs(curve.values - exact(n, given, [(observable, 1.0)], times, vectors))
            self.assertLess(off.max(), 1e-4)
            self.assertTrue((off <= curve.estimate + 1e-12).all(), (off, curve.estimate))

    def test_with_little_room(self):
        """The estimate holds where words are dropped, too."""
        rng = random.Random(83)
        lost = 0
        for case in range(12):
            n = 3 + case % 2
            given = random_device(rng, n)
            vectors = [test_state.random_vector(rng) for _ in range(n)]
            observable = dense.placed(rng.choice("XYZ"), [rng.randrange(n)], n)
            times = [0.3, 0.6]
            curve = Model(n, *given).run(
                Basis(n, {observable: 1.0}),
                times=times,
                dt=0.05,
                max_basis=rng.randint(4, 20),
                admit_basis=40,
                drop_tol=rng.choice([0.0, 1e-3]),
                state=vectors,
            )
            off = abs(curve.values - exact(n, given, [(observable, 1.0)], times, vectors))
            self.assertTrue((off <= curve.estimate).all(), (off, curve.estimate))
            lost += curve.dropped[-1] > 0
        self.assertGreater(lost, 5)

    def test_two_sites_in_closed_form(self):
        times = {"to": 3.0, "count": 6}
        t = np.linspace(0, 3, 7)
        gamma, g = 0.2, 0.4
        decay = [(gamma, {f"X{q}": 0.5, f"Y{q}": 0.5j}) for q in (0, 1)]
        dephasing = [(gamma, f"Z{q}") for q in (0, 1)]
        for model, observable, state, expected in [
            # Amplitude damping of each by itself.
            (Model(2, {}, decay), {"Z0": 1.0}, "1", 1 - 2 * np.exp(-gamma * t)),
            (Model(2, {}, decay), {"Z0 Z1": 1.0}, "1", (1 - 2 * np.exp(-gamma * t)) ** 2),
            (Model(2, {}, decay), {"X1": 1.0}, "+", np.exp(-gamma * t / 2)),
            # Dephasing.
            (Model(2, {}, dephasing), {"X0": 1.0}, "+", np.exp(-2 * gamma * t)),
            (Model(2, {}, dephasing), {"X0 Y1": 1.0}, {0: "+", 1: "+i"}, np.exp(-4 * gamma * t)),
            (Model(2, {"Z0": 0.7}, dephasing), {"X0": 1.0}, "+", np.exp(-2 * gamma * t) * np.cos(1.4 * t)),
            # One excitation that goes to and fro while both decay.
            (
                Model(2, {"X0 X1": g, "Y0 Y1": g}, decay),
                {"Z0": 1.0},
                "10",
                1 - 2 * np.exp(-gamma * t) * np.cos(2 * g * t) ** 2,
            ),
        ]:
            curve = model.run(Basis(2, observable), times=times, max_basis=16, admissions=4, state=state)
            np.testing.assert_allclose(curve.values, expected, rtol=0, atol=1e-12)

    def test_by_names(self):
        """T1 and T2."""
        model = Model(1, {}, noise.decay(qubit=0, t1=40.0) + noise.dephasing(qubit=0, t1=40.0, t2=30.0))
        excited = model.run(Basis(1, {"Z0": 1.0}), times=[20.0], max_basis=4, state="1")
        self.assertAlmostEqual(excited.values[0], 1 - 2 * math.exp(-20 / 40), delta=1e-14)
        turned = model.run(Basis(1, {"X0": 1.0}), times=[20.0], max_basis=4, state="+")
        self.assertAlmostEqual(turned.values[0], math.exp(-20 / 30), delta=1e-14)

    def test_words(self):
        curve = CHAIN.run(Z2, **ASKED)
        self.assertEqual(list(curve.words), ["Z2", "X2 Y3"])
        self.assertEqual(curve.words["Z2"][0], 1.0)
        self.assertEqual(curve.words["X2 Y3"][0], 0.0)
        last = curve.basis.by_site()
        self.assertEqual([x[-1] for x in curve.words.values()], [last["Z2"], last["X2 Y3"]])

    def test_the_basis_given_stays(self):
        basis = Basis(6, {"Z2": 1.0, "X0": 0.5})
        before = basis.words.tolist(), basis.coefficients.tolist()
        curve = CHAIN.run(basis, **ASKED)
        self.assertEqual((basis.words.tolist(), basis.coefficients.tolist()), before)
        curve.basis.coefficients[0] = 5.0
        self.assertTrue(same(CHAIN.run(basis, **ASKED), CHAIN.run(basis, **ASKED)))

    def test_names(self):
        for basis, name, expected in [
            (Z2, None, "Z2"),
            (Z2, "site 2", "site 2"),
            (Basis(6, {"Z2": 0.5}), None, "observable"),
            (Basis(6, {"Z2": 1.0, "Z3": 1.0}), None, "observable"),
        ]:
            self.assertEqual(CHAIN.run(basis, times=[0.0], max_basis=4, name=name).name, expected)


class ByHand(unittest.TestCase):
    """A run is the steps that it says, with what it says of them."""

    def test_steps(self):
        curve = CHAIN.run(Z2, **ASKED)
        basis, rules = Z2, {k: ASKED[k] for k in ("max_basis", "admit_basis", "drop_tol", "protected")}
        lengths = [0.05, 0.05, 0.15 / 3, 0.15 / 3, 0.15 / 3]
        np.testing.assert_allclose(curve.steps.dt, lengths, rtol=1e-15)
        np.testing.assert_allclose(curve.steps.time, np.cumsum(lengths), rtol=1e-15)
        self.assertEqual(curve.steps.time[[1, 4]].tolist(), [0.1, 0.25])
        for i, dt in enumerate(curve.steps.dt.tolist()):
            basis, products = CHAIN.step(basis, dt=dt, **rules)
            self.assertEqual((curve.steps.held[i], curve.steps.products[i]), (len(basis), products))
        self.assertEqual(curve.basis.by_site(), basis.by_site())
        self.assertEqual(curve.held_at().tolist(), [1, curve.steps.held[1], curve.steps.held[4]])
        self.assertEqual([x.dtype.char for x in curve.steps], list("ddllddddd" + "d"))
        self.assertEqual({len(x) for x in curve.steps}, {5})

    def test_losses(self):
        """Against the action on each word of the grown basis, and against the words that left."""
        curve = CHAIN.run(Z2, **ASKED)
        rules = run.step.rules_of(
            6, tau_add=None, **{k: ASKED[k] for k in ("max_basis", "admit_basis", "drop_tol", "protected")}
        )
        basis = Z2
        for i, dt in enumerate(curve.steps.dt.tolist()):
            grown = run.step.grow(CHAIN, basis, dt, rules)
            for which, over in ("before", grown.before), ("after", grown.evolved):
                leaked = {}
                for entry in over:
                    for word, x in CHAIN.action(entry.word):
                        if word not in over:
                            leaked[word] = leaked.get(word, 0.0) + x * entry.coefficient
                values = np.array([*leaked.values()])
                self.assertAlmostEqual(getattr(curve.steps, f"leak_sum_{which}")[i], abs(values).sum(), delta=1e-12)
                root = np.linalg.norm(values)
                self.assertAlmostEqual(getattr(curve.steps, f"leak_root_{which}")[i], root, delta=1e-12)
            before = grown.evolved.by_site()
            basis = grown.evolved
            run.step.shorten(basis, rules)
            left = np.array([x for word, x in before.items() if word not in basis.by_site()])
            self.assertAlmostEqual(curve.steps.dropped_sum[i], abs(left).sum(), delta=1e-15)
            self.assertAlmostEqual(curve.steps.dropped_root[i], np.linalg.norm(left), delta=1e-15)
        self.assertGreater(curve.steps.dropped_sum.max(), 0)
        self.assertGreater(curve.steps.leak_sum_after.min(), 0)
        steps = curve.steps
        each = (steps.leak_sum_before + steps.leak_sum_after) / 2 * steps.dt
        np.testing.assert_allclose(curve.leaked, [0, each[:2].sum(), each.sum()], rtol=1e-14)
        np.testing.assert_allclose(curve.dropped, [0, steps.dropped_sum[:2].sum(), steps.dropped_sum.sum()], rtol=1e-14)
        np.testing.assert_array_equal(curve.estimate, curve.leaked + curve.dropped)

    def test_dropped_numbers(self):
        """Equal magnitudes, zeros and both signs."""
        for before, after, left in [
            ([1.0, -1.0, 1.0, 0.0], [-1.0, 0.0], [1.0, 1.0]),
            ([0.5, 0.25, -0.0], [0.5], [0.25, 0.0]),
            ([0.5], [], [0.5]),
            ([0.5, 0.5], [0.5, 0.5], []),
        ]:
            found = run._dropped(np.array(before), np.array(after))
            np.testing.assert_allclose(found, (sum(left), np.linalg.norm(left)))

    def test_losses_that_are_not_known(self):
        free = CHAIN.run(Z2, **ASKED, losses=False)
        asked = CHAIN.run(Z2, **ASKED)
        self.assertTrue(np.isnan([free.steps.leak_sum_before, free.steps.leak_root_after]).all())
        np.testing.assert_array_equal(free.values, asked.values)
        np.testing.assert_array_equal(free.dropped, asked.dropped)
        self.assertTrue(np.isnan(free.estimate[1:]).all() and free.estimate[0] == 0)
        # Where basis and list have no room together.
        with mock.patch.object(run, "MAX_WORDS", 80):
            curve = CHAIN.run(Z2, **ASKED)
        known = ~np.isnan(curve.steps.leak_sum_after)
        self.assertTrue(known.any() and not known.all())
        np.testing.assert_array_equal(curve.steps.leak_sum_after[known], asked.steps.leak_sum_after[known])

    def test_all_that_leaks_counts(self):
        """Below what is admitted, and onto protected words that are not in the basis, which leakage leaves out."""
        model = Model(2, {"Z0": 0.5, "Z1": 2.0**-42})
        for asked, before in [
            ({"protected": ["Y0 X1", "X0 Y1"]}, [1.0, 2.0**-41]),
            ({"tau_add": 10.0}, [1.0, 2.0**-41]),
            ({}, [2.0**-41]),
        ]:
            steps = model.run(Basis(2, {"X0 X1": 1.0}), times=[1e-3], max_basis=16, **asked).steps
            self.assertEqual(steps.leak_sum_before[0], sum(before), asked)
            self.assertEqual(steps.leak_root_before[0], math.hypot(*before), asked)

    def test_products(self):
        """Of every evolution, those of further admissions too."""
        made = []
        kept = Model.evolve

        def evolve(model, *arguments, **named):
            evolved = kept(model, *arguments, **named)
            made.append(evolved.products)
            return evolved

        for admissions in 1, 3:
            made.clear()
            with mock.patch.object(Model, "evolve", evolve):
                curve = CHAIN.run(Z2, times=[0.2], dt=0.1, max_basis=4096, admissions=admissions)
            self.assertEqual(curve.steps.products.sum(), sum(made))
            self.assertEqual(len(made), 2 * (admissions + 1))

    def test_admissions(self):
        """One more brings words in that are one move further away, and costs products."""
        held = [CHAIN.run(Z2, times=[0.01], max_basis=4096, admissions=k).steps for k in (1, 2, 3, 4)]
        reached, moves = Z2.copy(), []
        while (leaked := CHAIN.leakage(reached, max_basis=4096, tau_add=-1.0)) and len(moves) < 5:
            moves.append(reached.admit(leaked, limit=4096))
        for k, steps in enumerate(held, 1):
            self.assertLessEqual(steps.held[0], moves[k])
            self.assertGreater(steps.held[0], moves[k - 1])
        self.assertEqual(sorted(x.products[0] for x in held), [x.products[0] for x in held])

        def last(k):
            return CHAIN.run(Z2, times=[0.4], dt=0.1, max_basis=4096, admissions=k, words=["Z2"]).words["Z2"][0]

        off = [abs(last(k) - last(6)) for k in (1, 2, 3)]
        self.assertGreater(off[0], 5 * off[1])
        self.assertGreater(off[1], 5 * off[2])

    def test_settings_make_it_again(self):
        curve = CHAIN.run(Z2, **ASKED, name='a "name"\n')
        self.assertTrue(same(run_of(json.loads(json.dumps(curve.settings))).go(), curve))
        plain = {type(x) for x in curve.settings.values()}
        self.assertLessEqual(plain, {str, int, float, list, bool, type(None)})
        self.assertEqual(len(curve.settings["library"]), 64)
        for key in "model n dt times max_basis admit_basis tau_add drop_tol admissions state protected observable version".split():
            self.assertIn(key, curve.settings)
        with self.assertRaises(InputError):
            run_of({"n": 2})

    def test_shown(self):
        curve = CHAIN.run(Z2, **ASKED)
        self.assertIsInstance(curve, Curve)
        self.assertEqual(repr(curve), "Curve of Z2: 3 times, 5 steps")
        self.assertIn("<table>", curve._repr_html_())
        with self.assertRaises(AttributeError):
            curve.value = 3


class Plans(unittest.TestCase):
    def test_steps(self):
        for times, dt, lengths in [
            ([0.0], None, []),
            ([1.0], None, [1.0]),
            ([0.0, 1.0, 1.5], None, [1.0, 0.5]),
            ([0.0, 1.0], 0.3, [0.25] * 4),
            ([1.0], 0.5, [0.5] * 2),
            ([1.0], 7.0, [1.0]),
            ([0.1, 0.2, 0.30000000000000004, 0.4], 0.1, [0.1] * 4),
            ([0.3], 0.1, [0.1] * 3),
            # 0.18 + (0.91 - 0.18) is not 0.91.
            ([0.18, 0.91], None, [0.18, 0.73]),
        ]:
            found = plan.planned(times, dt)
            np.testing.assert_allclose(found.lengths, lengths, rtol=1e-12)
            self.assertEqual(found.times.tolist(), times)
            self.assertTrue((np.diff(found.ends) > 0).all())
            reached = np.append(0.0, found.ends)[found.done]
            self.assertEqual(reached.tolist(), times)
            halves = plan.planned(times, dt, 2)
            self.assertEqual(halves.ends[1::2].tolist(), found.ends.tolist())
            self.assertEqual((2 * halves.lengths[::2]).tolist(), found.lengths.tolist())

    def test_equal_parts(self):
        self.assertEqual(plan.times_of({"to": 1.0, "count": 4}), (0.0, 0.25, 0.5, 0.75, 1.0))
        self.assertEqual(plan.times_of(np.linspace(0, 1, 3)), (0.0, 0.5, 1.0))

    def test_too_many(self):
        for dt, split in (1e-7, 1), (5e-324, 1), (1.9e-6, 2):
            with self.assertRaisesRegex(InputError, "asks for more than 1000000 steps up to the time 1.0"):
                plan.planned([1.0], dt, split)
        self.assertEqual(len(plan.planned([1.0], 1e-6).ends), 1_000_000)


class Refusals(unittest.TestCase):
    """Each is refused before anything is computed."""

    def setUp(self):
        for name in "leakage", "evolve", "action", "generator", "norm", "degree":
            computed = AssertionError(f"{name} was asked")
            patch = mock.patch.object(Model, name, side_effect=computed)
            patch.start()
            self.addCleanup(patch.stop)

    def wrong(self, said, basis=Z2, path=None, **changed):
        with self.subTest(said), self.assertRaises((InputError, Refusal)) as caught:
            CHAIN.run(basis, **ASKED | changed)
        self.assertIn(said, str(caught.exception))
        if path is not None:
            self.assertEqual(caught.exception.path, path)

    def test_times(self):
        self.wrong("times are to rise", times=[0.0, 0.5, 0.25], path=("times", 2))
        self.wrong("times are to rise", times=[0.5, 0.5])
        self.wrong("not below 0", times=[-0.1])
        self.wrong("not below 0", times=[0.1, INF], path=("times", 1))
        self.wrong("not below 0", times=[NAN])
        self.wrong("no times", times=[])
        self.wrong("a list is needed", times=1.0)
        self.wrong("a list is needed", times="0.1")
        self.wrong("a real number is needed", times=[0.0, "1"])
        self.wrong("the keys to and count", times={"to": 1.0})
        self.wrong("above 0 is needed", times={"to": 0.0, "count": 3})
        self.wrong("from 1 to 1000000", times={"to": 1.0, "count": 0})
        self.wrong("at most 1000000", times={"to": 1.0, "count": 1_000_001})
        self.wrong("dt is 0.0", dt=0.0, path=("dt",))
        self.wrong("dt is -0.1", dt=-0.1)
        self.wrong("dt is nan", dt=NAN)
        self.wrong("more than 1000000 steps", dt=1e-9)

    def test_words(self):
        self.wrong("no letter with its qubit", words=["Z2Z3"])
        self.wrong("refusal 2", words=["Z"])
        self.wrong("refusal 2", words=["Z6"])
        self.wrong("refusal 3", words=["Z2", "z3"], path=("words", 1))
        self.wrong("comes twice", words=["Z2", "IIZIII"])
        self.wrong("a list is needed", words="Z2")
        self.wrong("refusal 2", protected=["Z2", "X7"])

    def test_limits(self):
        self.wrong("max_basis is 1, below the 2 protected words", max_basis=1, protected=["Z2", "Z3"], path=("max_basis",))
        self.wrong("max_basis is 1, below the 2 words of the observable", Basis(6, {"Z2": 1, "Z3": 1}), max_basis=1)
        self.wrong("refusal 8: max_basis is 70000", max_basis=70_000)
        self.wrong("refusal 8: admit_basis is 65537", admit_basis=65_537)
        self.wrong("max_basis is -1", max_basis=-1)
        self.wrong("refusal 7: drop_tol is nan", drop_tol=NAN)
        self.wrong("refusal 7: tau_add is inf", tau_add=INF)
        self.wrong("admissions is 0", admissions=0)
        self.wrong("split is 0", split=0)

    def test_the_observable(self):
        self.wrong("the basis has no words", Basis(6))
        self.wrong("stands where a basis is needed", {"Z2": 1.0})
        self.wrong("7 qubits", Basis(7, {"Z2": 1.0}))
        self.wrong("refusal 12", Basis(6, [("Z2", 1.0), ("Z2", 1.0)]))
        self.wrong("refusal 7: the coefficient at position 0 is nan", Basis(6, {"Z2": NAN}))

    def test_the_state(self):
        self.wrong("qubit 6 is outside the register", state={6: "0"})
        self.wrong("has 2 letters", state="00")

    def test_the_checkpoint(self):
        with tempfile.TemporaryDirectory() as folder:
            self.wrong("No such file or directory", checkpoint=Path(folder) / "none" / "run.npz")
            self.wrong("this is no file", checkpoint="/dev/full")
            damaged = Path(folder) / "run.npz"
            for data in b"", b"rubbish", b"PK\x03\x04":
                damaged.write_bytes(data)
                self.wrong("no checkpoint of a run", checkpoint=damaged)
            np.savez(damaged, other=np.zeros(3))
            self.wrong("no checkpoint of a run", checkpoint=damaged)


class Stopped(unittest.TestCase):
    def setUp(self):
        folder = tempfile.TemporaryDirectory()
        self.addCleanup(folder.cleanup)
        self.path = Path(folder.name) / "run.npz"
        self.whole = CHAIN.run(Z2, **ASKED)

    def interrupted(self, after, error=KeyboardInterrupt):
        """Evolutions that are interrupted after so many."""
        kept, calls = Model.evolve, []

        def evolve(model, *arguments, **named):
            calls.append(1)
            if len(calls) > after:
                raise error
            return kept(model, *arguments, **named)

        return mock.patch.object(Model, "evolve", evolve)

    def test_interrupted_anywhere(self):
        """In the middle of a step too: the curve so far is the beginning of the whole, and the run goes on from the
        checkpoint, bit for bit."""
        for after in range(20):
            self.path.unlink(missing_ok=True)
            with self.interrupted(after):
                curve = CHAIN.run(Z2, **ASKED, checkpoint=self.path)
            done, reached = len(curve.steps.time), len(curve.times)
            if curve.finished:
                self.assertTrue(same(curve, self.whole))
                break
            self.assertEqual(repr(curve), f"Curve of Z2: {reached} time{'s' * (reached != 1)}, {done} step{'s' * (done != 1)}, unfinished")
            for ours, all_ in zip(curve.steps, self.whole.steps):
                self.assertEqual(ours.tobytes(), all_[:done].tobytes())
            self.assertEqual(curve.values.tobytes(), self.whole.values[:reached].tobytes())
            self.assertEqual(curve.estimate.tobytes(), self.whole.estimate[:reached].tobytes())
            kept = self.path.read_bytes()
            self.assertTrue(same(CHAIN.run(Z2, **ASKED, checkpoint=self.path), self.whole))
            self.path.write_bytes(kept)
            self.assertTrue(same(resume(self.path), self.whole))
        # One evolution in a step that brings no further words, two in others.
        self.assertGreater(after, 5)

    def test_interrupted_while_looking(self):
        """A step counts when its values are noted."""
        kept, calls = run.ProductState.expectation, []

        def expectation(state, *arguments):
            calls.append(1)
            if len(calls) == 2:
                raise KeyboardInterrupt
            return kept(state, *arguments)

        with mock.patch.object(run.ProductState, "expectation", expectation):
            curve = CHAIN.run(Z2, **ASKED, checkpoint=self.path)
        self.assertEqual((len(curve.steps.time), curve.values.tolist()), (1, self.whole.values[:1].tolist()))
        self.assertTrue(same(resume(self.path), self.whole))

    def test_step_by_step(self):
        """Each step in a run of its own."""
        run_ = Run(CHAIN, Z2, run.settings_of(6, **ASKED))
        self.assertEqual((run_.done, run_.steps), (0, 5))
        while not run_.finished:
            run_.advance()
            run_.save(self.path)
            run_ = Run(CHAIN, Z2, run.settings_of(6, **ASKED))
            run_.go_on_from(self.path)
        self.assertTrue(same(run_.curve(), self.whole))
        self.assertEqual(run_.basis.by_site(), self.whole.basis.by_site())
        with self.assertRaises(InputError):
            run_.advance()

    def test_a_finished_run_is_there(self):
        CHAIN.run(Z2, **ASKED, checkpoint=self.path)
        with self.interrupted(0, AssertionError):
            self.assertTrue(same(CHAIN.run(Z2, **ASKED, checkpoint=self.path), self.whole))
            self.assertTrue(same(resume(self.path), self.whole))

    def test_a_refusal_keeps_what_was_done(self):
        with self.interrupted(4, Refusal(16, "too long", {})), self.assertRaises(Refusal):
            CHAIN.run(Z2, **ASKED, checkpoint=self.path)
        self.assertTrue(same(resume(self.path), self.whole))

    def test_another_run(self):
        with self.interrupted(3):
            CHAIN.run(Z2, **ASKED, checkpoint=self.path)
        kept = self.path.read_bytes()
        for changed, said in [
            ({"dt": 0.025}, "differs in dt;"),
            ({"max_basis": 61, "state": "0"}, "differs in state, max_basis;"),
            ({"name": "other"}, "differs in name;"),
        ]:
            with self.assertRaisesRegex(InputError, said):
                CHAIN.run(Z2, **ASKED | changed, checkpoint=self.path)
        other = CHAIN.with_rate(jump=0, rate=0.06)
        with self.assertRaisesRegex(InputError, "differs in model;"):
            other.run(Z2, **ASKED, checkpoint=self.path)
        with mock.patch.object(run._library, "checksum", lambda: "0" * 64), self.assertRaisesRegex(InputError, "library"):
            resume(self.path)
        self.assertEqual(self.path.read_bytes(), kept)

    def test_a_damaged_checkpoint(self):
        with self.interrupted(3):
            CHAIN.run(Z2, **ASKED, checkpoint=self.path)
        with np.load(self.path) as file:
            arrays = dict(file)
        words, numbers = arrays["basis_words"], arrays["basis_coefficients"]
        for name, damaged, said in [
            ("done", np.array(4), "its tables have other lengths"),
            ("done", np.array(-1), "its tables have other lengths"),
            ("values", arrays["values"][1:], "its tables have other lengths"),
            ("settings", np.array("{"), "this is no checkpoint of a run"),
            ("settings", np.array("{}"), "another run|no settings of a run"),
            ("basis_words", words[:-1], "coefficients beside"),
            ("basis_words", np.concatenate((words[1:], words[1:2])), "refusal 12"),
            ("basis_coefficients", np.full(len(numbers), NAN), "refusal 7"),
        ]:
            np.savez(self.path, **{**arrays, name: damaged})
            kept = self.path.read_bytes()
            for go in (lambda: resume(self.path)), lambda: CHAIN.run(Z2, **ASKED, checkpoint=self.path):
                with self.subTest(name, said=said), self.assertRaisesRegex((InputError, Refusal), said):
                    go()
            self.assertEqual(self.path.read_bytes(), kept)

    def test_a_checkpoint_that_cannot_be_written(self):
        """At the start it is refused; later it is a warning, and the curve is there."""
        kept = run._checkpoint.write
        written = []

        def write(*arguments):
            written.append(1)
            if len(written) > 1:
                raise InputError("No space left on device")
            kept(*arguments)

        with mock.patch.object(run._checkpoint, "write", write), warnings.catch_warnings(record=True) as caught:
            warnings.simplefilter("always")
            curve = CHAIN.run(Z2, **ASKED, checkpoint=self.path)
        self.assertTrue(same(curve, self.whole))
        self.assertEqual([str(x.message) for x in caught], ["the checkpoint was not written: No space left on device"])

    def test_now_and_then(self):
        kept = run._checkpoint.write
        with mock.patch.object(run, "_SECONDS", 0.0), mock.patch.object(run._checkpoint, "write", wraps=kept) as written:
            CHAIN.run(Z2, **ASKED, checkpoint=self.path)
        # At the start, after each of 5 steps, and at the end.
        self.assertEqual(written.call_count, 7)

    def test_matrices_go_on_too(self):
        """A model with a Kossakowski matrix of complex numbers, read again from the checkpoint."""
        k = [[0.2, 0.05 + 0.1j], [0.05 - 0.1j, 1 / 3]]
        model = Model(2, {"X0 X1": 1 / 7, "Z0": 0.1}, [(1 / 9, "Z1")], [(["X0", {"Y1": 1, "Z1": 0.3j}], k)])
        asked = {"times": [0.1, 0.7], "dt": 0.1, "max_basis": 9, "admissions": 2}
        whole = model.run(Basis(2, {"Z0": 1 / 3}), **asked)
        with self.interrupted(9):
            model.run(Basis(2, {"Z0": 1 / 3}), **asked, checkpoint=self.path)
        self.assertTrue(same(resume(self.path), whole))


class Progress(unittest.TestCase):
    def told(self, terminal, installed, seconds=0.0, show=True):
        error = io.StringIO()
        error.isatty = lambda: terminal
        clock = iter(np.arange(0.0, 1000.0, seconds or 1e-3).tolist())
        patches = [mock.patch.object(_progress.time, "monotonic", lambda: next(clock))] if seconds else []
        if not installed:
            patches.append(mock.patch.dict("sys.modules", {"tqdm": None}))
        with contextlib.redirect_stderr(error), contextlib.ExitStack() as stack:
            for patch in patches:
                stack.enter_context(patch)
            with _progress.bar("run of Z2", 0, 3, show) as tell:
                for done in 1, 2, 3:
                    tell(done, 10 * done)
        return error.getvalue()

    def test_never_into_a_pipe(self):
        for installed in True, False:
            self.assertEqual(self.told(False, installed, 0 if installed else 2.0), "")
            self.assertEqual(self.told(True, installed, 0 if installed else 2.0, show=False), "")

    def test_on_a_terminal(self):
        self.assertEqual(self.told(True, False), "")
        line = "\r\033[Kpebblelinen: run of Z2, step"
        self.assertEqual(
            self.told(True, False, 2.0),
            f"{line} 1 of 3, 10 words, 2 s{line} 2 of 3, 20 words, 4 s{line} 3 of 3, 30 words, 6 s\r\033[K",
        )

    def test_by_tqdm(self):
        shown = []

        class Bar:
            def __init__(self, **given):
                self.n = given["initial"]
                shown.append((given["desc"], given["total"], given["delay"]))

            def __enter__(self):
                return self

            def __exit__(self, *_):
                shown.append("end")

            def set_postfix_str(self, text, refresh):
                shown.append(text)

            def update(self, steps):
                self.n += steps
                shown.append(self.n)

        with mock.patch.dict("sys.modules", {"tqdm": mock.Mock(tqdm=Bar)}):
            self.told(True, True)
        self.assertEqual(shown, [("run of Z2", 3, 1), "10 words", 1, "20 words", 2, "30 words", 3, "end"])


if __name__ == "__main__":
    unittest.main()
