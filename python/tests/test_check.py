# SPDX-FileCopyrightText: 2026 The PPVM Authors
# SPDX-License-Identifier: Apache-2.0
"""Checks of a curve: what they say where the time step made it up, where the room did, where both did, and where it
holds; and the exact curve."""
import random
import unittest
from unittest import mock

import numpy as np

import dense
import test_run
import test_state
from pebblelinen import Basis, Checked, InputError, Model, check, run

SITES = 12
MODEL = Model(
    SITES,
    {f"{a}{q} {a}{q + 1}": 1.0 for q in range(SITES - 1) for a in "XYZ"} | {f"Z{q}": 0.5 for q in range(SITES)},
    [(0.05, {f"X{q}": 0.5, f"Y{q}": 0.5j}) for q in range(SITES)],
)
OBSERVABLE = Basis(SITES, {"Z6": 1.0})
ASKED = {"times": [0.0, 0.2, 0.4], "state": {6: "1"}}


class Says(unittest.TestCase):
    def checked(self, ok, *said, **settings):
        checked = MODEL.check(OBSERVABLE, **ASKED | settings)
        self.assertIsInstance(checked, Checked)
        self.assertEqual(checked.ok, ok, checked.says)
        for each in said:
            self.assertIn(each, checked.says)
        return checked

    def test_no_through_the_step(self):
        """Twice the room shows nothing of it."""
        checked = self.checked(
            False,
            "no: the curve of Z6 does not hold within 0.001, through the time step: half the time step moves the"
            " expectation by",
            "at the time 0.4, more than 0.001; twice the room moves the expectation by at most",
            "Try a shorter dt, or more admissions in each step",
            dt=0.2,
            max_basis=2000,
        )
        self.assertGreater(checked.moved_by_step.max(), 1e-3)
        self.assertLess(checked.moved_by_room.max(), 1e-3)

    def test_no_through_the_room(self):
        checked = self.checked(
            False,
            "does not hold within 0.001, through the room: half the time step moves the expectation by at most",
            "twice the room moves the expectation by",
            "Try a larger max_basis",
            dt=0.05,
            max_basis=20,
            admissions=2,
        )
        self.assertGreater(checked.moved_by_room.max(), 1e-3)

    def test_no_through_both(self):
        self.checked(
            False,
            ", through the time step and the room: half the time step moves",
            "Try a shorter dt, or more admissions in each step, and a larger max_basis",
            dt=0.2,
            max_basis=60,
        )

    def test_yes(self):
        checked = self.checked(
            True,
            "yes: the curve of Z6 holds within 0.001: half the time step moves",
            dt=0.1,
            max_basis=2000,
            admissions=3,
            drop_tol=1e-5,
        )
        self.assertNotIn("Try", checked.says)
        np.testing.assert_array_equal(checked.band, checked.moved_by_step + checked.moved_by_room)
        self.assertLess(checked.band.max(), 2e-3)
        self.assertIsNone(checked.exact)
        self.assertIn("<table>", checked._repr_html_())
        self.assertIn("yes: the curve", repr(checked))

    def test_a_tolerance(self):
        settings = {"dt": 0.1, "max_basis": 300}
        moved = MODEL.check(OBSERVABLE, **ASKED | settings).band.max()
        self.checked(True, "holds within", tolerance=2 * moved, **settings)
        self.checked(False, "does not hold within", tolerance=moved / 4, **settings)

    def test_words_that_are_followed(self):
        """Where the expectation does not move, a coefficient may."""
        settings = {"dt": 0.2, "max_basis": 2000, "state": [0, 0, 0]}
        self.checked(True, "the expectation by at most", **settings)
        self.checked(False, "half the time step moves the coefficient of Z6 by", words=["Z6"], **settings)

    def test_the_other_runs(self):
        """They are those of the run with these settings."""
        settings = {"dt": 0.15, "max_basis": 30, "admit_basis": 50, "drop_tol": 1e-5}
        checked = self.checked(False, **settings)
        for curve, changed in [
            (checked.curve, {}),
            (checked.half_step, {"split": 2, "losses": False}),
            (checked.double_room, {"max_basis": 60, "admit_basis": 100, "losses": False}),
        ]:
            self.assertTrue(test_run.same(curve, MODEL.run(OBSERVABLE, **ASKED | settings | changed)))
        np.testing.assert_array_equal(checked.moved_by_step, abs(checked.half_step.values - checked.curve.values))
        np.testing.assert_array_equal(checked.moved_by_room, abs(checked.double_room.values - checked.curve.values))
        self.assertEqual(checked.half_step.steps.dt[0], checked.curve.steps.dt[0] / 2)

    def test_no_more_room_to_try(self):
        for most, said in (32, "the room of 32 words was full, and there is no more to try"), (2000, "yes"):
            with mock.patch.object(check, "MAX_WORDS", most):
                self.checked(most == 2000, said, dt=0.05, max_basis=most, admissions=2, times=[0.05])

    def test_refused_first(self):
        with mock.patch.object(Model, "leakage", side_effect=AssertionError("asked")):
            for changed in {"tolerance": 0.0}, {"tolerance": float("nan")}, {"times": [1, 0]}, {"max_basis": 0}:
                with self.assertRaises(InputError):
                    MODEL.check(OBSERVABLE, **ASKED | {"max_basis": 100} | changed)
            with self.assertRaises(TypeError):
                MODEL.check(OBSERVABLE, **ASKED, max_basis=100, checkpoints="file")
            # Half the step of a run that has just as many steps as there may be.
            with self.assertRaisesRegex(InputError, "more than 1000000 steps"):
                MODEL.check(OBSERVABLE, times=[1.0], dt=1.1e-6, max_basis=100)

    def test_an_interrupt(self):
        with mock.patch.object(run.Run, "advance", side_effect=KeyboardInterrupt), self.assertRaises(KeyboardInterrupt):
            MODEL.check(OBSERVABLE, **ASKED, max_basis=100)


class Exact(unittest.TestCase):
    def test_against_full_matrices(self):
        rng = random.Random(91)
        for n in 1, 2, 3, 4, 5:
            given = test_run.random_device(rng, n)
            vectors = [test_state.random_vector(rng) for _ in range(n)]
            observable = dense.placed(rng.choice("XYZ"), [rng.randrange(n)], n)
            times = [0.0, 0.3, 1.1]
            checked = Model(n, *given).check(Basis(n, {observable: 1.0}), times=times, dt=0.2, max_basis=8, state=vectors)
            expected = test_run.exact(n, given, [(observable, 1.0)], times, vectors)
            np.testing.assert_allclose(checked.exact, expected, rtol=0, atol=1e-12)

    def test_few_words_of_many_qubits(self):
        """Two sites of a large register reach few words."""
        model = Model(256, {"X127 X128": 0.4, "Y127 Y128": 0.4, "Z0 Z1": 1.0})
        checked = model.check(Basis(256, {"Z127": 1.0}), times=[1.0], max_basis=16, state={127: "1"})
        np.testing.assert_allclose(checked.exact, [1 - 2 * np.cos(0.8) ** 2], atol=1e-14)
        self.assertTrue(checked.ok, checked.says)
        self.assertIn("the exact curve is at most", checked.says)

    def test_too_many_words(self):
        self.assertIsNone(check._all_reached(MODEL, OBSERVABLE))
        with mock.patch.object(check, "_EXACT", 4):
            turn = Model(1, {"Z0": 1.0, "X0": 1.0})
            self.assertEqual(len(check._all_reached(turn, Basis(1, {"Z0": 1.0}))), 3)
        with mock.patch.object(check, "_EXACT", 2):
            self.assertIsNone(check._all_reached(turn, Basis(1, {"Z0": 1.0})))

    def test_a_time_that_is_too_long(self):
        model = Model(1, {"Z0": 1.0})
        settings = run.settings_of(1, times=[1e7], max_basis=4)
        self.assertIsNone(check.exact_values(model, Basis(1, {"X0": 1.0}), settings))

    def test_what_neither_step_nor_room_shows(self):
        """Words that are dropped in all three runs: the exact curve shows it."""
        model = Model(2, {"X0 X1": 0.1, "Y0 Y1": 0.1})
        settings = {"times": [1.0, 2.0, 3.0], "dt": 0.2, "max_basis": 16, "state": {0: "1"}}
        checked = model.check(Basis(2, {"Z0": 1.0}), **settings, protected=["X0 Y1", "Y0 X1"])
        self.assertEqual((checked.moved_by_step.max(), checked.moved_by_room.max()), (0.0, 0.0))
        self.assertFalse(checked.ok)
        self.assertIn("no: the curve of Z0 does not hold within 0.001: half the time step", checked.says)
        self.assertIn("the exact curve is", checked.says)
        self.assertIn("Try a smaller drop_tol or tau_add, or fewer protected words outside the basis", checked.says)


if __name__ == "__main__":
    unittest.main()
