# SPDX-FileCopyrightText: 2026 The PPVM Authors
# SPDX-License-Identifier: Apache-2.0
"""Noise by its names, held to the textbook's curves: the library's generator over all words of the register, its
exponential computed by scipy, and the expectations in product states."""
import math
import random
import unittest

import numpy as np
from scipy.linalg import expm

import dense
from pebblelinen import Basis, InputError, Model, Qubit, Refusal, noise

TIMES = [0.0, 0.1, 1.0, 7.5, 40.0]


class Curves(unittest.TestCase):
    def evolved(self, model, observable, time):
        """The observable after a time, as terms."""
        basis = Basis(model.n, [(text, 0.0) for text in dense.register(model.n)])
        start = np.zeros(len(basis))
        start[int(basis.positions(observable)[0])] = 1.0
        # Every word is in the basis, so that nothing is left out.
        basis.coefficients = expm(time * model.generator(basis).toarray()) @ start
        return basis.terms()

    def held(self, model, observable, state, curve):
        for time in TIMES:
            found = self.evolved(model, observable, time).expectation(state)
            self.assertAlmostEqual(found, curve(time), delta=1e-12, msg=(observable, state, time))

    def test_decay_to_the_ground_state(self):
        for t1 in 0.5, 3.0, 50.0:
            model = Model(1, jumps=noise.decay(qubit=0, t1=t1))
            self.held(model, "Z0", "1", lambda t: 1 - 2 * math.exp(-t / t1))
            self.held(model, "Z0", "0", lambda t: 1.0)
            self.held(model, "Z0", "+", lambda t: 1 - math.exp(-t / t1))
            self.held(model, "X0", "+", lambda t: math.exp(-t / (2 * t1)))
            self.held(model, "Y0", "l", lambda t: -math.exp(-t / (2 * t1)))

    def test_decay_to_a_thermal_state(self):
        for excited in 0.02, 0.5, 1.0:
            t1, end = 3.0, 1 - 2 * excited
            model = Model(1, jumps=noise.decay(qubit=0, t1=t1, excited=excited))
            self.held(model, "Z0", "1", lambda t: end + (-1 - end) * math.exp(-t / t1))
            self.held(model, "Z0", "0", lambda t: end + (1 - end) * math.exp(-t / t1))
            self.held(model, "X0", "-", lambda t: -math.exp(-t / (2 * t1)))
            self.assertAlmostEqual(self.evolved(model, "Z0", 1e3).expectation("0"), end, delta=1e-12)

    def test_dephasing_beside_decay(self):
        for t1, t2 in (3.0, 2.0), (3.0, 6.0), (50.0, 0.5):
            jumps = noise.decay(qubit=0, t1=t1) + noise.dephasing(qubit=0, t1=t1, t2=t2)
            model = Model(1, jumps=jumps)
            self.held(model, "X0", "+", lambda t: math.exp(-t / t2))
            self.held(model, "Y0", "r", lambda t: math.exp(-t / t2))
            self.held(model, "Z0", "1", lambda t: 1 - 2 * math.exp(-t / t1))

    def test_dephasing_alone(self):
        model = Model(1, jumps=noise.dephasing(qubit=0, t1=math.inf, t2=2.0))
        self.held(model, "X0", "+", lambda t: math.exp(-t / 2.0))
        self.held(model, "Z0", "1", lambda t: -1.0)

    def test_ramsey_fringes(self):
        # A field turns X into -Y, so that X in |+> swings with twice its number.
        jumps = noise.decay(qubit=0, t1=5.0) + noise.dephasing(qubit=0, t1=5.0, t2=4.0)
        model = Model(1, {"Z0": 0.3}, jumps)
        self.held(model, "X0", "+", lambda t: math.cos(0.6 * t) * math.exp(-t / 4.0))

    def test_depolarizing(self):
        model = Model(1, jumps=noise.depolarizing(qubit=0, time=3.0))
        for word, state in ("X0", "+"), ("Y0", "r"), ("Z0", "0"):
            self.held(model, word, state, lambda t: math.exp(-t / 3.0))
        # As a channel of a gate: X, Y and Z with the probability p/3 each.
        p, t = 0.01, 0.2
        model = Model(1, jumps=noise.depolarizing(qubit=0, time=-t / math.log(1 - 4 * p / 3)))
        self.assertAlmostEqual(self.evolved(model, "Z0", t).expectation("0"), 1 - 4 * p / 3, delta=1e-14)

    def test_each_qubit_by_itself(self):
        jumps = noise.decay(qubit=0, t1=3.0) + noise.dephasing(qubit=0, t1=3.0, t2=2.0)
        jumps += noise.depolarizing(qubit=Qubit(1), time=5.0)
        model = Model(2, jumps=jumps)
        self.held(model, "X0 Z1", "+0", lambda t: math.exp(-t / 2.0 - t / 5.0))
        self.held(model, "Z0 X1", "1-", lambda t: -(1 - 2 * math.exp(-t / 3.0)) * math.exp(-t / 5.0))
        self.held(model, "Z0", "1-", lambda t: 1 - 2 * math.exp(-t / 3.0))

    def test_the_lowering_operator_takes_1_to_0(self):
        ((_, operator),) = noise.decay(qubit=0, t1=1.0)
        lowering = dense.operator_of(1, [(word[0], x) for word, x in operator.items()])
        self.assertTrue(np.array_equal(lowering, [[0, 1], [0, 0]]))
        (_, (_, raising)) = noise.decay(qubit=0, t1=1.0, excited=0.5)
        raising = dense.operator_of(1, [(word[0], x) for word, x in raising.items()])
        self.assertTrue(np.array_equal(raising, [[0, 0], [1, 0]]))


class Inputs(unittest.TestCase):
    def wrong(self, said, call, **given):
        with self.assertRaises(InputError) as caught:
            call(**given)
        self.assertIn(said, str(caught.exception))

    def test_t2_above_twice_t1_is_refused(self):
        self.wrong("T2 is at most 2 T1, 20.0", noise.dephasing, qubit=0, t1=10.0, t2=20.5)
        self.wrong("T2 is at most 2 T1", noise.dephasing, qubit=0, t1=10.0, t2=math.inf)
        # Up to it, no rate is below 0.
        self.assertEqual(noise.dephasing(qubit=0, t1=10.0, t2=20.0)[0][0], 0.0)
        rng = random.Random(9)
        for _ in range(1000):
            t1 = rng.uniform(0.1, 100)
            ((rate, _),) = noise.dephasing(qubit=0, t1=t1, t2=math.nextafter(2 * t1, 0))
            self.assertGreaterEqual(rate, 0)

    def test_times_that_are_none(self):
        for time in 0, -1, math.nan:
            self.wrong("a time above 0 is needed", noise.decay, qubit=0, t1=time)
            self.wrong("a time above 0 is needed", noise.dephasing, qubit=0, t1=1, t2=time)
            self.wrong("a time above 0 is needed", noise.dephasing, qubit=0, t1=time, t2=1)
            self.wrong("a time above 0 is needed", noise.depolarizing, qubit=0, time=time)
        self.wrong("a real number is needed", noise.decay, qubit=0, t1="50")
        for share in -0.1, 1.5, math.nan:
            self.wrong("from 0 to 1 is needed", noise.decay, qubit=0, t1=1, excited=share)
        self.assertEqual(noise.decay(qubit=0, t1=math.inf)[0][0], 0.0)

    def test_qubits(self):
        self.wrong("qubit", noise.decay, qubit=-1, t1=1)
        with self.assertRaises(Refusal) as caught:
            Model(2, jumps=noise.decay(qubit=2, t1=1.0))
        self.assertEqual(caught.exception.values["qubit"], Qubit(2))


if __name__ == "__main__":
    unittest.main()
