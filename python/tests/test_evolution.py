# SPDX-FileCopyrightText: 2026 The PPVM Authors
# SPDX-License-Identifier: Apache-2.0
"""Evolution over one time step, bit for bit against the definition written plainly (taylor.py), to the tables' accuracy
against scipy's exponentials, and through the command."""
import csv
import io
import json
import math
import random
import unittest
from pathlib import Path
from unittest import mock

import numpy as np
import scipy.linalg
import scipy.sparse.linalg

import any_k
import dense
import pebblelinen.model
import taylor
import test_command
import test_refusals
from pebblelinen import Basis, Evolved, InputError, Model, Position, Refusal, _library, _tables, load

NAN, INF = float("nan"), float("inf")
TURN, XY = Model(1, {"Z": 1.0}), Basis(1, {"X": 1.0, "Y": 0.0})

setUpModule = any_k.without_warning


def over(rng, n, numbers):
    """A basis of some words, or of all, with such coefficients."""
    texts = dense.register(n)
    return Basis(n, [(text, rng.choice(numbers)) for text in rng.sample(texts, rng.randint(0, len(texts)))])


def entries(model, basis):
    matrix = model.generator(basis)
    return list(zip(matrix.row.tolist(), matrix.col.tolist(), matrix.data.tolist()))


def bits(numbers):
    return np.array(numbers, np.float64).tobytes()


class Definition(unittest.TestCase):
    def held(self, model, basis, dt, drop_tol=0.0):
        """Holds an evolution to the definition; its products, or the number of its refusal."""
        before = bits(basis.coefficients)
        try:
            expected = taylor.evolve(entries(model, basis), basis.coefficients, dt, drop_tol)
        except taylor.Refused as refused:
            number, first, second = refused.args
            with self.assertRaises(Refusal) as caught:
                model.evolve(basis, dt=dt, drop_tol=drop_tol)
            values = {14: {"position": Position(first)}, 16: {"m": first, "s": second}}
            self.assertEqual((caught.exception.number, caught.exception.values), (number, values[number]))
            return f"refusal {number}"
        found = model.evolve(basis, dt=dt, drop_tol=drop_tol)
        self.assertEqual((bits(found.basis.coefficients), found.products), (bits(expected[0]), expected[1]))
        self.assertEqual(found.basis.words.tolist(), basis.words.tolist())
        self.assertEqual(bits(basis.coefficients), before)
        return found.products

    def test_random_models(self):
        rng = random.Random(51)
        numbers = [0.0, -0.0, 1.0, -0.5, 0.3, 1e-300, -7e-310, 1e5]
        seen = []
        for case in range(60):
            n = case % 3 + (case % 12 == 0)
            model = Model(n, *dense.random_model(rng, n, case % 2 == 0))
            basis = over(rng, n, numbers)
            norm = float(taylor.norm(len(basis), entries(model, basis))) or 1.0
            t = rng.choice([0.0, 10 ** rng.uniform(-17, 0), rng.uniform(0, 10)]) * rng.choice([1, -1])
            seen.append(self.held(model, basis, t / norm, rng.choice([0.0, -1.0, 9.9e-5, 1e-4, 0.5])))
        self.assertGreater(len({*seen}), 15, seen)

    def test_numbers_too_large(self):
        rng = random.Random(52)
        numbers = [0.0, 1e300, 1.5e308, -1.7e308]
        seen = []
        for case in range(40):
            n = 1 + case % 3
            model = Model(n, *dense.random_model(rng, n, False))
            seen.append(self.held(model, over(rng, n, numbers), rng.choice([0.0, 0.01, -0.3, 1.0, 1e9]), rng.choice([0, 1])))
        self.assertLess({"refusal 14", "refusal 16"}, {*seen})

    def test_examples(self):
        large = Basis(1, {"X": 1.5e308, "Y": 0.0})
        self.assertEqual(self.held(TURN, large, 1e6), "refusal 16")
        self.assertEqual(self.held(TURN, large, 1.0), "refusal 14")
        self.assertEqual(self.held(TURN, Basis(1, {"X": 0.0, "Y": 1.5e308}), 0.0), "refusal 14")
        dephased = Model(1, jumps=[(2.0, "Z")])
        self.assertEqual(self.held(dephased, XY, 1.0), 46)
        self.assertEqual(dephased.degree(XY, dt=1.0)[:2], (1, 1))
        # One product where dt or the norm is 0; -0.0 + 0.0 is 0.0, and -0.0 + -0.0 is -0.0.
        zero = Basis(0, [("", -0.0)])
        for dt, expected in (1.0, 0.0), (-1.0, -0.0), (0.0, 0.0):
            self.assertEqual(self.held(Model(0), zero, dt), 1)
            self.assertEqual(bits(Model(0).evolve(zero, dt=dt).basis.coefficients), bits([expected]))
        self.assertEqual(self.held(TURN, Basis(1, {"X": -0.0, "Y": 0.5}), 0.0), 1)
        # One division, and one product with what it gives: with dt / s / j, or with a product by dt first, bits differ.
        self.assertEqual(self.held(TURN, XY, 4.3), 84)

    def test_sweeps(self):
        """The whole product is tested first: b at position 0 grows too large in the same j as the product at 2 does."""
        model = Model(2, {"ZI": 0.5, "IZ": 0.65})
        for last, position in (1.5e308, 2), (0.0, 0):
            basis = Basis(2, {"XI": 0.0, "YI": 1.5e308, "IX": 0.0, "IY": last})
            self.assertEqual(self.held(model, basis, 2.0), "refusal 14")
            with self.assertRaises(Refusal) as caught:
                model.evolve(basis, dt=2.0)
            self.assertEqual(caught.exception.values, {"position": Position(position)})

    def test_empty(self):
        evolved = TURN.evolve(Basis(1), dt=1e300)
        self.assertEqual((len(evolved.basis), evolved.products), (0, 0))
        basis, products = TURN.evolve(XY, dt=0.25)
        self.assertIsInstance(TURN.evolve(XY, dt=0.25), Evolved)
        self.assertEqual(TURN.evolve(XY, dt=0.25).products, products)
        basis.coefficients[0] = 7.0
        self.assertEqual(XY.coefficients.tolist(), [1.0, 0.0])

    def test_tables_grow(self):
        texts = dense.register(4)
        model = Model(4, [(text, 1.0) for text in texts[1:]])
        basis = Basis(4, [(text, float(i % 3)) for i, text in enumerate(texts)])
        fresh = model.evolve(basis, dt=1e-3)
        self.assertEqual(model.csr(basis).nnz, 255 * 128)
        self.assertEqual(bits(model.evolve(basis, dt=1e-3).basis.coefficients), bits(fresh.basis.coefficients))


class Exponentials(unittest.TestCase):
    def test_scipy(self):
        """The error of the tables' pairs is that of a generator off by so much of its norm."""
        rng = random.Random(53)
        for case in range(40):
            n = 1 + case % 3
            model = Model(n, *dense.random_model(rng, n, False))
            basis = over(rng, n, [1.0, -0.5, 0.25, 0.0])
            if not len(basis):
                continue
            csr, c = model.csr(basis), basis.coefficients
            norm = abs(csr).sum(axis=0).max()
            t = rng.choice([1e-3, 0.1, 1.0, 4.0])
            dt = rng.choice([1, -1]) * t / (norm or 1.0)
            expected = scipy.linalg.expm(dt * csr.toarray()) @ c
            multiplied = scipy.sparse.linalg.expm_multiply(dt * csr.astype(float), c)
            for drop_tol, accuracy in (0.0, 2.0**-53), (1e-4, 1e-6):
                found, products = model.evolve(basis, dt=dt, drop_tol=drop_tol)
                bound = (accuracy * t + 1e-14 * (products + 10)) * math.exp(t) * abs(c).sum()
                for other in expected, multiplied:
                    self.assertLessEqual(abs(found.coefficients - other).sum(), bound, (case, t, drop_tol))

    def test_forth_and_back(self):
        """Over all words of a chain, where nothing is lost."""
        model = Model(3, {"XXI": 1.0, "IYY": 0.5, "ZII": 0.25})
        basis = Basis(3, [(text, 1.0 / (1 + i)) for i, text in enumerate(dense.register(3))])
        there = model.evolve(basis, dt=3.0).basis
        back = model.evolve(there, dt=-3.0).basis
        np.testing.assert_allclose(back.coefficients, basis.coefficients, rtol=0, atol=1e-13)
        self.assertAlmostEqual(np.linalg.norm(there.coefficients), np.linalg.norm(basis.coefficients), delta=1e-13)


class Calls(unittest.TestCase):
    """The library's call in tables of exactly so many places, with something in all of them."""

    FILLER = 165

    def ask(self, model, basis, refusal, *, dt=1.0, drop_tol=0.0, touched=4, entries=16, room=3, short=None):
        """Asks, holds the answer to a refusal with its values, and looks at every table."""
        lengths = _library.call("evolution_sizes", model.n, len(basis), touched, entries)
        if short is not None:
            setattr(lengths, short[0], short[1])
        work = [
            np.full(getattr(lengths, name), self.FILLER, _tables._TYPES.get(name, np.uint64))
            for name, *_ in lengths._fields_
        ]
        out = np.full(len(basis) + room, 7.0)
        given = basis.lanes, basis.coefficients, len(basis), dt, drop_tol
        answer = _library.call("evolve", *model._lent(), *given, *work, out)
        status = answer.status
        self.assertEqual((status.refusal, status.first, status.second), refusal)
        written = len(basis) if status.refusal == 0 else 0
        if status.refusal == 0:
            expected = model.evolve(basis, dt=dt, drop_tol=drop_tol)
            self.assertEqual((bits(out[:written]), answer.products), (bits(expected.basis.coefficients), expected.products))
        else:
            self.assertEqual(answer.products, 0)
        self.assertTrue((out[written:] == 7.0).all())
        held = 0 if status.refusal in (0, 13, 14, 16) else self.FILLER
        for table in work:
            self.assertTrue((table == held).all())

    def test_order(self):
        large = Basis(1, {"X": 1.5e308, "Y": 0.0})
        self.ask(TURN, XY, (0, 0, 0), touched=1, entries=2, room=0)
        self.ask(TURN, large, (14, 1, 0), entries=2)
        self.ask(TURN, large, (16, 30, 564972), dt=1e6)
        self.ask(TURN, large, (16, 1, 4294967295), dt=1e308)
        self.ask(TURN, large, (13, 1, 0), dt=1e6, touched=0)
        self.ask(TURN, large, (13, 3, 1), dt=1e6, entries=1)
        for name in "stage_rows", "stage_columns", "stage_values", "columns", "values":
            self.ask(TURN, XY, (13, 3, 1), short=(name, 1))
        none = {"touched": 0, "entries": 0}
        again = Basis(1, [("X", 1.0), ("X", 2.0)])
        self.ask(TURN, again, (12, 1, 0), **none)
        self.ask(TURN, again, (7, 2, 0), dt=INF, **none)
        self.ask(TURN, again, (7, 2, 0), drop_tol=NAN, **none)
        self.ask(TURN, Basis(1, [("X", 1.0), ("X", NAN)]), (7, 1, 0), dt=INF, **none)
        outside = Basis.from_arrays(1, Basis(2, [("X0", 0.0), ("X1", 0.0)]).words, [NAN, 0.0])
        self.ask(TURN, outside, (11, 1, 0), dt=INF, **none)
        self.ask(TURN, outside, (9, 2, 1), room=-1, **none)
        self.ask(TURN, Basis(1), (0, 0, 0), dt=1e300, **none)
        self.ask(TURN, Basis(1), (7, 0, 0), dt=NAN, **none)
        many = Basis.from_arrays(1, np.zeros((65_537, 8), np.uint64))
        self.ask(TURN, many, (8, 65_537, 0), **none)


class Refusals(test_refusals.Case):
    def test_messages(self):
        said = (
            "in a stage of the evolution the number of Y0 at position 1 is not finite: it grew beyond 1.8e308;"
            " coefficients that are all divided by one number, or a smaller dt, may do"
        )
        large = Basis(1, {"X": 1.5e308, "Y": 0.0})
        self.refused(14, {"position": Position(1)}, said, lambda: TURN.evolve(large, dt=1))
        said = (
            "dt = 1000000.0 at the norm 2.0 asks for 564972 stages of 30 products each, 16949160 in all: at most 1048576;"
            " a dt of at most 61865.04 in magnitude will do"
        )
        self.refused(16, {"m": 30, "s": 564972}, said, lambda: TURN.evolve(large, dt=1e6))
        again = Basis(1, [("X", 1.0), ("X", 2.0)])
        said = "dt is inf: a finite number is needed"
        self.refused(7, {"threshold": "dt"}, said, lambda: TURN.evolve(again, dt=INF))
        said = "drop_tol is nan: a finite number is needed"
        self.refused(7, {"threshold": "drop_tol"}, said, lambda: TURN.evolve(Basis(1), dt=1, drop_tol=NAN))
        said = "the coefficient at position 1 is nan: a finite number is needed"
        unknown = Basis(1, {"X": 1.0, "Y": NAN})
        self.refused(7, {"position": Position(1)}, said, lambda: TURN.evolve(unknown, dt=INF))
        said = "the word X0 at position 1 stood at a lower position"
        self.refused(12, {"position": Position(1)}, said, lambda: TURN.evolve(again, dt=1))
        texts = [a + b for a in "XYZ" for b in "IXYZ"]
        model = Model(2, [(text, 1.0) for text in texts])
        with mock.patch.object(pebblelinen.model, "MOST_TOUCHED", 2):
            model._touched = 1
            basis, said = Basis(2, [(text, 1.0) for text in texts]), "table 1 needs more than 2 places"
            self.refused(13, {"table": 1, "places": 2}, said, lambda: model.evolve(basis, dt=1))

    def test_the_largest_dt(self):
        """It is accepted, and the next number is not."""
        self.assertEqual(TURN.evolve(XY, dt=-61865.04).products, 1_048_560)
        with self.assertRaises(Refusal):
            TURN.evolve(XY, dt=math.nextafter(61865.04, INF))

    def test_what_cannot_be_handed_over(self):
        for call in [
            lambda: TURN.evolve(Basis(2), dt=1),
            lambda: TURN.evolve([("X", 1.0)], dt=1),
            lambda: TURN.evolve(XY, dt="1"),
            lambda: TURN.evolve(XY, dt=1, drop_tol=None),
        ]:
            with self.assertRaises(InputError):
                call()
        with self.assertRaises(TypeError):
            TURN.evolve(XY, 1.0)


class Command(test_command.Case):
    def test_evolve(self):
        self.write('qubits = 1\nprotected = ["X"]\n[hamiltonian]\n"Z" = 0.5\n[basis]\n"X" = 1\n"Y" = 0')
        lines = self.answered("evolve", self.path, "--dt", "0.5").splitlines()
        evolved = load(self.path).model.evolve(load(self.path).basis, dt=0.5)
        x, y = evolved.basis.coefficients.tolist()
        self.assertEqual(
            lines[2:],
            [
                f"2 positions after the time step dt = 0.5: {evolved.products} products with the generator",
                "  word            before   coefficient",
                f"  position 0: X0  1.0      {x!r}",
                f"  position 1: Y0  0.0     {y!r}",
            ],
        )
        answer = self.json("evolve", self.path, "--dt", "0.5")
        named = [{"word": "X0", "before": 1.0, "coefficient": x}, {"word": "Y0", "before": 0.0, "coefficient": y}]
        self.assertEqual(answer, {"qubits": 1, "products": evolved.products, "entries": named})
        table = list(csv.reader(io.StringIO(self.answered("evolve", self.path, "--dt", "0.5", "--csv"))))
        self.assertEqual(table[0], ["position", "word", "before", "coefficient"])
        self.assertEqual(table[2], ["1", "Y0", "0.0", repr(y)])

    def test_saved(self):
        """The file goes on from there."""
        out = str(Path(self.path).with_name("later.toml"))
        lines = self.answered("evolve", self.path, "--dt", "0.5", "--save", out).splitlines()
        self.assertEqual(lines[-1], f"written to {out} with the evolved basis")
        before, after = load(self.path), load(out)
        self.assertEqual((after.model, after.protected), (before.model, before.protected))
        expected = before.model.evolve(before.basis, dt=0.5).basis
        self.assertEqual(bits(after.basis.coefficients), bits(expected.coefficients))
        self.assertEqual(self.json("evolve", self.path, "--dt", "0.5", "--save", out)["saved"], out)

    def test_errors(self):
        status, out, error = self.run_command("evolve", self.path, "--dt", "1e6", "--drop-tol", "1e-3", "--json")
        self.assertEqual((status, json.loads(out)["error"]["refusal"]), (1, 16))
        self.assertIn("in magnitude will do", error)
        status, _, error = self.run_command("evolve", self.path, "--dt", "nan")
        self.assertEqual((status, error), (1, "pebblelinen: refusal 7: dt is nan: a finite number is needed\n"))
        status, _, error = self.run_command("evolve", self.path)
        self.assertEqual(status, 2)


if __name__ == "__main__":
    unittest.main()
