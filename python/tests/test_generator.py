# SPDX-FileCopyrightText: 2026 The PPVM Authors
# SPDX-License-Identifier: Apache-2.0
"""Generators, their products, norms and degrees, against full matrices and the rules written plainly."""
import json
import math
import random
import re
import unittest
from unittest import mock

import numpy as np
import scipy.sparse

import any_k
import dense
import pebblelinen.model
import replay
import test_command
import test_refusals
from pebblelinen import (
    Basis,
    Choice,
    InputError,
    Model,
    Position,
    _library,
    demo,
    product,
    row,
    select_ms,
)

NAN, INF = float("nan"), float("inf")


setUpModule = any_k.without_warning


def everything(n):
    """The basis of all words."""
    return Basis(n, [(text, 0.0) for text in dense.register(n)])


def some(rng, n, count):
    return Basis(n, [(text, 0.0) for text in rng.sample(dense.register(n), count)])


class Generator(unittest.TestCase):
    def test_over_all_words_it_is_the_superoperator(self):
        rng = random.Random(5)
        for case in range(40):
            n, whole = case % 4, case // 4 % 2 == 0
            given = dense.random_model(rng, n, whole)
            model = Model(n, *given)
            expected = dense.superoperator(n, *given)
            for matrix in model.generator(everything(n)), model.csr(everything(n)):
                deviation = abs(matrix.toarray() - expected).max()
                self.assertLessEqual(deviation, 0.0 if whole else 1e-12, given)

    def test_over_some_words_it_is_a_part_of_it(self):
        rng = random.Random(6)
        for _ in range(40):
            model = Model(3, *dense.random_model(rng, 3, False))
            basis = some(rng, 3, rng.randrange(20))
            position = {entry.word: int(entry.position) for entry in basis}
            expected = [
                (position[word], int(entry.position), value)
                for entry in basis
                for word, value in model.action(entry.word)
                if word in position
            ]
            matrix = model.generator(basis)
            found = list(zip(matrix.row.tolist(), matrix.col.tolist(), matrix.data.tolist()))
            self.assertEqual(found, expected)
            csr = model.csr(basis)
            by_row = sorted(expected, key=lambda entry: entry[:2])
            self.assertEqual(csr.indices.tolist(), [column for _, column, _ in by_row])
            self.assertEqual(csr.data.tolist(), [value for *_, value in by_row])
            counts = [sum(entry[0] < r for entry in by_row) for r in range(len(basis) + 1)]
            self.assertEqual(csr.indptr.tolist(), counts)
            self.assertTrue(csr.has_sorted_indices)

    def test_types_and_shared_arrays(self):
        model = Model(2, {"XX": 1.0, "ZI": 0.5})
        coo, csr = model.generator(everything(2)), model.csr(everything(2))
        self.assertIsInstance(coo, scipy.sparse.coo_matrix)
        self.assertIsInstance(csr, scipy.sparse.csr_matrix)
        columns, values = row(csr, position=3)
        self.assertTrue(np.shares_memory(columns, csr.indices))
        self.assertTrue(np.shares_memory(values, csr.data))
        vector = np.arange(16.0)
        np.testing.assert_array_equal(csr @ vector, coo @ vector)

    def test_tables_grow(self):
        texts = dense.register(5)
        model = Model(5, [(text, 1.0) for text in texts[1:]])
        basis = everything(5)
        self.assertEqual(model.generator(basis).nnz, 1023 * 512)
        self.assertEqual(model.csr(basis).nnz, 1023 * 512)
        fresh = Model(5, [(text, 1.0) for text in texts[1:]])
        self.assertEqual(fresh.csr(Basis(5, [(text, 0.0) for text in texts[:3]])).nnz, 2)
        self.assertEqual(fresh.norm(basis).norm, 1024.0)

    def test_empty(self):
        model = Model(2, {"XX": 1.0})
        for matrix in model.generator(Basis(2)), model.csr(Basis(2)):
            self.assertEqual((matrix.shape, matrix.nnz), ((0, 0), 0))
        self.assertEqual(product(model.csr(Basis(2)), []).tolist(), [])
        self.assertEqual(model.norm(Basis(2)), (0.0, 0.0))
        self.assertEqual(model.degree(Basis(2), dt=5.0)[:2], (1, 1))


class Products(unittest.TestCase):
    def setUp(self):
        rng = random.Random(7)
        self.csr = Model(3, *dense.random_model(rng, 3, True)).csr(some(rng, 3, 30))
        self.vector = np.array([rng.choice([0.0, -0.0, 1.0, -2.0, 0.5]) for _ in range(30)])
        self.expected = self.csr.toarray() @ self.vector

    def test_product(self):
        self.assertEqual(product(self.csr, self.vector).tolist(), self.expected.tolist())
        self.assertEqual(product(self.csr, self.vector.tolist()).tolist(), self.expected.tolist())

    def test_out(self):
        out = np.ones(30)
        self.assertIs(product(self.csr, self.vector, out=out), out)
        self.assertEqual(out.tolist(), self.expected.tolist())
        product(self.csr, self.vector, out=out, add=True)
        self.assertEqual(out.tolist(), (2 * self.expected).tolist())

    def test_arrays_of_every_sort(self):
        wide = np.repeat(self.vector, 2)[::2]
        frozen = self.vector.copy()
        frozen.flags.writeable = False
        for vector in wide, frozen, self.vector.astype(np.float32), self.vector.astype(">f8"):
            self.assertEqual(product(self.csr, vector).tolist(), self.expected.tolist())
        for matrix in scipy.sparse.csr_array(self.csr), self.csr.astype(np.float32), self.csr.astype(np.int64):
            self.assertEqual(product(matrix, self.vector).tolist(), self.expected.tolist())
        wide = self.csr.copy()
        wide.indices, wide.indptr = wide.indices.astype(np.int64), wide.indptr.astype(np.int64)
        self.assertEqual(product(wide, self.vector).tolist(), self.expected.tolist())

    def test_what_cannot_be_handed_over(self):
        frozen = np.zeros(30)
        frozen.flags.writeable = False
        same = self.csr.copy()
        for call in [
            lambda: product(self.csr.tocoo(), self.vector),
            lambda: product(self.csr.toarray(), self.vector),
            lambda: product(None, self.vector),
            lambda: product(self.csr[:5], self.vector),
            lambda: product(self.csr.astype(complex), self.vector),
            lambda: product(self.csr, self.vector.astype(complex)),
            lambda: product(self.csr, self.vector.reshape(30, 1)),
            lambda: product(self.csr, "vector"),
            lambda: product(self.csr, self.vector, add=True),
            lambda: product(self.csr, self.vector, out=[0.0] * 30),
            lambda: product(self.csr, self.vector, out=np.zeros(30, np.float32)),
            lambda: product(self.csr, self.vector, out=np.zeros(60)[::2]),
            lambda: product(self.csr, self.vector, out=frozen),
            lambda: product(self.csr, self.vector, out=self.vector),
            lambda: product(self.csr, self.vector, out=self.vector[::-1]),
            lambda: product(same, self.vector, out=same.data[:30]),
            lambda: row(self.csr, position=-1),
            lambda: row(self.csr.tocoo(), position=0),
        ]:
            with self.assertRaises(InputError):
                call()
        with self.assertRaises(TypeError):
            row(self.csr, 3)

    def test_rows(self):
        for position in range(30):
            columns, values = row(self.csr, position=Position(position))
            start, end = self.csr.indptr[position : position + 2]
            self.assertEqual(columns.tolist(), self.csr.indices[start:end].tolist())
            self.assertEqual(values.tolist(), self.csr.data[start:end].tolist())


class Refusals(test_refusals.Case):
    def test_bases(self):
        model = Model(3, {"Z0": 1})
        calls = [
            model.generator,
            model.csr,
            model.norm,
            lambda basis: model.degree(basis, dt=1),
        ]
        many = Basis.from_arrays(3, np.zeros((65_537, 8), np.uint64))
        outside = Basis.from_arrays(3, np.array([[1, *7 * [0]], [8, *7 * [0]]], np.uint64))
        for call in calls:
            said = "the basis has 65537 entries: at most 65536"
            self.refused(8, {"count": 65_537, "limit": 65_536}, said, lambda: call(many))
            said = "basis word at position 1 has a bit at or above qubit 3: X3"
            self.refused(11, {"position": Position(1), "qubits": 3}, said, lambda: call(outside))
        again = Basis(3, [("X0", 1), ("Y0", 1), ("X0", 2), ("Y0", 3)])
        said = "the word X0 at position 2 stood at a lower position"
        for call in calls[:2]:
            self.refused(12, {"position": Position(2)}, said, lambda: call(again))
        self.assertEqual(model.norm(again).norm, 2.0)

    def test_numbers(self):
        model, basis = Model(1, {"Z": 1}), Basis(1, {"X": 1})
        for dt, drop_tol, name in (NAN, 0, "dt"), (INF, NAN, "dt"), (1, INF, "drop_tol"):
            said = f"{name} is {dt if name == 'dt' else drop_tol}: a finite number is needed"
            call = lambda: model.degree(basis, dt=dt, drop_tol=drop_tol)  # noqa: E731
            self.refused(7, {"threshold": name}, said, call)

    def test_places(self):
        texts = [a + b for a in "XYZ" for b in "IXYZ"]
        model, basis = Model(2, [(text, 1.0) for text in texts]), everything(2)
        with mock.patch.object(pebblelinen.model, "MOST_TOUCHED", 2):
            model._touched = 1
            values, said = {"table": 1, "places": 2}, "table 1 needs more than 2 places"
            for call in model.generator, model.csr, model.norm:
                self.refused(13, values, said, lambda: call(basis))
        self.assertEqual(model.generator(basis).nnz, model.csr(basis).nnz)

    def test_products(self):
        csr = Model(1, {"Z": 1}).csr(Basis(1, {"X": 1, "Y": 1}))

        def changed(**tables):
            made = csr.copy()
            for name, table in tables.items():
                setattr(made, name, np.array(table))
            return made

        ones = np.ones(2)
        for matrix, vector, out, number, values, said in [
            (csr, [1.0], None, 9, {"needed": 2, "given": 1}, "1 entries of the vector: 2 are needed"),
            (csr, ones, np.ones(3), 9, {"needed": 2, "given": 3}, "3 places in out: 2 are needed"),
            (changed(indptr=[0, 2]), ones, None, 9, {"needed": 3, "given": 2}, "2 offsets: 3 are needed"),
            (changed(data=[1.0]), ones, None, 9, {"needed": 2, "given": 1}, "1 values: 2 are needed"),
        ]:
            self.refused(number, values, said, lambda: product(matrix, vector, out=out))
        for matrix, vector, out, table, place in [
            (changed(indptr=[1, 1, 2]), ones, None, "offsets", 0),
            (changed(indptr=[0, -1, 2]), ones, None, "offsets", None),
            (changed(indptr=[0, 2, 1]), ones, None, "offsets", 2),
            (changed(indptr=[0, 1, 1]), ones, None, "offsets", 2),
            (changed(indices=[1, 2]), ones, None, "columns", 1),
            (changed(indices=[-1, 0]), ones, None, "columns", 0),
            (changed(indices=np.array([1, 1 << 32])), ones, None, "columns", 1),
            (changed(indptr=[0, 2, 2], indices=[1, 0]), ones, None, "columns", 1),
            (changed(indptr=[0, 2, 2], indices=[0, 0]), ones, None, "columns", 1),
            (changed(data=[1, NAN]), ones, None, "values", 1),
            (csr, [INF, 1], None, "vector", 0),
            (csr, ones, np.array([0, -INF]), "out", 1),
        ]:
            with self.assertRaises(pebblelinen.Refusal) as caught:
                product(matrix, vector, out=out, add=out is not None)
            values = {"table": table, "place": caught.exception.values["place"] if place is None else place}
            self.assertEqual((caught.exception.number, caught.exception.values), (7, values))
        said = "the product's sum at position 1 is not finite"
        out = np.array([5.0, 6.0])
        self.refused(14, {"position": Position(1)}, said, lambda: product(csr, [1.5e308, 0], out=out))
        self.assertEqual(out.tolist(), [5.0, 6.0])
        rows = scipy.sparse.csr_matrix((65_537, 65_537))
        said = "the matrix has 65537 rows: at most 65536"
        values = {"count": 65_537, "limit": 65_536}
        self.refused(8, values, said, lambda: product(rows, np.zeros(65_537)))


class Degrees(unittest.TestCase):
    def expected(self, model, basis, everywhere=False):
        """The norm and mu as they are written: magnitudes of terms whose word is in the basis, or anywhere, are summed
        from 0 in word order."""
        words = {entry.word for entry in basis}
        columns = [dict(model.action(entry.word)) for entry in basis]
        diagonal = [column.get(entry.word, 0.0) for entry, column in zip(basis, columns)]
        mu, norms = 0.0, [0.0]
        for d in diagonal:
            mu += d
        mu /= len(basis)
        for column, d in zip(columns, diagonal):
            raw = 0.0
            for word, x in column.items():
                raw += abs(x) if everywhere or word in words else 0.0
            norms.append(raw - abs(d) + abs(d - mu))
        return max(norms), mu

    def test_norm(self):
        """Over some words, over all, and over words that come again."""
        rng = random.Random(8)
        for case in range(90):
            n, whole = 1 + case % 3, case % 2 == 0
            model = Model(n, *dense.random_model(rng, n, whole))
            basis = everything(n) if case % 10 == 0 else some(rng, n, rng.randint(1, 4**n // 2))
            if case % 3 == 0:
                again = rng.choices(list(basis), k=3)
                basis = Basis(n, [(entry.word, 0.0) for entry in [*basis, *again]])
            norm, mu = self.expected(model, basis)
            self.assertEqual(model.norm(basis), (norm, mu))
            degree = model.degree(basis, dt=-0.25, drop_tol=1e-3)
            self.assertEqual(degree, (*select_ms(0.25 * norm, 1e-3), norm, mu))
            # With what leaves the basis it was never smaller.
            self.assertLessEqual(norm, self.expected(model, basis, everywhere=True)[0])

    def test_it_is_that_of_the_generator(self):
        rng = random.Random(10)
        for _ in range(20):
            model, basis = Model(3, *dense.random_model(rng, 3, True)), some(rng, 3, 30)
            norm, mu = model.norm(basis)
            shifted = model.generator(basis).toarray() - mu * np.eye(30)
            self.assertAlmostEqual(norm, np.linalg.norm(shifted, 1), delta=1e-12 * (1 + norm))

    def test_small_bases_need_fewer_products(self):
        """As the guide says of the demonstration's chain."""
        model = demo.chain()
        basis = Basis(model.n, {demo.OBSERVABLE: 1.0})
        before, now = [], []
        for _ in demo.rounds(model, basis, limit=4096, count=4, dt=0.25):
            m, s, *_ = model.degree(basis, dt=0.25, drop_tol=1e-4)
            now.append(m * s)
            before.append(math.prod(select_ms(0.25 * self.expected(model, basis, everywhere=True)[0], 1e-4)))
        self.assertEqual((before, now), ([17, 18, 24, 30], [13, 17, 18, 24]))

    def test_repeated_words(self):
        model = Model(1, {"Z": 0.5}, [(0.25, "Z")])
        for texts, norm in ("XXY", 1.0), ("XY", 1.0), ("X", 0.0), ("XX", 0.0), ("YX", 1.0), ("XZ", 0.25):
            self.assertEqual(model.norm(Basis(1, [(text, 0.0) for text in texts])).norm, norm, texts)

    def test_examples(self):
        for t, choice in [(0.3, (12, 1)), (1, (18, 1)), (4, (23, 2)), (NAN, (1, 1)), (-1, (1, 1)), (-INF, (1, 1))]:
            self.assertEqual(select_ms(t), Choice(*choice))
        self.assertEqual(select_ms(1, 1e-4), (9, 1))
        for t in "1", None, 1j, True:
            with self.assertRaises(InputError):
                select_ms(t)


class Ceiling(test_refusals.Case):
    """At most 1,048,576 products."""

    # The largest norms that are accepted, with their pairs, at a drop_tol of 0 and at one of 1e-4.
    LAST = [(0.0, 123730.08, (30, 34952)), (1e-4, 238722.16, (30, 34952))]

    def test_select_ms(self):
        for drop_tol, last, choice in self.LAST:
            self.assertEqual(select_ms(last, drop_tol), choice)
            enough = f"a t of at most {last} will do"
            for t, m, s in [
                (math.nextafter(last, INF), 30, 34953),
                (1e6, *((30, 282486) if drop_tol == 0 else (30, 146413))),
                (INF, 1, 4294967295),
                (1e300, 1, 4294967295),
            ]:
                said = f"t = {t} asks for {s} stages of {m} products each, {m * s} in all: at most 1048576; {enough}"
                self.refused(16, {"m": m, "s": s}, said, lambda: select_ms(t, drop_tol))

    def test_degree(self):
        model, basis = Model(1, {"Z": 0.5}), Basis(1, {"X": 1.0, "Y": 0.0})
        for drop_tol, last, choice in self.LAST:
            for dt in last, -last:
                self.assertEqual(model.degree(basis, dt=dt, drop_tol=drop_tol), (*choice, 1.0, 0.0))
            dt = -math.nextafter(last, INF)
            said = (
                f"dt = {dt} at the norm 1.0 asks for 34953 stages of 30 products each, 1048590 in all: at most 1048576;"
                f" a dt of at most {last} in magnitude will do"
            )
            call = lambda: model.degree(basis, dt=dt, drop_tol=drop_tol)  # noqa: E731
            self.refused(16, {"m": 30, "s": 34953}, said, call)
        self.assertEqual(model.degree(Basis(1), dt=1e300)[:2], (1, 1))
        said = "dt is nan: a finite number is needed"
        self.refused(7, {"threshold": "dt"}, said, lambda: model.degree(Basis(1), dt=NAN))

    def test_the_largest_dt(self):
        """It is accepted, and the next number is not."""
        rng = random.Random(9)
        for _ in range(20):
            model, basis = Model(3, *dense.random_model(rng, 3, False)), some(rng, 3, 20)
            with self.assertRaises(pebblelinen.Refusal) as caught:
                model.degree(basis, dt=1e9)
            dt = float(re.search("a dt of at most (.*) in magnitude will do", caught.exception.said)[1])
            degree = model.degree(basis, dt=-dt)
            self.assertLessEqual(degree.m * degree.s, 1_048_576)
            with self.assertRaises(pebblelinen.Refusal):
                model.degree(basis, dt=math.nextafter(dt, INF))

    def test_order(self):
        """After all tests and 13; work tables are zero."""
        model, basis = Model(1, {"Z": 0.5}), Basis(1, {"X": 1.0, "Y": 0.0})
        names = "h_index j_index mask heads nexts work_words work_sums".split()
        for touched, dt, answer in [(0, 1e300, (13, 1, 0)), (1, 1e300, (16, 1, 4294967295)), (1, 1e6, (16, 30, 282486))]:
            lengths = _library.call("generator_sizes", 1, 2, touched, 0)
            work = [replay.lanes(getattr(lengths, name))[0] for name in names[:-1]]
            work += replay.reals(lengths.work_sums, 2, 2)
            found = _library.call("expm_degree", *model._lent(), basis.lanes, 2, dt, 0.0, *work)
            status = found.status
            self.assertEqual((status.refusal, status.first, status.second), answer)
            self.assertEqual((found.mu, found.norm, found.m, found.s), (0.0, 0.0, 0, 0))
            replay.check_work(status, *work)


class Demo(test_command.Case):
    def test_generator(self):
        lines = self.answered("generator", self.path).splitlines()
        self.assertEqual(lines[2], "generator over 2 positions: 1 entry, by column, then by word")
        self.assertEqual(lines[4], "  position 0: Z0  position 0: Z0  -0.5")
        answer = self.json("generator", self.path)
        self.assertEqual(answer["basis"], ["Z0", "X1 Z2"])
        self.assertEqual(answer["entries"], [{"row": 0, "column": 0, "value": -0.5}])

    def test_degree(self):
        lines = self.answered("degree", self.path, "--dt", "0.1").splitlines()
        self.assertEqual(lines[1], "generator over 2 positions:")
        self.assertEqual(lines[2].split(), ["norm", "0.25"])
        self.assertEqual(lines[4], "  degree   m = 8, s = 1 for dt = 0.1: 8 products")
        answer = self.json("degree", self.path, "--dt", "0.1")
        self.assertEqual(answer, {"qubits": 3, "positions": 2, "m": 8, "s": 1, "norm": 0.25, "mu": -0.25})

    def test_errors(self):
        status, _, error = self.run_command("degree", self.path, "--dt", "1e6")
        self.assertEqual(status, 1)
        self.assertIn(f"a dt of at most {123730.08 / 0.25} in magnitude will do\n", error)
        status, out, _ = self.run_command("degree", self.path, "--dt", "1e300", "--json")
        self.assertEqual((status, json.loads(out)["error"]["values"]), (1, {"m": 1, "s": 4294967295}))
        status, _, error = self.run_command("degree", self.path, "--dt", "nan")
        self.assertEqual((status, error), (1, "pebblelinen: refusal 7: dt is nan: a finite number is needed\n"))
        self.write('qubits = 1\nbasis = [["X", 1], ["X", 1]]')
        status, _, error = self.run_command("generator", self.path)
        said = "pebblelinen: refusal 12: the word X0 at position 1 stood at a lower position\n"
        self.assertEqual((status, error), (1, said))

    def test_demo(self):
        out = self.answered("demo", "--rounds", "4", "--limit", "200")
        self.assertIn("a chain of 256 qubits with couplings, fields, decay and dephasing", out)
        self.assertIn(f"action on the observable, Z on qubit {demo.SITE}:", out)
        self.assertIn(f"position 0: {demo.OBSERVABLE}, coefficient", out)
        self.assertIn(f"200 positions have a letter on qubit {demo.SITE}", out)
        answer = self.json("demo", "--rounds", "4", "--limit", "200")
        self.assertEqual([each["words"] for each in answer["rounds"]], [6, 26, 96, 200])
        self.assertEqual(answer["rounds"][0]["largest_leakage"], 2.0)
        self.assertEqual([each["products"] for each in answer["rounds"]], [7, 8, 8, 9])
        status, _, error = self.run_command("demo", "--dt", "1e9")
        self.assertEqual(status, 1)
        self.assertIn("refusal 16: dt = 1000000000.0 at the norm", error)


if __name__ == "__main__":
    unittest.main()
