# SPDX-FileCopyrightText: 2026 The PPVM Authors
# SPDX-License-Identifier: Apache-2.0
"""Arrays of every sort: taken as they are where they can be, copied where they must, or turned away by name."""
import unittest

import numpy as np

from pebblelinen import Basis, InputError, Model, Terms, Word

# X0, Y1 and Z0 Z1: the lanes of x, then those of z.
LANES = np.zeros((3, 8), np.uint64)
LANES[:, [0, 4]] = [[1, 0], [2, 2], [0, 3]]
NUMBERS = np.array([1.0, -2.0, 0.5])


class Arrays(unittest.TestCase):
    def same(self, lanes, numbers):
        basis = Basis.from_arrays(2, lanes, numbers)
        self.assertEqual(basis.by_site(), {"X0": 1.0, "Y1": -2.0, "Z0 Z1": 0.5})
        model = Model(2, {"XX": 1.0})
        expected = model.leakage(Basis.from_arrays(2, LANES, NUMBERS), max_basis=9).by_site()
        self.assertEqual(model.leakage(basis, max_basis=9).by_site(), expected)
        return basis

    def test_as_they_are(self):
        basis = self.same(LANES, NUMBERS)
        self.assertTrue(np.shares_memory(basis.words, LANES))
        self.assertTrue(np.shares_memory(basis.coefficients, NUMBERS))
        self.same(LANES.reshape(-1), NUMBERS)

    def test_results_are_views(self):
        model = Model(2, {"XX": 1.0, "ZI": 0.5})
        terms = model.leakage(Basis(2, {"YZ": 1.0}), max_basis=9)
        self.assertEqual((terms.words.dtype, terms.values.dtype), (np.uint64, np.float64))
        basis = Basis(2, {"YZ": 1.0})
        self.assertIs(basis.coefficients.base, basis.coefficients.base)
        basis.coefficients[0] = 7.0
        self.assertEqual(basis.entry(position=0).coefficient, 7.0)
        with self.assertRaises(ValueError):
            basis.words[0, 0] = 1

    def test_what_is_given_stays(self):
        lanes, numbers = LANES.copy(), NUMBERS.copy()
        basis = Basis.from_arrays(2, lanes, numbers)
        basis.prune(drop_tol=1.0)
        basis.admit({"YY": 3.0}, limit=5)
        basis.coefficients = [4, 5, 6]
        self.assertEqual(len(basis), 3)
        self.assertTrue((lanes == LANES).all() and (numbers == NUMBERS).all())
        terms = Terms(2, lanes, numbers)
        basis = Basis(2, terms)
        basis.cap(limit=1)
        self.assertTrue((lanes == LANES).all() and (numbers == NUMBERS).all())

    def test_gaps(self):
        wide = np.zeros((6, 16), np.uint64)
        wide[::2, ::2] = LANES
        numbers = np.repeat(NUMBERS, 3)[::3]
        self.assertFalse(wide[::2, ::2].flags.c_contiguous)
        self.same(wide[::2, ::2], numbers)
        self.same(np.asfortranarray(LANES), NUMBERS[::-1][::-1])
        self.same(LANES[::-1][::-1], NUMBERS)

    def test_unaligned(self):
        bytes_ = b"\0" + LANES.tobytes()
        lanes = np.frombuffer(bytes_, np.uint8)[1:].view(np.uint64).reshape(3, 8)
        bytes_ = b"\0" + NUMBERS.tobytes()
        numbers = np.frombuffer(bytes_, np.uint8)[1:].view(np.float64)
        self.assertFalse(numbers.flags.aligned)
        self.same(lanes, numbers)

    def test_read_only(self):
        lanes, numbers = LANES.copy(), NUMBERS.copy()
        lanes.flags.writeable = numbers.flags.writeable = False
        basis = self.same(lanes, numbers)
        self.assertEqual(basis.prune(drop_tol=1.0), 2)
        basis = Basis.from_arrays(2, lanes, numbers)
        basis.coefficients = [1, 2, 3]
        self.assertEqual(basis.coefficients.tolist(), [1, 2, 3])
        with self.assertRaises(ValueError):
            Basis.from_arrays(2, lanes, numbers).coefficients[0] = 1

    def test_other_types_that_hold_the_same(self):
        for lanes in [LANES.astype(t) for t in (np.int64, np.uint8, np.int32, ">u8")] + [LANES.tolist()]:
            for numbers in NUMBERS.astype(np.float32), NUMBERS.astype(">f8"), NUMBERS.tolist(), tuple(NUMBERS):
                self.same(lanes, numbers)
        self.same(LANES.view(np.recarray), NUMBERS)
        self.same(memoryview(LANES), memoryview(NUMBERS))
        high = Basis.from_arrays(256, [[0, 1 << 63, 0, 0, 0, 0, 0, 1 << 63]])
        self.assertEqual(high.by_site(), {"X127 Z255": 0.0})

    def test_types_that_do_not(self):
        for lanes in [
            LANES.astype(float), LANES.astype(complex), LANES.astype(str), LANES.astype(object), LANES > 0,
            -LANES.astype(np.int64), [[0.5] + 7 * [0]] * 3, [7 * [0] + [-1]] * 3, [7 * [0] + [1 << 64]] * 3,
            np.ma.array(LANES, mask=LANES == 0), "X0", None, 5, [["X0"] + 7 * [0]] * 3, [[1], [2, 3]],
            np.zeros(3, [("x", np.uint64)]), LANES.reshape(3, 2, 4), LANES[:, :2], LANES[:, :4], LANES[0, 0], LANES.T,
        ]:  # fmt: skip
            with self.subTest(lanes=lanes), self.assertRaises(InputError):
                Basis.from_arrays(2, lanes, NUMBERS)
        for numbers in [
            NUMBERS.astype(complex), NUMBERS.astype(str), NUMBERS.astype(object), NUMBERS > 0, ["1", "2", "3"],
            np.ma.array(NUMBERS), NUMBERS.reshape(1, 3), NUMBERS[:2], NUMBERS[0], 5, "123", [1, None, 2],
            NUMBERS.astype(np.longdouble), np.array(["NaT"] * 3, "datetime64[s]"), [[1], [2], [3]], [1j, 2, 3],
        ]:  # fmt: skip
            with self.subTest(numbers=numbers), self.assertRaises(InputError):
                Basis.from_arrays(2, LANES, numbers)

    def test_words_of_two_lanes(self):
        """As they were before registers had 256 qubits: told what to do, and then the same."""
        narrow = LANES[:, [0, 1, 4, 5]]
        advice = (
            r"words of two x lanes and two z lanes, as they were for at most 128 qubits, are widened by"
            r" numpy\.insert\(words, \[2, 2, 4, 4\], 0, axis=1\)$"
        )
        said = r"words has the shape \(3, 4\): \(words, 8\) is needed, x\[0\] to x\[3\], then z\[0\] to z\[3\]; "
        for call in [
            lambda: Basis.from_arrays(2, narrow, NUMBERS),
            lambda: Basis.from_arrays(2, narrow),
            lambda: Terms(2, narrow, NUMBERS),
        ]:
            with self.assertRaisesRegex(InputError, said + advice):
                call()
        with self.assertRaisesRegex(InputError, r"\(words, 8\) is needed, .*" + advice):
            Basis(2).cap(limit=1, protected=narrow)
        with self.assertRaisesRegex(InputError, "3 coefficients beside 12 lanes: each has a word of 8; " + advice):
            Basis.from_arrays(2, narrow.reshape(-1), NUMBERS)
        self.same(np.insert(narrow, [2, 2, 4, 4], 0, axis=1), NUMBERS)
        said = r"4 lanes: a word has 8, x\[0\] to x\[3\], then z\[0\] to z\[3\]; two zeros belong after the two x lanes"
        with self.assertRaisesRegex(InputError, said):
            Word.from_lanes([1, 0, 2, 0], n=2)

    def test_empty(self):
        for lanes in [], np.zeros((0, 8), np.uint64), np.zeros(0), np.zeros((0, 8)):
            for numbers in [], np.zeros(0), np.zeros(0, np.int8), None:
                basis = Basis.from_arrays(2, lanes, numbers)
                self.assertEqual(len(basis), 0)
                self.assertEqual(basis.prune(drop_tol=1), 0)
                self.assertEqual(basis.cap(limit=0), 0)
                self.assertEqual(basis.admit([], limit=5), 0)
                self.assertEqual(len(Model(2, {"XX": 1}).leakage(basis, max_basis=5)), 0)
                self.assertEqual(basis.admit({"XX": 1.0}, limit=5), 1)
        self.assertEqual(len(Basis(0, {"": 1.0})), 1)

    def test_protected_words(self):
        for protected in [
            ["ZZ"], ("Z0 Z1",), {"ZZ"}, {"ZZ": 1}, iter(["ZZ"]), LANES[2:], LANES[2], [{0: "Z", 1: "Z"}],
            np.array(["ZZ"]), np.array(["ZZ"], object), Basis(2, {"ZZ": 0}), Terms(2, LANES[2:], [1]),
        ]:  # fmt: skip
            basis = Basis.from_arrays(2, LANES, NUMBERS)
            basis.cap(limit=1, protected=protected)
            self.assertEqual(basis.by_site(), {"Z0 Z1": 0.5}, protected)
        basis = Basis.from_arrays(2, LANES, NUMBERS)
        for protected in "ZZ", [0], 0, None, [["ZZ"]], LANES.astype(float):
            with self.subTest(protected=protected), self.assertRaises(InputError):
                basis.cap(limit=1, protected=protected)

    def test_memory_of_the_basis_itself(self):
        """Tables that are written overlap no others: what would is copied first."""
        basis = Basis(2, {"XI": 1.0, "IY": -2.0, "ZZ": 0.5})
        basis.cap(limit=1, protected=basis.words[2:])
        self.assertEqual(basis.by_site(), {"Z0 Z1": 0.5})
        basis = Basis(2, {"XI": 1.0, "IY": -2.0, "ZZ": 0.5})
        basis.prune(drop_tol=1.0, protected=basis)
        self.assertEqual(len(basis), 3)
        basis.admit(Terms(2, basis.words, basis.coefficients), limit=5)
        self.assertEqual([e.word.by_site for e in basis], ["X0", "Y1", "Z0 Z1", "X0", "Y1"])


if __name__ == "__main__":
    unittest.main()
