# SPDX-FileCopyrightText: 2026 The PPVM Authors
# SPDX-License-Identifier: Apache-2.0
"""Every refusal of the library, with its number, its values under names, what it says, and the way to the item
that is to blame."""
import pickle
import unittest
from unittest import mock

import numpy as np

import pebblelinen.model
from pebblelinen import CAUSES, Basis, InputError, Model, Position, Qubit, Refusal, Terms, Word

NAN, INF = float("nan"), float("inf")
PAIR = ["X0", "X1"]


class Case(unittest.TestCase):
    def refused(self, number, values, said, call, path=()):
        with self.assertRaises(Refusal) as caught:
            call()
        refusal = caught.exception
        self.assertEqual((refusal.number, refusal.values, refusal.path), (number, values, path), refusal)
        self.assertEqual(refusal.cause, CAUSES[number])
        self.assertEqual(str(refusal), f"refusal {number}: {said}")
        for name, value in values.items():
            kinds = {"position": Position, "qubit": Qubit, "threshold": str, "table": (int, str), "value": float}
            kinds |= dict.fromkeys(["row", "column"], (int, Position))
            self.assertIsInstance(value, kinds.get(name, int))
        again = pickle.loads(pickle.dumps(refusal))
        self.assertEqual((str(again), again.values), (str(refusal), values))
        return refusal


class Words(Case):
    def test_1(self):
        said = "a register of 257 qubits: at most 256"
        values = {"count": 257, "limit": 256}
        self.refused(1, values, said, lambda: Model(257), ("n",))
        self.refused(1, values, said, lambda: Word("X0", n=257))
        self.refused(1, values, said, lambda: Word.from_codes([0] * 257))
        self.refused(1, values, said, lambda: Basis.from_arrays(257, []).prune(drop_tol=1))
        self.refused(1, values, said, lambda: Basis(257).cap(limit=1))
        self.refused(1, values, said, lambda: Basis(257).admit([], limit=1))
        most = 2**64 - 1
        said = f"a register of {most} qubits: at most 256"
        self.refused(1, {"count": most, "limit": 256}, said, lambda: Word("X0", n=most))
        self.refused(1, {"count": most, "limit": 256}, said, lambda: Model(most, {"X5": 1}), ("n",))
        self.refused(
            1,
            {"count": most, "limit": 256},
            said,
            lambda: Word.from_lanes([1, 0, 0, 0, 0, 0, 0, 0], n=most).text,
        )

    def test_2(self):
        self.refused(
            2,
            {"expected": 3, "got": 2},
            "the word 'X_Z' has 2 letters, and the register has 3 qubits",
            lambda: Word("X_Z", n=3),
        )
        self.refused(
            2,
            {"expected": 256, "got": 257, "qubit": Qubit(256)},
            "the word 'X256' has a letter at qubit 256, and the register has 256 qubits, 0 to 255",
            lambda: Model(256).action("X256"),
        )

    def test_3(self):
        self.refused(
            3,
            {"byte": 120, "place": 0},
            "byte 120 ('x') at place 0 of the word 'xZ' is not I, X, Y or Z; letters are capitals: 'XZ'",
            lambda: Word("xZ", n=2),
        )

    def test_4(self):
        self.refused(4, {"code": 4}, "code 4: I is 0, X 1, Z 2, Y 3", lambda: Word.from_codes([3, 4, 5]))

    def test_11(self):
        self.refused(
            11,
            {"position": Position(0)},
            "the word X5 has a letter at or above qubit 3",
            lambda: Word.from_lanes([32, 0, 0, 0, 0, 0, 0, 0], n=3).text,
        )
        self.refused(
            11,
            {"position": Position(0), "qubits": 3},
            "the word X5 has a bit at or above qubit 3",
            lambda: Model(3).action(Word.from_lanes([32, 0, 0, 0, 0, 0, 0, 0], n=3)),
        )

    def test_11_in_models(self):
        """A word with a letter outside its register is refused beside others too, wherever the letter is."""
        for n in 0, 1, 3, 8, 63, 64, 65, 127, 128, 191, 192, 255:
            for qubit in {n, 63, 64, 127, 128, 191, 192, 255} - set(range(n)):
                for z in False, True:
                    bit = 1 << qubit + 256 * z
                    word = Word.from_lanes([bit >> 64 * lane & 2**64 - 1 for lane in range(8)], n=n)
                    said = f"the word {'XZ'[z]}{qubit} has a letter at or above qubit {n}"
                    one = Word("I" * n, n=n)
                    for call in [
                        lambda: Model(n, [(one, 1.0), (word, 1.0), (one, 1.0)]),
                        lambda: Model(n, jumps=[(1.0, one), (1.0, [(one, 1.0), (word, 1.0)])]),
                        lambda: Model(n, matrices=[([one, word], [[1, 0], [0, 1]])]),
                    ]:
                        self.refused(11, {"position": Position(0)}, said, call)


class Models(Case):
    def test_hamiltonian(self):
        def model(word, x=1.0):
            return lambda: Model(2, [("XX", 1), ("YY", 0.5), (word, x), ("zz", NAN)])

        path = ("hamiltonian", 2)
        said = "Hamiltonian item 2: the word 'XXX' has 3 letters, and the register has 2 qubits"
        self.refused(2, {"item": 2, "expected": 2, "got": 3}, said, model("XXX"), path)
        said = "Hamiltonian item 2: byte 122 ('z') at place 1 of the word 'Xz' is not I, X, Y or Z"
        said += "; letters are capitals: 'XZ'"
        self.refused(3, {"item": 2, "byte": 122, "place": 1}, said, model("Xz"), path)
        for x in NAN, INF, -INF, 2.0**201, 2.0**-201:
            said = f"Hamiltonian item 2 has the number {x}: 0, or 2^-200 to 2^200 in magnitude, is needed"
            self.refused(7, {"item": 2}, said, model("XX", x), path)
        said = "the model has 4097 Hamiltonian items: at most 4096"
        call = lambda: Model(2, [("XX", 1)] * 4097)  # noqa: E731
        self.refused(8, {"count": 4097, "limit": 4096}, said, call, ("hamiltonian",))

    def test_jumps(self):
        def model(rate, operator):
            return lambda: Model(2, {"ZZ": 1}, [(1, "XX"), (rate, operator), (-1, "zz")])

        rate, operator = ("jumps", 1, "rate"), ("jumps", 1, "operator")
        self.refused(5, {"jump": 1}, "jump 1 has the rate -0.5, below 0", model(-0.5, "XX"), rate)
        self.refused(5, {"jump": 1}, "jump 1 has the rate -inf, below 0", model(-INF, "XX"), rate)
        needed = "0, or 2^-200 to 2^200 in magnitude, is needed"
        self.refused(7, {"jump": 1}, f"jump 1 has the rate nan: {needed}", model(NAN, "XX"), rate)
        self.refused(6, {"jump": 1}, "jump 1 has no terms", model(1, []), operator)
        self.refused(6, {"jump": 1}, "jump 1 has no terms", model(1, {}), operator)
        said = "jump 1 has 17 terms: at most 16"
        values = {"jump": 1, "count": 17, "limit": 16}
        self.refused(8, values, said, model(1, [("XX", 1)] * 17), operator)
        said = "term 1 of jump 1: the word 'X' has 1 letter, and the register has 2 qubits"
        values = {"jump": 1, "expected": 2, "got": 1}
        self.refused(2, values, said, model(1, {"XX": 1, "X": 1}), (*operator, 1))
        said = f"term 1 of jump 1 has the number (1+infj): {needed}"
        self.refused(7, {"jump": 1}, said, model(1, {"XX": 1, "YY": complex(1, INF)}), (*operator, 1))
        said = "the model has 4097 jumps and pairs: at most 4096"
        call = lambda: Model(2, [], [(1, "XX")] * 4097)  # noqa: E731
        self.refused(8, {"count": 4097, "limit": 4096}, said, call, ("jumps",))

    def test_matrices(self):
        def model(operators, k):
            return lambda: Model(2, [], [], [(PAIR, [[1, 0], [0, 1]]), (operators, k)])

        path = ("matrices", 1)
        said = "matrix 1 has 3 entries in K (1 row of 3), in place of 4 for 2 operators (2 rows of 2)"
        values = {"matrix": 1, "needed": 4, "given": 3}
        self.refused(9, values, said, model(PAIR, [[1, 2, 3]]), (*path, "k"))
        said = "matrix 1: K[0][1] is not the conjugate of K[1][0]: they are 1j and 1j; where that is an error of the"
        said += " measurement, give (K + K.conj().T) / 2"
        values = {"matrix": 1, "row": 0, "column": 1}
        self.refused(10, values, said, model(PAIR, [[1, 1j], [1j, 1]]), (*path, "k", 0, 1))
        said = "matrix 1: K[1][0] is (nan+0j): 0, or 2^-200 to 2^200 in magnitude, is needed"
        values = {"matrix": 1, "place": 2, "row": 1, "column": 0}
        self.refused(7, values, said, model(PAIR, [[1, 0], [NAN, 1]]), (*path, "k", 1, 0))
        said = "matrix 1 has 65 operators: at most 64; K can be split: pebblelinen.split_matrix(operators, K) gives"
        said += " matrices that add up to it"
        values = {"matrix": 1, "count": 65, "limit": 64}
        self.refused(8, values, said, model(["X0"] * 65, np.zeros((65, 65))), (*path, "operators"))
        said = "the model has 4163 jumps and pairs: at most 4096"
        ones = np.ones((64, 64))
        call = lambda: Model(2, [], [], [(PAIR, np.ones((2, 2))), (["X0"] * 64, ones), (["X0"] * 64, ones)])  # noqa: E731
        self.refused(8, {"matrix": 2, "count": 4163, "limit": 4096}, said, call, ("matrices", 2))

    def test_operators_of_a_matrix(self):
        def model(operator):
            return lambda: Model(2, [], [], [(["X0", operator], [[1, 0], [0, 1]])])

        path, values = ("matrices", 0, "operators", 1), {"matrix": 0, "operator": 1}
        what = "operator 1 of matrix 0"
        self.refused(6, values, f"{what} has no terms", model([]), path)
        said = f"{what} has 17 terms: at most 16"
        self.refused(8, values | {"count": 17, "limit": 16}, said, model([("XX", 1)] * 17), path)
        said = f"term 0 of {what}: byte 63 ('?') at place 0 of the word '?X' is not I, X, Y or Z"
        self.refused(3, values | {"byte": 63, "place": 0}, said, model("?X"), (*path, 0))
        said = f"term 1 of {what} has the number (nan+0j): 0, or 2^-200 to 2^200 in magnitude, is needed"
        self.refused(7, values, said, model([("XX", 1), ("YY", NAN)]), (*path, 1))

    def test_first_of_several_mistakes(self):
        """Not the first item with any mistake, but the one that the library found first."""
        with self.assertRaises(Refusal) as caught:
            Model(2, {"ZZ": NAN}, [(1, [])], [(PAIR, [[1]])])
        self.assertEqual(caught.exception.path, ("hamiltonian", 0))
        with self.assertRaises(Refusal) as caught:
            Model(2, [], [], [(["X0", []], [[NAN, 0], [0, 1]])])
        self.assertEqual(caught.exception.path, ("matrices", 0, "k", 0, 0))

    def test_what_cannot_be_handed_over(self):
        for call, path in [
            (lambda: Model(-1), ()),
            (lambda: Model("2"), ()),
            (lambda: Model(2, "XX"), ("hamiltonian",)),
            (lambda: Model(2, 5), ("hamiltonian",)),
            (lambda: Model(2, ["XX"]), ("hamiltonian", 0)),
            (lambda: Model(2, {"XX": 1j}), ("hamiltonian", 0)),
            (lambda: Model(2, {"XX": "1"}), ("hamiltonian", 0)),
            (lambda: Model(2, {"XX": True}), ("hamiltonian", 0)),
            (lambda: Model(2, {"XX": 10**400}), ("hamiltonian", 0)),
            (lambda: Model(2, {"XX": Position(1)}), ("hamiltonian", 0)),
            (lambda: Model(2, [(5, 1.0)]), ("hamiltonian", 0)),
            (lambda: Model(2, [], {"XX": 1}), ("jumps",)),
            (lambda: Model(2, [], [("XX", 1)]), ("jumps", 0, "rate")),
            (lambda: Model(2, [], [(1, 5)]), ("jumps", 0, "operator")),
            (lambda: Model(2, [], [(1, {"XX": "1j"})]), ("jumps", 0, "operator", 0)),
            (lambda: Model(2, [], [], [(PAIR, [[1, 1j], [1]])]), None),
            (lambda: Model(2, [], [], [(PAIR, [[1], [0, 0, 1]])]), ("matrices", 0, "k")),
            (lambda: Model(2, [], [], [(PAIR, [1, 0, 0, 1])]), ("matrices", 0, "k", 0)),
            (lambda: Model(2, [], [], [(PAIR, "K")]), ("matrices", 0, "k")),
            (lambda: Model(2, [], [], [(PAIR, [[1, "i"], [0, 1]])]), ("matrices", 0, "k", 0, 1)),
            (lambda: Model(2, [], [], [("XX", [[1]])]), ("matrices", 0, "operators")),
            (lambda: Model(2, [], [], [{"operators": PAIR, "k": []}]), None),
        ]:
            with self.assertRaises((InputError, Refusal)) as caught:
                call()
            if path is not None:
                self.assertIsInstance(caught.exception, InputError)
                self.assertEqual(caught.exception.path, path, caught.exception)


class Bases(Case):
    def test_7(self):
        model = Model(1, {"Z": 1})
        basis = Basis(1, {"X": 1, "Y": NAN})
        said = "the coefficient at position 1 is nan: a finite number is needed"
        for call in [
            lambda: basis.prune(drop_tol=1),
            lambda: basis.cap(limit=1),
            lambda: basis.admit({"Z": 1}, limit=9),
            lambda: model.leakage(basis, max_basis=9),
        ]:
            self.refused(7, {"position": Position(1)}, said, call)
        basis = Basis(1, {"X": 1, "Y": 1})
        said = "drop_tol is inf: a finite number is needed"
        self.refused(7, {"threshold": "drop_tol"}, said, lambda: basis.prune(drop_tol=INF))
        said = "tau_add is nan: a finite number is needed"
        call = lambda: model.leakage(basis, max_basis=9, tau_add=NAN)  # noqa: E731
        self.refused(7, {"threshold": "tau_add"}, said, call)
        said = "the value of the listed word in place 1 is not finite"
        call = lambda: basis.admit({"X": 1, "Z": -INF}, limit=9)  # noqa: E731
        self.refused(7, {"place": 1}, said, call, (1,))
        self.assertEqual(len(basis), 2)

    def test_8(self):
        model = Model(1, {"Z": 1})
        many = np.zeros((65_537, 8), np.uint64)
        basis, small = Basis.from_arrays(1, many), Basis(1, {"X": 1})
        values = {"count": 65_537, "limit": 65_536}
        for said, call in [
            ("the basis has 65537 entries", lambda: basis.prune(drop_tol=1)),
            ("the basis has 65537 entries", lambda: basis.cap(limit=1)),
            ("the basis has 65537 entries", lambda: basis.admit({}, limit=1)),
            ("the basis has 65537 entries", lambda: model.leakage(basis, max_basis=1)),
            ("there are 65537 protected words", lambda: small.cap(limit=1, protected=many)),
            ("there are 65537 protected words", lambda: model.leakage(small, max_basis=1, protected=many)),
            ("there are 65537 listed words", lambda: small.admit(Terms(1, many, np.zeros(65_537)), limit=1)),
            ("limit is 65537", lambda: small.cap(limit=65_537)),
            ("limit is 65537", lambda: small.admit({}, limit=65_537)),
            ("max_basis is 65537", lambda: model.leakage(small, max_basis=65_537)),
            ("admit_basis is 65537", lambda: model.leakage(small, max_basis=5, admit_basis=65_537)),
        ]:
            self.refused(8, values, f"{said}: at most 65536", call)
        huge = 2**64 - 1
        call = lambda: model.leakage(small, max_basis=huge)  # noqa: E731
        self.refused(8, {"count": huge, "limit": 65_536}, f"max_basis is {huge}: at most 65536", call)

    def test_9(self):
        basis = Basis(1, {"X": 1})
        said = "the protected words have 9 lanes: the last word is cut off"
        call = lambda: basis.cap(limit=1, protected=np.zeros(9, np.uint64))  # noqa: E731
        self.refused(9, {"needed": 8, "given": 9}, said, call)
        call = lambda: Model(1).leakage(basis, max_basis=1, protected=np.zeros(9, np.uint64))  # noqa: E731
        self.refused(9, {"needed": 8, "given": 9}, said, call)
        said = "the listed words have 9 lanes: the last word is cut off"
        call = lambda: basis.admit(Terms(1, np.zeros(9, np.uint64), [1]), limit=1)  # noqa: E731
        self.refused(9, {"needed": 8, "given": 9}, said, call)
        said = "2 listed words and 1 values"
        call = lambda: basis.admit(Terms(1, np.zeros(16, np.uint64), [1]), limit=1)  # noqa: E731
        self.refused(9, {"needed": 2, "given": 1}, said, call)

    def test_11(self):
        model = Model(3, {"Z0": 1})
        outside = np.zeros((4, 8), np.uint64)
        outside[:, [0, 4, 5]] = [[1, 0, 0], [0, 1, 0], [2, 2, 0], [0, 0, 1]]
        basis = Basis.from_arrays(3, outside)
        said = "basis word at position 3 has a bit at or above qubit 3: Z64"
        for call in [
            lambda: basis.prune(drop_tol=1),
            lambda: basis.cap(limit=1),
            lambda: basis.admit({}, limit=9),
            lambda: model.leakage(basis, max_basis=9),
        ]:
            self.refused(11, {"position": Position(3), "qubits": 3}, said, call)
        small = Basis(3, {"X0": 1, "Y0": 1, "Z0": 1, "X1": 1, "X2": 1})
        said = "the protected word in place 3 has a bit at or above qubit 3"
        values = {"place": 3, "qubits": 3}
        self.refused(11, values, said, lambda: small.cap(limit=1, protected=outside), (3,))
        call = lambda: model.leakage(small, max_basis=9, protected=outside)  # noqa: E731
        self.refused(11, values, said, call, (3,))
        said = "the listed word in place 3 has a bit at or above qubit 3"
        call = lambda: small.admit(Terms(3, outside, np.zeros(4)), limit=9)  # noqa: E731
        self.refused(11, values, said, call, (3,))

    def test_13(self):
        """Only where there are no more places to lend."""
        texts = [a + b + c + d for a in "XYZ" for b in "IXYZ" for c in "IXYZ" for d in "IXYZ"]
        model = Model(4, [(text, 1.0) for text in texts])
        with mock.patch.object(pebblelinen.model, "MOST_TOUCHED", 16):
            model._touched = 8
            said = "table 1 needs more than 16 places"
            values = {"table": 1, "places": 16}
            self.refused(13, values, said, lambda: model.action("ZIII"))
            basis = Basis(4, {"ZIII": 1})
            self.refused(13, values, said, lambda: model.leakage(basis, max_basis=9))
        self.assertEqual(len(model.action("ZIII")), 128)
        self.assertEqual(len(model.leakage(basis, max_basis=200, tau_add=-1)), 128)

    def test_14(self):
        basis = Basis(1, {"X": 1.5e308})
        said = "the sum of the candidate in place 0, in word order, is not finite"
        self.refused(14, {"place": 0}, said, lambda: Model(1, {"Z": 1}).leakage(basis, max_basis=9))

    def test_a_refusal_changes_nothing(self):
        basis = Basis(1, {"X": 1.0, "Y": 2.0})
        before = basis.by_site()
        for call in [
            lambda: basis.prune(drop_tol=NAN),
            lambda: basis.cap(limit=10**6),
            lambda: basis.admit({"Z": NAN}, limit=5),
        ]:
            with self.assertRaises(Refusal):
                call()
            self.assertEqual(basis.by_site(), before)

    def test_what_cannot_be_handed_over(self):
        basis, model = Basis(1, {"X": 1.0}), Model(1)
        for call in [
            lambda: basis.prune(drop_tol="1"),
            lambda: basis.prune(drop_tol=1j),
            lambda: basis.cap(limit=-1),
            lambda: basis.cap(limit=1.0),
            lambda: basis.cap(limit=2**64),
            lambda: basis.cap(limit=Position(1)),
            lambda: basis.admit("X", limit=1),
            lambda: basis.admit(["X"], limit=1),
            lambda: basis.admit({"X": None}, limit=1),
            lambda: model.leakage(basis, max_basis=None),
            lambda: model.leakage(basis, max_basis=5, admit_basis="9"),
            lambda: model.leakage(basis, max_basis=5, tau_add="0"),
            lambda: model.leakage(basis, max_basis=5, protected="X"),
            lambda: model.action(None),
        ]:
            with self.assertRaises(InputError):
                call()
        for call in [
            lambda: model.leakage("X", max_basis=5),
            lambda: model.leakage(basis),
            lambda: basis.cap(1),
            lambda: basis.prune(0.5),
        ]:
            with self.assertRaises((InputError, TypeError)):
                call()


if __name__ == "__main__":
    unittest.main()
