# SPDX-FileCopyrightText: 2026 The PPVM Authors
# SPDX-License-Identifier: Apache-2.0
"""Messages for what people write first: each says what is wrong and what to do."""
import re
import unittest

import numpy as np
import scipy.sparse

import test_command
from pebblelinen import Basis, InputError, Model, PebblelinenError, Position, Qubit, Refusal, Word, load, product, row

INF = float("inf")


class Case(unittest.TestCase):
    def told(self, kind, said, call):
        with self.assertRaises(PebblelinenError) as caught:
            call()
        self.assertIs(type(caught.exception), kind, caught.exception)
        self.assertRegex(str(caught.exception), re.escape(said))


class Words(Case):
    def word(self, kind, said, word, n=3):
        self.told(kind, said, lambda: Word(word, n=n))
        self.told(kind, said, lambda: Model(n, {word: 1.0}) if isinstance(word, str) else Model(n, [(word, 1.0)]))
        self.told(kind, said, lambda: word in Basis(n))

    def test_lower_case(self):
        said = "byte 120 ('x') at qubit 1 of the word 'x1' is not I, X, Y or Z; letters are capitals: 'X1'"
        self.word(Refusal, said, "x1")
        self.word(Refusal, "at place 2 of the word 'XIz' is not I, X, Y or Z; letters are capitals: 'XIZ'", "XIz")
        self.word(Refusal, "letters are capitals: 'X0 Z1'", "X0 z1")
        self.word(Refusal, "at qubit 2 of the word {2: 'y'} is not I, X, Y or Z; letters are capitals: 'Y'", {2: "y"})

    def test_no_space_between(self):
        self.word(InputError, "no letter with its qubit; write 'X0 Z1', with a space between", "X0Z1")
        self.word(InputError, "write 'X0 Z1 Y2', with a space between", "x0z1y2")
        self.word(InputError, "write 'X0 Z1', with a space between", "X0Z1 Y2")

    def test_signs(self):
        for word in "+XZ", "-XZ", "−XZ", "-iXZ", "iXZ", "+XIZ":
            self.word(Refusal, "a word has no sign or phase: give it to the word's number", word)
        for word in "+X0", "-X0 Z1", "-iX0":
            self.word(InputError, "a word has no sign or phase: give it to the word's number", word)

    def test_spaces(self):
        self.word(Refusal, "write 'XIZ', without spaces, or letters with their qubits", "X I Z")
        self.word(Refusal, "write 'XZ', without spaces", "X  Z")

    def test_sigma(self):
        for word in "σz", "σ_z", "σzII":
            self.word(Refusal, "write X, Y, Z for σx, σy, σz", word)
        for word in "σz1", "X0 σz1":
            self.word(InputError, "write X, Y, Z for σx, σy, σz", word)

    def test_qubits_that_no_register_has(self):
        for word in "X100000", "Z0 X100000", {100_000: "X"}:
            self.word(InputError, "qubit 100000: a register has at most 256 qubits, 0 to 255", word)
        self.word(InputError, "qubit 99999999999999999999..: a register has", "X" + "9" * 10_000)
        self.assertEqual(Word("X0000001", n=3), Word("X1", n=3))
        self.word(Refusal, "the register has 3 qubits, 0 to 2", "X99999")

    def test_codes(self):
        for code in -1, 256, -(2**40), 2**40:
            self.told(InputError, f"code {code}: I is 0, X 1, Z 2, Y 3", lambda: Word.from_codes([0, code]))
        self.told(Refusal, "code 4: I is 0, X 1, Z 2, Y 3", lambda: Word.from_codes([0, 4]))


class Limits(Case):
    def test_limits(self):
        basis, model = Basis(2, {"XX": 1.0}), Model(2)
        for given in -1, 2**64, 10**30:
            for name, call in [
                ("limit", lambda: basis.cap(limit=given)),
                ("limit", lambda: basis.admit({}, limit=given)),
                ("max_basis", lambda: model.leakage(basis, max_basis=given)),
                ("admit_basis", lambda: model.leakage(basis, max_basis=1, admit_basis=given)),
            ]:
                self.told(InputError, f"{name} is {given}: from 0 to 65536 is needed", call)
            for call in (lambda: Model(given)), (lambda: Basis(given)), (lambda: Word("X", n=given)):
                self.told(InputError, f"the number of qubits, is {given}: from 0 to 256 is needed", call)
            self.told(InputError, f"a qubit is {given}: from 0 to 255 is needed", lambda: Qubit(given))
            self.told(InputError, f"a position is {given}: from 0 to 65535 is needed", lambda: Position(given))
        self.told(Refusal, "max_basis is 65537: at most 65536", lambda: model.leakage(basis, max_basis=65_537))
        self.told(Refusal, "limit is 65537: at most 65536", lambda: basis.cap(limit=65_537))


class Matrices(Case):
    def model(self, operators, k):
        return lambda: Model(3, matrices=[(operators, k)])

    def test_not_hermitian(self):
        said = "matrix 0: K[0][0] is 1j, and an entry on the diagonal must be real"
        self.told(Refusal, said, self.model(["Z0"], [[1j]]))
        said = "K[0][1] is not the conjugate of K[1][0]: they are (0.5+0.25j) and (0.5+0j); where that is an error of"
        k = [[1, 0.5 + 0.25j], [0.5, 1]]
        self.told(Refusal, f"{said} the measurement, give (K + K.conj().T) / 2", self.model(["Z0", "Z1"], k))
        self.model(["Z0", "Z1"], (np.array(k) + np.array(k).conj().T) / 2)()

    def test_one_where_a_list_is_meant(self):
        said = "matrices is one (operators, K) pair: a list of pairs, [(operators, K)], is needed"
        for count in 1, 2, 3:
            operators = ["Z0", "Z1", {"Z2": 1j}][:count]
            for k in np.eye(count), np.eye(count).tolist(), (1j * np.zeros((count, count))).tolist():
                for given in (operators, k), [operators, k]:
                    self.told(InputError, said, lambda: Model(3, matrices=given))
        self.assertEqual(Model(3, matrices=[(["Z0"], [[1]]), (["Z1"], [[1]])]).pairs, 2)
        self.assertEqual(Model(3, matrices=((["Z0"], np.eye(1)), (["Z1"], np.eye(1)))).pairs, 2)
        said = "jumps is one (rate, operator) pair: a list of pairs, [(rate, operator)], is needed"
        self.told(InputError, said, lambda: Model(3, jumps=(0.1, "Z0")))
        self.assertEqual(len(Model(3, jumps=((0.1, "Z0"), (0.2, "Z1"))).jumps), 2)
        # What a model says of itself: all of it can be given again, one of it stands for no list.
        model = Model(3, jumps=[(0.1, "Z0"), (0.2, "Z1")], matrices=[(["Z0"], [[1]]), (["Z1"], [[1]])])
        self.assertEqual(Model(3, jumps=model.jumps, matrices=model.matrices), model)
        self.told(InputError, "jumps is one (rate, operator) pair", lambda: Model(3, jumps=model.jumps[0]))
        self.told(InputError, "matrices is one (operators, K) pair", lambda: Model(3, matrices=model.matrices[0]))

    def test_many_operators(self):
        said = "matrix 0 has 65 operators: at most 64; K can be split: pebblelinen.split_matrix(operators, K)"
        self.told(Refusal, said, self.model(["Z0"] * 65, np.eye(65)))


class Products(Case):
    def setUp(self):
        self.csr = Model(1, {"Z": 1.0}).csr(Basis(1, {"X": 1.0, "Y": 1.0}))

    def test_numbers_that_are_not_finite(self):
        said = "the vector has inf at position 1: a finite number is needed"
        self.told(Refusal, said, lambda: product(self.csr, [0.0, INF]))
        out = np.array([-INF, 0.0])
        said = "out has -inf at position 0: a finite number is needed"
        self.told(Refusal, said, lambda: product(self.csr, [0.0, 1.0], out=out, add=True))
        self.csr.data[1] = float("nan")
        said = "the matrix has nan in row 1, column 0: a finite number is needed"
        self.told(Refusal, said, lambda: product(self.csr, [0.0, 1.0]))

    def test_unsorted_columns(self):
        said = "columns must rise in every row, and matrix.sum_duplicates() sorts them and adds up what comes twice"
        unsorted = scipy.sparse.csr_matrix((np.array([1.0, 2.0]), np.array([1, 0]), np.array([0, 2, 2])))
        twice = scipy.sparse.csr_matrix((np.array([1.0, 2.0]), np.array([1, 1]), np.array([0, 2, 2])))
        for matrix, place, expected in (unsorted, "0, after 1", [[2.0, 1.0]]), (twice, "1, after 1", [[0.0, 3.0]]):
            for call in (lambda: product(matrix, [1.0, 1.0])), (lambda: row(matrix, position=0)):
                self.told(Refusal, f"indices[1] of the matrix is {place} in the same row: {said}", call)
            matrix.sum_duplicates()
            self.assertEqual(product(matrix, [1.0, 0.0]).tolist(), [expected[0][0], 0.0])
            self.assertEqual(product(matrix, [0.0, 1.0]).tolist(), [expected[0][1], 0.0])


class Command(test_command.Case):
    def test_numbers_below_0_with_an_exponent(self):
        for dt in ["--dt", "-1e-3"], ["--dt=-1e-3"], ["--dt", "-0.001"], ["--dt", "-.1E-2"]:
            out = self.answered("degree", self.path, *dt)
            self.assertIn("for dt = -0.001:", out)
        out = self.answered("leakage", self.path, "--max-basis", "9", "--tau-add", "-1e-3")
        self.assertIn("leakage: 2 words", out)
        status, _, error = self.run_command("degree", self.path, "--dt", "-inf")
        self.assertEqual((status, error), (1, "pebblelinen: refusal 7: dt is -inf: a finite number is needed\n"))
        self.assertEqual(self.run_command("degree", self.path, "--json", "-1e-3", "--dt", "1")[0], 2)

    def test_limits(self):
        for given in "-1", str(2**64):
            status, _, error = self.run_command("leakage", self.path, "--max-basis", given)
            self.assertEqual((status, error), (2, f"pebblelinen: max_basis is {given}: from 0 to 65536 is needed\n"))
        self.write("qubits = -1")
        with self.assertRaisesRegex(InputError, "the number of qubits is -1: from 0 to 256 is needed"):
            load(self.path)

    def test_words(self):
        for word, said in [
            ("σz1", "write X, Y, Z for σx, σy, σz"),
            ("X0Z1", "write 'X0 Z1'"),
            ("z0", "letters are capitals: 'Z0'"),
        ]:
            status, _, error = self.run_command("action", self.path, word)
            self.assertNotEqual(status, 0)
            self.assertIn(said, error)


if __name__ == "__main__":
    unittest.main()
