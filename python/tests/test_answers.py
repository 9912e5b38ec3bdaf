# SPDX-FileCopyrightText: 2026 The PPVM Authors
# SPDX-License-Identifier: Apache-2.0
"""Answers that are known: of calls that need no place, of operators that are too long, of rows of matrices that are
wrong. From C, by answers.c over the header, and through the package."""
import subprocess
import tempfile
import unittest
from pathlib import Path
from unittest import mock

import numpy as np
import scipy.sparse

import test_refusals
from pebblelinen import Basis, Model, Position, _library, matrix, row

PAIR = test_refusals.PAIR
HERE = Path(__file__).resolve().parent
INCLUDE = HERE.parent.parent / "include"


class FromC(unittest.TestCase):
    def test_answers(self):
        library = _library.path()
        with tempfile.TemporaryDirectory() as made:
            program = Path(made, "answers")
            flags = ["-std=c11", "-Wall", "-Wextra", "-Werror", f"-I{INCLUDE}", f"-Wl,-rpath,{library.parent}"]
            subprocess.run(["gcc", *flags, "-o", program, HERE / "answers.c", library], check=True)
            run = subprocess.run([program], capture_output=True, text=True)
        self.assertEqual(run.returncode, 0, "\n" + run.stdout + run.stderr)
        self.assertRegex(run.stdout, r"^\d+ asked, 0 wrong\n$")


class LongOperators(test_refusals.Case):
    def test_terms(self):
        """More than 16 terms are refused for what they are, after K's own mistakes."""

        def model(k, *counts):
            operators = [[("X", 1)] * count for count in counts]
            return lambda: Model(1, [], [], [(operators, k)])

        values = {"matrix": 0, "operator": 0, "count": 17, "limit": 16}
        said = "operator 0 of matrix 0 has 17 terms: at most 16"
        self.refused(8, values, said, model([[1]], 17), ("matrices", 0, "operators", 0))
        said = "operator 1 of matrix 0 has 17 terms: at most 16"
        path = ("matrices", 0, "operators", 1)
        self.refused(8, values | {"operator": 1}, said, model(np.eye(2), 16, 17), path)
        said = "matrix 0: K[0][0] is 1j, and an entry on the diagonal must be real"
        values = {"matrix": 0, "row": 0, "column": 0}
        self.refused(10, values, said, model([[1j]], 17), ("matrices", 0, "k", 0, 0))
        needed = "0, or 2^-200 to 2^200 in magnitude, is needed"
        said = f"matrix 0: K[0][0] is {complex(2.0**201)}: {needed}"
        values = {"matrix": 0, "place": 0, "row": 0, "column": 0}
        self.refused(7, values, said, model([[2.0**201]], 17), ("matrices", 0, "k", 0, 0))
        self.assertEqual(model(np.eye(2), 16, 16)().pairs, 2)


class Nothing(unittest.TestCase):
    def test_models(self):
        self.assertEqual(repr(Model(2)), "Model of 2 qubits: 0 Hamiltonian terms, 0 jumps, 0 pairs")
        model = Model(2, {"ZZ": 0.5}, [], [([], [])])
        self.assertEqual((len(model.hamiltonian), len(model.jumps), model.pairs), (1, 0, 0))

    def test_calls_over_no_words(self):
        model, basis = Model(2, {"ZZ": 0.5}, [(0.25, "X0")]), Basis(2)
        self.assertEqual(model.norm(basis), (0.0, 0.0))
        self.assertEqual(model.degree(basis, dt=1.0), (1, 1, 0.0, 0.0))
        self.assertEqual(len(model.leakage(basis, max_basis=8)), 0)
        self.assertEqual(len(model.leakage(basis, max_basis=8, protected=["Z0", "X1"])), 0)
        self.assertEqual((model.generator(basis).shape, model.generator(basis).nnz), ((0, 0), 0))
        csr = model.csr(basis)
        self.assertEqual((csr.shape, csr.indptr.tolist()), ((0, 0), [0]))
        basis.prune(drop_tol=0.5)
        basis.cap(limit=0)
        basis.admit([], limit=0)
        self.assertEqual(len(basis), 0)


def csr(rows, offsets, columns):
    """A matrix with what it may not have."""
    made = scipy.sparse.csr_matrix((rows, rows))
    made.indptr, made.indices = np.array(offsets, np.int32), np.array(columns, np.int32)
    made.data = np.arange(1.0, len(columns) + 1)
    return made


class Rows(test_refusals.Case):
    def test_library(self):
        for rows, offsets, columns, place, answer in [
            (3, [0, 2, 2, 3], [0, 2, 1], 0, (0, 0, 0, 0, 2)),
            (3, [0, 2, 2, 3], [0, 2, 1], 2, (0, 0, 0, 2, 3)),
            (1, [2, 3], [0, 1, 2], 0, (7, 0, 0, 0, 0)),
            (3, [0, 2, 2, 3], [0, 2, 1], 3, (7, 3, 0, 0, 0)),
            (65_537, [0], [], 0, (8, 65_537, 0, 0, 0)),
            (3, [0, 3], [0, 1, 2], 0, (9, 4, 2, 0, 0)),
        ]:
            arrays = np.array(offsets, np.uint64), np.array(columns, np.uint32)
            found = _library.call("csr_row", rows, *arrays, place)
            status = found.status
            said = (status.refusal, status.first, status.second, found.start, found.end)
            self.assertEqual(said, answer)

    def test_refusals(self):
        sound = csr(3, [0, 2, 2, 3], [0, 2, 1])
        said = "position 3 is outside the matrix of 3 rows"
        self.refused(7, {"position": Position(3)}, said, lambda: row(sound, position=3))
        begins = "indptr begins with 0, never falls, and ends with 3, the number of entries"
        rise = "columns must rise in every row, and matrix.sum_duplicates() sorts them and adds up what comes twice"
        for wrong, table, place, said in [
            (csr(1, [2, 3], [0, 0, 0]), "offsets", 0, f"indptr[0] of the matrix is 2: {begins}"),
            (csr(3, [0, 2, 1, 3], [3, 3, 3]), "offsets", 2, f"indptr[2] of the matrix is 1: {begins}"),
            (csr(3, [0, 2, 2, 2], [0, 2, 1]), "offsets", 3, f"indptr[3] of the matrix is 2: {begins}"),
            (csr(3, [0, -1, 2, 3], [0, 2, 1]), "offsets", 2, f"indptr[2] of the matrix is 2: {begins}"),
            (
                csr(3, [0, 2, 2, 3], [2, 2, 1]),
                "columns",
                1,
                f"indices[1] of the matrix is 2, after 2 in the same row: {rise}",
            ),
            (csr(3, [0, 2, 2, 3], [0, 3, 1]), "columns", 1, "indices[1] of the matrix is 3: from 0 to 2 is needed"),
            (
                csr(3, [0, 2, 2, 3], [0, 2, -1]),
                "columns",
                2,
                "indices[2] of the matrix is below 0 or above 2^31 - 1: from 0 to 2 is needed",
            ),
        ]:
            for position in 0, 9:
                call = lambda: row(wrong, position=position)  # noqa: E731
                self.refused(7, {"table": table, "place": place}, said, call)
        said = "3 offsets: 4 are needed"
        call = lambda: row(csr(3, [0, 2, 3], [0, 2, 1]), position=0)  # noqa: E731
        self.refused(9, {"needed": 4, "given": 3}, said, call)
        said = "the matrix has 65537 rows: at most 65536"
        call = lambda: row(csr(65_537, [0], []), position=0)  # noqa: E731
        self.refused(8, {"count": 65_537, "limit": 65_536}, said, call)

    def test_a_matrix_is_tested_once(self):
        """A loop over rows asks the library for the first one, and again where something was changed."""
        made = csr(3, [0, 2, 2, 3], [0, 2, 1])
        with mock.patch.object(_library, "call", wraps=_library.call) as call:
            for _ in range(3):
                read = [row(made, position=position) for position in range(3)]
                self.assertEqual([columns.tolist() for columns, _ in read], [[0, 2], [], [1]])
                self.assertEqual([values.tolist() for _, values in read], [[1.0, 2.0], [], [3.0]])
            self.assertEqual(call.call_count, 1)
            row(csr(3, [0, 2, 2, 3], [0, 2, 1]), position=0)
            self.assertEqual(call.call_count, 2)
            made.indices = made.indices.copy()
            row(made, position=0)
            self.assertEqual(call.call_count, 3)
        made.indices[1] = 3
        said = "indices[1] of the matrix is 3: from 0 to 2 is needed"
        self.refused(7, {"table": "columns", "place": 1}, said, lambda: row(made, position=0))
        made.indices[1] = 2
        made.indptr[1] = 4
        said = "indptr[2] of the matrix is 2: indptr begins with 0, never falls, and ends with 3, the number of entries"
        self.refused(7, {"table": "offsets", "place": 2}, said, lambda: row(made, position=0))

    def test_what_is_remembered_goes_with_the_matrix(self):
        before = len(matrix._accepted)
        made = csr(3, [0, 2, 2, 3], [0, 2, 1])
        row(made, position=0)
        self.assertEqual(len(matrix._accepted), before + 1)
        del made
        self.assertEqual(len(matrix._accepted), before)

    def test_wide_places(self):
        made = csr(3, [0, 2, 2, 3], [0, 2, 1])
        made.indices, made.indptr = made.indices.astype(np.int64), made.indptr.astype(np.int64)
        for _ in range(2):
            columns, values = row(made, position=0)
            self.assertEqual((columns.tolist(), values.tolist(), columns.dtype), ([0, 2], [1.0, 2.0], np.uint32))


class Lengths(test_refusals.Case):
    """Which lengths disagree."""

    def test_k(self):
        def model(k, operators):
            return lambda: Model(2, [], [], [(operators, k)])

        for k, given, said, operators in [
            ([[1, 2, 3]], 3, "3 entries in K (1 row of 3), in place of 4 for 2 operators (2 rows of 2)", PAIR),
            ([[1, 2], [3]], 3, "3 entries in K (rows of 2, 1), in place of 4 for 2 operators (2 rows of 2)", PAIR),
            (np.eye(3), 9, "9 entries in K (3 rows of 3), in place of 4 for 2 operators (2 rows of 2)", PAIR),
            ([[0]] * 9, 9, "9 entries in K (9 rows of 1), in place of 4 for 2 operators (2 rows of 2)", PAIR),
            ([], 0, "0 entries in K (0 rows), in place of 1 for 1 operator (1 row of 1)", ["X0"]),
            ([[1]], 1, "1 entry in K (1 row of 1), in place of 0 for 0 operators (0 rows)", []),
        ]:
            values = {"matrix": 0, "needed": len(operators) ** 2, "given": given}
            self.refused(9, values, f"matrix 0 has {said}", model(k, operators), ("matrices", 0, "k"))

    def test_tables(self):
        """What the package lends is never K's fault, nor anything else's that was given."""
        enough = _library.call

        def short(function, table, places):
            def call(name, *arguments):
                answer = enough(name, *arguments)
                if name == function:
                    setattr(answer, table, places)
                return answer

            return mock.patch.object(_library, "call", call)

        def matrices():
            return Model(2, [], [(1, "XX")], [(["X0", "X1"], np.eye(2))])

        blamed = "nothing that was given is to blame"
        for table, length in ("work_words", 16), ("work_numbers", 4):
            values = {"matrix": 0, "needed": 258, "given": 2}
            said = f"matrix 0 was lent 2 places in {table}, in place of 258: {blamed}"
            with short("matrix_sizes", table, length):
                self.refused(9, values, said, matrices, ("matrices", 0))
        self.assertEqual(matrices().pairs, 2)
        for table in "h_words", "h_coeffs", "jumps", "rates":
            said = f"the model was lent 0 places in {table}, in place of 1: {blamed}"
            with short("model_sizes", table, 0):
                call = lambda: Model(2, {"ZZ": 1}, [(1, "XX")])  # noqa: E731
                self.refused(9, {"needed": 1, "given": 0}, said, call)


if __name__ == "__main__":
    unittest.main()
