# SPDX-FileCopyrightText: 2026 The PPVM Authors
# SPDX-License-Identifier: Apache-2.0
"""Examples of calls that are lent many tables: models, a matrix, their actions, leakage, a generator, its product and
its norm. They are asked of the built library across the C interface, as a C program would, and not through the package.
The program `examples` runs what is cheap to prove beside it: texts, codes, products, lengths of tables, bases, degrees."""
import ctypes
import unittest
from ctypes import c_bool, c_double, c_size_t, c_void_p

import numpy as np

from pebblelinen import _library
from pebblelinen._lanes import LANES, WORD_LANES

# The causes that have two values.
HAVE_TWO = 1, 2, 3, 9, 10, 13, 16

NO_LANES, NO_NUMBERS = np.zeros(0, np.uint64), np.zeros(0)

_shared = ctypes.CDLL(str(_library.path()))


def call(name, answers, *arguments):
    """A call of the C interface. A table is passed as its pointer and its length."""
    passed = []
    for argument in arguments:
        if isinstance(argument, np.ndarray):
            passed += [c_void_p(argument.ctypes.data), c_size_t(argument.size)]
        elif isinstance(argument, bool):
            passed.append(c_bool(argument))
        elif isinstance(argument, float):
            passed.append(c_double(argument))
        else:
            passed.append(c_size_t(argument) if isinstance(argument, int) else argument)
    function = getattr(_shared, "pebblelinen_" + name)
    function.restype = answers
    return function(*passed)


def lanes(*texts):
    """The lanes of words of at most 64 qubits, one after another: their first x lane and first z lane have letters."""
    table = np.zeros((len(texts), WORD_LANES), np.uint64)
    for lanes_of_word, text in zip(table, texts):
        lanes_of_word[0] = sum(1 << q for q, letter in enumerate(text) if letter in "XY")
        lanes_of_word[LANES] = sum(1 << q for q, letter in enumerate(text) if letter in "YZ")
    return table.reshape(-1)


def lent(lengths, **types):
    """The tables of these lengths: of 64-bit numbers, where no other type is named."""
    return [
        np.zeros(getattr(lengths, name), types.get(name, np.uint64)) for name, *_ in lengths._fields_
    ]


def shown(status):
    """A refusal by its number, with its values."""
    values = (status.first, status.second) if status.refusal in HAVE_TWO else (status.first,)
    return f"refusal {status.refusal} ({', '.join(map(str, values))})"


def number(value):
    """A number as it is written in the examples."""
    return f"{value:g}"


def letters(word, qubits):
    """The text of a word in lanes."""
    x, z = int(word[0]), int(word[LANES])
    return "".join("IXZY"[(x >> q & 1) + 2 * (z >> q & 1)] for q in range(qubits))


def listed(answer, words, values):
    """The words that were listed with their numbers, of two qubits each, or the refusal."""
    if answer.status.refusal:
        return shown(answer.status)
    rows = zip(words.reshape(-1, WORD_LANES)[: answer.count], values)
    return ", ".join(f"{letters(word, 2)} {number(value)}" for word, value in rows) or "nothing"


def counted(built):
    """What a model holds that was built, or the refusal."""
    if built.status.refusal:
        return shown(built.status)
    model = built.model
    return f"{model.hamiltonian} Hamiltonian terms, {model.jumps} jumps and pairs, {model.terms} terms"


def action(model, text):
    """The action of a model of two qubits on a word."""
    x, z = lanes(text).reshape(2, LANES).tolist()
    word = _library.Word((*x,), (*z,))
    work = np.zeros(8 * WORD_LANES, np.uint64), np.zeros(16)
    out = np.zeros(8 * WORD_LANES, np.uint64), np.zeros(8)
    return listed(call("compute_action_terms", _library.Listed, *model, word, *work, *out), *out)


class Models(unittest.TestCase):
    """H 0.5 ZZ, a jump ZI at 0.25, and a jump (IX + i IY) / 2 at 1."""

    def build(self, rates, places=12):
        """The model with these rates, in so many places for terms: the answer, and the model as calls take it."""
        texts = np.frombuffer(b"ZZZIIXIY", np.uint8)
        lengths, counts = np.array([2, 2, 2, 2], np.uint64), np.array([1, 2], np.uint64)
        numbers = np.array([1.0, 0.0, 0.5, 0.0, 0.0, 0.5])
        tables = [
            *(np.zeros(WORD_LANES, np.uint64), np.zeros(1)),
            *(np.zeros(16, np.uint64), np.zeros(2)),
            *(np.zeros(places * WORD_LANES, np.uint64), np.zeros(24)),
        ]
        work = np.zeros(272 * WORD_LANES, np.uint64), np.zeros(544)
        given = texts, lengths, np.array([0.5]), np.array(rates), counts, numbers
        built = call("build_model", _library.Built, *given, 2, *tables, *work)
        return built, (built.model, *tables)

    def test_built(self):
        built, _ = self.build([0.25, 1.0])
        self.assertEqual(counted(built), "1 Hamiltonian terms, 2 jumps and pairs, 5 terms")

    def test_tested(self):
        _, model = self.build([0.25, 1.0])
        self.assertEqual(call("test_model", _library.Status, *model).refusal, 0)

    def test_action(self):
        _, model = self.build([0.25, 1.0])
        self.assertEqual(action(model, "XI"), "XI -0.5, YZ -1")

    def test_rate_below_zero(self):
        built, _ = self.build([0.25, -1.0])
        self.assertEqual(counted(built), "refusal 5 (1)")

    def test_four_places_for_terms(self):
        built, _ = self.build([0.25, 1.0], places=4)
        self.assertEqual(counted(built), "refusal 13 (4, 4)")


class Matrices(unittest.TestCase):
    """Operators XI and IX, with a matrix K, added to a model of two qubits without items."""

    def add(self, k):
        """The model with K, row by row: the answer, and the model as calls take it."""
        texts, ones = np.frombuffer(b"XIIX", np.uint8), np.array([1, 1], np.uint64)
        lengths, numbers = np.array([2, 2], np.uint64), np.array([1.0, 0.0, 1.0, 0.0])
        tables = [
            *(NO_LANES, NO_NUMBERS),
            *(np.zeros(24, np.uint64), np.zeros(3)),
            *(np.zeros(8 * WORD_LANES, np.uint64), np.zeros(16)),
        ]
        work = np.zeros(258 * WORD_LANES, np.uint64), np.zeros(516)
        given = texts, lengths, ones, numbers, np.array(k, complex).view(np.float64)
        added = call("add_kossakowski", _library.Built, _library.Model(2, 0, 0, 0), *given, *tables, *work)
        return added, (added.model, *tables)

    def test_added(self):
        added, model = self.add([1, 1j, -1j, 1])
        self.assertEqual(counted(added), "0 Hamiltonian terms, 3 jumps and pairs, 8 terms")
        self.assertEqual(action(model, "IZ"), "IZ -2, XY -2")

    def test_not_hermitian(self):
        added, _ = self.add([1, 1j, 1j, 1])
        self.assertEqual(counted(added), "refusal 10 (0, 1)")


# H 0.5 (ZI + IZ), as calls take it.
TURNS = (
    _library.Model(2, 2, 0, 0),
    *(lanes("ZI", "IZ"), np.array([0.5, 0.5])),
    *(NO_LANES, NO_NUMBERS),
    *(NO_LANES, NO_NUMBERS),
)


class Leakage(unittest.TestCase):
    """What leaks out of XX and YY."""

    def leak(self, coeffs, max_basis, tau_add, protected=()):
        lengths = call("leakage_sizes", _library.LeakageLengths, 2, 2, len(protected), 4, 4)
        work = lent(lengths, work_sums=np.float64, cand_sums=np.float64)
        out = np.zeros(4 * WORD_LANES, np.uint64), np.zeros(4)
        given = lanes("XX", "YY"), np.array(coeffs), 2, lanes(*protected)
        limits = _library.Limits(max_basis, 0, 0, 1, tau_add)
        answer = call("leakage_with_prune", _library.Listed, *TURNS, *given, limits, *work, *out)
        return listed(answer, *out)

    def test_limits(self):
        self.assertEqual(self.leak([2.0, 1.0], 4, 0.0), "YX -1, XY -1")
        self.assertEqual(self.leak([2.0, 1.0], 3, 0.0), "YX -1")

    def test_protected(self):
        self.assertEqual(self.leak([2.0, 1.0], 4, 0.0, protected=["YX"]), "XY -1")

    def test_threshold(self):
        self.assertEqual(self.leak([2.0, 1.0], 4, 1.0), "nothing")

    def test_zero_sums(self):
        self.assertEqual(self.leak([1.0, 1.0], 4, 0.0), "nothing")
        self.assertEqual(self.leak([1.0, 1.0], 4, -1.0), "YX 0, XY 0")


class Generator(unittest.TestCase):
    """The generator over XX, YX, XY, YY. Rows and columns are positions in this basis."""

    basis = lanes("XX", "YX", "XY", "YY")

    def work(self):
        """The work tables for eight entries: two in each column."""
        lengths = call("generator_sizes", _library.GeneratorLengths, 2, 4, 4, 8)
        return lent(lengths, work_sums=np.float64, stage_rows=np.uint32, stage_columns=np.uint32, stage_values=np.float64)

    def by_rows(self):
        """The answer, and offsets, columns and values of the matrix by rows."""
        matrix = np.zeros(5, np.uint64), np.zeros(8, np.uint32), np.zeros(8)
        return call("build_csr", _library.Listed, *TURNS, self.basis, 4, *self.work(), *matrix), matrix

    def test_entries(self):
        rows, columns, values = np.zeros(8, np.uint32), np.zeros(8, np.uint32), np.zeros(8)
        out = rows, columns, values
        answer = call("generator", _library.Listed, *TURNS, self.basis, 4, *self.work(), *out)
        self.assertEqual((answer.status.refusal, answer.count), (0, 8))
        self.assertEqual(
            ", ".join(f"({row}, {column}) {number(value)}" for row, column, value in zip(*out)),
            "(1, 0) -1, (2, 0) -1, (0, 1) 1, (3, 1) -1, (0, 2) 1, (3, 2) -1, (1, 3) 1, (2, 3) 1",
        )

    def test_rows(self):
        answer, (offsets, columns, _) = self.by_rows()
        self.assertEqual((answer.status.refusal, answer.count), (0, 8))
        row = call("csr_row", _library.Row, 4, offsets, columns, 1)
        self.assertEqual(row.status.refusal, 0)
        self.assertEqual(columns[row.start : row.end].tolist(), [0, 3])

    def test_product(self):
        _, matrix = self.by_rows()
        output, work = np.full(4, 9.0), np.zeros(4)
        status = call("dot", _library.Status, 4, *matrix, np.array([1.0, 0.0, 0.0, 0.0]), True, output, work)
        self.assertEqual(status.refusal, 0)
        self.assertEqual(", ".join(map(number, output)), "0, -1, -1, 0")

    def partition(self, dt):
        """mu and norm, and the degree for a step."""
        *work, _, _, _ = self.work()
        sums = np.zeros(4), np.zeros(4)
        answer = call("expm_degree", _library.Partition, *TURNS, self.basis, 4, dt, 0.0, *work, *sums)
        if answer.status.refusal:
            return shown(answer.status)
        return f"{number(answer.mu)} and {number(answer.norm)}, degree ({answer.m}, {answer.s})"

    def test_norm_and_degree(self):
        self.assertEqual(self.partition(0.5), "0 and 2, degree (18, 1)")
        self.assertEqual(self.partition(1e300), "refusal 16 (1, 4294967295)")


if __name__ == "__main__":
    unittest.main()
