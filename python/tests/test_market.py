# SPDX-FileCopyrightText: 2026 The PPVM Authors
# SPDX-License-Identifier: Apache-2.0
"""The generator as Matrix Market: against a program in exact numbers and against scipy's reader; what is refused, in
which order, and what is left in the lent tables; files that are written whole or not at all."""
import io
import math
import os
import random
import stat
import tempfile
import unittest
from pathlib import Path
from unittest import mock

import numpy as np
import scipy.io

import any_k
import dense
import market
import pebblelinen.model
import test_command
import test_refusals
from pebblelinen import Basis, InputError, Model, Position, _files, _library, _tables
from test_generator import everything, some

setUpModule = any_k.without_warning

EXAMPLE = b"%%MatrixMarket matrix coordinate integer general\n2 2 2\n2 1 -4294967296\n1 2 4294967296\n"
TURN, XY = Model(1, {"Z": 0.5}), Basis(1, {"X": 0.0, "Y": 0.0})

# Qubits whose X and Y a field turns into each other: the entries are minus and plus twice its number.
QUBITS = 128
TURNED = Basis(QUBITS, [(f"{letter}{q}", 0.0) for q in range(QUBITS) for letter in "XY"])


def fields(values):
    """A model with these values among the entries over TURNED, each with both signs."""
    return Model(QUBITS, [(f"Z{q}", value / 2) for q, value in enumerate(values)])


class Texts(unittest.TestCase):
    def held(self, model, basis):
        """The text is the one that the generator's entries make."""
        text = model.matrix_market(basis)
        self.assertEqual(text, market.text(len(basis), market.entries(model.generator(basis))))
        return text

    def test_example(self):
        self.assertEqual(TURN.matrix_market(XY), EXAMPLE)

    def test_nothing(self):
        self.assertEqual(TURN.matrix_market(Basis(1)), market.HEADER + b"0 0 0\n")
        self.assertEqual(Model(0, {"": 0.5}).matrix_market(Basis(0, {"": 1.0})), market.HEADER + b"1 1 0\n")

    def test_random_models(self):
        rng = random.Random(21)
        for case in range(60):
            n = 1 + case % 3
            model = Model(n, *dense.random_model(rng, n, case % 2 == 0))
            self.held(model, everything(n) if case % 5 == 0 else some(rng, n, rng.randrange(4**n)))

    def test_tables_grow(self):
        texts = dense.register(4)
        model = Model(4, [(text, 1 / (place + 3)) for place, text in enumerate(texts[1:])])
        self.assertEqual(self.held(model, everything(4)).count(b"\n"), 2 + 255 * 128)

    def test_rounding(self):
        """Values about every half and whole count, of every size, and at random."""
        rng = random.Random(22)
        unit = 2.0**-32
        halves = [k * unit / 2 for k in (1, 2, 3, 5, 7, 2**20 + 1, 2**33 - 1, 2**33 + 1, 2**52 + 1, 2**53 - 1)]
        about = [math.nextafter(x, way) for x in halves for way in (0.0, math.inf)]
        edges = [2.0**-40, 2.0**-199, 2.0**20 + unit * 2**9, 2.0**29, math.nextafter(2.0**30, 0.0)]
        values = [*halves, *about, *edges]
        values += [math.ldexp(rng.uniform(0.5, 1.0), rng.randint(-40, 30)) for _ in range(2000)]
        values += [(rng.randrange(2**rng.randint(1, 53)) + 0.5) * unit for _ in range(1000)]
        for start in range(0, len(values), QUBITS):
            part = values[start : start + QUBITS]
            lines = self.held(fields(part), TURNED).splitlines()[2:]
            found = [int(line.split()[2]) for line in lines]
            self.assertEqual(found, [whole for x in part for whole in (-market.count(x), market.count(x))])

    def test_rounding_by_hand(self):
        unit = 2.0**-32
        for value, written in [
            (unit / 2, b"1"),
            (unit * 1.5, b"2"),
            (math.nextafter(unit / 2, 0), b"0"),
            (math.nextafter(unit * 1.5, 0), b"1"),
            (2.0**-40, b"0"),
            (math.nextafter(2.0**30, 0), b"4611686018427387392"),
        ]:
            minus = b"0" if written == b"0" else b"-" + written
            text = market.HEADER + b"2 2 2\n2 1 " + minus + b"\n1 2 " + written + b"\n"
            self.assertEqual(Model(1, {"Z": value / 2}).matrix_market(XY), text)

    def test_read_by_scipy(self):
        rng = random.Random(23)
        models = [Model(3, *dense.random_model(rng, 3, False)) for _ in range(8)]
        cases = [(model, some(rng, 3, 40)) for model in models]
        cases += [(fields([math.ldexp(rng.uniform(0.5, 1.0), q % 70 - 39) for q in range(QUBITS)]), TURNED)]
        for model, basis in cases:
            read = scipy.io.mmread(io.BytesIO(model.matrix_market(basis)))
            made = model.generator(basis)
            self.assertEqual((read.shape, read.dtype.kind), (made.shape, "i"))
            self.assertEqual(read.row.tolist(), made.row.tolist())
            self.assertEqual(read.col.tolist(), made.col.tolist())
            # Counts from 2^53 on are those of numbers that need no rounding, so all of these are exact.
            exact = [float(market.count(value) * market.UNIT) for value in made.data.tolist()]
            self.assertEqual((read.data * 2.0**-32).tolist(), exact)
            # No value is off by more than half a count.
            np.testing.assert_allclose(read.data * 2.0**-32, made.data, rtol=0, atol=2.0**-33)


class Calls(unittest.TestCase):
    """The library's call in tables of exactly so many places, with something in all of them."""

    FILLER = 165

    def ask(self, model, basis, refusal, *, touched=8, entries=64, text=4096, short=None):
        """Asks, holds the answer to a refusal with its values, or to the text, and looks at every table."""
        lengths = _library.call("generator_sizes", model.n, len(basis), touched, entries)
        if short is not None:
            setattr(lengths, short[0], short[1])
        work = [
            np.full(getattr(lengths, name), self.FILLER, _tables._TYPES.get(name, np.uint64))
            for name, *_ in lengths._fields_
        ]
        out = np.full(text, self.FILLER, np.uint8)
        written = _library.call("matrix_market", *model._lent(), basis.lanes, len(basis), *work, out)
        status = written.status
        self.assertEqual((status.refusal, status.first, status.second), refusal)
        if status.refusal == 0:
            expected = market.text(len(basis), market.entries(model.generator(basis)))
            self.assertEqual(out[: written.bytes].tobytes(), expected)
        else:
            self.assertEqual(written.bytes, 0)
        self.assertTrue((out[written.bytes :] == self.FILLER).all())
        held = 0 if status.refusal in (0, 13, 15) else self.FILLER
        for table in work:
            self.assertTrue((table == held).all())
        return written.bytes

    def test_places(self):
        large = Model(2, {"ZI": 2.0**40, "IZ": 0.5})
        basis = Basis(2, [(text, 0.0) for text in ("XI", "YI", "IX", "IY")])
        self.ask(large, basis, (13, 1, 0), touched=0, entries=0, text=0)
        self.ask(large, basis, (13, 3, 3), entries=3)
        self.ask(large, basis, (13, 3, 3), entries=3, text=0)
        self.ask(large, basis, (15, 1, 0), entries=4)
        self.ask(large, basis, (15, 1, 0), entries=4, text=0)
        late = Model(2, {"ZI": 0.5, "IZ": 2.0**29})
        self.ask(late, basis, (15, 3, 0), entries=4, text=0)
        late = Model(2, {"ZI": 0.5, "IZ": math.nextafter(2.0**29, 0.0)})
        length = self.ask(late, basis, (0, 0, 0), touched=1, entries=4)
        self.ask(late, basis, (0, 0, 0), touched=1, entries=4, text=length)
        self.ask(late, basis, (0, 0, 0), touched=1, entries=4, text=length + 1)
        self.ask(late, basis, (13, 5, length - 1), touched=1, entries=4, text=length - 1)
        self.ask(late, basis, (13, 5, 0), touched=1, entries=4, text=0)
        for name in "stage_rows", "stage_columns", "stage_values":
            self.ask(late, basis, (13, 3, 3), entries=9, short=(name, 3))

    def test_tests_before_places(self):
        large = Model(2, {"ZI": 2.0**40})
        none = {"touched": 0, "entries": 0, "text": 0}
        again = Basis(2, [("XI", 0.0), ("YI", 0.0), ("XI", 0.0)])
        self.ask(large, again, (12, 2, 0), **none)
        outside = Basis.from_arrays(2, Basis(3, [("X0", 0.0), ("X2", 0.0), ("X0", 0.0)]).words)
        self.ask(large, outside, (11, 1, 0), **none)
        needs = [("h_index", 128), ("j_index", 128), ("mask", 64), ("heads", 3), ("nexts", 3)]
        for name, needed in needs:
            self.ask(large, outside, (9, needed, needed - 1), short=(name, needed - 1), **none)
        many = Basis.from_arrays(2, np.zeros((65_537, outside.words.shape[1]), np.uint64))
        self.ask(large, many, (8, 65_537, 0), **none)

    def test_lengths(self):
        """Header, size line and entries at their longest."""
        longest = len(b"65536 65536 -4611686018427387392\n")
        head = len(market.HEADER) + len(b"65536 65536 4294967296\n")
        for entries in 0, 1, 440_824, 2**32:
            self.assertEqual(_library.call("matrix_market_text", entries), head + longest * entries)
        self.assertEqual(_library.call("matrix_market_text", 2**64 - 1), head + longest * 2**32)


class Refusals(test_refusals.Case):
    def test_15(self):
        model = Model(2, {"Z0": 0.5, "Z1": 2.0**40})
        basis = Basis(2, {"X0": 0.0, "Y0": 0.0, "X1": 0.0, "Y1": 0.0})
        values = {"entry": 3, "row": Position(3), "column": Position(2), "value": -(2.0**41)}
        said = (
            "entry 3 of the generator, in the row of Y1 (position 3) and the column of X1 (position 2), is"
            " -2199023255552.0: values are written in counts of 2^-32, and from 2^30 on in magnitude they cannot be;"
            " in a larger unit, with the model's coefficients, rates and K divided by 2^12, all can"
        )
        self.refused(15, values, said, lambda: model.matrix_market(basis))
        smaller = Model(2, [(word, x / 2**12) for word, x in model.hamiltonian])
        self.assertEqual(len(smaller.matrix_market(basis).splitlines()), 6)

    def test_others(self):
        model = Model(3, {"Z0": 1})
        self.refused(
            12,
            {"position": Position(1)},
            "the word X0 at position 1 stood at a lower position",
            lambda: model.matrix_market(Basis(3, [("X0", 1), ("X0", 1)])),
        )
        with self.assertRaises(InputError):
            model.matrix_market(Basis(2))
        texts = [a + b for a in "XYZ" for b in "IXYZ"]
        model = Model(2, [(text, 1.0) for text in texts])
        with mock.patch.object(pebblelinen.model, "MOST_TOUCHED", 2):
            model._touched = 1
            said = "table 1 needs more than 2 places"
            self.refused(13, {"table": 1, "places": 2}, said, lambda: model.matrix_market(everything(2)))


class Files(unittest.TestCase):
    def setUp(self):
        folder = tempfile.TemporaryDirectory()
        self.addCleanup(folder.cleanup)
        self.folder = Path(folder.name)
        self.path = self.folder / "turn.mtx"

    def test_written(self):
        TURN.write_matrix_market(XY, self.path)
        self.assertEqual(self.path.read_bytes(), EXAMPLE)
        TURN.write_matrix_market(Basis(1), str(self.path))
        self.assertEqual(self.path.read_bytes(), market.HEADER + b"0 0 0\n")
        self.assertEqual([*self.folder.iterdir()], [self.path])

    def test_whole_or_not_at_all(self):
        self.path.write_bytes(b"before")
        failing = [mock.patch.object(os, name, side_effect=OSError(28, "No space left")) for name in ("fsync", "replace")]
        for failure in failing:
            with failure, self.assertRaises(InputError) as caught:
                TURN.write_matrix_market(XY, self.path)
            self.assertEqual(str(caught.exception), f"{self.path}: No space left")
        with mock.patch.object(os, "replace", side_effect=KeyboardInterrupt), self.assertRaises(KeyboardInterrupt):
            _files.write_whole(self.path, EXAMPLE)
        with self.assertRaises(pebblelinen.Refusal):
            Model(1, {"Z": 2.0**40}).write_matrix_market(XY, self.path)
        self.assertEqual(self.path.read_bytes(), b"before")
        self.assertEqual([*self.folder.iterdir()], [self.path])

    def test_rights_and_links(self):
        before = os.umask(0o027)
        self.addCleanup(os.umask, before)
        TURN.write_matrix_market(XY, self.path)
        self.assertEqual(stat.S_IMODE(self.path.stat().st_mode), 0o640)
        self.path.chmod(0o604)
        link = self.folder / "link.mtx"
        link.symlink_to(self.path)
        TURN.write_matrix_market(Basis(1), link)
        self.assertTrue(link.is_symlink())
        self.assertEqual(stat.S_IMODE(self.path.stat().st_mode), 0o604)
        self.assertEqual(self.path.read_bytes(), market.HEADER + b"0 0 0\n")

    def test_places_that_cannot_be_written(self):
        for path, said in [
            (self.folder, "this is no file"),
            (self.folder / "none" / "turn.mtx", "No such file"),
            ("/dev/null", "this is no file"),
        ]:
            with self.assertRaises(InputError) as caught:
                TURN.write_matrix_market(XY, path)
            self.assertTrue(str(caught.exception).startswith(f"{path}: {said}"), caught.exception)
        self.assertEqual([*self.folder.iterdir()], [])


class Command(test_command.Case):
    def setUp(self):
        super().setUp()
        self.write('qubits = 1\n[hamiltonian]\n"Z" = 0.5\n[basis]\n"X" = 1\n"Y" = 0')
        self.out = str(Path(self.path).parent / "turn.mtx")

    def written(self):
        return Path(self.out).read_bytes()

    def test_generator(self):
        lines = self.answered("generator", self.path, "--matrix-market", self.out).splitlines()
        self.assertEqual(lines[2], "generator over 2 positions: 2 entries, by column, then by word")
        self.assertEqual(lines[3], f"written to {self.out} as Matrix Market, values in counts of 2^-32")
        self.assertEqual(self.written(), EXAMPLE)
        Path(self.out).unlink()
        answer = self.json("generator", self.path, "--matrix-market", self.out)
        told = {"qubits": 1, "basis": ["X0", "Y0"], "matrix_market": self.out, "count": 2, "bytes": len(EXAMPLE)}
        self.assertEqual(answer, told)
        self.assertEqual(self.written(), EXAMPLE)

    def test_refusals(self):
        Path(self.out).write_bytes(b"before")
        self.write('qubits = 1\n[hamiltonian]\n"Z" = 1e12\n[basis]\n"X" = 1\n"Y" = 0')
        status, out, error = self.run_command("generator", self.path, "--matrix-market", self.out)
        self.assertEqual((status, out), (1, ""))
        self.assertIn("refusal 15: entry 1 of the generator, in the row of Y0 (position 1)", error)
        status, out, _ = self.run_command("generator", self.path, "--matrix-market", self.out, "--json")
        self.assertEqual(status, 1)
        self.assertIn('"values": {"entry": 1, "row": 1, "column": 0, "value": -2000000000000.0}', out)
        status, out, error = self.run_command("generator", self.path, "--matrix-market", self.out, "--csv")
        self.assertEqual((status, out), (2, ""))
        self.assertIn("there is no table of them for --csv", error)
        status, out, error = self.run_command("generator", self.path, "--matrix-market")
        self.assertEqual((status, out), (2, ""))
        self.assertEqual(self.written(), b"before")


if __name__ == "__main__":
    unittest.main()
