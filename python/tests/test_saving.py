# SPDX-FileCopyrightText: 2026 The PPVM Authors
# SPDX-License-Identifier: Apache-2.0
"""Model files written from models: what is read back is the same, number for number."""
import math
import random
import tempfile
import unittest
from pathlib import Path

import numpy as np

import any_k
import dense
from pebblelinen import Basis, InputError, Model, Word, demo, load, modelfile, save

setUpModule = any_k.without_warning


class Saving(unittest.TestCase):
    def setUp(self):
        folder = tempfile.TemporaryDirectory()
        self.addCleanup(folder.cleanup)
        self.path = Path(folder.name) / "device.toml"

    def held(self, model, basis=None, protected=()):
        save(self.path, model, basis, protected)
        file = load(self.path)
        self.assertEqual(file.model, model)
        # Signs of zeros too, which are equal.
        for name, table in model._tables.items():
            self.assertEqual(file.model._tables[name].tobytes(), table.tobytes(), name)
        entries = Basis(model.n) if basis is None else basis
        self.assertEqual(file.basis.words.tobytes(), entries.words.tobytes())
        self.assertEqual(file.basis.coefficients.tobytes(), entries.coefficients.tobytes())
        self.assertEqual(file.protected, [Word(word, n=model.n) for word in protected])

    def test_random_models(self):
        rng = random.Random(11)
        for case in range(120):
            n = case % 5
            model = Model(n, *dense.random_model(rng, n, case % 2 == 0))
            texts = ["".join(rng.choices("IXYZ", k=n)) for _ in range(rng.randrange(4))]
            self.held(model, Basis(n, [(text, rng.uniform(-1, 1)) for text in texts]), texts[:2])
            self.held(model)

    def test_numbers_in_full(self):
        numbers = [0.1, -0.0, 0.0, 1e-30, 1e16, 1e22, 123456789.0, 2.0**200, -(2.0**-200), 1 / 3]
        model = Model(
            12,
            [(f"X{q}", x) for q, x in enumerate(numbers)],
            [(abs(x), [("X0", complex(x, y))]) for x in numbers for y in (0.0, -0.0, 0.5, -1e-5)],
            [(["X0", "Y0"], [[1, complex(-0.0, 1 / 3)], [complex(-0.0, -1 / 3), 0]])],
        )
        self.held(model, Basis(12, [("X0", math.inf), ("Y0", -math.inf), ("Z0", 5e-324), ("X1", -0.0)]))

    def test_words_that_come_twice(self):
        model = Model(
            2,
            [("X0", 1.0), ("Z1", 0.5), ("X0", 2.0)],
            [(1.0, [("X0", 1.0), ("X0", 1j)]), (0.5, "Z0")],
            [([[("Y0", 1), ("Y0", 2)], "Z1"], np.eye(2))],
        )
        self.held(model, Basis(2, [("Z0", 1.0), ("Z0", 2.0)]), ["Z0", "Z0"])

    def test_registers_of_every_kind(self):
        self.held(Model(0, {"": 0.5}, [(1.0, "")]), Basis(0, {"": 1.0}), [""])
        self.held(Model(1, {"I": 0.5}))
        self.held(Model(128))
        self.held(Model(256))
        self.held(demo.chain(), Basis(256, {"Z128": 1.0}))

    def test_how_a_file_looks(self):
        model = Model(
            2,
            {"X0 X1": 1.0, "Z0": 0.5},
            [(0.1, {"X0": 0.5, "Y0": 0.5j}), (0.2, "Z1")],
            [(["X0", {"X1": 2}], [[1, 0.5j], [-0.5j, 1]])],
        )
        self.assertEqual(
            modelfile.text_of(model, Basis(2, {"Z0": 1.0}), ["Z0"]),
            """\
qubits = 2
protected = ["Z0"]

[hamiltonian]
"X0 X1" = 1.0
"Z0" = 0.5

[[jumps]]
rate = 0.1
operator = { "X0" = 0.5, "Y0" = "0.5j" }

[[jumps]]
rate = 0.2
operator = "Z1"

[[matrices]]
operators = ["X0", { "X1" = 2.0 }]
k = [[1.0, "0.5j"], ["-0-0.5j", 1.0]]

[basis]
"Z0" = 1.0
""",
        )

    def test_a_basis_of_another_register(self):
        with self.assertRaises(InputError):
            save(self.path, Model(2), Basis(3))
        self.assertFalse(self.path.exists())

    def test_a_place_that_cannot_be_written(self):
        with self.assertRaises(InputError) as caught:
            save(self.path.parent, Model(2))
        self.assertTrue(str(caught.exception).startswith(f"{self.path.parent}: "))


if __name__ == "__main__":
    unittest.main()
