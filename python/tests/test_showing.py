# SPDX-FileCopyrightText: 2026 The PPVM Authors
# SPDX-License-Identifier: Apache-2.0
"""How terms, bases and models show themselves in IPython and Jupyter."""
import re
import unittest
import xml.etree.ElementTree

import numpy as np

from pebblelinen import Basis, Model, Terms


class Printer:
    """As much of IPython's printer as is used."""

    def __init__(self):
        self.printed = ""

    def text(self, text):
        self.printed += text

    def break_(self):
        self.printed += "\n"


def pretty(thing):
    printer = Printer()
    thing._repr_pretty_(printer, False)
    return printer.printed.splitlines()


def cells(thing):
    """The rows of every table of the HTML, which must be well formed."""
    root = xml.etree.ElementTree.fromstring(f"<div>{thing._repr_html_()}</div>")
    return [[[cell.text for cell in row] for row in table] for table in root.findall("table")]


class Showing(unittest.TestCase):
    def test_an_action(self):
        action = Model(2, {"X0 X1": 1.0}, [(0.5, {"X0": 0.5, "Y0": 0.5j})]).action("Z0")
        self.assertEqual(
            pretty(action),
            ["Terms of 3 words on 2 qubits", "  word   value", "  I0     0.5", "  Z0     -0.5", "  Y0 X1  2.0"],
        )
        rows = [["word", "value"], ["I0", "0.5"], ["Z0", "-0.5"], ["Y0 X1", "2.0"]]
        self.assertEqual(cells(action), [rows])
        self.assertIn("<p>Terms of 3 words on 2 qubits</p>", action._repr_html_())

    def test_a_basis(self):
        basis = Basis(128, {"Z40": 1.0, "X12 Z40": -0.25})
        rows = [["position", "word", "coefficient"], ["0", "Z40", "1.0"], ["1", "X12 Z40", "-0.25"]]
        self.assertEqual(cells(basis), [rows])
        self.assertEqual(pretty(basis)[0], "Basis of 2 entries on 128 qubits")
        self.assertEqual(pretty(basis)[3], "  1         X12 Z40  -0.25")

    def test_a_model(self):
        model = Model(
            2,
            {"X0 X1": 1.0, "Z0": 0.5},
            [(0.1, {"X0": 0.5, "Y0": 0.5j}), (0.2, "Z1")],
            [(["X0", "X1"], [[1, 0.5j], [-0.5j, 1]]), (["Z0"], [[2]])],
        )
        self.assertEqual(
            cells(model),
            [
                [["Hamiltonian term", "coefficient"], ["X0 X1", "1.0"], ["Z0", "0.5"]],
                [["jump", "operator", "rate"], ["0", "0.5 X0 + 0.5j Y0", "0.1"], ["1", "Z1", "0.2"]],
                [
                    ["matrix", "operator", "row of K"],
                    ["0", "X0", "1.0, 0.5j"],
                    ["0", "X1", "-0.5j, 1.0"],
                    ["1", "Z0", "2.0"],
                ],
            ],
        )
        self.assertEqual(pretty(model)[0], repr(model))
        self.assertIn("  0     0.5 X0 + 0.5j Y0  0.1", pretty(model))

    def test_ipython_finds_it_before_a_repr(self):
        # It looks at one class after another, and in each at what that class has itself.
        for kind in Terms, Basis, Model:
            self.assertIn("__repr__", vars(kind))
            self.assertIn("_repr_pretty_", vars(kind))

    def test_what_is_empty(self):
        self.assertEqual(pretty(Model(2)), ["Model of 2 qubits: 0 Hamiltonian terms, 0 jumps, 0 pairs"])
        self.assertEqual(cells(Model(2)), [])
        self.assertEqual(cells(Model(2).action("Z0")), [[["word", "value"]]])
        self.assertEqual(pretty(Basis(2)), ["Basis of 0 entries on 2 qubits", "  position  word  coefficient"])

    def test_long_tables_are_cut_with_a_count(self):
        words = [(f"{p}{q}", 1.0) for q in range(128) for p in "XYZ"]
        jumps = [(1.0, f"X{q}") for q in range(25)]
        model = Model(128, words, jumps, [([f"Z{q}" for q in range(21)], np.eye(21))])
        for table, more in zip(cells(model), (364, 5, 1)):
            self.assertEqual(len(table), 1 + 20 + 1)
            self.assertEqual(table[-1], [f".. and {more} more"])
        self.assertEqual(cells(model)[2][1][2], "1.0, 0.0, 0.0, 0.0, 0.0, 0.0, ..")
        for thing in Basis(128, words), Terms.of(words, n=128):
            (table,) = cells(thing)
            self.assertEqual((len(table), table[-1]), (22, [".. and 364 more"]))
            self.assertEqual(pretty(thing)[-1], "  .. and 364 more")
        self.assertEqual(len(cells(Basis(128, words[:20]))[0]), 21)

    def test_only_what_is_shown_is_made(self):
        # 65,536 words show themselves at once.
        basis = Basis.from_arrays(128, np.ones((65_536, 8), np.uint64))
        self.assertLess(len(basis._repr_html_()), 5000)
        self.assertFalse(re.search(r"\s$", pretty(basis)[1]))


if __name__ == "__main__":
    unittest.main()
