# SPDX-FileCopyrightText: 2026 The PPVM Authors
# SPDX-License-Identifier: Apache-2.0
"""Model files: what they may hold, and each mistake that a user makes, with the file, the key and the
refusal named."""
import tempfile
import unittest
from pathlib import Path

from pebblelinen import InputError, Model, Refusal, load, modelfile

GOOD = """
qubits = 2
protected = ["Z0", "ZZ"]

[hamiltonian]
"X0 X1" = 1.0
"ZI" = 0.5

[[jumps]]
rate = 0.1
operator = { "X0" = 0.5, "Y0" = "0.5j" }

[[jumps]]
rate = 1
operator = "Z1"

[[matrices]]
operators = ["X0", { "X1" = 1 }, [["Y1", "1+2j"]]]
k = [[1, "0.5j", 0], ["-0.5j", 1, 0], [0, 0, "2"]]

[basis]
"Z0" = 1.0
"X0 Y1" = -0.5
"""


class Case(unittest.TestCase):
    def setUp(self):
        folder = tempfile.TemporaryDirectory()
        self.addCleanup(folder.cleanup)
        self.path = Path(folder.name) / "device.toml"

    def load(self, text):
        self.path.write_bytes(text if isinstance(text, bytes) else text.encode())
        return load(self.path)

    def refused(self, text, number, key, said):
        with self.assertRaises(Refusal) as caught:
            self.load(text)
        self.assertEqual(caught.exception.number, number)
        self.assertEqual(str(caught.exception), f"{self.path}: {key}: refusal {number}: {said}")

    def wrong(self, text, key, said):
        with self.assertRaises(InputError) as caught:
            self.load(text)
        self.assertNotIsInstance(caught.exception, Refusal)
        where = f"{self.path}: {key}: " if key else f"{self.path}: "
        self.assertTrue(str(caught.exception).startswith(where), caught.exception)
        self.assertIn(said, str(caught.exception))


class Files(Case):
    def test_what_a_file_holds(self):
        file = self.load(GOOD)
        model = Model(
            2,
            {"X0 X1": 1.0, "ZI": 0.5},
            [(0.1, {"X0": 0.5, "Y0": 0.5j}), (1, "Z1")],
            [(["X0", "X1", {"Y1": 1 + 2j}], [[1, 0.5j, 0], [-0.5j, 1, 0], [0, 0, 2]])],
        )
        self.assertEqual(repr(file.model), repr(model))
        for word in "XY", "ZZ", "YI":
            self.assertEqual(file.model.action(word).by_site(), model.action(word).by_site())
        self.assertEqual(file.basis.by_site(), {"Z0": 1.0, "X0 Y1": -0.5})
        self.assertEqual([word.by_site for word in file.protected], ["Z0", "Z0 Z1"])

    def test_what_may_be_left_out(self):
        file = self.load("qubits = 128")
        self.assertEqual((len(file.basis), file.protected), (0, []))
        self.assertEqual(len(file.model.action("X127")), 0)

    def test_lists_of_pairs(self):
        file = self.load('qubits = 1\nhamiltonian = [["Z", 0.25], ["Z", 0.25]]\nbasis = [["X", 1], ["X", 2]]')
        self.assertEqual(file.model.action("X").by_site(), {"Y0": -1.0})
        self.assertEqual(len(file.basis), 2)

    def test_the_example_in_the_help(self):
        text = modelfile.__doc__.split("\n\n", 1)[1].rsplit("\n\n", 1)[0]
        file = self.load("\n".join(line.strip() for line in text.splitlines()))
        self.assertEqual((len(file.model.jumps), file.model.pairs, len(file.basis)), (2, 3, 1))

    def test_word_of_a_wrong_length(self):
        self.refused(
            GOOD.replace('"ZI"', '"ZIX"'),
            2,
            'hamiltonian."ZIX"',
            "Hamiltonian item 1: the word 'ZIX' has 3 letters, and the register has 2 qubits",
        )

    def test_lower_case(self):
        self.refused(
            GOOD.replace('"Z1"', '"z1"'),
            3,
            "jumps[1].operator",
            "term 0 of jump 1: byte 122 ('z') at qubit 1 of the word 'z1' is not I, X, Y or Z; letters are capitals:"
            " 'Z1'",
        )
        self.refused(
            GOOD.replace('"X0 Y1" =', '"xy" ='),
            3,
            'basis."xy"',
            "byte 120 ('x') at place 0 of the word 'xy' is not I, X, Y or Z; letters are capitals: 'XY'",
        )

    def test_a_key_twice(self):
        self.wrong(GOOD.replace('"ZI"', '"X0 X1"'), "", "line 7")
        self.wrong("qubits = 1\nqubits = 2", "", "this is no TOML")

    def test_an_unknown_key(self):
        self.wrong(GOOD.replace("[hamiltonian]", "[hamiltonain]"), "", "did you mean hamiltonian?")
        self.wrong(GOOD.replace("rate = 0.1", "gamma = 0.1"), "jumps[0]", "known are rate, operator")
        self.wrong(GOOD.replace("k = ", "K = "), "matrices[0]", "'K' is unknown")

    def test_a_key_that_is_missing(self):
        self.wrong(GOOD.replace("qubits = 2", ""), "", "'qubits' is missing")
        self.wrong(GOOD.replace("rate = 0.1", ""), "jumps[0]", "'rate' is missing")

    def test_a_negative_rate(self):
        text = GOOD.replace("rate = 0.1", "rate = -0.1")
        self.refused(text, 5, "jumps[0].rate", "jump 0 has the rate -0.1, below 0")

    def test_nan(self):
        needed = "0, or 2^-200 to 2^200 in magnitude, is needed"
        text = GOOD.replace("rate = 0.1", "rate = nan")
        self.refused(text, 7, "jumps[0].rate", f"jump 0 has the rate nan: {needed}")
        text = GOOD.replace('"0.5j" }', '"nan" }')
        said = f"term 1 of jump 0 has the number (nan+0j): {needed}"
        self.refused(text, 7, 'jumps[0].operator."Y0"', said)
        text = GOOD.replace('"ZI" = 0.5', '"ZI" = inf')
        self.refused(text, 7, 'hamiltonian."ZI"', f"Hamiltonian item 1 has the number inf: {needed}")

    def test_qubit_256_of_256(self):
        said = "the word 'X256' has a letter at qubit 256, and the register has 256 qubits, 0 to 255"
        self.refused(
            'qubits = 256\n[hamiltonian]\n"X255" = 1\n"X256" = 1',
            2,
            'hamiltonian."X256"',
            f"Hamiltonian item 1: {said}",
        )
        self.refused('qubits = 256\n[basis]\n"X256" = 1', 2, 'basis."X256"', said)
        self.refused('qubits = 256\nprotected = ["Z0", "X256"]', 2, "protected[1]", said)

    def test_too_many_qubits(self):
        self.refused("qubits = 257", 1, "qubits", "a register of 257 qubits: at most 256")
        for given in "-1", "1.5", '"2"', "true", "[2]", "2000-01-01":
            self.wrong(f"qubits = {given}", "qubits", "the number of qubits is")

    def test_matrices(self):
        text = GOOD.replace('"-0.5j"', '"0.5j"')
        said = "matrix 0: K[0][1] is not the conjugate of K[1][0]: they are 0.5j and 0.5j; where that is an error of"
        self.refused(text, 10, "matrices[0].k[0][1]", f"{said} the measurement, give (K + K.conj().T) / 2")
        text = GOOD.replace(', [0, 0, "2"]]', "]")
        said = "matrix 0 has 6 entries in K (2 rows of 3), in place of 9 for 3 operators (3 rows of 3)"
        self.refused(text, 9, "matrices[0].k", said)
        text = GOOD.replace('k = [[1, "0.5j", 0]', 'k = [[1, "half", 0]')
        self.wrong(text, "matrices[0].k[0][1]", "'half' is no number")
        text = GOOD.replace('[["Y1", "1+2j"]]', "[]")
        self.refused(text, 6, "matrices[0].operators[2]", "operator 2 of matrix 0 has no terms")

    def test_values_of_other_kinds(self):
        for old, new, key, said in [
            ('"ZI" = 0.5', '"ZI" = "0.5"', 'hamiltonian."ZI"', "a real number is needed"),
            ('"ZI" = 0.5', '"ZI" = [1, 2]', 'hamiltonian."ZI"', "a real number is needed"),
            ("rate = 0.1", 'rate = "0.1"', "jumps[0].rate", "a real number is needed"),
            ("rate = 0.1", "rate = true", "jumps[0].rate", "a real number is needed"),
            ("rate = 0.1", "rate = 2000-01-01", "jumps[0].rate", "a real number is needed"),
            ('"0.5j" }', "[0, 0.5] }", 'jumps[0].operator."Y0"', "a number is needed"),
            ('operator = "Z1"', "operator = 5", "jumps[1].operator", "a list is needed"),
            ('["Z0", "ZZ"]', '"Z0"', "protected", "a list is needed"),
            ('["Z0", "ZZ"]', "[0]", "protected[0]", "is no word"),
            ('"Z0" = 1.0', '"Z0" = "1"', 'basis."Z0"', "a real number is needed"),
            ('"Z0" = 1.0', '"Z0 Z0" = 1', 'basis."Z0 Z0"', "qubit 0 comes twice"),
            ('"Z0" = 1.0', '"Z0Z1" = 1', 'basis."Z0Z1"', "no letter with its qubit"),
        ]:
            with self.subTest(new=new):
                self.wrong(GOOD.replace(old, new, 1), key, said)
        self.wrong("qubits = 1\njumps = 5", "jumps", "[[jumps]]")
        self.wrong("qubits = 1\njumps = [5]", "jumps[0]", "a table with rate and operator")
        self.wrong('qubits = 1\njumps = { rate = 1, operator = "X" }', "jumps", "[[jumps]]")
        self.wrong("qubits = 1\nhamiltonian = 5", "hamiltonian", "a list is needed")
        self.wrong("qubits = 1\nhamiltonian = [5]", "hamiltonian[0]", "a pair is needed")

    def test_files_that_are_no_model_files(self):
        self.wrong("qubits = ", "", "this is no TOML")
        self.wrong(b"\xff\xfe\0", "", "this is no TOML")
        self.wrong(b"a = [" * 5000, "", "this is no TOML")
        for path in self.path.with_name("missing.toml"), self.path.parent:
            with self.assertRaises(InputError) as caught:
                load(path)
            self.assertTrue(str(caught.exception).startswith(f"{path}: "))


if __name__ == "__main__":
    unittest.main()
