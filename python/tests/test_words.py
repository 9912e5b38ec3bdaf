# SPDX-FileCopyrightText: 2026 The PPVM Authors
# SPDX-License-Identifier: Apache-2.0
"""Words, qubits and positions."""
import copy
import itertools
import pickle
import unittest

import numpy as np

import dense
from pebblelinen import Basis, InputError, Position, Qubit, Refusal, Word


class Words(unittest.TestCase):
    def test_ways_to_give_a_word(self):
        word = Word("X12 Z40", n=128)
        self.assertEqual(word, Word({12: "X", 40: "Z"}, n=128))
        self.assertEqual(word, Word({Qubit(40): "Z", Qubit(12): "X"}, n=128))
        self.assertEqual(word, Word("I" * 12 + "X" + "I" * 27 + "Z" + "I" * 87, n=128))
        self.assertEqual(word, Word(" Z40   X12 ", n=128))
        self.assertEqual(word, Word(word, n=128))
        self.assertEqual(Word("XIZ", n=3), Word("X_I__Z", n=3))

    def test_printed_by_site_with_the_register(self):
        word = Word("Z40 X12", n=128)
        self.assertEqual(str(word), "X12 Z40 (128 qubits)")
        self.assertEqual(repr(word), "Word('X12 Z40', n=128)")
        self.assertEqual(str(Word("I", n=1)), "I0 (1 qubit)")
        self.assertEqual(eval(repr(word)), word)
        for text in dense.register(3):
            self.assertEqual(Word(Word(text, n=3).by_site, n=3).text, text)

    def test_letters(self):
        word = Word("IXYZ", n=4)
        self.assertEqual(word.text, "IXYZ")
        self.assertEqual(word.codes.tolist(), [0, 1, 3, 2])
        self.assertEqual(dict(word.letters), {Qubit(1): "X", Qubit(2): "Y", Qubit(3): "Z"})
        self.assertEqual([word.letter(qubit=q) for q in range(4)], list("IXYZ"))
        self.assertEqual(word.letter(qubit=Qubit(2)), "Y")
        self.assertEqual(Word.from_codes([0, 1, 3, 2]), word)
        self.assertEqual(Word.from_codes(np.array([0, 1, 3, 2], np.uint8)), word)
        self.assertEqual(Word.from_codes(bytes([0, 1, 3, 2])), word)
        self.assertEqual(Word.from_lanes(word.lanes, n=4), word)
        for q in 0, 63, 64, 127, 128, 191, 192, 255:
            self.assertEqual(Word({q: "Y"}, n=256).letter(qubit=q), "Y")
            self.assertEqual(Word(f"Y{q}", n=256).by_site, f"Y{q}")
            self.assertEqual(len(Word(f"Y{q}", n=256).letters), 1)

    def test_products_against_matrices(self):
        for p, q in itertools.product(dense.register(2), repeat=2):
            phase, product = Word(p, n=2).times(q)
            left = dense.matrix_of(p) @ dense.matrix_of(q)
            self.assertTrue((left == 1j**phase * dense.matrix_of(product.text)).all())
            swapped = dense.matrix_of(q) @ dense.matrix_of(p)
            self.assertEqual(Word(p, n=2).anticommutes(q), not (left == swapped).all())
            shared = any("I" not in pair for pair in zip(p, q))
            self.assertEqual(Word(p, n=2).shares_qubit(q), shared)

    def test_words_are_values(self):
        word = Word("X0", n=2)
        self.assertEqual(len({word, Word("XI", n=2), Word("X0", n=3)}), 2)
        self.assertEqual(pickle.loads(pickle.dumps(word)), word)
        self.assertEqual(copy.deepcopy(word), word)
        with self.assertRaises(AttributeError):
            word.n = 3
        self.assertNotEqual(word, None)
        for text in "X0", "XI", "Z0", "no word", {0: "X"}:
            for compare in (lambda: word == text), (lambda: text != word), (lambda: word in [text]):
                said = r"is no Word: compare with Word\(.*, n=2\), or compare word.by_site or word.text"
                with self.assertRaisesRegex(InputError, said):
                    compare()

    def test_what_is_no_word(self):
        for given in [
            "X0X1", "12", "XX12", "X1 Z1", "X 1", "X-1", "X123456", 5, None, b"X", ["X"], {0: "XX"}, {0: 1},
            {-1: "X"}, {"0": "X"}, {0.5: "X"}, {Position(0): "X"}, {True: "X"}, {10**30: "X"}, 1.5, Qubit(0),
        ]:  # fmt: skip
            with self.subTest(given=given), self.assertRaises(InputError):
                Word(given, n=2)
        for n in -1, 1.5, "2", None, True, 1 << 64, 10**5000, [2], Position(2), [[0]] * 10**6:
            with self.assertRaises(InputError):
                Word("XX", n=n)

    def test_texts_that_the_library_refuses(self):
        for given, number, values in [
            ("XZ_", 2, {"expected": 3, "got": 2}),
            ("", 2, {"expected": 3, "got": 0}),
            ("xYZ", 3, {"byte": 120, "place": 0}),
            ("X_QZ", 3, {"byte": 81, "place": 1}),
            ("é", 3, {"byte": 195, "place": 0}),
            ("X\udcff", 3, {"byte": 255, "place": 1}),
            ("x1", 3, {"byte": 120, "place": 1}),
            ({2: "é"}, 3, {"byte": 195, "place": 2}),
            ("X3", 2, {"expected": 3, "got": 4, "qubit": Qubit(3)}),
            ("X0 Z99999", 2, {"expected": 3, "got": 100_000, "qubit": Qubit(99_999)}),
        ]:
            with self.subTest(given=given), self.assertRaises(Refusal) as caught:
                Word(given, n=3)
            self.assertEqual((caught.exception.number, caught.exception.values), (number, values))


class Numbers(unittest.TestCase):
    def test_qubits_and_positions_are_never_equal(self):
        self.assertNotEqual(Qubit(3), Position(3))
        self.assertEqual(len({Qubit(3), Position(3), Qubit(3)}), 2)
        self.assertNotEqual(Qubit(3), 3)
        with self.assertRaises(TypeError):
            Qubit(3) < Position(4)
        with self.assertRaises(TypeError):
            Qubit(3) + 1
        self.assertLess(Qubit(3), Qubit(4))

    def test_they_say_what_they_are(self):
        self.assertEqual(str(Qubit(12)), "qubit 12")
        self.assertEqual(str(Position(17)), "position 17")
        self.assertEqual(pickle.loads(pickle.dumps(Position(17))), Position(17))
        self.assertEqual([10, 20, 30][Position(1)], 20)
        with self.assertRaises(AttributeError):
            Qubit(1)._number = 2

    def test_neither_is_taken_for_the_other(self):
        basis = Basis(2, {"X0": 1.0, "Z1": 0.5})
        with self.assertRaisesRegex(InputError, "qubit 1 stands where a position is needed"):
            basis.entry(position=Qubit(1))
        with self.assertRaisesRegex(InputError, "position 1 stands where a qubit is needed"):
            basis.touching(qubit=Position(1))
        with self.assertRaisesRegex(InputError, "position 1 stands where a qubit is needed"):
            Word("XI", n=2).letter(qubit=Position(1))
        with self.assertRaises(TypeError):
            basis.entry(1)
        with self.assertRaises(TypeError):
            basis.touching(1)


if __name__ == "__main__":
    unittest.main()
