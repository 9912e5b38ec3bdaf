# SPDX-FileCopyrightText: 2026 The PPVM Authors
# SPDX-License-Identifier: Apache-2.0
"""Words of other packages: their orders and counts, and back again."""
import random
import unittest

from pebblelinen import InputError, Qubit, Refusal, Word


class Elsewhere(unittest.TestCase):
    word = Word("X0 Y3 Z4", n=6)

    def test_each_order_and_count(self):
        for found in [
            Word.from_qiskit("IZYIIX"),
            Word.from_openfermion(((0, "X"), (3, "Y"), (4, "Z")), n=6),
            Word.from_openfermion([(4, "Z"), (0, "X"), (3, "Y")], n=6),
            Word.from_stim("+X__YZ_"),
            Word.from_stim("XIIYZI"),
            Word.from_julia("X", 1, "Y", 4, "Z", 5, n=6),
            Word.from_julia("Z", 5, "X", 1, "Y", 4, n=6),
        ]:
            self.assertEqual(found, self.word)
        self.assertEqual(self.word.to_qiskit(), "IZYIIX")
        self.assertEqual(self.word.to_openfermion(), ((0, "X"), (3, "Y"), (4, "Z")))
        self.assertEqual(self.word.to_stim(), "+X__YZ_")
        self.assertEqual(self.word.to_julia(), ("X", 1, "Y", 4, "Z", 5))

    def test_there_and_back(self):
        rng = random.Random(10)
        for n in 1, 2, 63, 64, 65, 128, 129, 192, 256:
            for _ in range(10):
                word = Word("".join(rng.choices("IXYZ", k=n)), n=n)
                self.assertEqual(Word.from_qiskit(word.to_qiskit()), word)
                self.assertEqual(Word.from_openfermion(word.to_openfermion(), n=n), word)
                self.assertEqual(Word.from_stim(word.to_stim()), word)
                self.assertEqual(Word.from_julia(*word.to_julia(), n=n), word)
        identity = Word("III", n=3)
        self.assertEqual(Word.from_openfermion((), n=3), identity)
        self.assertEqual(Word.from_julia(n=3), identity)
        self.assertEqual((identity.to_openfermion(), identity.to_julia(), identity.to_stim()), ((), (), "+___"))

    def test_a_blank_of_stim_is_a_letter(self):
        # The library's own texts drop it.
        self.assertEqual(Word.from_stim("X_Z").text, "XIZ")
        self.assertEqual(Word("X_Z", n=2).text, "XZ")

    def wrong(self, said, call, *given, **named):
        with self.assertRaises(InputError) as caught:
            call(*given, **named)
        self.assertIn(said, str(caught.exception))

    def test_a_word_has_no_sign(self):
        for text in "-XZ", "+iXZ", "-iXZ", "iXZ":
            self.wrong("a word has no sign or phase: give it to the word's number", Word.from_stim, text)
        for label in "-XZ", "iXZ", "-iXZ":
            self.wrong("a word has no sign or phase: give it to the word's number", Word.from_qiskit, label)

    def test_what_is_none(self):
        self.wrong("'_' in the Qiskit label 'X_Z': I, X, Y, Z are its letters", Word.from_qiskit, "X_Z")
        self.wrong("'x' in the Pauli string", Word.from_stim, "Xx")
        self.wrong("a text is needed", Word.from_qiskit, 5)
        self.wrong("a text is needed", Word.from_stim, None)
        self.wrong("qubit 1 comes twice", Word.from_openfermion, ((1, "X"), (1, "Z")), n=3)
        self.wrong("a pair is needed", Word.from_openfermion, ("X0",), n=3)
        self.wrong("a letter is needed", Word.from_openfermion, ((0, "XY"),), n=3)
        for site in 0, -1:
            self.wrong(f"a site is {site}: from 1 to 256 is needed", Word.from_julia, "X", site, n=3)
        self.wrong("qubit 1 comes twice", Word.from_julia, "X", 2, "X", 2, n=3)
        self.wrong("a site is needed after each letter", Word.from_julia, "X", 1, "Z", n=3)
        self.wrong("a whole number is needed", Word.from_julia, 1, "X", n=3)

    def test_sites_outside_the_register(self):
        for call in [
            lambda: Word.from_openfermion(((3, "X"),), n=3),
            lambda: Word.from_julia("X", 4, n=3),
        ]:
            with self.assertRaises(Refusal) as caught:
                call()
            self.assertEqual((caught.exception.number, caught.exception.values["qubit"]), (2, Qubit(3)))
        for call in Word.from_qiskit, Word.from_stim:
            with self.assertRaises(Refusal) as caught:
                call("X" * 257)
            self.assertEqual(caught.exception.number, 1)


if __name__ == "__main__":
    unittest.main()
