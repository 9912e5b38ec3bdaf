# SPDX-FileCopyrightText: 2026 The PPVM Authors
# SPDX-License-Identifier: Apache-2.0
"""Leakage says the room that there was, and says in words where nothing could be listed for want of it."""
import copy
import math
import pickle
import unittest

import test_command
from pebblelinen import Basis, Leakage, Model, Terms

MODEL = Model(2, {"XX": 1.0, "ZI": 0.5, "IZ": 0.25})
NO_ROOM = "no word could be listed for want of room: max_basis or admit_basis must be above 1, the entries of the basis"
NO_BASIS = "this file has no basis to work on: give it a [basis] with words"


class Lists(unittest.TestCase):
    def test_room(self):
        basis = Basis(2, {"XY": 1.0})
        for max_basis, admit_basis, room, full in [
            (9, None, 8, False),
            (3, None, 2, True),
            (1, 4, 3, True),
            (4, 2, 3, True),
        ]:
            leaked = MODEL.leakage(basis, max_basis=max_basis, admit_basis=admit_basis)
            self.assertEqual((leaked.room, leaked.full, leaked.entries), (room, full, 1))
            self.assertEqual(repr(leaked), f"Leakage of {len(leaked)} words on 2 qubits, room for {room}")
            self.assertEqual(leaked.largest(), 2.0)
            self.assertEqual(str(leaked), str(Terms(2, leaked.words, leaked.values)))

    def test_no_room(self):
        basis = Basis(2, {"XY": 1.0})
        for max_basis, admit_basis in (1, None), (0, None), (0, 1):
            leaked = MODEL.leakage(basis, max_basis=max_basis, admit_basis=admit_basis)
            self.assertEqual((len(leaked), leaked.room, leaked.full), (0, 0, True))
            self.assertTrue(math.isnan(leaked.largest()))
            self.assertEqual(str(leaked), NO_ROOM)
            self.assertIn("room for 0", repr(leaked))
            self.assertEqual(basis.admit(leaked, limit=9), 1)

    def test_nothing_leaks(self):
        leaked = Model(2, {"XX": 1.0}).leakage(Basis(2, {"XX": 1.0}), max_basis=9)
        self.assertEqual((leaked.room, leaked.full, leaked.largest()), (8, False, 0.0))
        self.assertEqual(str(leaked), "no word leaks with a sum above 2^-40 in magnitude")
        leaked = MODEL.leakage(Basis(2, {"XY": 1.0}), max_basis=9, tau_add=5.0)
        self.assertEqual(str(leaked), "no word leaks with a sum above 5.0 in magnitude")

    def test_an_absent_tau_add_is_strictly_above_2_to_the_minus_40(self):
        model, tiny = Model(1, {"Z": 0.5}), 2.0**-40
        for coefficient, listed in (tiny, 0), (-tiny, 0), (math.nextafter(tiny, 1), 1):
            basis = Basis(1, {"X": coefficient})
            self.assertEqual(len(model.leakage(basis, max_basis=2)), listed)
            self.assertEqual(len(model.leakage(basis, max_basis=2, tau_add=tiny)), listed)
            for given in 0, 0.0, -0.0:
                self.assertEqual(len(model.leakage(basis, max_basis=2, tau_add=given)), 1)

    def test_no_basis(self):
        for max_basis in 0, 9:
            leaked = MODEL.leakage(Basis(2), max_basis=max_basis)
            self.assertEqual((leaked.room, leaked.full, leaked.largest()), (max_basis, False, 0.0))
            self.assertEqual(str(leaked), "nothing leaks out of a basis without entries")

    def test_tables_say_why_they_are_empty(self):
        for max_basis in 1, 9:
            leaked = Model(2, {"ZZ": 1.0}).leakage(Basis(2, {"ZI": 1.0}), max_basis=max_basis)
            self.assertIn(f"<p>Leakage of 0 words on 2 qubits, room for {max_basis - 1}</p>", leaked._repr_html_())
            self.assertIn(f">{leaked.why_empty()}</th>", leaked._repr_html_())

    def test_copies(self):
        leaked = MODEL.leakage(Basis(2, {"XY": 1.0}), max_basis=3)
        for other in copy.copy(leaked), copy.deepcopy(leaked), pickle.loads(pickle.dumps(leaked)):
            self.assertIsInstance(other, Leakage)
            self.assertEqual((repr(other), str(other)), (repr(leaked), str(leaked)))


class Command(test_command.Case):
    def test_room(self):
        lines = self.answered("leakage", self.path, "--max-basis", "3").splitlines()
        self.assertEqual(lines[1], "basis: 2 positions, 1 protected word; room for 1 word more")
        self.assertEqual(lines[3], "leakage: 1 word, largest 2.0; the room is full, and others may leak too")
        lines = self.answered("leakage", self.path, "--max-basis", "9", "--tau-add", "5").splitlines()
        self.assertEqual(lines[3:], ["leakage: no word leaks with a sum above 5.0 in magnitude"])

    def test_no_room(self):
        out = self.answered("leakage", self.path, "--max-basis", "2")
        self.assertIn("room for 0 words more", out)
        self.assertIn("leakage: " + NO_ROOM.replace("above 1", "above 2"), out)
        self.assertNotIn("largest", out)
        answer = self.json("leakage", self.path, "--max-basis", "2")
        self.assertEqual(answer, {"qubits": 3, "room": 0, "full": True, "largest": None, "terms": []})

    def test_csv_says_it_beside_the_table(self):
        for most, said in [
            ("2", NO_ROOM.replace("above 1", "above 2")),
            ("3", "1 word, largest 2.0; the room is full, and others may leak too"),
        ]:
            status, out, error = self.run_command("leakage", self.path, "--max-basis", most, "--csv")
            self.assertEqual((status, error), (0, f"pebblelinen: leakage: {said}\n"))
            self.assertEqual(out, "word,value\n" + "Y0 X1,2.0\n" * (most == "3"))

    def test_a_file_without_a_basis(self):
        for text in 'qubits = 1\n[hamiltonian]\n"Z" = 1', "qubits = 1\n[basis]":
            self.write(text)
            for command in ["leakage", "--max-basis", "9"], ["generator"], ["degree", "--dt", "1"]:
                status, out, error = self.run_command(*command, self.path)
                self.assertEqual((status, out, error), (2, "", f"pebblelinen: {self.path}: {NO_BASIS}\n"))

    def test_the_demonstration(self):
        arguments = "demo", "--rounds", "3", "--limit", "6"
        shown = self.answered(*arguments)
        self.assertRegex(shown, r"\n +1 +5 +2\.000000 +6 .*\n +2 +0 +no room +6 .*\n +3 +0 +no room +6 ")
        rounds = self.json(*arguments)["rounds"]
        self.assertEqual([each["largest_leakage"] for each in rounds], [2.0, None, None])


if __name__ == "__main__":
    unittest.main()
