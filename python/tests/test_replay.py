# SPDX-FileCopyrightText: 2026 The PPVM Authors
# SPDX-License-Identifier: Apache-2.0
"""Every recorded answer of the published Rust is the library's too; and an answer that is another, a table that is
left otherwise or a damaged recording would show."""
import collections
import unittest
from collections.abc import Callable, Iterator
from typing import Any
from unittest import mock

import numpy as np

import replay
from pebblelinen import _library

# How many cases of each kind are recorded, so that an empty or a cut recording shows: those of at most 128 qubits, or
# more than 256, and those of 129 qubits or more.
CASES = {
    "texts": 382,
    "codes read": 384,
    "codes written": 400,
    "products": 400,
    "models": 92,
    "models refused": 100,
    "matrices": 32,
    "matrices refused": 24,
    "actions": 50,
    "actions of matrices": 51,
    "actions refused": 50,
    "prunes": 25,
    "caps": 25,
    "admissions": 25,
    "bases without the Rust": 22,
    "leakage": 54,
    "leakage of matrices": 25,
    "leakage without the Rust": 38,
    "generators": 23,
    "matrices by rows": 23,
    "norms and degrees": 20,
    "products of matrices": 25,
    "degrees": 314,
    "generators, norms, products and degrees without the Rust": 129,
}

WIDE = {
    "texts": 100,
    "codes read": 100,
    "codes written": 100,
    "products": 100,
    "models": 25,
    "models refused": 25,
    "matrices": 7,
    "matrices refused": 7,
    "actions": 12,
    "actions of matrices": 12,
    "actions refused": 12,
    "prunes": 6,
    "caps": 6,
    "admissions": 6,
    "bases without the Rust": 6,
    "leakage": 6,
    "leakage of matrices": 6,
    "leakage without the Rust": 6,
    "generators": 4,
    "matrices by rows": 4,
    "norms and degrees": 4,
    "generators, norms, products and degrees without the Rust": 9,
}
# Cases of 129 to 256 qubits in the first, which were refused when it was recorded.
LEFT_OUT = 51

# How many tables, the last of its parameters, each function writes to: all of them are compared, to their ends. Prune,
# cap and admission change their basis too, and what a model's own tables hold is not recorded.
WRITTEN = {
    "codes_from_word": 1,
    "build_model": 2,
    "add_kossakowski": 2,
    "compute_action_terms": 4,
    "prune_basis": 4,
    "cap_basis": 4,
    "add_leakage_capped": 3,
    "leakage_with_prune": 14,
    "generator": 13,
    "build_csr": 13,
    "expm_degree": 9,
    "dot": 2,
}
BASES = "prune_basis", "cap_basis", "add_leakage_capped"


# The numbers of a case, and the lanes of its recording.
Numbers = tuple[list[int], int]


def cases(*names: str) -> Iterator[Numbers]:
    """The cases of these recordings, or of all, but for those that are left out."""
    for name in names or replay.RECORDINGS:
        for _, lanes, line in replay.lines(name):
            numbers = replay.parsed(line)
            if not replay.is_left_out(numbers, lanes):
                yield numbers, lanes


def first_cases() -> Iterator[Numbers]:
    """The first case of each kind in each recording, but for codes of no qubits."""
    for name in replay.RECORDINGS:
        # Products and degrees have no register.
        missing = {22, 23} if name == "recorded-wide.txt" else set()
        first: dict[int, Numbers] = {}
        for numbers, lanes in cases(name):
            if numbers[0] not in first and replay.replay(numbers, lanes)[1].compared:
                first[numbers[0]] = numbers, lanes
        assert set(first) == set(replay.KINDS) - missing
        yield from first.values()


def written(name: str, arguments: tuple[Any, ...]) -> list[replay.Table]:
    """The tables that a call writes to."""
    tables = [argument for argument in arguments if isinstance(argument, np.ndarray)]
    last = tables[-WRITTEN[name] :] if name in WRITTEN else []
    return tables[:2] + last if name in BASES else last


def change_last(table: replay.Table) -> None:
    """Changes the lowest bit of the last number of a table."""
    table.view(f"u{table.itemsize}")[-1:] ^= 1


class Replay(unittest.TestCase):
    def replayed(self, name: str, lanes: int) -> tuple[collections.Counter[str], int]:
        """How many cases of each kind were replayed, and how many were left out."""
        counts: collections.Counter[str] = collections.Counter()
        left_out, wrong = 0, []
        for place, recorded, line in replay.lines(name):
            self.assertEqual(recorded, lanes)
            try:
                numbers = replay.parsed(line)
                if replay.is_left_out(numbers, recorded):
                    left_out += 1
                    continue
                about, _ = replay.replay(numbers, recorded)
            except (replay.Malformed, replay.Disagreement) as error:
                wrong.append(f"{place}: {type(error).__name__}: {str(error)[:200]}")
            else:
                counts[about] += 1
        self.assertEqual(len(wrong), 0, "\n" + "\n".join(wrong[:10]))
        return counts, left_out

    def test_every_recorded_answer_is_the_librarys(self) -> None:
        counts, left_out = self.replayed("recorded.txt", 2)
        self.assertEqual(counts, CASES)
        self.assertEqual(left_out, LEFT_OUT)

    def test_those_of_many_qubits_too(self) -> None:
        self.assertEqual(self.replayed("recorded-wide.txt", 4), (WIDE, 0))


class Changes(unittest.TestCase):
    """What is changed by one bit is found."""

    def changed(self, numbers: list[int], lanes: int, place: int) -> None:
        other = list(numbers)
        other[place] ^= 1
        with self.assertRaises(replay.Disagreement, msg=(numbers[0], place)):
            replay.replay(other, lanes)

    def test_a_recorded_number(self) -> None:
        """In each case one number of the answer: in one case the first, in the next the second, and so on."""
        found: collections.Counter[str] = collections.Counter()
        for turn, (numbers, lanes) in enumerate(cases("recorded.txt")):
            about, case = replay.replay(numbers, lanes)
            if case.compared:
                self.changed(numbers, lanes, case.compared[turn % len(case.compared)])
                found[about] += 1
        # The word of no qubits has no codes.
        self.assertEqual(found, {**CASES, "codes written": 389})

    def test_every_number_of_an_answer(self) -> None:
        """All that follows what is given is compared: in one case of each kind, number by number."""
        for numbers, lanes in first_cases():
            _, case = replay.replay(numbers, lanes)
            self.assertEqual(case.compared[-1], len(numbers) - 1)
            for place in case.compared:
                self.changed(numbers, lanes, place)

    def test_what_is_not_recorded(self) -> None:
        """That codes are written and models made, with their qubits, and that both products are the same word."""
        call = _library.call

        def other(name: str, *arguments: Any) -> Any:
            answer = call(name, *arguments)
            match name:
                case "codes_from_word":
                    answer.refusal = 1
                case "comm_product":
                    answer.word.z[1] ^= 1
                case "build_model" | "add_kossakowski":
                    answer.model.qubits ^= 1
            return answer

        untouched = 1, 2, 12, 13, 14, 15, 22, 23
        for numbers, lanes in first_cases():
            with mock.patch.object(_library, "call", other):
                if numbers[0] in untouched:
                    replay.replay(numbers, lanes)
                else:
                    with self.assertRaises(replay.Disagreement, msg=numbers[0]):
                        replay.replay(numbers, lanes)

    def test_a_lent_table(self) -> None:
        """The last place of each table that a call writes to, in turn, in one case of each kind that has it."""
        tried = set()
        for numbers, lanes in cases():
            for turn, (name, index, table) in enumerate(self.tables_of(numbers, lanes)):
                key = numbers[0], name, index
                if key in tried or not table.size:
                    continue
                tried.add(key)
                with mock.patch.object(_library, "call", self.changing(turn)):
                    with self.assertRaises(replay.Disagreement, msg=key):
                        replay.replay(numbers, lanes)
        all_tables = {(name, index) for name in WRITTEN for index in range(WRITTEN[name] + 2 * (name in BASES))}
        self.assertEqual({(name, index) for _, name, index in tried}, all_tables)

    @staticmethod
    def tables_of(numbers: list[int], lanes: int) -> list[tuple[str, int, replay.Table]]:
        """Every table that a case's calls write to, with the function and the table's place among its own."""
        call = _library.call
        tables: list[tuple[str, int, replay.Table]] = []

        def noted(name: str, *arguments: Any) -> Any:
            tables.extend((name, index, table) for index, table in enumerate(written(name, arguments)))
            return call(name, *arguments)

        with mock.patch.object(_library, "call", noted):
            replay.replay(numbers, lanes)
        return tables

    @staticmethod
    def changing(turn: int) -> Callable[..., Any]:
        """Calls of which one leaves something else in the table of this turn."""
        call = _library.call
        seen: list[replay.Table] = []

        def other(name: str, *arguments: Any) -> Any:
            answer = call(name, *arguments)
            before = len(seen)
            seen.extend(written(name, arguments))
            if before <= turn < len(seen):
                change_last(seen[turn])
            return answer

        return other


class Damage(unittest.TestCase):
    """What is no case is not taken for one."""

    def malformed(self, line: str) -> None:
        with self.assertRaises(replay.Malformed, msg=line):
            replay.replay(replay.parsed(line))

    def test_lines(self) -> None:
        for line in [
            "",
            " 1",
            "4 ",
            "17  0 0 0 0 0 1 1",
            "17 0 0 0 0 0 1 1 ",
            "17 0 0 0 0 0 1 1 # degrees",
            "17 0 0 0 0 0 1 -1",
            "17 0 0 0 0 0 1 0x1",
            "17 0 0 0 0 0 1 A",
            "17 0 0 0 0 0 1 1_0",
            "17 0 0 0 0 0 1 10000000000000000",
            "17\t0 0 0 0 0 1 1",
        ]:
            self.malformed(line)
        replay.replay(replay.parsed("17 0 0 0 0 0 1 1"))

    def test_kinds(self) -> None:
        for line in "0", "19 0 0 1 1", "ff", "f b 0", "f f c", "18 12 0", "18 18 13":
            self.malformed(line)

    def test_numbers_that_lack_or_are_too_many(self) -> None:
        """A case of each kind, cut at each place or with a number more."""
        for numbers, lanes in first_cases():
            for other in [*(numbers[:end] for end in range(len(numbers))), [*numbers, 0]]:
                with self.assertRaises(replay.Malformed, msg=(numbers[0], len(other))):
                    replay.replay(other, lanes)

    def test_numbers_too_large_for_their_table(self) -> None:
        self.malformed("1 1 1 158 0 0 0 1 0 0 0")
        self.malformed("16 1 1 2 1 1 1 1 1 0 1 100000000 0 0 0 0 0 0 0")


if __name__ == "__main__":
    unittest.main()
