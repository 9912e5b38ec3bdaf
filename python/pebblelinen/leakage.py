# SPDX-FileCopyrightText: 2026 The PPVM Authors
# SPDX-License-Identifier: Apache-2.0
"""What leaks out of a basis, with the room that there was to list it."""
import math
from collections.abc import Iterator
from typing import Any

from ._given import counted
from ._showing import Table
from .terms import Terms

# What an absent tau_add means: sums at rounding level are not listed.
TAU_ADD = 2.0**-40


class Leakage(Terms):
    """The words that leak out of a basis, with their sums, in word order.

    room       how many words there was room for beside the basis: no more are listed
    entries    how many entries the basis had
    tau_add    sums above it in magnitude were asked for; 2^-40 where none was given

    A list that has as many words as there was room for says nothing about others: `full` is true, and others
    may leak too. Without room nothing can be listed, whatever leaks.
    """

    def __init__(
        self, n: int, words: Any, values: Any, *, room: int, entries: int, tau_add: float = TAU_ADD
    ) -> None:
        self.room = room
        self.entries = entries
        self.tau_add = tau_add
        super().__init__(n, words, values)

    @property
    def full(self) -> bool:
        """Whether the list has all the words that there was room for, so that others may leak too."""
        return self.entries > 0 and len(self) == self.room

    def largest(self) -> float:
        """The largest magnitude: 0 where nothing leaks, NaN where there was no room to list what leaks."""
        return math.nan if self.full and not self.room else super().largest()

    def why_empty(self) -> str:
        """Why a list has no words."""
        if not self.entries:
            return "nothing leaks out of a basis without entries"
        if not self.room:
            return (
                "no word could be listed for want of room: max_basis or admit_basis must be above"
                f" {self.entries}, the entries of the basis"
            )
        above = "2^-40" if self.tau_add == TAU_ADD else repr(self.tau_add)
        return f"no word leaks with a sum above {above} in magnitude"

    def _shown_tables(self) -> Iterator[Table]:
        """In place of a table without rows, why there are none."""
        return super()._shown_tables() if len(self) else iter([Table((self.why_empty(),), (), 0)])

    def __str__(self) -> str:
        return super().__str__() or self.why_empty()

    def __repr__(self) -> str:
        return f"Leakage of {counted(len(self), 'word')} on {counted(self.n, 'qubit')}, room for {self.room}"
