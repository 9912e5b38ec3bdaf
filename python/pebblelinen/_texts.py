# SPDX-FileCopyrightText: 2026 The PPVM Authors
# SPDX-License-Identifier: Apache-2.0
"""The texts of many words at once, for the library to read.

Words that were read before are written by numpy, eight letters at a time: one by one they would cost more than
the library needs for the whole model."""
import functools
import itertools
from collections.abc import Callable, Sequence
from dataclasses import dataclass
from typing import Any

import numpy as np
from numpy.typing import NDArray

from . import words
from ._lanes import LANES, MAX_QUBITS, WORD_LANES
from ._lanes import joined as joined_lanes
from ._tables import WorkTables
from ._types import ByteTable, ItemPath, LaneTable

# Words whose texts are written at a time.
_PART = 2048

# What an item is called, and the way to it, by its place.
Named = Callable[[int], tuple[str, ItemPath]]


@dataclass(frozen=True)
class Items:
    """Words as they were given, with a number each, and what each item is called, with the way to it."""

    words: Sequence[Any]
    numbers: NDArray[Any]
    named: Named

    def __len__(self) -> int:
        return len(self.words)

    def part(self, start: int, end: int) -> "Items":
        """Those from one place to before another."""
        return Items(self.words[start:end], self.numbers[start:end], lambda i: self.named(start + i))


def joined(lists: Sequence[Items], n: int, work: WorkTables) -> tuple[ByteTable, LaneTable]:
    """The bytes of the texts of all words in some lists, one after another, and the length of each. They may
    stand in a work table."""
    given = list(itertools.chain.from_iterable(items.words for items in lists))
    if n <= MAX_QUBITS:
        # A table that is kept: fresh memory would cost more than the letters.
        table: ByteTable = work.table("texts", n * len(given))
        if _write(given, table.reshape(len(given), n)):
            return table, np.full(len(given), n, np.uint64)
    each = [
        words.bytes_of(word, n, items.named(i)[1]) for items in lists for i, word in enumerate(items.words)
    ]
    texts = np.concatenate(each) if each else np.zeros(0, np.uint8)
    return texts, np.array([len(text) for text in each], np.uint64)


def _write(given: list[Any], texts: ByteTable) -> bool:
    """Writes the texts of words, a row of letters each, if all are words of that register and have no letter outside
    it: such a word is refused where it is written alone."""
    n = texts.shape[1]
    # A part at a time, which stays near the processor.
    for start in range(0, len(given), _PART):
        part = given[start : start + _PART]
        try:
            packed = [word.packed for word in part if word.n == n]
        except AttributeError:
            return False
        if len(packed) != len(part):
            return False
        lanes = np.frombuffer(b"".join(packed), np.uint64).reshape(-1, WORD_LANES)
        all_x, all_z = joined_lanes(np.bitwise_or.reduce(lanes).tolist())
        if (all_x | all_z) >> n:
            return False
        x, z = np.moveaxis(lanes.view(np.uint8).reshape(-1, 2, 8 * LANES), 1, 0)
        eights = _eights()[x | z.astype(np.uint16) << 8]
        texts[start : start + _PART] = eights.view(np.uint8)[:, :n]
    return True


@functools.cache
def _eights() -> LaneTable:
    """Eight letters by their bits: x in the lower byte, z in the upper."""
    both = np.arange(1 << 16, dtype="<u2").view(np.uint8).reshape(-1, 2, 1)
    x, z = np.moveaxis(np.unpackbits(both, axis=2, bitorder="little"), 1, 0)
    letters = np.frombuffer(words.LETTERS.encode(), np.uint8)
    eights: LaneTable = letters[x + 2 * z].view(np.uint64).reshape(-1)
    return eights
