# SPDX-FileCopyrightText: 2026 The PPVM Authors
# SPDX-License-Identifier: Apache-2.0
"""Combinations of words: their sums, and their expectation in a product state.

A product state has one letter for each qubit, qubit 0 first:

    0  1    the eigenstates of Z with +1 and -1
    +  -    the eigenstates of X with +1 and -1
    r  l    the eigenstates of Y with +1 and -1: r is (|0> + i|1>)/sqrt 2, l is (|0> - i|1>)/sqrt 2
"""
import math

import numpy as np
from numpy.typing import NDArray

from . import _given
from ._lanes import LANES, MAX_QUBITS, split
from ._types import LaneTable, NumberTable
from .errors import InputError
from .words import qubits, site_text

# The letter whose eigenstate each is, and whether its number is -1.
_STATES = {"0": ("Z", 0), "1": ("Z", 1), "+": ("X", 0), "-": ("X", 1), "r": ("Y", 0), "l": ("Y", 1)}


def summed(
    words: LaneTable, values: NumberTable
) -> tuple[LaneTable, NumberTable]:
    """Words with the sum of their values, added in the order in which they stand: each word once, in word order,
    none with a sum of 0."""
    # The last key counts first: x[0] before all others.
    order = np.lexsort(words.T[::-1])
    ordered = words[order]
    first = np.ones(len(words), bool)
    first[1:] = (ordered[1:] != ordered[:-1]).any(axis=1)
    places = np.empty(len(words), np.intp)
    places[order] = np.cumsum(first) - 1
    sums = np.zeros(int(first.sum()))
    np.add.at(sums, places, values)
    kept = sums != 0
    return ordered[first][kept], sums[kept]


def expectation(n: int, words: LaneTable, values: NumberTable, state: str) -> float:
    """The expectation of words with their values in a product state, rounded once."""
    masks = _masks(n, state)
    x, z = words[:, :LANES], words[:, LANES:]
    letters = {"X": x & ~z, "Y": x & z, "Z": z & ~x}
    outside = (x | z) & ~(masks["X"] | masks["Y"] | masks["Z"])
    if outside.any():
        word = words[outside.any(axis=1).argmax()].tolist()
        raise InputError(f"the word {site_text(word)} has a letter at or above qubit {n}")
    # A letter other than that whose eigenstate its qubit is in has the expectation 0.
    other = [letters[letter] & ~masks[letter] for letter in "XYZ"]
    known = ~(other[0] | other[1] | other[2]).any(axis=1)
    signs = 1 - 2 * odd((x | z)[known] & masks["-1"])
    return math.fsum((signs * values[known]).tolist())


def _masks(n: int, state: str) -> dict[str, LaneTable]:
    """The qubits in an eigenstate of each letter, and those whose number is -1: as many lanes as a word has x lanes."""
    if not isinstance(state, str):
        raise InputError(f"{_given.shown(state)} is no product state: a text of 0 1 + - r l is needed")
    if len(state) != n or n > MAX_QUBITS:
        said = f"the state {_given.shown(state)} has {_given.counted(len(state), 'letter')}"
        raise InputError(f"{said}: one for each of {qubits(n)} is needed")
    masks = dict.fromkeys(("X", "Y", "Z", "-1"), 0)
    for qubit, letter in enumerate(state):
        if letter not in _STATES:
            raise InputError(f"qubit {qubit} has the state {letter!r}: 0, 1, +, -, r or l is needed")
        of, negative = _STATES[letter]
        masks[of] |= 1 << qubit
        masks["-1"] |= negative << qubit
    return {name: np.array(split(mask), np.uint64) for name, mask in masks.items()}


def odd(lanes: LaneTable) -> NDArray[np.int64]:
    """1 where the lanes of a row together have an odd number of bits."""
    bits: LaneTable = np.bitwise_xor.reduce(lanes, axis=1)
    for half in 32, 16, 8, 4, 2, 1:
        bits = bits ^ bits >> np.uint64(half)
    return (bits & np.uint64(1)).astype(np.int64)
