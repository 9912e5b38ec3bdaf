# SPDX-FileCopyrightText: 2026 The PPVM Authors
# SPDX-License-Identifier: Apache-2.0
"""Product states, in which expectations of observables are taken: a Bloch vector for each qubit.

A qubit's state is a label or a Bloch vector [x, y, z]:

    0  1          the eigenstates of Z with +1 and -1
    +  -          the eigenstates of X with +1 and -1
    +i -i (r l)   the eigenstates of Y with +1 and -1

A product state is one of these for all qubits; a text with a letter for each qubit, qubit 0 first; a list with one
for each qubit; or a mapping with exceptions by qubit: {"all": "0", 3: "+", 5: [0, 0, 0.5]}, where "all" may be left
out if it is "0".
"""
import math
from collections import Counter
from collections.abc import Mapping, Sequence
from typing import Any, Union

import numpy as np
from numpy.typing import NDArray

from . import _given
from ._lanes import LANES, MAX_QUBITS, split
from ._sealed import Sealed, read_only
from ._types import ItemPath, LaneTable, NumberTable
from .combining import odd
from .errors import InputError
from .words import Qubit, qubits, register

_AXES = {"0": (2, 1.0), "1": (2, -1.0), "+": (0, 1.0), "-": (0, -1.0), "r": (1, 1.0), "l": (1, -1.0)}
_LABELS = {**_AXES, "+i": _AXES["r"], "-i": _AXES["l"]}
_NEEDED = "0, 1, +, -, +i, -i or a Bloch vector [x, y, z] is needed"

# How much longer than 1 a Bloch vector may be by rounding.
_ROUNDING = 1e-9

# The ways to give the state of a qubit, and that of all.
AnyQubitState = Union[str, Sequence[float], NDArray[Any]]
AnyState = Union["ProductState", AnyQubitState, Sequence[AnyQubitState], Mapping[Any, AnyQubitState]]


class ProductState(Sealed):
    """A product state of a register.

    n         the qubits of the register
    vectors   their Bloch vectors: an array of the shape (n, 3), to be read only
    """

    def __init__(self, n: int, given: AnyState = "0", path: ItemPath = ()) -> None:
        self.n = register(n)
        if self.n > MAX_QUBITS:
            raise InputError(f"a register of {qubits(self.n)}: at most {MAX_QUBITS}", path)
        self.vectors: NumberTable = read_only(_vectors(self.n, given, path))
        # Qubits whose component along an axis is 0, and -1; the others, but for those where it is 1.
        self._zero = [_mask(column == 0) for column in self.vectors.T]
        self._negative = [_mask(column == -1) for column in self.vectors.T]
        self._others = np.flatnonzero((~np.isin(self.vectors, (-1, 0, 1))).any(axis=1)).tolist()
        self._sealed = True

    def plain(self) -> str | list[list[float]]:
        """The state as plain values, in which it can be given: a letter for each qubit, or where that cannot be, a Bloch
        vector for each."""
        letters = {vector: label for label, vector in _named(*_AXES).items()}
        found = [letters.get(tuple(vector)) for vector in self.vectors.tolist()]
        if all(found) and found:
            return "".join(letter or "" for letter in found)
        return self.vectors.tolist() if found else "0"

    def exceptions(self) -> dict[str, str | list[float]]:
        """The state as what most qubits have, under "all", and what the others have, by their numbers."""
        labels = {vector: label for label, vector in _named("0", "1", "+", "-", "+i", "-i").items()}
        each = [labels.get(tuple(vector), vector) for vector in self.vectors.tolist()]
        vectors = list(map(tuple, self.vectors.tolist()))
        most = vectors.index(Counter(vectors).most_common(1)[0][0]) if vectors else 0
        others = {str(q): x for q, x in enumerate(each) if x != each[most]}
        return {"all": each[most] if each else "0", **others}

    def expectation(self, words: LaneTable, values: NumberTable) -> float:
        """The expectation of words with their values: the sum of each value times the components of the word's letters.
        The sum is rounded once."""
        x, z = words[:, :LANES], words[:, LANES:]
        by_axis = [x & ~z, x & z, z & ~x]
        none = _joined(letters & zero for letters, zero in zip(by_axis, self._zero))
        known = ~none.any(axis=1)
        by_axis = [letters[known] for letters in by_axis]
        signs = _joined(letters & negative for letters, negative in zip(by_axis, self._negative))
        factors: NumberTable = 1.0 - 2.0 * odd(signs)
        for qubit in self._others:
            lane, bit = qubit // 64, np.uint64(1 << qubit % 64)
            for letters, component in zip(by_axis, self.vectors[qubit].tolist()):
                if component not in (-1, 0, 1):
                    factors[(letters[:, lane] & bit) != 0] *= component
        return math.fsum((factors * values[known]).tolist())

    def __eq__(self, other: object) -> bool:
        if not isinstance(other, ProductState):
            return NotImplemented
        return np.array_equal(self.vectors, other.vectors)

    def __hash__(self) -> int:
        return hash(self.vectors.tobytes())

    def __repr__(self) -> str:
        return f"ProductState of {qubits(self.n)}"


def _joined(lanes: Any) -> LaneTable:
    """All bits of some arrays of lanes that have none in common."""
    first, second, third = lanes
    bits: LaneTable = first | second | third
    return bits


def _mask(chosen: NDArray[np.bool_]) -> LaneTable:
    """Lanes with the bits of the qubits that are chosen."""
    return np.array(split(sum(1 << qubit for qubit in np.flatnonzero(chosen).tolist())), np.uint64)


def _named(*labels: str) -> dict[str, tuple[float, ...]]:
    """The vectors of some labels."""
    return {label: tuple(_vector(label, "", ())) for label in labels}


def _vectors(n: int, given: Any, path: ItemPath) -> NumberTable:
    if isinstance(given, ProductState):
        if given.n != n:
            raise InputError(f"the state is of {qubits(given.n)}, and the register has {qubits(n)}", path)
        return given.vectors
    if isinstance(given, Mapping):
        return _with_exceptions(n, given, path)
    if isinstance(given, str):
        if given in _LABELS:
            return np.tile(_vector(given, "the state", path), (n, 1))
        if len(given) != n:
            said = f"the state {_given.shown(given)} has {_given.counted(len(given), 'letter')}"
            raise InputError(f"{said}: one for each of {qubits(n)}, or {_NEEDED}", path)
        return _each(n, given, path)
    items = _given.listed(given, "the state", path)
    if items and not any(isinstance(item, str) or hasattr(item, "__len__") for item in items):
        return np.tile(_vector(items, "the state", path), (n, 1))
    if len(items) != n:
        said = f"the state has {_given.counted(len(items), 'entry', 'entries')}"
        raise InputError(f"{said}: one for each of {qubits(n)}, or {_NEEDED}", path)
    return _each(n, items, path)


def _each(n: int, items: Sequence[Any], path: ItemPath) -> NumberTable:
    found = [_vector(item, f"the state of qubit {q}", (*path, q)) for q, item in enumerate(items)]
    return np.array(found, np.float64).reshape(n, 3)


def _with_exceptions(n: int, given: Mapping[Any, Any], path: ItemPath) -> NumberTable:
    found = np.tile(_vector(given.get("all", "0"), "the state of all qubits", (*path, "all")), (n, 1))
    seen: set[int] = set()
    for key, item in given.items():
        if key == "all" and isinstance(key, str):
            continue
        qubit = _qubit(key, n, (*path, str(key)))
        if qubit in seen:
            raise InputError(f"qubit {qubit} has two states", (*path, str(key)))
        seen.add(qubit)
        found[qubit] = _vector(item, f"the state of qubit {qubit}", (*path, str(key)))
    return found


def _qubit(key: Any, n: int, path: ItemPath) -> int:
    # Keys of a model file are texts.
    if isinstance(key, str) and key.isascii() and key.isdigit():
        key = int(key)
    if isinstance(key, str):
        raise InputError(f"{_given.shown(key)} is no qubit: its number or 'all' is needed", path)
    qubit = int(Qubit(key))
    if qubit >= n:
        raise InputError(f"qubit {qubit} is outside the register of {qubits(n)}", path)
    return qubit


def _vector(given: Any, what: str, path: ItemPath) -> list[float]:
    """The Bloch vector of a qubit."""
    if isinstance(given, str):
        if given not in _LABELS:
            raise InputError(f"{what} is {_given.shown(given)}: {_NEEDED}", path)
        axis, sign = _LABELS[given]
        return [sign * (axis == place) + 0.0 for place in range(3)]
    items = _given.listed(given, what, path)
    if len(items) != 3:
        raise InputError(f"{what} has {_given.counted(len(items), 'number')}: {_NEEDED}", path)
    vector = [_given.real(x, f"a component of {what}", path) for x in items]
    if not math.hypot(*vector) <= 1 + _ROUNDING:
        raise InputError(f"{what} has a Bloch vector of length {math.hypot(*vector)!r}: at most 1 is needed", path)
    return vector
