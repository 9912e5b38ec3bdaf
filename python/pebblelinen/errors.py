# SPDX-FileCopyrightText: 2026 The PPVM Authors
# SPDX-License-Identifier: Apache-2.0
"""What is raised: refusals of the library, and input that cannot be handed to it. And what is warned of."""
from collections.abc import Iterable, Mapping
from typing import Any

from ._types import ItemPath

# The causes for which the library refuses a call, by number.
CAUSES = {
    1: "qubits above 256",
    2: "text length wrong",
    3: "byte not I, X, Y, Z",
    4: "code above 3",
    5: "rate below 0",
    6: "operator without terms",
    7: "number outside its range",
    8: "a count above its limit",
    9: "lengths disagree",
    10: "K not Hermitian",
    11: "word bit at or above the register",
    12: "basis word again",
    13: "more places needed than lent",
    14: "leakage or product sum not finite",
    15: "written count of 2^62 or more",
    16: "more than 1,048,576 matrix products",
}


class PebblelinenError(Exception):
    """Everything that this package raises itself."""


class InputError(PebblelinenError, ValueError):
    """Input that cannot be handed to the library: not a number, not a word, an array of another type.

    path    the way to the item that is to blame, as in a refusal
    where   the file and key, where it was read from a file
    """

    def __init__(self, said: str, path: Iterable[str | int] = (), where: str = "") -> None:
        super().__init__(f"{where}: {said}" if where else said)
        self.said = said
        self.path: ItemPath = tuple(path)
        self.where = where

    def at(self, where: str) -> "InputError":
        """The same, read from there."""
        return type(self)(self.said, self.path, where)

    def __reduce__(self) -> tuple[Any, ...]:
        return type(self), (self.said, self.path, self.where)


class LibraryMissing(PebblelinenError, OSError):
    """The shared object, or a package that only some of the work needs (scipy for a matrix, matplotlib for a picture,
    h5py for a result file, xarray for a data set), is not there or cannot be loaded."""


class Refusal(PebblelinenError, ValueError):
    """The library refused a call. Nothing was changed.

    number   the number of the cause
    cause    the cause in words
    values   what the library returned with it, under names; a position in a basis is a Position
    path     the way to the item of the input that is to blame, where there is one: a key, then
             places, counted from 0, and further keys: ("jumps", 3, "operator", 1)
    where    the file and key, where it was read from a file
    """

    def __init__(
        self,
        number: int,
        said: str,
        values: Mapping[str, Any],
        path: Iterable[str | int] = (),
        where: str = "",
    ) -> None:
        super().__init__(f"{where}: " * bool(where) + f"refusal {number}: {said}")
        self.number = number
        self.cause = CAUSES[number]
        self.said = said
        self.values: dict[str, Any] = dict(values)
        self.path: ItemPath = tuple(path)
        self.where = where

    def at(self, where: str) -> "Refusal":
        """The same, read from there."""
        return type(self)(self.number, self.said, self.values, self.path, where)

    def __reduce__(self) -> tuple[Any, ...]:
        return type(self), (self.number, self.said, self.values, self.path, self.where)


class NotPositive(UserWarning):
    """A Kossakowski matrix has an eigenvalue below 0 by more than rounding. It is accepted, and the curve may
    grow beyond what a state allows."""
