# SPDX-FileCopyrightText: 2026 The PPVM Authors
# SPDX-License-Identifier: Apache-2.0
"""Words with a value each, as actions and leakages list them."""
from collections.abc import Iterable, Iterator, Mapping
from typing import Any, TypeVar, Union, overload

import numpy as np
from numpy.typing import NDArray

from . import _given, combining
from ._lanes import WORD_LANES, pickled_before
from ._sealed import Sealed, read_only
from ._showing import Shown, Table
from ._types import LaneTable, NumberTable
from .errors import InputError
from .words import AnyWord, Word, lanes_of, made, places_of, qubits, register, same_register, site_text, table

_Default = TypeVar("_Default")


class Terms(Shown, Sealed):
    """Words with their values, which actions and leakages list in word order.

    n        the qubits of the register
    words    eight lanes each, x[0] to x[3], then z[0] to z[3]: an array of uint64 of the shape (words, 8)
    values   one number each: an array of float64

    `"X12 Z40" in terms`, `terms["X12 Z40"]` and `terms.get("X12 Z40")` take a word in every way of writing
    it; what is no word of the register raises.

    They are a combination of words: terms can be added, subtracted and multiplied by real numbers, and have an
    expectation in a product state.

    Arrays that are given are not copied where they can be lent as they are. Terms cannot be changed, and their
    arrays are to be read only: `terms.values.copy()` is your own.
    """

    def __init__(
        self, n: int, words: Iterable[Any] | NDArray[Any], values: Iterable[float] | NDArray[Any]
    ) -> None:
        self.n = register(n)
        self.lanes = read_only(_given.lanes(words, "words"))
        self.values = read_only(_given.numbers(values, "values"))
        self._sealed = True

    def __setstate__(self, state: dict[str, Any]) -> None:
        """What was pickled."""
        if 0 < WORD_LANES * len(state["values"]) == 2 * len(state["lanes"]):
            raise InputError(pickled_before("what is listed"))
        self.__dict__.update(state)

    @classmethod
    def of(cls, given: "AnyTerms", *, n: int) -> "Terms":
        """The terms of (word, value) pairs or of a mapping; terms are taken as they are."""
        if isinstance(given, Terms):
            return same_register(given, n, "list")
        items = _given.pairs(given, "term")
        lanes = table([word for word, _ in items], n, "words")
        return cls(n, lanes, [_given.real(x, f"value {i}", (i,)) for i, (_, x) in enumerate(items)])

    @property
    def words(self) -> LaneTable:
        """The words, eight lanes each: an array of uint64 of the shape (words, 8)."""
        return self.lanes[: len(self.lanes) // WORD_LANES * WORD_LANES].reshape(-1, WORD_LANES)

    def __len__(self) -> int:
        return len(self.values)

    def __contains__(self, word: AnyWord) -> bool:
        """Whether a word is listed, in whichever way it is written. What is no word raises."""
        return len(self._places(word)) > 0

    def __getitem__(self, word: AnyWord) -> float:
        """The value of a word, in whichever way it is written: 0.0 where it is not listed."""
        return self.get(word, 0.0)

    @overload
    def get(self, word: AnyWord) -> float | None: ...

    @overload
    def get(self, word: AnyWord, default: _Default) -> float | _Default: ...

    def get(self, word: AnyWord, default: object = None) -> object:
        """The value of a word, or the default where it is not listed."""
        places = self._places(word)
        if len(places) > 1:
            raise InputError(
                f"the word {site_text(lanes_of(word, self.n))} is listed in places"
                f" {' and '.join(map(str, places[:2].tolist()))}: it has no one value, and a loop over the"
                " terms shows all"
            )
        return float(self.values[places[0]]) if len(places) else default

    def _places(self, word: AnyWord) -> NDArray[np.intp]:
        return places_of(word, self.words, self.n)

    def __iter__(self) -> Iterator[tuple[Word, float]]:
        """(word, value), one after another."""
        for lanes, value in zip(self.words.tolist(), self.values.tolist()):
            yield made(lanes, self.n), value

    def by_site(self) -> dict[str, float]:
        """The values by the words' texts: {"X12 Z40": 0.5}. Of a word that comes twice, the last."""
        return dict(zip(map(site_text, self.words.tolist()), self.values.tolist()))

    def largest(self) -> float:
        """The largest magnitude; 0 where there are no words."""
        return float(abs(self.values).max(initial=0.0))

    # ---- as a combination ----

    # Numbers and arrays of numpy leave a product with terms to the terms: it would take them for a sequence.
    __array_ufunc__ = None

    def __add__(self, other: "Terms | int") -> "Terms":
        """The sum: each word once, in word order, none with a value of 0. Values are added in the order in which
        they stand. 0 can be added, so that sum() takes terms."""
        if isinstance(other, int) and other == 0:
            other = Terms(self.n, np.zeros(0, np.uint64), np.zeros(0))
        if not isinstance(other, Terms):
            return NotImplemented
        same_register(other, self.n, "list")
        words = np.concatenate((self.words, other.words))
        return Terms(self.n, *combining.summed(words, np.concatenate((self.values, other.values))))

    __radd__ = __add__

    def __sub__(self, other: "Terms") -> "Terms":
        return self + -other if isinstance(other, Terms) else NotImplemented

    def __neg__(self) -> "Terms":
        return Terms(self.n, self.lanes, -self.values)

    def __mul__(self, number: float) -> "Terms":
        """The same words, each value times a real number."""
        return Terms(self.n, self.lanes, self.values * _given.real(number, "the factor of terms"))

    __rmul__ = __mul__

    def __truediv__(self, number: float) -> "Terms":
        return Terms(self.n, self.lanes, self.values / _given.real(number, "the divisor of terms"))

    def expectation(self, state: str) -> float:
        """The expectation in a product state with one letter for each qubit, qubit 0 first: 0 and 1 are the
        eigenstates of Z with +1 and -1, + and - those of X, r and l those of Y. In "0" * n all qubits are in
        the ground state."""
        return combining.expectation(self.n, self.words, self.values, state)

    def __str__(self) -> str:
        shown = [(word.by_site, value) for word, value in self]
        width = max((len(text) for text, _ in shown), default=0)
        return "\n".join(f"{text:{width}}  {' ' * (value >= 0)}{value!r}" for text, value in shown)

    def _shown_tables(self) -> Iterator[Table]:
        rows = ((word.by_site, repr(value)) for word, value in self)
        yield Table(("word", "value"), rows, len(self))

    def __repr__(self) -> str:
        return f"Terms of {_given.counted(len(self), 'word')} on {qubits(self.n)}"


# The ways to give words with a value each.
AnyTerms = Union[Terms, Mapping[str, float], Mapping[Word, float], Iterable[tuple[AnyWord, float]]]
