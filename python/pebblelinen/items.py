# SPDX-FileCopyrightText: 2026 The PPVM Authors
# SPDX-License-Identifier: Apache-2.0
"""What a model was built from, to be read and given again: its jumps and its Kossakowski matrices.

They are read from the library's own tables, where the words and numbers of every operator stand as they were
given. Rates of jumps and K are kept beside the tables, which hold them multiplied out."""
from collections.abc import Iterator, Mapping, Sequence
from typing import Any, NamedTuple

import numpy as np
from numpy.typing import NDArray

from ._lanes import WORD_LANES
from ._sealed import read_only
from ._types import LaneTable, NumberTable
from .words import Word, made

# Words with a complex number each.
Operator = tuple[tuple[Word, complex], ...]


class Jump(NamedTuple):
    """A jump as it was given: its rate, and its operator as (word, number) pairs."""

    rate: float
    operator: Operator

    def __str__(self) -> str:
        return f"{operator_text(self.operator)}, rate {self.rate!r}"


class Matrix(NamedTuple):
    """A Kossakowski matrix as it was given: its operators, and K with a row and a column for each, which is to be
    read only."""

    operators: tuple[Operator, ...]
    k: NDArray[np.complex128]

    def __str__(self) -> str:
        return f"{', '.join(map(operator_text, self.operators))}, K {' × '.join(map(str, self.k.shape))}"


class Added(NamedTuple):
    """Where a matrix was added: after so many jumps and pairs and so many terms; the terms of each of its
    operators, and K."""

    jumps: int
    terms: int
    counts: LaneTable
    k: NDArray[np.complex128]


def operator_text(operator: Operator) -> str:
    """An operator in one line: 0.5 X0 + 0.5j Y0. A word alone has the number 1."""
    if len(operator) == 1 and operator[0][1] == 1:
        return operator[0][0].by_site
    return " + ".join(f"{number_text(x)} {word.by_site}" for word, x in operator)


def number_text(x: complex) -> str:
    """A number for people: a real or imaginary one as such."""
    if x.imag == 0:
        return repr(x.real)
    return repr(x) if x.real else f"{x.imag!r}j"


def row_text(row: Sequence[complex]) -> str:
    """A row of K in one line, cut where it is long."""
    more = ", .." if len(row) > 6 else ""
    return ", ".join(map(number_text, row[:6])) + more


def operator(n: int, jump: int, tables: Mapping[str, NDArray[Any]]) -> Operator:
    """The operator of one jump."""
    start, end = tables["jumps"].reshape(-1, 8)[jump, 1:3].tolist()
    return tuple(_terms(n, tables, start, end))


def jumps(n: int, rates: NumberTable, tables: Mapping[str, NDArray[Any]]) -> tuple[Jump, ...]:
    """The jumps of a model, whose rates were given."""
    starts, ends = tables["jumps"].reshape(-1, 8)[: len(rates), 1:3].T.tolist()
    terms = _terms(n, tables, 0, max(ends, default=0))
    return tuple(Jump(rate, tuple(terms[s:e])) for rate, s, e in zip(rates.tolist(), starts, ends))


def matrices(n: int, added: Sequence[Added], tables: Mapping[str, NDArray[Any]]) -> tuple[Matrix, ...]:
    """The matrices of a model."""
    return tuple(Matrix(tuple(_operators(n, each, tables)), read_only(each.k)) for each in added)


def _operators(n: int, added: Added, tables: Mapping[str, NDArray[Any]]) -> Iterator[Operator]:
    """The operators of a matrix, which stand before its pairs."""
    start = added.terms
    for count in added.counts.tolist():
        yield tuple(_terms(n, tables, start, start + count))
        start += count


def _terms(
    n: int, tables: Mapping[str, NDArray[Any]], start: int, end: int
) -> list[tuple[Word, complex]]:
    words = tables["t_words"].reshape(-1, WORD_LANES)[start:end].tolist()
    numbers = tables["t_numbers"][2 * start : 2 * end].view(np.complex128).tolist()
    return [(made(lanes, n), x) for lanes, x in zip(words, numbers)]
