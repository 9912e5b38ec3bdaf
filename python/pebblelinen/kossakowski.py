# SPDX-FileCopyrightText: 2026 The PPVM Authors
# SPDX-License-Identifier: Apache-2.0
"""Kossakowski matrices: whether they are positive, and one over many operators as several over few.

A matrix K over operators A adds, summed over all n and m, to the rate of change of an observable p and of a
state ρ

    K[n][m] (A_n† p A_m - (A_n† A_m p + p A_n† A_m) / 2)
    K[n][m] (A_m ρ A_n† - (A_n† A_m ρ + ρ A_n† A_m) / 2)

If yours is K[n][m] A_n ρ A_m†, give K.T.
"""
import warnings
from collections.abc import Callable, Hashable, Sequence
from typing import Any

import numpy as np
from numpy.typing import ArrayLike, NDArray

from . import _given
from .errors import InputError, NotPositive

# The most operators of a matrix.
MOST_OPERATORS = 64

# Eigenvalues from this part of the largest on, below 0, are more than rounding.
_ROUNDING = 1e-12


def warn_if_not_positive(
    ks: Sequence[NDArray[np.complex128]], operators: Callable[[], Sequence[Sequence[Hashable]]]
) -> None:
    """Warns where a K has an eigenvalue below 0, unless all matrices together have none: they add up where they
    have the same operators. Those of each matrix are asked for where they are needed."""
    lowest = [_below_zero(k) for k in ks]
    if not any(lowest):
        return
    together = _below_zero(_together(ks, operators()))
    if together:
        i = next(i for i, eigenvalue in enumerate(lowest) if eigenvalue)
        others = f", and {together:.6g} with all matrices added up" if len(ks) > 1 else ""
        warnings.warn(
            f"matrix {i}: K has the eigenvalue {lowest[i]:.6g}, below 0{others}: it is accepted, and the curve may"
            " grow beyond what a state allows",
            NotPositive,
            stacklevel=3,
        )


def _below_zero(k: NDArray[np.complex128]) -> float:
    """The lowest eigenvalue where it is below 0 by more than rounding, else 0. The library reads the entries of K on
    and above the diagonal, and so does this."""
    if not len(k):
        return 0.0
    eigenvalues = np.linalg.eigvalsh(k, UPLO="U")
    lowest = float(eigenvalues[0])
    return lowest if lowest < -_ROUNDING * abs(eigenvalues).max() else 0.0


def _together(
    ks: Sequence[NDArray[np.complex128]], operators: Sequence[Sequence[Hashable]]
) -> NDArray[np.complex128]:
    """One K over all operators: what is given for the same ones adds up."""
    places: dict[Hashable, int] = {}
    found = [[places.setdefault(each, len(places)) for each in listed] for listed in operators]
    whole = np.zeros((len(places), len(places)), np.complex128)
    for at, k in zip(found, ks):
        above = np.triu(k)
        np.add.at(whole, np.ix_(at, at), above + np.triu(above, 1).conj().T)
    return whole


def split_matrix(operators: Sequence[Any], k: ArrayLike) -> list[tuple[list[Any], NDArray[Any]]]:
    """A matrix over more than 64 operators as (operators, K) pairs over at most 64 each, which add up to it:

        Model(n, matrices=split_matrix(operators, K))

    Each pair of operators stands in one of them. Pairs count towards the 4,096 jumps and pairs of a model, so
    that a full K has at most 90 operators; entries of K that are 0 do not count."""
    listed, whole = _given.listed(operators, "operators"), _given.array(k, "K")
    count = len(listed)
    if whole.shape != (count, count):
        raise InputError(f"K has the shape {whole.shape}: {(count, count)} is needed, for {count} operators")
    if whole.dtype.kind not in "iufc":
        raise InputError(f"K is an array of {whole.dtype}: numbers are needed")
    if count <= MOST_OPERATORS:
        return [(listed, whole)]
    half = MOST_OPERATORS // 2
    blocks = [range(start, min(start + half, count)) for start in range(0, count, half)]
    parts = []
    for i, left in enumerate(blocks):
        for right in blocks[i + 1 :]:
            at = [*left, *right]
            part = whole[np.ix_(at, at)].copy()
            # What pairs a block with itself comes once: with the next block, or with the one before the last.
            if right is not blocks[i + 1]:
                part[: len(left), : len(left)] = 0
            if right is not blocks[-1] or left is not blocks[-2]:
                part[len(left) :, len(left) :] = 0
            parts.append(([listed[place] for place in at], part))
    return [(some, part) for some, part in parts if part.any()]
