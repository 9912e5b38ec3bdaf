# SPDX-FileCopyrightText: 2026 The PPVM Authors
# SPDX-License-Identifier: Apache-2.0
"""The predictor-corrector step: a basis that grows, is evolved over one time step, and is shortened again.

The step is one call of the library. Its parts stand here too, in their order, for those who need what a step has before
it is shortened, and for what is to be said of a refusal. All parts work on a copy: the basis given never changes."""
import random
from typing import TYPE_CHECKING, Any, NamedTuple

import numpy as np

from . import _given, _library
from ._lanes import WORD_LANES, split
from ._types import LaneTable
from .basis import AnyWords, Basis, refusal
from .words import MAX_WORDS, table

if TYPE_CHECKING:
    from .model import Model


class Stepped(NamedTuple):
    """A basis after a step, and how many products with the generator it took."""

    basis: Basis
    products: int


class Rules(NamedTuple):
    """What a step goes by besides its length.

    max_basis     the words that stay at the end
    admit_basis   the words that there is room for until then; where it is None or below max_basis, max_basis
    tau_add       what leaks is admitted above it in magnitude; None is 2^-40
    drop_tol      what is below it in magnitude at the end is dropped; from 1e-4 on evolutions are less accurate
    protected     words that are never dropped
    """

    max_basis: int
    admit_basis: int | None
    tau_add: float | None
    drop_tol: float
    protected: LaneTable

    @property
    def room(self) -> int:
        """What leakage and admission count room against."""
        return max(self.max_basis, self.admit_basis or 0)


class Grown(NamedTuple):
    """What a step has before it is shortened.

    before     the basis with all words that entered, coefficients as they were given, 0 for the words that entered
    evolved    the same words with the evolved coefficients
    products   with the generator, of all evolutions
    """

    before: Basis
    evolved: Basis
    products: int


def rules_of(
    n: int,
    *,
    max_basis: int,
    admit_basis: int | None,
    tau_add: float | None,
    drop_tol: float,
    protected: AnyWords,
) -> Rules:
    """The rules as a user gives them. Whether they can be kept to is for `test` to say."""
    return Rules(
        _given.whole(max_basis, "max_basis", ("max_basis",), MAX_WORDS),
        None if admit_basis is None else _given.whole(admit_basis, "admit_basis", ("admit_basis",), MAX_WORDS),
        None if tau_add is None else _given.real(tau_add, "tau_add", ("tau_add",)),
        _given.real(drop_tol, "drop_tol", ("drop_tol",)),
        table(protected, n, "protected"),
    )


def test(basis: Basis, dt: float, rules: Rules) -> None:
    """The tests of a step's input, in their order: counts, words, numbers, then words that come again. No part of a
    step is begun where one of them refuses."""
    limits = {"max_basis": rules.max_basis}
    if rules.admit_basis is not None:
        limits["admit_basis"] = rules.admit_basis
    numbers = {"dt": dt, "drop_tol": rules.drop_tol}
    if rules.tau_add is not None:
        numbers["tau_add"] = rules.tau_add
    fixed = rules.protected
    words = fixed[: len(fixed) // WORD_LANES * WORD_LANES].reshape(-1, WORD_LANES)

    def refuse(number: int, first: int, second: int = 0) -> None:
        raise refusal(_library.Status(number, first, second), basis, "protected", fixed, limits, numbers)

    for count in len(basis), len(words), *limits.values():
        if count > MAX_WORDS:
            refuse(8, count)
    if len(fixed) % WORD_LANES:
        refuse(9, len(fixed) // WORD_LANES * WORD_LANES, len(fixed))
    for each in basis.words, words:
        outside = _outside(each, basis.n)
        if len(outside):
            refuse(11, int(outside[0]))
    infinite = np.flatnonzero(~np.isfinite(basis.coefficients))
    if len(infinite):
        refuse(7, int(infinite[0]))
    if not np.isfinite([*numbers.values()]).all():
        refuse(7, len(basis))
    again = _first_again(basis.words)
    if again is not None:
        refuse(12, again)


def _outside(words: LaneTable, n: int) -> Any:
    """The places of words with a bit at or above the register."""
    above = ~np.array(2 * split((1 << n) - 1), np.uint64)
    if not (np.bitwise_or.reduce(words, axis=0) & above).any():
        return np.zeros(0, np.intp)
    return np.flatnonzero((words & above).any(axis=1))


# Factors of the halves of lanes in a sum that tells words apart.
_FACTORS = np.array([random.Random(1 + half).getrandbits(64) | 1 for half in range(2 * WORD_LANES)], np.uint64)


def _sums(words: LaneTable) -> LaneTable:
    """A number for each word: equal words have equal ones, and others hardly ever do."""
    halves = np.ascontiguousarray(words).view(np.uint32).astype(np.uint64)
    sums: LaneTable = (halves * _FACTORS).sum(axis=1)
    return sums


def _first_again(words: LaneTable) -> int | None:
    """The first position whose word stood at a lower one."""
    if len(np.unique(_sums(words))) == len(words):
        return None
    first = np.unique(words, axis=0, return_index=True)[1]
    again = np.ones(len(words), bool)
    again[first] = False
    return int(again.argmax()) if again.any() else None


def take_step(model: "Model", basis: Basis, dt: float, rules: Rules) -> Stepped:
    """The whole step."""
    answer, after = model._step(basis, dt, rules)
    if not answer.status.refusal:
        return Stepped(after, answer.products)
    # One of the parts refuses too, and says of which word or number.
    test(basis, dt, rules)
    grow(model, basis, dt, rules)
    raise refusal(answer.status, basis)


def grow(model: "Model", basis: Basis, dt: float, rules: Rules) -> Grown:
    """The step without its end: what leaks is admitted, the predictor is evolved; what leaks from the predicted numbers
    is admitted where there is room; and where that brought words, the corrector is evolved, from the numbers given."""
    before = basis.copy()
    if not len(basis):
        return Grown(before, basis.copy(), 0)
    # The first leakage is asked for with or without room: its refusals are the step's.
    admit(model, before, before, rules)
    evolved, products = model.evolve(before, dt=dt, drop_tol=rules.drop_tol)
    if len(before) < rules.room and admit(model, before, evolved, rules):
        evolved, more = model.evolve(before, dt=dt, drop_tol=rules.drop_tol)
        products += more
    return Grown(before, evolved, products)


def admit(model: "Model", basis: Basis, numbers: Basis, rules: Rules) -> bool:
    """Appends to a basis, with coefficient 0, what leaks out of it at the coefficients of another basis of the same
    words, as far as there is room. Whether any word entered."""
    leaked = model.leakage(
        numbers,
        max_basis=rules.max_basis,
        admit_basis=rules.admit_basis,
        tau_add=rules.tau_add,
        protected=rules.protected,
    )
    entries = len(basis)
    return basis.admit(leaked, limit=rules.room) > entries


def shorten(basis: Basis, rules: Rules) -> None:
    """The end of a step: prune, then cap, in place."""
    basis.prune(drop_tol=rules.drop_tol, protected=rules.protected)
    basis.cap(limit=rules.max_basis, protected=rules.protected)
