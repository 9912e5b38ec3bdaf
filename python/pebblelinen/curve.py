# SPDX-FileCopyrightText: 2026 The PPVM Authors
# SPDX-License-Identifier: Apache-2.0
"""What a run gives: a curve, and beside it what was lost at each step."""
from collections.abc import Iterator, Mapping
from typing import Any, NamedTuple

import numpy as np
from numpy.typing import NDArray

from . import _given
from ._pictured import Pictured
from ._sealed import Sealed
from ._showing import Table
from ._types import NumberTable
from .basis import Basis


class Steps(NamedTuple):
    """What each step did: arrays with one entry for each.

    time               at the step's end
    dt                 its length
    held               words held after it
    products           with the generator, made in it
    leak_sum_before    the rate at which the model leaks out of the basis that was evolved, at the coefficients before
                       the evolution: the sum of the magnitudes of what leaks; NaN where the losses were not asked for,
                       where basis and list do not fit into 65,536 words, or where the library refuses the list
    leak_root_before   the same, the root of the sum of squares
    leak_sum_after, leak_root_after    the same at the coefficients after the evolution
    dropped_sum        what prune and cap dropped: the sum of magnitudes
    dropped_root       the same, the root of the sum of squares
    """

    time: NumberTable
    dt: NumberTable
    held: NDArray[np.int64]
    products: NDArray[np.int64]
    leak_sum_before: NumberTable
    leak_root_before: NumberTable
    leak_sum_after: NumberTable
    leak_root_after: NumberTable
    dropped_sum: NumberTable
    dropped_root: NumberTable


class Curve(Pictured, Sealed):
    """An observable along a run.

    name       the observable's name
    times      those asked for; of a run that was interrupted, those reached
    values     the expectation of the evolved observable in the product state, at each time
    words      the coefficients of the words that were followed, at each time, by the words' texts by site
    steps      what each step did, and what was lost in it
    basis      after the last step, which is at the last time where the run is finished
    finished   whether all times were reached
    settings   all that the run went by, as plain values: with these it can be made again
    """

    def __init__(
        self,
        *,
        name: str,
        times: NumberTable,
        values: NumberTable,
        words: Mapping[str, NumberTable],
        steps: Steps,
        basis: Basis,
        finished: bool,
        settings: Mapping[str, Any],
    ) -> None:
        self.name = name
        self.times = times
        self.values = values
        self.words: dict[str, NumberTable] = dict(words)
        self.steps = steps
        self.basis = basis
        self.finished = finished
        self.settings: dict[str, Any] = dict(settings)
        self._sealed = True

    @property
    def leaked(self) -> NumberTable:
        """At each time, the integral up to it of the rate at which the model leaks out of the basis (sums of magnitudes),
        taken at the ends of each step. NaN from where on a rate is not known."""
        rate = (self.steps.leak_sum_before + self.steps.leak_sum_after) / 2
        return self._up_to(rate * self.steps.dt)

    @property
    def dropped(self) -> NumberTable:
        """At each time, the sum of the magnitudes of all that prune and cap dropped up to it."""
        return self._up_to(self.steps.dropped_sum)

    @property
    def estimate(self) -> NumberTable:
        """At each time, what leaked and what was dropped together. Of a model whose rates are not below 0 and whose matrices
        K are positive, it is an estimate of a bound on the error of every expectation, not a bound: a rate is known at
        the ends of a step only."""
        return self.leaked + self.dropped

    def held_at(self) -> NDArray[np.int64]:
        """The words held at each time."""
        held: NDArray[np.int64] = np.append(np.int64(len(self.settings["observable"])), self.steps.held)
        return held[self._done()]

    def _done(self) -> NDArray[np.intp]:
        """How many steps were done at each time."""
        return np.searchsorted(self.steps.time, self.times, side="right")

    def _up_to(self, each: NumberTable) -> NumberTable:
        sums: NumberTable = np.append(0.0, np.cumsum(each))
        return sums[self._done()]

    def __repr__(self) -> str:
        times = _given.counted(len(self.times), "time")
        steps = _given.counted(len(self.steps.time), "step")
        return f"Curve of {self.name}: {times}, {steps}" + ("" if self.finished else ", unfinished")

    def _shown_tables(self) -> Iterator[Table]:
        columns = self.times, self.values, self.held_at(), self.estimate
        rows = (tuple(map(repr, row)) for row in zip(*(column.tolist() for column in columns)))
        yield Table(("time", self.name, "words held", "estimate of the loss"), rows, len(self.times))
