# SPDX-FileCopyrightText: 2026 The PPVM Authors
# SPDX-License-Identifier: Apache-2.0
"""Whether a curve is the device's or the run's: the same run with half the time step, and with twice the room, and
where few enough words can be reached, the exact curve."""
from collections.abc import Iterator
from dataclasses import replace
from typing import TYPE_CHECKING

import numpy as np

from ._pictured import Pictured
from ._sealed import Sealed
from ._showing import Table
from ._types import NumberTable
from .basis import Basis
from .curve import Curve
from .errors import Refusal
from .run import Run, Settings
from .words import MAX_WORDS

if TYPE_CHECKING:
    from .model import Model

# The most words that an exact curve is computed over.
_EXACT = 4096


class Checked(Pictured, Sealed):
    """A curve beside those of two other runs.

    curve           the one that was asked for
    half_step       the same with each step in two halves
    double_room     the same with the word limits doubled, up to 65,536
    moved_by_step   how far half the step moves the expectation, at each time
    moved_by_room   how far twice the room moves it
    exact           the exact expectation at each time, where at most 4,096 words can be reached; else None
    tolerance       by how much a curve may move
    says            in plain words, whether it moved by more, and through which of the two
    ok              whether it did not
    """

    def __init__(
        self,
        *,
        curve: Curve,
        half_step: Curve,
        double_room: Curve,
        moved_by_step: NumberTable,
        moved_by_room: NumberTable,
        exact: NumberTable | None,
        tolerance: float,
        says: str,
        ok: bool,
    ) -> None:
        self.curve = curve
        self.half_step = half_step
        self.double_room = double_room
        self.moved_by_step = moved_by_step
        self.moved_by_room = moved_by_room
        self.exact = exact
        self.tolerance = tolerance
        self.says = says
        self.ok = ok
        self._sealed = True

    @property
    def band(self) -> NumberTable:
        """How far both together move the expectation, at each time."""
        return self.moved_by_step + self.moved_by_room

    def __repr__(self) -> str:
        return f"Checked curve of {self.curve.name}: {self.says}"

    def _shown_tables(self) -> Iterator[Table]:
        names = ["time", self.curve.name, "moved by half the step", "moved by twice the room"]
        columns = [self.curve.times, self.curve.values, self.moved_by_step, self.moved_by_room]
        if self.exact is not None:
            names, columns = [*names, "exact"], [*columns, self.exact]
        rows = (tuple(map(repr, row)) for row in zip(*(column.tolist() for column in columns)))
        yield Table(names, rows, len(self.curve.times))


def prepared(model: "Model", basis: Basis, settings: Settings) -> list[Run]:
    """The run, the one with each step in two halves, and the one with twice the room, each tested and not begun."""
    rules = settings.rules
    wider = rules._replace(
        max_basis=min(2 * rules.max_basis, MAX_WORDS),
        admit_basis=None if rules.admit_basis is None else min(2 * rules.admit_basis, MAX_WORDS),
    )
    # What the two others lose is not asked for.
    others = replace(settings, losses=False)
    return [
        Run(model, basis, settings),
        Run(model, basis, replace(others, split=2 * settings.split)),
        Run(model, basis, replace(others, rules=wider)),
    ]


def compared(runs: list[Run], *, tolerance: float, progress: bool = True) -> Checked:
    """Lets the three runs go and compares their curves. An interrupt ends it without an answer."""
    curve, half_step, double_room = (_to_the_end(run, progress) for run in runs)
    moved = [_moved(curve, other) for other in (half_step, double_room)]
    exact = exact_values(runs[0].model, runs[0].observable, runs[0].settings)
    full = runs[0].filled and runs[2].settings.rules.room == runs[0].settings.rules.room
    says, ok = _verdict(curve, moved, exact, tolerance, full)
    return Checked(
        curve=curve,
        half_step=half_step,
        double_room=double_room,
        moved_by_step=moved[0][_VALUES],
        moved_by_room=moved[1][_VALUES],
        exact=exact,
        tolerance=tolerance,
        says=says,
        ok=ok,
    )


def _to_the_end(run: Run, progress: bool) -> Curve:
    curve = run.go(progress=progress)
    if not curve.finished:
        raise KeyboardInterrupt
    return curve


# What the expectation is called among all that is followed.
_VALUES = "the expectation"


def _moved(curve: Curve, other: Curve) -> dict[str, NumberTable]:
    """How far the expectation and each followed coefficient are from those of another run, at each time."""
    pairs = {_VALUES: (other.values, curve.values)}
    pairs |= {f"the coefficient of {word}": (other.words[word], x) for word, x in curve.words.items()}
    return {name: np.absolute(ours - theirs) for name, (ours, theirs) in pairs.items()}


def _furthest(moved: dict[str, NumberTable]) -> str:
    """What moved furthest; of several the first."""
    by = {name: float(each.max()) for name, each in moved.items()}
    return max(by, key=lambda name: by[name])


def _verdict(
    curve: Curve, moved: list[dict[str, NumberTable]], exact: NumberTable | None, tolerance: float, full: bool
) -> tuple[str, bool]:
    """What is said of a curve, and whether it holds."""
    largest = [_furthest(each) for each in moved]
    by = [float(each[name].max()) for each, name in zip(moved, largest)]
    at = [float(curve.times[each[name].argmax()]) for each, name in zip(moved, largest)]
    step_holds, room_holds = (x <= tolerance for x in by)
    said = []
    for what, name, x, time, holds in zip(("half the time step", "twice the room"), largest, by, at, (step_holds, room_holds)):
        size = f"by at most {x:.2g}" if holds else f"by {x:.2g} at the time {time:g}, more than {tolerance:g}"
        said.append(f"{what} moves {name} {size}")
    if full:
        said[1] = f"the room of {MAX_WORDS} words was full, and there is no more to try"
        room_holds = False
    ok = step_holds and room_holds
    advice = []
    if not step_holds:
        advice.append("a shorter dt, or more admissions in each step,")
    if not room_holds and not full:
        advice.append("a larger max_basis")
    if exact is not None:
        off = np.absolute(curve.values - exact)
        within = bool((off <= tolerance).all())
        said.append(f"the exact curve is at most {off.max():.2g} away" if within else _off(curve, off))
        if ok and not within:
            advice.append("a smaller drop_tol or tau_add, or fewer protected words outside the basis,")
        ok = ok and within
    through = {(True, True): "", (False, True): ", through the time step", (True, False): ", through the room"}
    blamed = through.get((step_holds, room_holds), ", through the time step and the room")
    verdict = f"yes: the curve of {curve.name} holds within {tolerance:g}"
    if not ok:
        verdict = f"no: the curve of {curve.name} does not hold within {tolerance:g}{blamed}"
    give = f". Try {' and '.join(advice).rstrip(',')}" if advice else ""
    return f"{verdict}: {'; '.join(said)}{give}", ok


def _off(curve: Curve, off: NumberTable) -> str:
    return f"the exact curve is {off.max():.2g} away at the time {curve.times[off.argmax()]:g}"


# ---- the exact curve ----


def exact_values(model: "Model", basis: Basis, settings: Settings) -> NumberTable | None:
    """The exact expectation at each time, where the words that can be reached are few enough: over all of them nothing
    leaks, and one step of any length is right. None where they are too many, or a step is too long."""
    over = _all_reached(model, basis)
    if over is None:
        return None
    values, now = np.empty(len(settings.times)), 0.0
    try:
        for i, time in enumerate(settings.times):
            if time > now:
                over, now = model.evolve(over, dt=time - now).basis, time
            values[i] = settings.state.expectation(over.words, over.coefficients)
    except Refusal:
        return None
    return values


def _all_reached(model: "Model", basis: Basis) -> Basis | None:
    """The basis with all words that can be reached from it, with coefficient 0."""
    grown = basis.copy()
    while len(grown) <= _EXACT:
        leaked = model.leakage(grown, max_basis=_EXACT + 1, tau_add=-1.0)
        if not len(leaked):
            return grown
        grown.admit(leaked, limit=_EXACT + 1)
    return None
