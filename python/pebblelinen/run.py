# SPDX-FileCopyrightText: 2026 The PPVM Authors
# SPDX-License-Identifier: Apache-2.0
"""A run: an observable followed from step to step up to given times.

Each step is the predictor-corrector step of `model.step`. Everything that a run is given is tested before anything is
computed. A run knows what it has done after each step, so that an interrupt keeps it, and a checkpoint goes on from
it, bit for bit."""
import functools
import math
import os
import time
import warnings
from collections.abc import Iterable, Sequence
from dataclasses import dataclass
from typing import TYPE_CHECKING, Any

import numpy as np

from . import _checkpoint, _given, _library, plan, step
from ._lanes import WORD_LANES
from ._modeltext import text_of
from ._progress import bar
from ._types import ItemPath, NumberTable
from ._version import __version__
from .basis import AnyWords, Basis
from .curve import Curve, Steps
from .errors import InputError, PebblelinenError, Refusal
from .leakage import TAU_ADD
from .plan import AnyTimes
from .state import AnyState, ProductState
from .words import MAX_WORDS, AnyWord, Word, lanes_of, made, places_of

if TYPE_CHECKING:
    from .model import Model

# A checkpoint is written after the first step that ends so many seconds after the last one, and at the end.
_SECONDS = 30.0


@dataclass(frozen=True)
class Settings:
    """What a run goes by, as far as it can be tested without its model and basis."""

    times: tuple[float, ...]
    dt: float | None
    split: int
    rules: step.Rules
    admissions: int
    state: ProductState
    words: tuple[Word, ...]
    losses: bool
    name: str | None


def settings_of(
    n: int,
    *,
    times: AnyTimes,
    max_basis: int,
    dt: float | None = None,
    admit_basis: int | None = None,
    tau_add: float | None = None,
    drop_tol: float = 0.0,
    protected: AnyWords = (),
    admissions: int = 1,
    state: AnyState = "0",
    words: Iterable[AnyWord] = (),
    losses: bool = True,
    split: int = 1,
    name: str | None = None,
) -> Settings:
    """The settings of a run on a register, as `model.run` takes them."""
    rules = step.rules_of(
        n,
        max_basis=max_basis,
        admit_basis=admit_basis,
        tau_add=tau_add,
        drop_tol=drop_tol,
        protected=protected,
    )
    listed = _given.listed(words, "words", ("words",))
    followed = [made(lanes_of(word, n, ("words", i)), n) for i, word in enumerate(listed)]
    if len({*followed}) < len(followed):
        raise InputError("a word to follow comes twice", ("words",))
    if name is not None and not isinstance(name, str):
        raise InputError(f"the name of an observable is {_given.shown(name)}: a text is needed", ("name",))
    return Settings(
        times=plan.times_of(times),
        dt=plan.dt_of(dt),
        split=_given.whole(split, "split", ("split",), plan.MOST_STEPS, 1),
        rules=rules,
        admissions=_given.whole(admissions, "admissions", ("admissions",), MAX_WORDS, 1),
        state=ProductState(n, state, ("state",)),
        words=tuple(followed),
        losses=bool(losses),
        name=name,
    )


def tolerance_of(given: float, path: ItemPath = ("tolerance",)) -> float:
    """By how much a curve may move."""
    tolerance = _given.real(given, "the tolerance", path)
    if not (math.isfinite(tolerance) and tolerance > 0):
        raise InputError(f"the tolerance is {tolerance!r}: a finite number above 0 is needed", path)
    return tolerance


class Run:
    """A run that can be stopped, looked at and gone on with.

    `go` goes on to the end, or to an interrupt; `advance` does one step; `curve` is what is there so far; `save` writes
    a checkpoint. `model.run` makes one and lets it go; `resume` makes one from a checkpoint."""

    def __init__(self, model: "Model", basis: Basis, settings: Settings) -> None:
        model._check(basis)
        self.model = model
        self.settings = settings
        self._plan = plan.planned(settings.times, settings.dt, settings.split)
        self._observable = basis.copy()
        _test(self._observable, settings)
        self.name = settings.name if settings.name is not None else _name_of(self._observable)
        steps, times = len(self._plan.ends), len(settings.times)
        self._steps = np.full((len(Steps._fields), steps), np.nan)
        self._values = np.full(times, np.nan)
        self._followed = np.full((times, len(settings.words)), np.nan)
        # Whether the room was full in a step.
        self.filled = False
        # Steps done, and the basis after them, in one: an interrupt may come at any time.
        self._now = 0, self._observable
        self._look(0, self._observable)

    @property
    def done(self) -> int:
        """How many steps are done."""
        return self._now[0]

    @property
    def steps(self) -> int:
        """How many steps there are in all."""
        return len(self._plan.ends)

    @property
    def finished(self) -> bool:
        """Whether all times are reached."""
        return self.done == self.steps

    @property
    def observable(self) -> Basis:
        """A copy of the basis that the run began with."""
        return self._observable.copy()

    @property
    def basis(self) -> Basis:
        """A copy of the basis after the steps that are done."""
        return self._now[1].copy()

    def go(self, *, progress: bool = True, checkpoint: str | os.PathLike[str] | None = None) -> Curve:
        """Goes on to the last time and gives the curve. An interrupt ends it after the last whole step, and the curve says
        that it is not finished. A checkpoint is written now and then, and at the end, whatever ends it."""
        if checkpoint is not None:
            # A place that cannot be written to is told before anything is computed.
            self.save(checkpoint)
        saved = time.monotonic()
        with bar(f"run of {self.name}", self.done, self.steps, progress) as tell:
            try:
                while not self.finished:
                    self.advance()
                    tell(self.done, len(self._now[1]))
                    if checkpoint is not None and time.monotonic() - saved >= _SECONDS:
                        self._save_if_possible(checkpoint)
                        saved = time.monotonic()
            except KeyboardInterrupt:
                pass
            finally:
                if checkpoint is not None:
                    self._save_if_possible(checkpoint)
        return self.curve()

    def advance(self) -> None:
        """Does the next step."""
        if self.finished:
            raise InputError("this run is finished: there is no further step")
        done, basis = self._now
        dt, rules = float(self._plan.lengths[done]), self.settings.rules
        # The tests of a step's input are passed: rules and observable were tested, and a step leaves words that are told
        # apart and numbers that are finite.
        wider, products = self._widened(basis, dt)
        grown = step.grow(self.model, wider, dt, rules)
        self.filled = self.filled or len(grown.before) >= rules.room
        leaks = [*self._leak(grown.before), *self._leak(grown.evolved)]
        after = grown.evolved.copy()
        step.shorten(after, rules)
        record = [self._plan.ends[done], dt, len(after), products + grown.products, *leaks]
        self._steps[:, done] = [*record, *_dropped(grown.evolved.coefficients, after.coefficients)]
        self._look(done + 1, after)
        self._now = done + 1, after

    def _widened(self, basis: Basis, dt: float) -> tuple[Basis, int]:
        """The basis with the words of further admissions, and their products. Each predicts the step over the words that
        are there, and admits what leaks from the predicted numbers: so words enter that are more than two moves away."""
        products = 0
        if self.settings.admissions > 1 and len(basis):
            basis, rules = basis.copy(), self.settings.rules
            step.admit(self.model, basis, basis, rules)
            for _ in range(self.settings.admissions - 1):
                if len(basis) >= rules.room:
                    break
                predicted, more = self.model.evolve(basis, dt=dt, drop_tol=rules.drop_tol)
                products += more
                if not step.admit(self.model, basis, predicted, rules):
                    break
        return basis, products

    def _leak(self, basis: Basis) -> tuple[float, float]:
        """The two norms of all that leaks out of a basis, protected or not, where they can be known."""
        # A basis without room for any word more is not asked: its list would be empty, and known not to be whole.
        if not self.settings.losses or len(basis) >= MAX_WORDS:
            return math.nan, math.nan
        try:
            leaked = self.model.leakage(basis, max_basis=MAX_WORDS, tau_add=0.0)
        except Refusal:
            return math.nan, math.nan
        return (math.nan, math.nan) if leaked.full else _norms(leaked.values)

    def _look(self, done: int, basis: Basis) -> None:
        """Notes the values at the time that is reached after so many steps, if it is one of those asked for."""
        for place in np.flatnonzero(self._plan.done == done).tolist():
            self._values[place] = self.settings.state.expectation(basis.words, basis.coefficients)
            self._followed[place] = [_coefficient(basis, word) for word in self.settings.words]

    def curve(self) -> Curve:
        """What is there so far."""
        done, basis = self._now
        reached = int(np.searchsorted(self._plan.done, done, side="right"))
        steps = self._steps[:, :done].copy()
        whole = {name: steps[Steps._fields.index(name)].astype(np.int64) for name in ("held", "products")}
        return Curve(
            name=self.name,
            times=self._plan.times[:reached].copy(),
            values=self._values[:reached].copy(),
            words={word.by_site: self._followed[:reached, i].copy() for i, word in enumerate(self.settings.words)},
            steps=Steps(*steps)._replace(**whole),
            basis=basis.copy(),
            finished=self.finished,
            settings=self.plain(),
        )

    def plain(self) -> dict[str, Any]:
        """All that the run goes by, as plain values: numbers, texts and lists."""
        return dict(self._plain)

    @functools.cached_property
    def _plain(self) -> dict[str, Any]:
        settings, rules = self.settings, self.settings.rules
        protected = [made(lanes, self.model.n) for lanes in rules.protected.reshape(-1, WORD_LANES).tolist()]
        of_run: dict[str, Any] = {
            "times": [*settings.times],
            "dt": settings.dt,
            "split": settings.split,
            "max_basis": rules.max_basis,
            "admit_basis": rules.admit_basis,
            "tau_add": TAU_ADD if rules.tau_add is None else rules.tau_add,
            "drop_tol": rules.drop_tol,
            "admissions": settings.admissions,
            "words": [word.by_site for word in settings.words],
            "losses": settings.losses,
        }
        given = {key: x for key, x in of_run.items() if x is not None}
        entries = [[entry.word.by_site, entry.coefficient] for entry in self._observable]
        return {
            "model": text_of(
                self.model,
                None,
                protected,
                observables={self.name: self._observable},
                run=given,
                state=settings.state,
            ),
            "n": self.model.n,
            "name": self.name,
            "observable": entries,
            "state": settings.state.plain(),
            "protected": [word.by_site for word in protected],
            **of_run,
            "version": __version__,
            "library": _library.checksum(),
        }

    # ---- checkpoints ----

    def save(self, path: str | os.PathLike[str]) -> None:
        """Writes a checkpoint, whole or not at all."""
        done, basis = self._now
        arrays = {
            "done": np.array(done),
            "basis_words": basis.words,
            "basis_coefficients": basis.coefficients,
            "values": self._values,
            "followed": self._followed,
            "steps": self._steps[:, :done],
        }
        _checkpoint.write(path, self.plain(), arrays)

    def _save_if_possible(self, path: str | os.PathLike[str]) -> None:
        """A checkpoint that cannot be written is no reason to lose what was computed."""
        try:
            self.save(path)
        except PebblelinenError as error:
            warnings.warn(f"the checkpoint was not written: {error}", RuntimeWarning, stacklevel=3)

    def go_on_from(self, path: str | os.PathLike[str]) -> None:
        """Takes what a checkpoint of the same run has done."""
        found, arrays = _checkpoint.read(path)
        ours = self.plain()
        # The text of the model holds most of the others too, and says least.
        others = [key for key in ours if key not in found or found[key] != ours[key]]
        if others:
            named = [key for key in others if key != "model"] or ["model"]
            said = f"this is the checkpoint of another run: it differs in {', '.join(named)}"
            raise InputError(f"{said}; give another file, or remove this one", where=os.fspath(path))
        done = int(arrays["done"])
        steps, values, followed = arrays["steps"], arrays["values"], arrays["followed"]
        shapes = steps.shape, values.shape, followed.shape
        if shapes != ((len(self._steps), done), self._values.shape, self._followed.shape) or done > self.steps:
            raise InputError("this checkpoint is damaged: its tables have other lengths", where=os.fspath(path))
        basis = Basis.from_arrays(self.model.n, arrays["basis_words"], arrays["basis_coefficients"]).copy()
        step.test(basis, 0.0, self.settings.rules)
        self._steps[:, :done] = steps
        self._values[:], self._followed[:] = values, followed
        self._now = done, basis


def _test(basis: Basis, settings: Settings) -> None:
    """Tests what a run is given together. Nothing is computed before."""
    rules = settings.rules
    if not len(basis):
        raise InputError("the basis has no words: there is no observable to follow")
    step.test(basis, settings.dt or 0.0, rules)
    protected = len(np.unique(rules.protected.reshape(-1, WORD_LANES), axis=0))
    for count, what in (protected, "protected word"), (len(basis), "word"):
        if rules.max_basis < count:
            of = "" if what == "protected word" else " of the observable"
            said = f"max_basis is {rules.max_basis}, below the {_given.counted(count, what)}{of}"
            raise InputError(f"{said}: at least {count} is needed", ("max_basis",))


def _name_of(basis: Basis) -> str:
    """What an observable without a name is called: a word by itself."""
    first = basis.entry(position=0)
    return first.word.by_site if len(basis) == 1 and first.coefficient == 1 else "observable"


def _coefficient(basis: Basis, word: Word) -> float:
    """That of a word: 0 where it is not in the basis."""
    places = places_of(word, basis.words, basis.n)
    return float(basis.coefficients[places[0]]) if len(places) else 0.0


def _norms(values: NumberTable, less: NumberTable = np.zeros(0)) -> tuple[float, float]:
    """The sum of magnitudes, and the root of the sum of squares, of some numbers less others that are among them. Sums
    are rounded once: what is in both cancels exactly, and the answer is the same on every machine."""
    largest = float(abs(values).max(initial=0.0))
    if largest == 0:
        return 0.0, 0.0
    # In parts of the largest no square is too large or too small.
    parts = np.concatenate((abs(values), -abs(less))) / largest
    sum_, squares = math.fsum(parts.tolist()), math.fsum((parts * abs(parts)).tolist())
    return largest * sum_, largest * math.sqrt(squares)


def _dropped(before: NumberTable, after: NumberTable) -> tuple[float, float]:
    """The two norms of the coefficients that are not there any more. Those that stay are as they were."""
    return (0.0, 0.0) if len(before) == len(after) else _norms(before, after)


def begun(
    model: "Model", basis: Basis, settings: Settings, checkpoint: str | os.PathLike[str] | None
) -> Run:
    """A run, with what a checkpoint has done where one stands there."""
    run = Run(model, basis, settings)
    if checkpoint is not None and os.path.exists(checkpoint):
        run.go_on_from(checkpoint)
    return run


# What the settings of a curve have under the names that `model.run` takes.
_TAKEN: Sequence[str] = (
    "times dt split max_basis admit_basis tau_add drop_tol admissions words losses protected state name".split()
)


def settings_from(plain: dict[str, Any]) -> Settings:
    """The settings of a run from the plain values that a curve or a checkpoint keeps."""
    return settings_of(plain["n"], **{key: plain[key] for key in _TAKEN})
