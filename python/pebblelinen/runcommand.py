# SPDX-FileCopyrightText: 2026 The PPVM Authors
# SPDX-License-Identifier: Apache-2.0
"""The commands that follow an observable in time: one step, a run, and the check of a run."""
import argparse
import math
import os
import signal
import sys
from collections.abc import Callable, Iterable, Iterator, Mapping, Sequence
from contextlib import contextmanager
from pathlib import Path
from typing import Any, NamedTuple, TypeVar

from . import _output, modelfile
from ._given import counted
from ._printing import SHOWN, Answers, Make, Rows, aligned, loaded, loaded_with_basis, more_lines
from ._progress import working
from ._types import NumberTable
from .basis import Basis
from .check import Checked, compared, prepared
from .curve import Curve
from .errors import InputError, Refusal
from .run import Run, Settings, begun, settings_of, tolerance_of

# A curve or a check.
_Found = TypeVar("_Found", Curve, Checked)

# Exit statuses of their own: a curve that does not hold, and a run that was interrupted.
NOT_HELD = 3
INTERRUPTED = 130

ABOUT = """\
  pebblelinen step chain.toml --dt 0.05 --max-basis 1000    one step of a run: words enter, are evolved and dropped
  pebblelinen run chain.toml                  the curve of an observable up to given times
  pebblelinen run chain.toml retuned.toml --plot both.png --out both.h5
  pebblelinen check chain.toml                whether the time step or the room made that curve up"""


def add(command: Make) -> None:
    """Adds the commands to the parser."""
    made = command(
        "step",
        _step,
        "the basis after one predictor-corrector step",
        "The file's basis after one step of a run: what leaks out of it is admitted, the coefficients are evolved, what\n"
        "leaks then is admitted too and the evolution done again from the start, and at the end small entries are\n"
        "dropped. Protected words that are there stay. With --save the model is written to a file with the basis\n"
        "after the step, to go on from.",
    )
    made.add_argument("--dt", type=float, required=True, metavar="T", help="the time step")
    made.add_argument("--max-basis", type=int, required=True, metavar="N", help="the most words at the end")
    _add_rules(made)
    made.set_defaults(drop_tol=0.0)
    made.add_argument("--save", metavar="OUT", help="write a model file with the basis after the step to OUT")

    made = command(
        "run",
        _run,
        "the curve of an observable up to given times",
        "Follows the file's observables, or its basis where it has none, from the time 0 to each of the times, and\n"
        "gives the expectation in the product state, the words held, and an estimate of a bound on what the run lost:\n"
        "what leaked out of the basis, and what was dropped. The file says times, limits and thresholds in [run];\n"
        "options go before it. Several files go into one figure, and beside them what was stored before. An interrupt\n"
        "gives the curve so far, and ends with 130.",
    )
    _add_settings(made)
    made.add_argument("--no-losses", action="store_true", help="do not ask what leaks, which takes time")
    made.add_argument(
        "--checkpoint", metavar="FILE", help="write what is done to FILE now and then; go on from it if it stands there"
    )

    made = command(
        "check",
        _check,
        "whether the time step or the room made a curve up",
        "Runs as `run` does, then with each step in two halves, and with twice the room, and says whether the curve\n"
        "moved by more than the tolerance, and through which of the two. Where at most 4,096 words can be reached, the\n"
        "exact curve stands beside it. It ends with 0 where every curve holds, and with 3 where one does not.",
    )
    _add_settings(made)
    made.add_argument("--tolerance", type=float, metavar="X", help="by how much a curve may move (default 1e-3)")


def _add_rules(made: argparse.ArgumentParser) -> None:
    made.add_argument("--admit-basis", type=int, metavar="N", help="room until then, where it is larger")
    made.add_argument("--tau-add", type=float, metavar="X", help="admit what leaks above X (default 2^-40)")
    made.add_argument(
        "--drop-tol", type=float, metavar="X", help="drop entries below X; from 1e-4 on evolutions are less accurate"
    )


def _add_settings(made: argparse.ArgumentParser) -> None:
    """What goes before the file's [run] and [state]."""
    made.add_argument("--times", type=float, nargs="+", metavar="T", help="the times, rising")
    made.add_argument("--dt", type=float, metavar="T", help="the longest step (default: one between two times)")
    made.add_argument("--max-basis", type=int, metavar="N", help="the most words held")
    _add_rules(made)
    made.add_argument("--admissions", type=int, metavar="K", help="how often words enter before a step's end")
    made.add_argument("--state", metavar="S", help="the product state: 0 1 + - +i -i, or a letter for each qubit")
    made.add_argument("--words", nargs="+", metavar="WORD", help="words whose coefficients are followed")
    made.add_argument("--observable", action="append", metavar="NAME", help="one of the file's, not all; may be repeated")
    _output.add_options(made)
    _output.add_beside(made)


# ---- one step ----


def _step(options: argparse.Namespace) -> Answers:
    file = loaded_with_basis(options)
    with working(f"step of {len(file.basis)} entries"):
        basis, products = file.model.step(
            file.basis,
            dt=options.dt,
            max_basis=options.max_basis,
            admit_basis=options.admit_basis,
            tau_add=options.tau_add,
            drop_tol=options.drop_tol,
            protected=file.protected,
        )
    if options.save is not None:
        modelfile.save(
            options.save,
            file.model,
            basis,
            file.protected,
            observables=file.observables,
            run=file.run,
            state=file.state,
        )
    before, after = file.basis.by_site(), basis.by_site()
    left = [word for word in before if word not in after]
    entered = sum(word not in before for word in after)

    def answer() -> dict[str, Any]:
        named = [{"word": word, "before": before.get(word), "coefficient": x} for word, x in after.items()]
        saved = {} if options.save is None else {"saved": options.save}
        return {"qubits": file.model.n, "products": products, "entries": named, "left": left, **saved}

    def lines() -> Iterator[str]:
        yield str(file.model)
        yield ""
        yield (
            f"{counted(len(after), 'position')} after the step dt = {options.dt!r}: {counted(products, 'product')} with the"
            f" generator, {counted(entered, 'word')} entered, {len(left)} left"
        )
        shown = [
            (f"position {p}: {word}", repr(before[word]) if word in before else "-", repr(x))
            for p, (word, x) in enumerate(after.items())
            if options.all or p < SHOWN
        ]
        yield from aligned([("word", "before", "coefficient"), *shown])
        yield from more_lines(len(after), options.all)
        if options.save is not None:
            yield f"written to {options.save} with the basis after the step"

    def rows() -> Rows:
        yield "position", "word", "before", "coefficient"
        for p, (word, x) in enumerate(after.items()):
            yield p, word, repr(before[word]) if word in before else "", repr(x)

    return answer, lines, rows


# ---- runs ----


class _Asked(NamedTuple):
    """What a file and the options ask for: observables by name, and the settings of their runs."""

    path: str
    file: modelfile.ModelFile
    chosen: dict[str | None, Basis]
    settings: dict[str, Any]


def _run(options: argparse.Namespace) -> Answers:
    asked = _all_asked(options)
    if options.checkpoint is not None and len(asked) > 1:
        raise InputError("a checkpoint is that of one model file: run each by itself")
    curves: dict[str, list[Curve]] = {each.path: [] for each in asked}
    with _interrupts():
        # What is wrong with the last is told before the first is computed.
        runs = [(each.path, *_begun(options, each, name)) for each, name in _followed(asked)]
        for path, run, checkpoint in runs:
            curves[path].append(run.go(checkpoint=checkpoint))
            if not curves[path][-1].finished:
                options.status = INTERRUPTED
                print("pebblelinen: interrupted: this is the curve so far", file=sys.stderr)
                break
    found = [(path, {curve.name: curve for curve in each}) for path, each in curves.items()]
    _output.write(options, found)

    def answer() -> dict[str, Any]:
        told = [_named(each, options, curves=list(map(_curve_answer, curves[each.path]))) for each in asked]
        return {**(told[0] if len(told) == 1 else {"files": told}), **_output.answer(options)}

    def rows() -> Rows:
        yield from _curve_rows(_output.labelled(found))

    return answer, lambda: _lines(asked, curves, _curve_lines, options), rows


def _check(options: argparse.Namespace) -> Answers:
    asked = _all_asked(options)
    checks: dict[str, list[Checked]] = {each.path: [] for each in asked}
    with _interrupts():
        runs = [(each.path, *_prepared(options, each, name)) for each, name in _followed(asked)]
        try:
            for path, three, tolerance in runs:
                checks[path].append(compared(three, tolerance=tolerance))
        except KeyboardInterrupt:
            options.status = INTERRUPTED
            print("pebblelinen: interrupted: these are the checks so far", file=sys.stderr)
    found = [(path, {one.curve.name: one for one in each}) for path, each in checks.items()]
    ok = {
        each.path: len(checks[each.path]) == len(each.chosen) and all(one.ok for one in checks[each.path])
        for each in asked
    }
    if not all(ok.values()):
        options.status = options.status or NOT_HELD
    _output.write(options, found)

    def answer() -> dict[str, Any]:
        told = [
            _named(each, options, ok=ok[each.path], checks=list(map(check_answer, checks[each.path]))) for each in asked
        ]
        return {**(told[0] if len(told) == 1 else {"ok": all(ok.values()), "files": told}), **_output.answer(options)}

    def rows() -> Rows:
        yield "observable", "time", "value", "moved_by_step", "moved_by_room", "exact", "ok"
        for label, one in _output.labelled(found).items():
            exact = [""] * len(one.curve.times) if one.exact is None else map(repr, one.exact.tolist())
            columns = one.curve.times, one.curve.values, one.moved_by_step, one.moved_by_room
            for *numbers, x in zip(*(column.tolist() for column in columns), exact):
                yield label, *map(repr, numbers), x, one.ok

    return answer, lambda: _lines(asked, checks, _check_lines, options), rows


def _named(each: _Asked, options: argparse.Namespace, **found: Any) -> dict[str, Any]:
    """An answer for programs. Of several files each says its name."""
    name = {"file": each.path} if len(options.files) > 1 else {}
    return {**name, "qubits": each.file.model.n, **found}


def _lines(
    asked: Sequence[_Asked],
    found: Mapping[str, Iterable[_Found]],
    told: Callable[[_Found, bool], Iterable[str]],
    options: argparse.Namespace,
) -> Iterator[str]:
    """What people are shown of curves or checks, file by file."""
    for each in asked:
        yield from _head(each, options)
        for one in found[each.path]:
            yield ""
            yield from told(one, options.all)
    yield from _output.lines(options)


def _head(each: _Asked, options: argparse.Namespace) -> Iterator[str]:
    """What stands above the curves of a file. Of several files each says its name."""
    if len(options.files) > 1:
        if each.path != options.files[0]:
            yield ""
        yield f"{each.path}:"
    yield str(each.file.model)


def _all_asked(options: argparse.Namespace) -> list[_Asked]:
    """What every file asks for."""
    _output.look_ahead(options)
    asked = []
    for path in _output.once(options.files):
        options.file = path
        asked.append(_asked(options))
    return asked


def _followed(asked: Sequence[_Asked]) -> Iterator[tuple[_Asked, str | None]]:
    """Each observable of each file, by its name."""
    return ((each, name) for each in asked for name in each.chosen)


def _asked(options: argparse.Namespace) -> _Asked:
    """The file, the observables that were chosen, and the settings: options before the file's."""
    file = loaded(options)
    chosen = file.followed()
    if options.observable is not None:
        unknown = [name for name in options.observable if name not in file.observables]
        if unknown:
            known = f"known are {', '.join(file.observables)}" if file.observables else "the file has none"
            raise InputError(f"there is no observable {unknown[0]!r}: {known}", where=options.file)
        chosen = {name: file.observables[name] for name in options.observable}
    if not any(map(len, chosen.values())):
        said = "this file has no observable to follow: give it [observables], or a [basis] with words"
        raise InputError(said, where=options.file)
    settings = {key: x for key, x in file.run.items() if key != "tolerance"}
    settings["protected"] = file.protected
    if file.state is not None:
        settings["state"] = file.state
    names = "times dt max_basis admit_basis tau_add drop_tol admissions state words".split()
    settings |= {name: getattr(options, name) for name in names if getattr(options, name) is not None}
    for key in "times", "max_basis":
        if key not in settings:
            option = f"--{key.replace('_', '-')}"
            raise InputError(f"{key} is missing: give the file [run] with {key}, or {option}", where=options.file)
    if getattr(options, "no_losses", False):
        settings["losses"] = False
    return _Asked(options.file, file, chosen, settings)


def _checkpoint(path: str | None, name: str | None, count: int) -> str | None:
    """The checkpoint of one of several observables has its name in it."""
    if path is None or count == 1:
        return path
    place = Path(path)
    # A name may have anything in it that a file's name may not.
    plain = "".join(c if c.isalnum() or c in "-_ " else f"%{ord(c):x}" for c in name or "")
    return os.fspath(place.with_name(f"{place.stem}.{plain}{place.suffix}"))


def _begun(options: argparse.Namespace, each: _Asked, name: str | None) -> tuple[Run, str | None]:
    """The run of an observable, tested and with what its checkpoint has done, and that checkpoint."""
    checkpoint = _checkpoint(options.checkpoint, name, len(each.chosen))
    with _from_the_file(options, each):
        run = begun(each.file.model, each.chosen[name], _settings(each, name), checkpoint)
        if checkpoint is not None:
            run.save(checkpoint)
    return run, checkpoint


def _prepared(options: argparse.Namespace, each: _Asked, name: str | None) -> tuple[list[Run], float]:
    """The three runs of a check, tested, and by how much the curve may move."""
    wanted = each.file.run.get("tolerance", 1e-3) if options.tolerance is None else options.tolerance
    with _from_the_file(options, each):
        return prepared(each.file.model, each.chosen[name], _settings(each, name)), tolerance_of(wanted)


def _settings(each: _Asked, name: str | None) -> Settings:
    return settings_of(each.file.model.n, name=name, **each.settings)


@contextmanager
def _from_the_file(options: argparse.Namespace, each: _Asked) -> Iterator[None]:
    """Errors inside are about what a file says, and name it, and its key, if no option went before it."""
    try:
        yield
    except (InputError, Refusal) as error:
        if error.where:
            raise
        key = str(error.path[0]) if error.path else ""
        from_the_file = key in each.file.run and getattr(options, key, None) is None
        raise error.at(f"{each.path}: run.{key}" if from_the_file else each.path) from None


@contextmanager
def _interrupts() -> Iterator[None]:
    """Within, an interrupt is heard by Python and keeps what was computed; outside, it may end the process at once."""
    try:
        before = signal.signal(signal.SIGINT, signal.default_int_handler)
    except ValueError:
        # In another thread than the main one, where interrupts are not heard.
        yield
        return
    try:
        yield
    finally:
        signal.signal(signal.SIGINT, before)


# ---- curves, printed ----


def _number(x: float) -> float | None:
    """JSON has no NaN: what is not known is null."""
    return None if math.isnan(x) else x


def _numbers(table: NumberTable) -> list[float | None]:
    return list(map(_number, table.tolist()))


def _curve_answer(curve: Curve) -> dict[str, Any]:
    return {
        "name": curve.name,
        "finished": curve.finished,
        "times": curve.times.tolist(),
        "values": curve.values.tolist(),
        "held": curve.held_at().tolist(),
        "leaked": _numbers(curve.leaked),
        "dropped": _numbers(curve.dropped),
        "estimate": _numbers(curve.estimate),
        "words": {word: x.tolist() for word, x in curve.words.items()},
        "steps": {name: _numbers(x) for name, x in curve.steps._asdict().items()},
        "settings": curve.settings,
    }


def _curve_lines(curve: Curve, all_: bool) -> Iterator[str]:
    steps, products = len(curve.steps.time), int(curve.steps.products.sum())
    yield (
        f"{curve.name}: {counted(len(curve.times), 'time')}, {counted(steps, 'step')},"
        f" {counted(products, 'product')} with the generator" + ("" if curve.finished else "; unfinished")
    )
    header = "time", "value", "words", *curve.words, "estimate"
    columns = curve.times, curve.values, curve.held_at(), *curve.words.values(), curve.estimate
    shown = list(zip(*(column.tolist() for column in columns)))
    rows = [
        (f"{time:g}", f"{value:.6f}", str(held), *(f"{x:.6f}" for x in followed), _shown_estimate(estimate))
        for time, value, held, *followed, estimate in (shown if all_ else shown[:SHOWN])
    ]
    yield from aligned([header, *rows])
    yield from more_lines(len(shown), all_)


def _shown_estimate(x: float) -> str:
    return "unknown" if math.isnan(x) else f"{x:.2g}"


def _curve_rows(named: Mapping[str, Curve]) -> Rows:
    words = list(dict.fromkeys(word for curve in named.values() for word in curve.words))
    yield "observable", "time", "value", "held", "leaked", "dropped", "estimate", *words
    for label, curve in named.items():
        columns = curve.times, curve.values, curve.held_at(), curve.leaked, curve.dropped, curve.estimate
        for i, row in enumerate(zip(*(column.tolist() for column in columns))):
            followed = [repr(float(curve.words[word][i])) if word in curve.words else "" for word in words]
            yield label, *map(repr, row), *followed


def check_answer(each: Checked) -> dict[str, Any]:
    """A check for programs."""
    return {
        "name": each.curve.name,
        "ok": each.ok,
        "says": each.says,
        "tolerance": each.tolerance,
        "moved_by_step": each.moved_by_step.tolist(),
        "moved_by_room": each.moved_by_room.tolist(),
        "band": each.band.tolist(),
        "exact": None if each.exact is None else each.exact.tolist(),
        "curve": _curve_answer(each.curve),
        "half_step": _curve_answer(each.half_step),
        "double_room": _curve_answer(each.double_room),
    }


def _check_lines(each: Checked, all_: bool) -> Iterator[str]:
    header = ["time", "value", "half the step", "twice the room"]
    columns = [each.curve.times, each.curve.values, each.half_step.values, each.double_room.values]
    if each.exact is not None:
        header, columns = [*header, "exact"], [*columns, each.exact]
    yield f"{each.curve.name}: {counted(len(each.curve.times), 'time')}"
    shown = list(zip(*(column.tolist() for column in columns)))
    rows = [(f"{time:g}", *(f"{x:.6f}" for x in numbers)) for time, *numbers in (shown if all_ else shown[:SHOWN])]
    yield from aligned([header, *rows])
    yield from more_lines(len(shown), all_)
    yield each.says
