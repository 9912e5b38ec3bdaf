# SPDX-FileCopyrightText: 2026 The PPVM Authors
# SPDX-License-Identifier: Apache-2.0
"""Pictures of curves: on top the curve with what is known of its error, below it the coefficients that were followed,
where there are any and one curve is drawn, the words held, and what was lost.

    from pebblelinen import pictures

    pictures.plot(curve, "decay.png")
    pictures.plot({"before": before, "after": after}, "both.pdf")

They are drawn by matplotlib, which is imported only where a picture is asked for; pyplot and its figures are left
alone."""
import io
import math
import os
import textwrap
from collections.abc import Iterable
from functools import partial
from typing import Any

import numpy as np

from ._curves import Result, Results, curve_of, is_checked, named
from ._files import write_whole
from ._optional import needed
from ._types import NumberTable
from ._version import __version__
from .curve import Curve
from .errors import InputError, LibraryMissing

ENDINGS = "png", "svg", "pdf"

# Colours that people with any kind of colour vision tell apart (Okabe and Ito), and line styles for those who
# print in grey. Their numbers share no factor, so that 30 curves have a pair each.
_COLOURS = "#0072B2", "#D55E00", "#009E73", "#CC79A7", "#000000"
_STYLES = "-", "--", "-.", ":", (0, (8, 2)), (0, (4, 1, 1, 1, 1, 1))
_MARKS = "x", "+", "^", "v", "s", "D"
_GREY = "#555555"

# Names are shown as they are, dollars and underlines too; letters in an SVG stay letters; and the same curves
# make the same file.
_DRAWN = {"text.usetex": False, "text.parse_math": False}
_WRITTEN = {**_DRAWN, "svg.fonttype": "none", "svg.hashsalt": "pebblelinen", "pdf.fonttype": 42}
_ABOUT: dict[str, dict[str, str | None]] = {
    "png": {"Software": f"pebblelinen {__version__}"},
    "svg": {"Creator": f"pebblelinen {__version__}", "Date": None},
    "pdf": {"Creator": f"pebblelinen {__version__}", "CreationDate": None},
}

_TIME = "time (in the model's unit of time)"
_BAND = "check: half the step, twice the room"
_ESTIMATE = "estimate of the error's bound"

# How much room the estimate may take above and below the curve, in parts of the curve's own height.
_ROOM_FOR_ESTIMATE = 0.25

# About as many dots as an exact curve is shown with, and the most coefficients that are drawn.
_DOTS = 40
_WORDS = 12

# A legend stands above what it explains, where it hides nothing.
_ABOVE = {"loc": "lower left", "bbox_to_anchor": (0.0, 1.0), "borderpad": 0.0, "frameon": False, "fontsize": "small"}


def plot(results: Results, path: str | os.PathLike[str] | None = None, *, figure: Any = None) -> Any:
    """Draws one or several curves, from a run, a check or a result file, in one figure. Several may be given as a list,
    or as a mapping from the names that the legend is to say.

    path      a file to write, .png, .svg or .pdf: whole or not at all
    figure    a figure of matplotlib to draw in, in place of a new one

    Returns the figure."""
    form = None if path is None else ending(path)
    pairs = named(results)
    matplotlib = load()
    with matplotlib.rc_context(_DRAWN):
        drawn = _new(matplotlib, _followed(pairs)) if figure is None else figure
        _draw(matplotlib, drawn, pairs)
    if path is not None and form is not None:
        write_whole(path, _rendered(drawn, form))
    return drawn


def picture_bytes(results: Results, form: str = "png") -> bytes:
    """The picture as the bytes of a file: png, svg or pdf."""
    if form not in ENDINGS:
        raise InputError(f"{form!r} is no kind of picture: {', '.join(ENDINGS[:-1])} or {ENDINGS[-1]} is needed")
    return _rendered(plot(results), form)


def shown_png(result: Any) -> bytes | None:
    """The picture that a result shows in Jupyter, and nothing where there is no matplotlib."""
    try:
        return picture_bytes(result)
    except LibraryMissing:
        return None


def ending(path: str | os.PathLike[str]) -> str:
    """The kind of picture that a file's name asks for: png, svg or pdf."""
    name = os.fspath(path)
    form = os.path.splitext(name)[1].lower().removeprefix(".")
    if form not in ENDINGS:
        raise InputError("a picture is a file that ends in .png, .svg or .pdf", where=name)
    return form


def load() -> Any:
    """matplotlib, or words that say how to get it."""
    needed("matplotlib.figure", "a picture", "plot")
    return needed("matplotlib", "a picture", "plot")


def _new(matplotlib: Any, followed: bool) -> Any:
    figure = matplotlib.figure.Figure(figsize=(7.0, 8.4 if followed else 6.4), layout="constrained")
    # IPython shows figures of pyplot only, but for this.
    figure._repr_png_ = partial(_rendered, figure, "png")
    return figure


def _rendered(figure: Any, form: str) -> bytes:
    made = io.BytesIO()
    with load().rc_context(_WRITTEN):
        figure.savefig(made, format=form, dpi=100, metadata=_ABOUT[form])
    return made.getvalue()


# ---- drawing ----


def _draw(matplotlib: Any, figure: Any, pairs: list[tuple[str, Result]]) -> None:
    heights = [4.0, 2.0, 1.2, 1.7] if _followed(pairs) else [4.0, 1.2, 1.7]
    panels = figure.subplots(len(heights), 1, sharex=True, gridspec_kw={"height_ratios": heights})
    top, held, lost = panels[0], panels[-2], panels[-1]
    styles = [_style(i) for i in range(len(pairs))]
    # What stands for a kind of line in a legend has the colour of the only curve, or none.
    common = styles[0]["color"] if len(pairs) == 1 else _GREY
    _draw_curves(matplotlib, top, pairs, styles, common)
    if _followed(pairs):
        _draw_words(panels[1], pairs[0][1])
    _draw_held(matplotlib, held, pairs, styles)
    _draw_lost(matplotlib, lost, pairs, styles, common)
    lost.set_xlabel(_TIME)
    for axes in panels:
        axes.grid(True, color="#DDDDDD", linewidth=0.6)
        axes.set_axisbelow(True)
    figure.align_ylabels(panels)
    if len(pairs) == 1 and is_checked(pairs[0][1]):
        figure.suptitle(textwrap.fill(pairs[0][1].says, 115), fontsize="small", x=0.01, horizontalalignment="left")


def _style(place: int) -> dict[str, Any]:
    return {"color": _COLOURS[place % len(_COLOURS)], "linestyle": _STYLES[place % len(_STYLES)]}


def _followed(pairs: list[tuple[str, Result]]) -> bool:
    """Whether there are coefficients to draw: those of several curves could not be told apart."""
    return len(pairs) == 1 and bool(curve_of(pairs[0][1]).words)


def _draw_curves(
    matplotlib: Any, axes: Any, pairs: list[tuple[str, Result]], styles: list[dict[str, Any]], common: Any
) -> None:
    handles, kinds = [], {}
    for (name, result), style in zip(pairs, styles):
        curve, colour = curve_of(result), style["color"]
        if is_checked(result):
            low, high = curve.values - result.band, curve.values + result.band
            axes.fill_between(curve.times, low, high, color=colour, alpha=0.25, linewidth=0, label=f"{name}: check")
            kinds[_BAND] = matplotlib.patches.Patch(color=common, alpha=0.25, linewidth=0)
            if result.exact is not None:
                dots = {"linestyle": "", "marker": "o", "markersize": 4, "markerfacecolor": "none"}
                every = 1 + len(curve.times) // _DOTS
                axes.plot(curve.times, result.exact, color=colour, label=f"{name}: exact", markevery=every, **dots)
                kinds["exact"] = matplotlib.lines.Line2D([], [], color=common, **dots)
        label = name if curve.finished else f"{name} (stopped early)"
        # A single point has no line.
        mark = "o" if len(curve.times) == 1 else ""
        handles += axes.plot(curve.times, curve.values, label=label, linewidth=1.8, marker=mark, **style)
    limits = _limits(pairs)
    for (name, result), style in zip(pairs, styles):
        curve = curve_of(result)
        # One that is nowhere known, or 0 everywhere, shows nothing.
        if (curve.estimate > 0).any():
            thin = {"linestyle": (0, (1, 1.5)), "linewidth": 0.9}
            for sign, side in (-1, "below"), (1, "above"):
                bound = curve.values + sign * curve.estimate
                axes.plot(curve.times, bound, color=style["color"], label=f"{name}: estimate {side}", **thin)
            kinds[_ESTIMATE] = matplotlib.lines.Line2D([], [], color=common, **thin)
    axes.set_ylim(*limits)
    observables = {curve_of(result).name for _, result in pairs}
    axes.set_ylabel(f"expectation of {observables.pop()}" if len(observables) == 1 else "expectation")
    labels = [*(line.get_label() for line in handles), *kinds]
    # Two columns, where they are not wider than the picture.
    columns = 2 if max(map(len, labels)) <= 45 else 1
    axes.legend([*handles, *kinds.values()], labels, ncol=columns, **_ABOVE)


def _draw_words(axes: Any, result: Result) -> None:
    """The coefficients that were followed, of a check with how far they moved."""
    curve = curve_of(result)
    for place, (word, values) in enumerate(list(curve.words.items())[:_WORDS]):
        style = _style(place)
        axes.plot(curve.times, values, label=word, linewidth=1.4, **style)
        if is_checked(result):
            moved = sum(abs(other.words[word] - values) for other in (result.half_step, result.double_room))
            axes.fill_between(curve.times, values - moved, values + moved, color=style["color"], alpha=0.2, linewidth=0)
    some = "" if len(curve.words) <= _WORDS else f"\n({_WORDS} of {len(curve.words)})"
    axes.set_ylabel(f"coefficient{some}")
    longest = max(map(len, curve.words))
    axes.legend(ncol=max(1, 80 // (longest + 8)), **_ABOVE)


def _limits(pairs: list[tuple[str, Result]]) -> tuple[float, float]:
    """The lowest and highest number that is shown: of curves, bands and exact curves all, of estimates as much as
    leaves the curves legible."""
    low, high = _span(_certain(result) for _, result in pairs)
    height = high - low or abs(high) or 1.0
    curves = [curve_of(result) for _, result in pairs]
    bounds = _span([*(c.values - c.estimate for c in curves), *(c.values + c.estimate for c in curves)])
    least = max(bounds[0], low - _ROOM_FOR_ESTIMATE * height)
    most = min(bounds[1], high + _ROOM_FOR_ESTIMATE * height)
    return min(low, least) - 0.05 * height, max(high, most) + 0.05 * height


def _certain(result: Result) -> NumberTable:
    """All numbers that must be seen."""
    values = curve_of(result).values
    if not is_checked(result):
        return values
    shown = [values, values - result.band, values + result.band]
    return np.concatenate(shown if result.exact is None else [*shown, result.exact])


def _span(tables: Iterable[NumberTable]) -> tuple[float, float]:
    numbers = np.concatenate(list(tables))
    numbers = numbers[np.isfinite(numbers)]
    return (float(numbers.min()), float(numbers.max())) if len(numbers) else (0.0, 0.0)


def _draw_held(matplotlib: Any, axes: Any, pairs: list[tuple[str, Result]], styles: list[dict[str, Any]]) -> None:
    most = 1
    for (name, result), style in zip(pairs, styles):
        steps = curve_of(result).steps
        axes.plot(steps.time, steps.held, label=name, linewidth=1.4, **style)
        most = max([most, *steps.held.tolist()])
    axes.set_ylim(0, 1.12 * most)
    axes.yaxis.set_major_locator(matplotlib.ticker.MaxNLocator(nbins=4, integer=True))
    axes.yaxis.set_major_formatter(matplotlib.ticker.StrMethodFormatter("{x:,.0f}"))
    axes.set_ylabel("words held")


def _draw_lost(
    matplotlib: Any, axes: Any, pairs: list[tuple[str, Result]], styles: list[dict[str, Any]], common: Any
) -> None:
    unknown = total = 0
    for i, ((name, result), style) in enumerate(zip(pairs, styles)):
        steps = curve_of(result).steps
        leaked = leaked_in_steps(curve_of(result))
        axes.plot(steps.time, _positive(leaked), label=f"{name}: leaked", linewidth=1.4, **style)
        marks = {"linestyle": "", "marker": _MARKS[i % len(_MARKS)], "markersize": 4, "markerfacecolor": "none"}
        axes.plot(steps.time, _positive(steps.dropped_sum), color=style["color"], label=f"{name}: dropped", **marks)
        unknown += int(np.isnan(leaked).sum())
        total += len(leaked)
    axes.set_ylabel("lost in a step")
    least, most = _span(line.get_ydata() for line in axes.lines)
    if most > 0:
        axes.set_yscale("log")
        # From one power of ten to another, so that two have a label.
        axes.set_ylim(10.0 ** math.floor(math.log10(least) - 0.05), 10.0 ** math.ceil(math.log10(most) + 0.05))
        # As 1e-05: matplotlib's own powers of ten ask for a parser that warns on Debian.
        axes.yaxis.set_major_formatter(matplotlib.ticker.FuncFormatter(lambda x, _: f"{x:.0e}"))
        axes.yaxis.set_minor_formatter(matplotlib.ticker.NullFormatter())
    else:
        axes.set_yticks([])
        said = "what leaked is not known, and nothing was dropped" if unknown else "nothing was lost"
        axes.text(0.5, 0.5, said, transform=axes.transAxes, ha="center", va="center", color=_GREY)
        return
    not_known = f", not known in {unknown} of {total} steps" if unknown else ""
    handles = [
        matplotlib.lines.Line2D([], [], color=common, linewidth=1.4),
        matplotlib.lines.Line2D([], [], color=common, linestyle="", marker="x", markersize=4),
    ]
    labels = [f"leaked: rate times step{not_known}", f"dropped by prune and cap{' (marks)' * (len(pairs) > 1)}"]
    axes.legend(handles, labels, ncol=2, **_ABOVE)


def leaked_in_steps(curve: Curve) -> NumberTable:
    """What leaked in each step: its length times the mean of the rates at its ends, NaN where one is not known."""
    steps = curve.steps
    leaked: NumberTable = (steps.leak_sum_before + steps.leak_sum_after) / 2 * steps.dt
    return leaked


def _positive(numbers: NumberTable) -> NumberTable:
    """What a logarithmic axis can show."""
    return np.where(numbers > 0, numbers, math.nan)
