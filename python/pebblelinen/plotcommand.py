# SPDX-FileCopyrightText: 2026 The PPVM Authors
# SPDX-License-Identifier: Apache-2.0
"""The command that draws stored results."""
import argparse
import csv
import io
from collections.abc import Iterator
from typing import Any

from . import _output, results
from ._curves import curve_of, is_checked
from ._given import counted
from ._printing import Answers, Make, Rows
from .errors import InputError

ABOUT = """\
  pebblelinen plot before.h5 after.h5 --plot both.png       stored curves in one figure"""


def add(command: Make) -> None:
    """Adds the command to the parser."""
    made = command(
        "plot",
        _plot,
        "stored results in one figure",
        "Draws the curves of result files, which `run` and `check` write with --out, in one figure; with --out they are\n"
        "written to one file, or as a table.",
    )
    made.add_argument("files", nargs="+", metavar="RESULT", help="a result file, .h5")
    _output.add_options(made)


def _plot(options: argparse.Namespace) -> Answers:
    if not options.plot and not options.out:
        raise InputError("say where to draw: --plot FILE, with .png, .svg or .pdf at its end")
    _output.look_ahead(options)
    found = [(path, results.load_named(path)) for path in _output.once(options.files)]
    named = _output.labelled(found)
    _output.write(options, found)

    def answer() -> dict[str, Any]:
        found = [
            {"name": label, "observable": curve_of(result).name, "finished": curve_of(result).finished}
            for label, result in named.items()
        ]
        return {"curves": found, **_output.answer(options)}

    def lines() -> Iterator[str]:
        for label, result in named.items():
            curve = curve_of(result)
            early = "" if curve.finished else ", unfinished"
            yield f"{label}: expectation of {curve.name} at {counted(len(curve.times), 'time')}{early}"
            if is_checked(result):
                yield f"  {result.says}"
        yield from _output.lines(options)

    def rows() -> Rows:
        return csv.reader(io.StringIO(results.csv_text(named)))

    return answer, lines, rows
