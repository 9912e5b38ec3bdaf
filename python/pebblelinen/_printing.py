# SPDX-FileCopyrightText: 2026 The PPVM Authors
# SPDX-License-Identifier: Apache-2.0
"""What the commands have in common: the file they read, and how answers are printed for people and for programs."""
import argparse
import json
import math
import sys
import warnings
from collections.abc import Callable, Iterable, Iterator, Sequence
from typing import Any

from . import modelfile
from ._progress import working
from .errors import InputError, NotPositive, Refusal
from .terms import Terms

# Lines of a list that are shown to people.
SHOWN = 40

# What a command gives, when asked: an answer for programs, lines for people, and the rows of a table.
Rows = Iterable[Iterable[object]]
Answers = tuple[Callable[[], dict[str, Any]], Callable[[], Iterable[str]], Callable[[], Rows]]

# How a command is made: its name, what it does, a line about it, and more about it.
Make = Callable[[str, Callable[[argparse.Namespace], Answers], str, str], argparse.ArgumentParser]


def loaded(options: argparse.Namespace) -> modelfile.ModelFile:
    """What the file holds. A warning goes to standard error, and is kept for the answer to programs."""
    with working(f"reading {options.file}"), warnings.catch_warnings(record=True) as caught:
        warnings.simplefilter("always", NotPositive)
        file = modelfile.load(options.file)
    for warning in caught:
        options.warnings.append(f"{options.file}: {warning.message}")
        print(f"pebblelinen: warning: {options.warnings[-1]}", file=sys.stderr)
    return file


def loaded_with_basis(options: argparse.Namespace) -> modelfile.ModelFile:
    """What the file holds, where it has a basis to work on."""
    file = loaded(options)
    if not len(file.basis):
        raise InputError("this file has no basis to work on: give it a [basis] with words", where=options.file)
    return file


# ---- what is printed ----


def terms_answer(terms: Terms) -> list[dict[str, Any]]:
    """Terms for programs."""
    return [{"word": word.by_site, "value": json_number(value)} for word, value in terms]


def json_number(x: float) -> float | str:
    """JSON has no infinity and no NaN: these are texts."""
    return x if math.isfinite(x) else str(x)


def largest_answer(x: float) -> float | str | None:
    """The largest leakage, which is not known where there was no room to list any."""
    return None if math.isnan(x) else json_number(x)


def error_answer(error: Exception) -> dict[str, Any]:
    """An error for programs."""
    told: dict[str, Any] = {"said": str(error)}
    if isinstance(error, Refusal):
        values = {name: x if isinstance(x, (int, float, str)) else int(x) for name, x in error.values.items()}
        told |= {"refusal": error.number, "cause": error.cause, "values": values}
    where = getattr(error, "where", "")
    if where:
        told |= {"where": where}
    return told


def print_json(answer: dict[str, Any]) -> None:
    """Prints an answer in a line."""
    print(json.dumps(answer, allow_nan=False))


def listed_lines(terms: Terms, all_: bool) -> Iterator[str]:
    """Terms for people, not all of them where they are many."""
    rows = [(word.by_site, repr(value)) for word, value in terms]
    yield from aligned(rows if all_ else rows[:SHOWN])
    yield from more_lines(len(rows), all_)


def more_lines(count: int, all_: bool) -> Iterator[str]:
    """What is said where not all of so many lines are shown."""
    if count > SHOWN and not all_:
        yield f"  .. and {count - SHOWN} more: --all shows them"


def aligned(rows: Sequence[Sequence[str]]) -> Iterator[str]:
    """Columns of one width each, indented; what stands last has room for a sign."""
    widths = [max(len(cell) for cell in column) for column in zip(*rows)]
    for row in rows:
        cells = [f"{cell:{width}}" for cell, width in zip(row[:-1], widths)]
        signed = row[-1] if row[-1].startswith("-") else f" {row[-1]}"
        yield "  " + "  ".join([*cells, signed])
