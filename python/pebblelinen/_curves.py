# SPDX-FileCopyrightText: 2026 The PPVM Authors
# SPDX-License-Identifier: Apache-2.0
"""What pictures and result files are given: one curve or several, with or without a check."""
from collections.abc import Iterable, Mapping
from typing import Any, TypeGuard

from . import _given
from .check import Checked
from .curve import Curve
from .errors import InputError

Result = Curve | Checked
Results = Result | Iterable[Result] | Mapping[str, Result]


def is_checked(result: Any) -> TypeGuard[Checked]:
    """Whether this is a curve with its check."""
    return isinstance(result, Checked)


def curve_of(result: Result) -> Curve:
    """The curve, with or without a check."""
    return result if isinstance(result, Curve) else result.curve


def named(given: Any) -> list[tuple[str, Result]]:
    """One result or several, each with a name: that of a mapping, or its observable's, with a number where several
    have the same."""
    if isinstance(given, Mapping):
        pairs = [(str(name), _result(result)) for name, result in given.items()]
    else:
        results = [given] if _is_result(given) else _given.listed(given, "the curves")
        pairs = [(curve_of(_result(result)).name, result) for result in results]
    if not pairs:
        raise InputError("there is no curve: one at least is needed")
    return list(zip(_told_apart([name for name, _ in pairs]), [result for _, result in pairs]))


def _result(given: Any) -> Result:
    if not _is_result(given):
        raise InputError(f"{_given.shown(given)} is no curve: what a run, a check or a result file gives is needed")
    result: Result = given
    return result


def _is_result(given: Any) -> bool:
    return isinstance(given, (Curve, Checked))


def _told_apart(names: list[str]) -> list[str]:
    return [
        f"{name} ({names[: i + 1].count(name)})" if names.count(name) > 1 else name for i, name in enumerate(names)
    ]
