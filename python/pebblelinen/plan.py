# SPDX-FileCopyrightText: 2026 The PPVM Authors
# SPDX-License-Identifier: Apache-2.0
"""The times of a run, and the steps that lead to them."""
import math
from collections.abc import Iterable, Mapping
from typing import Any, NamedTuple

import numpy as np
from numpy.typing import NDArray

from . import _given
from ._types import ItemPath, NumberTable
from .errors import InputError

# By how much of itself a step may be longer than dt: differences of times are rounded.
_ROUNDING = 1e-9

# The most steps of a run. More are asked for by a mistyped dt.
MOST_STEPS = 1_000_000

# The ways to give times: a list, or where they end and how many equal parts lead there.
AnyTimes = Iterable[float] | Mapping[str, float] | NDArray[Any]


class Plan(NamedTuple):
    """The steps of a run.

    times     those at which it is to be looked at
    done      how many steps are done at each
    ends      the time at which each step ends
    lengths   the length of each step
    """

    times: NumberTable
    done: NDArray[np.int64]
    ends: NumberTable
    lengths: NumberTable


def times_of(given: AnyTimes, path: ItemPath = ("times",)) -> tuple[float, ...]:
    """Times as they are given: finite, not below 0, each above the one before. {"to": t, "count": c} is 0 and the ends
    of c equal parts from there to t."""
    if isinstance(given, Mapping):
        return _equal_parts(given, path)
    if not hasattr(given, "__iter__"):
        raise InputError(f"times are {_given.shown(given)}: a list is needed", path)
    times = [_given.real(x, f"time {i}", (*path, i)) for i, x in enumerate(_given.listed(given, "times", path))]
    if not times:
        raise InputError("there are no times: at least one is needed", path)
    for i, time in enumerate(times):
        if not (math.isfinite(time) and time >= 0):
            raise InputError(f"time {i} is {time!r}: a finite number not below 0 is needed", (*path, i))
        if i and time <= times[i - 1]:
            said = f"time {i} is {time!r}, and the one before it is {times[i - 1]!r}"
            raise InputError(f"{said}: times are to rise", (*path, i))
    return tuple(times)


def _equal_parts(given: Mapping[str, Any], path: ItemPath) -> tuple[float, ...]:
    if {*given} != {"to", "count"}:
        raise InputError("times are a list, or have the keys to and count", path)
    to = _given.real(given["to"], "the last time", (*path, "to"))
    if not (math.isfinite(to) and to > 0):
        raise InputError(f"the last time is {to!r}: a finite number above 0 is needed", (*path, "to"))
    count = _given.whole(given["count"], "the number of times after 0", (*path, "count"), MOST_STEPS, 1)
    if count > MOST_STEPS:
        raise InputError(f"{count} times: at most {MOST_STEPS} are needed", (*path, "count"))
    return times_of([to * i / count for i in range(count + 1)], path)


def dt_of(given: float | None, path: ItemPath = ("dt",)) -> float | None:
    """The longest step, where there is one."""
    if given is None:
        return None
    dt = _given.real(given, "dt", path)
    if not (math.isfinite(dt) and dt > 0):
        raise InputError(f"dt is {dt!r}: a finite number above 0 is needed", path)
    return dt


def planned(times: Iterable[float], dt: float | None, split: int = 1) -> Plan:
    """The steps from 0 to each of the times. Between two times there is the smallest number of equal steps that are not
    longer than dt, or one where there is no dt; and each of these is split into so many."""
    asked = np.array([*times], np.float64)
    done, ends, lengths, start = [], [np.zeros(0)], [np.zeros(0)], 0.0
    count = 0
    for end in asked.tolist():
        if end > start:
            needed = 1.0 if dt is None else (end - start) / dt * (1 - _ROUNDING)
            if not (needed + 1) * split + count <= MOST_STEPS + split:
                said = f"dt = {dt!r} asks for more than {MOST_STEPS} steps up to the time {end!r}"
                raise InputError(f"{said}: give a longer one", ("dt",))
            parts = max(math.ceil(needed), 1) * split
            ends.append(np.append(start + (end - start) * np.arange(1, parts) / parts, end))
            lengths.append(np.full(parts, (end - start) / parts))
            count += parts
        start = end
        done.append(count)
    return Plan(asked, np.array(done, np.int64), np.concatenate(ends), np.concatenate(lengths))
