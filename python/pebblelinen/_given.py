# SPDX-FileCopyrightText: 2026 The PPVM Authors
# SPDX-License-Identifier: Apache-2.0
"""Numbers and arrays as a user gives them, as the numbers and tables that the library takes.

Only what cannot be handed over is turned away here. Ranges and limits are the library's to judge: a NaN,
a rate below 0 or 70,000 words go through."""
import operator
import reprlib
from collections.abc import Mapping, Sequence
from typing import Any

import numpy as np
from numpy.typing import NDArray

from ._lanes import NAMED, WORD_LANES, advice
from ._types import ItemPath, LaneTable, NumberTable
from .errors import InputError

_short = reprlib.Repr()
_short.maxstring = _short.maxother = _short.maxlong = 60


def whole(given: Any, what: str, path: ItemPath = (), most: int | str = "2^64 - 1", least: int = 0) -> int:
    """A number of 64 bits. Where it has another upper limit, a user is told that; the library judges it."""
    if _is_number(given):
        try:
            value = operator.index(given)
        except TypeError:
            pass
        else:
            if least <= value < 1 << 64:
                return value
            raise InputError(f"{what} is {shown(value)}: from {least} to {most} is needed", path)
    raise InputError(f"{what} is {shown(given)}: a whole number is needed", path)


def real(given: Any, what: str, path: ItemPath = ()) -> float:
    """A number of 64 bits with a fraction."""
    if _is_number(given) and not isinstance(given, (complex, np.complexfloating)):
        try:
            return float(given)
        except (TypeError, ValueError, OverflowError):
            pass
    raise InputError(f"{what} is {shown(given)}: a real number is needed", path)


def number(given: Any, what: str, path: ItemPath = ()) -> complex:
    """A complex number."""
    if _is_number(given):
        try:
            return complex(given)
        except (TypeError, ValueError, OverflowError):
            pass
    raise InputError(f"{what} is {shown(given)}: a number is needed", path)


def _is_number(given: Any) -> bool:
    # Texts and truth values have a float, arrays of one number too; and a qubit or a position is no
    # number of anything else.
    others = str, bytes, bytearray, bool, np.bool_, np.ndarray
    return not isinstance(given, others) and not hasattr(given, "_kind")


def shown(given: Any) -> str:
    """What was given, in few letters, and quickly, however much it is."""
    try:
        return _short.repr(given)
    except Exception:
        return f"a {type(given).__name__}"


def counted(count: int, one: str, many: str | None = None) -> str:
    """1 word, 2 words."""
    return f"{count} {one if count == 1 else many or one + 's'}"


def pairs(given: Any, what: str, path: ItemPath = ()) -> list[Sequence[Any]]:
    """A list of pairs, given as such or as a mapping."""
    items = listed(given.items() if isinstance(given, Mapping) else given, what, path)
    place = unpaired(items)
    if place is not None:
        raise no_pair(items[place], f"{what} {place}", (*path, place))
    return items


def unpaired(items: list[Any]) -> int | None:
    """The place of the first item that is no pair."""
    if all(issubclass(kind, tuple) for kind in set(map(type, items))) and set(map(len, items)) <= {2}:
        return None
    return next((place for place, item in enumerate(items) if not _is_pair(item)), None)


def _is_pair(item: Any) -> bool:
    return not isinstance(item, (str, bytes, Mapping)) and hasattr(item, "__len__") and len(item) == 2


def no_pair(item: Any, what: str, path: ItemPath) -> InputError:
    """What is raised for an item that is no pair."""
    return InputError(f"{what} is {shown(item)}: a pair is needed", path)


def listed(given: Any, what: str, path: ItemPath = ()) -> list[Any]:
    """What was given as a list; a text is none."""
    if isinstance(given, (str, bytes)):
        raise InputError(f"{what} is the text {shown(given)}: a list is needed", path)
    try:
        return list(given)
    except TypeError:
        raise InputError(f"{what} is {shown(given)}: a list is needed", path) from None


def array(given: Any, what: str) -> NDArray[Any]:
    """An array of whatever type was given, which is not copied."""
    if isinstance(given, np.ma.MaskedArray):
        raise InputError(f"{what} is a masked array: fill it first")
    if not hasattr(given, "__len__"):
        given = listed(given, what)
    try:
        made = np.asarray(given)
    except (ValueError, TypeError, OverflowError) as error:
        raise InputError(f"{what} is no array of numbers: {error}") from None
    # Of an empty array the type says nothing.
    return made if made.size else np.zeros(made.shape, np.uint64)


def numbers(given: Any, what: str) -> NumberTable:
    """A table of real numbers: the array itself, where it can be lent."""
    made = array(given, what)
    if made.size and (made.dtype.kind not in "fiu" or not np.can_cast(made.dtype, np.float64)):
        raise InputError(f"{what} is an array of {made.dtype}: float64 is needed")
    if made.ndim != 1:
        raise InputError(f"{what} has {made.ndim} dimensions: 1 is needed")
    return np.require(made, np.float64, ["C", "A"])


def lanes(given: Any, what: str) -> LaneTable:
    """A flat table of words: the array itself, where it can be lent. A last word may be cut off, for the
    library to refuse."""
    if not hasattr(given, "__len__"):
        given = listed(given, what)
    made = array(given, what)
    if made.dtype.kind in "fO" and not hasattr(given, "__array__"):
        # Lanes from 2^63 on, beside others, are not whole numbers to numpy.
        made = _whole_array(given, what)
    if made.dtype.kind not in "iu":
        raise InputError(f"{what} is an array of {made.dtype}: uint64 is needed")
    if made.dtype.kind == "i" and made.size and made.min() < 0:
        raise InputError(f"{what} has a number below 0: lanes are uint64")
    if made.ndim != 1 and made.shape[1:] != (WORD_LANES,):
        needed = f"(words, {WORD_LANES}) is needed, {NAMED}"
        raise InputError(f"{what} has the shape {made.shape}: {needed}{advice(made.shape[-1])}")
    return np.require(made, np.uint64, ["C", "A"]).reshape(-1)


def _whole_array(given: Any, what: str) -> LaneTable:
    objects = np.array(given, object)
    lanes = [whole(x, f"a lane of {what}") for x in objects.reshape(-1)]
    return np.array(lanes, np.uint64).reshape(objects.shape)


def parts(given: Sequence[complex]) -> NumberTable:
    """Real part, imaginary part of each number."""
    return np.array(given, np.complex128).view(np.float64)
