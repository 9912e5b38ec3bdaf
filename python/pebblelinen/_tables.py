# SPDX-FileCopyrightText: 2026 The PPVM Authors
# SPDX-License-Identifier: Apache-2.0
"""Work tables: lent by the lengths that the library names, and lent again larger where it says that a
table was too short (refusal 13).

The library leaves work tables zero after an accepted call and after refusals 13 to 16, and as they were
after every other refusal. So tables that were zero once stay zero, and are kept for the next call."""
import ctypes
from collections.abc import Iterator
from contextlib import contextmanager
from typing import Any

import numpy as np
from numpy.typing import DTypeLike, NDArray

# Of tables whose numbers are not of 64 bits without sign.
_TYPES: dict[str, DTypeLike] = {
    **dict.fromkeys(
        "work_sums work_numbers cand_sums stage_values raws diags values v b product list_values start evolved".split(),
        np.float64,
    ),
    **dict.fromkeys("stage_rows stage_columns columns".split(), np.uint32),
    # Given to the library to read, and not zero.
    "texts": np.uint8,
}

# The most words that one action of a built model touches: one for each Hamiltonian term, and for each
# jump or pair one for each two terms of its operators, and one for each word of their product.
MOST_TOUCHED = 4096 + 4096 * (16 * 16 + 16 * 16)

# What is kept from call to call, in bytes.
_MOST_KEPT = 256 << 20

_kept: list["WorkTables"] = []


@contextmanager
def work_tables() -> Iterator["WorkTables"]:
    """Tables for one call, which nobody else has. Those of a call that was broken off are dropped."""
    try:
        tables = _kept.pop()
    except IndexError:
        tables = WorkTables()
    yield tables
    if not _kept and tables.bytes() <= _MOST_KEPT:
        _kept.append(tables)


class WorkTables:
    """Zeroed tables by their names, which are lent again and again."""

    def __init__(self) -> None:
        self._tables: dict[str, NDArray[Any]] = {}

    def lend(self, lengths: ctypes.Structure) -> list[NDArray[Any]]:
        """A zeroed table for each length, in their order."""
        return [self.table(name, getattr(lengths, name)) for name, *_ in lengths._fields_]

    def table(self, name: str, length: int) -> NDArray[Any]:
        """A zeroed table of this length."""
        table = self._tables.get(name)
        if table is None or len(table) < length:
            # The shorter one goes first, so that both are never held at once.
            table = None
            self._tables.pop(name, None)
            table = self._tables[name] = zeros(length, _TYPES.get(name, np.uint64))
        return table[:length]

    def bytes(self) -> int:
        """What the tables take."""
        return sum(table.nbytes for table in self._tables.values())


def zeros(length: int, dtype: DTypeLike) -> NDArray[Any]:
    """A zeroed table, unless the machine has no room for it: memory that is promised and not there ends
    the process when it is used."""
    wanted = length * np.dtype(dtype).itemsize
    if wanted > 1 << 28 and wanted > _available() // 4:
        raise MemoryError(f"a table of {wanted} bytes is more than the machine has left")
    return np.zeros(length, dtype)


def _available() -> int:
    with open("/proc/meminfo") as lines:
        for line in lines:
            if line.startswith("MemAvailable:"):
                return int(line.split()[1]) << 10
    return 1 << 62
