# SPDX-FileCopyrightText: 2026 The PPVM Authors
# SPDX-License-Identifier: Apache-2.0
"""Generators as scipy matrices, their products with vectors, and the degree of an exponential.

Columns and values of a matrix are the arrays that the library wrote; scipy counts with sign, and every
place here is below 2^31, so the same bytes serve both."""
import struct
import weakref
from collections.abc import Callable, Iterable, Mapping
from typing import Any, NamedTuple

import numpy as np
from numpy.typing import NDArray

from . import _given, _library
from ._sealed import read_only
from ._tables import work_tables
from ._types import ColumnTable, LaneTable, NumberTable
from .errors import InputError, LibraryMissing, Refusal
from .words import Position

# The most rows of a matrix, and the most products with it that an exponential may take.
_MAX_ROWS = 65_536
MAX_PRODUCTS = 1_048_576
_NO_COLUMN = 0xFFFF_FFFF


class Choice(NamedTuple):
    """s stages of m products each."""

    m: int
    s: int


def sparse() -> Any:
    """scipy.sparse, which is needed for matrices alone."""
    try:
        import scipy.sparse
    except ImportError as error:
        raise LibraryMissing(
            f"a generator is a scipy matrix, and scipy cannot be imported ({error}): pip install 'pebblelinen[scipy]'"
        ) from None
    return scipy.sparse


def coo(len_: int, rows: ColumnTable, columns: ColumnTable, values: NumberTable) -> Any:
    """A scipy COO matrix of the library's arrays."""
    places = rows.view(np.int32), columns.view(np.int32)
    return sparse().coo_matrix((values, places), shape=(len_, len_), copy=False)


def csr(offsets: LaneTable, columns: ColumnTable, values: NumberTable) -> Any:
    """A scipy CSR matrix of the library's arrays."""
    len_ = len(offsets) - 1
    places = columns.view(np.int32), offsets.view(np.int64)
    made = sparse().csr_matrix((values, *places), (len_, len_), copy=False)
    made.has_sorted_indices = True
    made.has_canonical_format = True
    return made


def product(
    matrix: Any,
    vector: Iterable[float] | NDArray[Any],
    *,
    out: NumberTable | None = None,
    add: bool = False,
) -> NumberTable:
    """The product of a CSR matrix, as Model.csr gives it, with a vector: by row, summed in the order of
    columns, zeros of the vector skipped. It is written to `out`, or added to what is there, where an
    array of float64 is given; `out` is returned."""
    offsets, columns, values = _parts(matrix)
    rows = matrix.shape[0]
    given = _given.numbers(vector, "the vector")
    if out is None:
        if add:
            raise InputError("add=True needs an array in out=")
        out = np.zeros(rows)
    _check_out(out, {"the vector": given, "the matrix": values, "its columns": columns})
    with work_tables() as tables:
        # One work table, named after one of the same type.
        work = tables.table("raws", min(rows, _MAX_ROWS))
        status: _library.Status = _library.call(
            "dot", rows, offsets, columns, values, given, not add, out, work
        )
    if status.refusal:
        raise _product_refusal(status, rows, offsets, columns, values, given, out)
    return out


def row(matrix: Any, *, position: Position | int) -> tuple[ColumnTable, NumberTable]:
    """The row of a CSR matrix at a position: its columns, which are positions, and its values, as parts
    of the matrix' arrays, to be read only. The matrix is tested whole where its first row is read, and then
    row by row."""
    p = int(Position(position))
    _check_matrix(matrix)
    places = _row_of_accepted(matrix, p)
    if places is None:
        places = _row(matrix, p)
    start, end = places
    columns, values = matrix.indices[start:end], matrix.data[start:end]
    return read_only(_columns(columns)), read_only(_given.numbers(values, "the values of the matrix"))


def _row(matrix: Any, p: int) -> tuple[int, int]:
    """Where a row stands, as the library says."""
    rows = matrix.shape[0]
    offsets, columns, _ = _parts(matrix)
    found: _library.Row = _library.call("csr_row", rows, offsets, columns, p)
    if found.status.refusal:
        raise _row_refusal(found.status, rows, offsets, columns, p)
    _accept(matrix)
    return found.start, found.end


def _row_of_accepted(matrix: Any, p: int) -> tuple[int, int] | None:
    """The same for a row of a matrix that the library accepted: the library would test all its columns for each
    row. A row that was changed since is left to the library."""
    rows, indptr, indices = matrix.shape[0], matrix.indptr, matrix.indices
    if p >= rows or not _is_accepted(matrix):
        return None
    start, end = int(indptr[p]), int(indptr[p + 1])
    if not 0 <= start <= end <= len(indices):
        return None
    columns = indices[start:end]
    if columns.size and (columns[0] < 0 or columns[-1] >= rows or (columns[1:] <= columns[:-1]).any()):
        return None
    return start, end


# Of each matrix that was accepted: its arrays and its rows, by the columns, and no longer than these are there.
_accepted: dict[int, tuple[Callable[[], Any], Callable[[], Any], int]] = {}


def _accept(matrix: Any) -> None:
    key = id(matrix.indices)
    columns = weakref.ref(matrix.indices, lambda _: _accepted.pop(key, None))
    _accepted[key] = columns, weakref.ref(matrix.indptr), matrix.shape[0]


def _is_accepted(matrix: Any) -> bool:
    columns, offsets, rows = _accepted.get(id(matrix.indices), (lambda: None, lambda: None, 0))
    same = columns() is matrix.indices and offsets() is matrix.indptr
    return same and bool(rows == matrix.shape[0])


def select_ms(t: float, drop_tol: float = 0.0) -> Choice:
    """How an exponential whose exponent has the norm t is to be computed: s stages of m products. Where these are more
    than 1,048,576 in all it is refused (refusal 16)."""
    t, drop_tol = _given.real(t, "t"), _given.real(drop_tol, "drop_tol")
    degree: _library.Degree = _library.call("select_ms", t, drop_tol)
    if degree.status.refusal:
        raise too_many_products(degree.status, f"t = {t!r}", f"t of at most {largest_step(1.0, drop_tol)!r}")
    return Choice(degree.m, degree.s)


def too_many_products(status: _library.Status, asking: str, enough: str) -> Refusal:
    """Refusal 16: what asked for so many products, and what would not."""
    m, s = status.first, status.second
    said = (
        f"{asking} asks for {s} stages of {m} products each, {m * s} in all: at most {MAX_PRODUCTS};"
        f" a {enough} will do"
    )
    return Refusal(16, said, {"m": m, "s": s})


def largest_step(norm: float, drop_tol: float) -> float:
    """The largest step, from 0 on, whose products are not too many at this norm, which is above 0."""

    def step(bits: int) -> float:
        made: float = struct.unpack("<d", struct.pack("<Q", bits))[0]
        return made

    def is_accepted(bits: int) -> bool:
        degree: _library.Degree = _library.call("select_ms", step(bits) * norm, drop_tol)
        return degree.status.refusal == 0

    # Numbers from 0 to infinity, which is refused, are in the order of their bits.
    low, high = 0, 0x7FF << 52
    while high - low > 1:
        middle = (low + high) // 2
        low, high = (middle, high) if is_accepted(middle) else (low, middle)
    return step(low)


def _check_matrix(matrix: Any) -> None:
    if not sparse().isspmatrix_csr(matrix):
        raise InputError(f"{_given.shown(matrix)} is no CSR matrix")
    if matrix.shape[0] != matrix.shape[1]:
        raise InputError(f"the matrix has the shape {matrix.shape}: as many columns as rows are needed")
    for places in matrix.indptr, matrix.indices:
        if not isinstance(places, np.ndarray) or places.dtype.kind not in "iu" or places.ndim != 1:
            raise InputError("indptr and indices of the matrix are to be lists of whole numbers")


def _parts(matrix: Any) -> tuple[LaneTable, ColumnTable, NumberTable]:
    """Offsets, columns and values of a CSR matrix as the library takes them. What it cannot count, it is
    given as what it refuses."""
    _check_matrix(matrix)
    offsets = matrix.indptr.astype(np.int64).view(np.uint64)
    return offsets, _columns(matrix.indices), _given.numbers(matrix.data, "the values of the matrix")


def _columns(indices: NDArray[Any]) -> ColumnTable:
    columns = np.require(indices, requirements=["C", "A"])
    if columns.dtype == np.int32:
        return columns.view(np.uint32)
    outside = (columns < 0) | (columns > _NO_COLUMN)
    return np.where(outside, _NO_COLUMN, columns).astype(np.uint32)


def _check_out(out: Any, read: Mapping[str, NDArray[Any]]) -> None:
    if not isinstance(out, np.ndarray) or out.dtype != np.float64 or out.ndim != 1:
        raise InputError(f"out is {_given.shown(out)}: an array of float64 with 1 dimension is needed")
    if not out.flags.c_contiguous or not out.flags.aligned:
        raise InputError("out has gaps: an array without gaps is needed")
    if not out.flags.writeable:
        raise InputError("out cannot be written to")
    for what, table in read.items():
        if np.may_share_memory(out, table):
            raise InputError(f"out shares memory with {what}")


def _product_refusal(
    status: _library.Status,
    rows: int,
    offsets: LaneTable,
    columns: ColumnTable,
    values: NumberTable,
    vector: NumberTable,
    out: NumberTable,
) -> Refusal:
    if status.refusal == 14:
        said = f"the product's sum at position {status.first} is not finite"
        return Refusal(14, said, {"position": Position(status.first)})
    if status.refusal == 7:
        wrong = _places_refusal(status.first, rows, offsets, columns)
        return wrong or _numbers_refusal(status.first, offsets, columns, values, vector, out)
    lengths = {
        "offsets": (rows + 1, len(offsets)),
        "values": (len(columns), len(values)),
        "entries of the vector": (rows, len(vector)),
        "places in out": (rows, len(out)),
    }
    return _count_refusal(status, lengths)


def _row_refusal(
    status: _library.Status, rows: int, offsets: LaneTable, columns: ColumnTable, p: int
) -> Refusal:
    if status.refusal == 7:
        said = f"position {p} is outside the matrix of {_given.counted(rows, 'row')}"
        wrong = _places_refusal(status.first, rows, offsets, columns)
        return wrong or Refusal(7, said, {"position": Position(p)})
    return _count_refusal(status, {"offsets": (rows + 1, len(offsets))})


def _count_refusal(status: _library.Status, lengths: Mapping[str, tuple[int, int]]) -> Refusal:
    """Of too many rows, or of lengths that disagree: those that the library compares, needed and given."""
    first, second = status.first, status.second
    if status.refusal == 8:
        said = f"the matrix has {first} rows: at most {_MAX_ROWS}"
        return Refusal(8, said, {"count": first, "limit": _MAX_ROWS})
    what = next((what for what, pair in lengths.items() if pair == (first, second)), "places")
    return Refusal(9, f"{second} {what}: {first} are needed", {"needed": first, "given": second})


def _places_refusal(
    place: int, rows: int, offsets: NDArray[np.uint64], columns: NDArray[np.uint32]
) -> Refusal | None:
    """Of the offsets or columns, where a number in them is out of range."""
    table = _wrong_table(rows, offsets, columns)
    if table is None:
        return None
    if table == "offsets":
        said = (
            f"indptr[{place}] of the matrix is {offsets.view(np.int64)[place]}: indptr begins with 0, never falls,"
            f" and ends with {len(columns)}, the number of entries"
        )
    elif columns[place] >= rows:
        # What was given with a sign, or with more bits, reads here as a large number.
        given = columns[place] if columns[place] < 1 << 31 else "below 0 or above 2^31 - 1"
        said = f"indices[{place}] of the matrix is {given}: from 0 to {rows - 1} is needed"
    else:
        said = (
            f"indices[{place}] of the matrix is {columns[place]}, after {columns[place - 1]} in the same row:"
            " columns must rise in every row, and matrix.sum_duplicates() sorts them and adds up what comes twice"
        )
    return Refusal(7, said, {"table": table, "place": place})


def _numbers_refusal(
    place: int,
    offsets: NDArray[np.uint64],
    columns: NDArray[np.uint32],
    values: NDArray[np.float64],
    vector: NDArray[np.float64],
    out: NDArray[np.float64],
) -> Refusal:
    """Of a number that is not finite: values are tested first, then the vector, then out."""
    if not np.isfinite(values).all():
        at = int(np.searchsorted(offsets.view(np.int64), place, "right")) - 1
        table, said = "values", f"the matrix has {values[place]} in row {at}, column {columns[place]}"
    elif not np.isfinite(vector).all():
        table, said = "vector", f"the vector has {vector[place]} at position {place}"
    else:
        table, said = "out", f"out has {out[place]} at position {place}"
    return Refusal(7, f"{said}: a finite number is needed", {"table": table, "place": place})


def _wrong_table(rows: int, offsets: LaneTable, columns: ColumnTable) -> str | None:
    """Offsets or columns, where a number in them is out of range: offsets are tested first."""
    ends = offsets.view(np.int64)
    if len(ends) != rows + 1:
        return None
    if ends[0] != 0 or (np.diff(ends) < 0).any() or ends[-1] != len(columns):
        return "offsets"
    starts = np.zeros(len(columns) + 1, bool)
    starts[ends] = True
    rising = np.diff(columns.astype(np.int64)) > 0
    if (columns >= rows).any() or not (rising | starts[1 : len(columns)]).all():
        return "columns"
    return None
