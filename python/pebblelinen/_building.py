# SPDX-FileCopyrightText: 2026 The PPVM Authors
# SPDX-License-Identifier: Apache-2.0
"""Building a model: what was given as flat tables, the library's own tables, and, where it refuses, the
item that is to blame.

The library says by which cause and index it refused. Which item has the text or the number that is meant is
found by asking it again about one item at a time."""
import bisect
import functools
import itertools
from collections.abc import Callable, Collection, Iterable, Mapping, Sequence
from dataclasses import dataclass
from typing import Any

import numpy as np
from numpy.typing import NDArray

from . import _given, _library, _texts, words
from ._lanes import WORD_LANES
from ._tables import WorkTables, work_tables, zeros
from ._texts import Items, Named
from ._types import ItemPath, LaneTable, NumberTable
from .errors import CAUSES, InputError, Refusal
from .items import Added
from .kossakowski import MOST_OPERATORS
from .words import AnyWord, Word

# The ways to give an operator, and K: rows of numbers, which may be of several types.
AnyOperator = AnyWord | Mapping[str, complex] | Mapping[Word, complex] | Iterable[tuple[AnyWord, complex]]
AnyMatrix = Iterable[Any] | NDArray[Any]
# The library's tables by their names.
Tables = dict[str, NDArray[Any]]

TABLES = "h_words h_coeffs jumps rates t_words t_numbers".split()
_LANES = {"h_words", "jumps", "t_words"}
# Numbers that a place takes.
_EACH = dict(h_words=WORD_LANES, h_coeffs=1, jumps=8, rates=1, t_words=WORD_LANES, t_numbers=2)

_RANGE = "0, or 2^-200 to 2^200 in magnitude, is needed"
_LIMITS = {"hamiltonian": 4096, "jumps": 4096, "terms": 16, "operators": MOST_OPERATORS}


# ---- what was given ----


@dataclass(frozen=True)
class Operators:
    """Operators: how many terms each has, and the terms of all, one after another."""

    counts: LaneTable
    terms: Items

    def __len__(self) -> int:
        return len(self.counts)

    def part(self, start: int, end: int) -> "Operators":
        """Those from one place to before another."""
        first, last = int(self.counts[:start].sum()), int(self.counts[:end].sum())
        return Operators(self.counts[start:end], self.terms.part(first, last))

    def longest(self) -> int:
        """The most terms that one has."""
        return int(self.counts.max(initial=0))


@dataclass(frozen=True)
class Jumps:
    """The rate and the operator of each jump."""

    rates: NumberTable
    operators: Operators

    def __len__(self) -> int:
        return len(self.rates)

    def part(self, start: int, end: int) -> "Jumps":
        """Those from one place to before another."""
        return Jumps(self.rates[start:end], self.operators.part(start, end))


@dataclass(frozen=True)
class Matrix:
    """The operators of a matrix, the entries of K, row by row, and how many each row has."""

    operators: Operators
    entries: list[complex]
    rows: list[int]


def hamiltonian_of(given: Any, path: ItemPath = ("hamiltonian",)) -> Items:
    """The items of a Hamiltonian."""
    items = _given.pairs(given, "Hamiltonian item", path)
    return _items(items, lambda i: (f"Hamiltonian item {i}", (*path, i)), np.float64)


def jumps_of(given: Any, path: ItemPath = ("jumps",)) -> Jumps:
    """The jumps of a list of pairs of a rate and an operator."""
    given = _listed_only(given, "jumps", path)
    if _is_one(given, lambda rate, _: isinstance(rate, (int, float))):
        raise InputError("jumps is one (rate, operator) pair: a list of pairs, [(rate, operator)], is needed", path)
    items = _given.pairs(given, "jump", path)
    rates = _numbers([x for x, _ in items], np.float64, lambda i: (f"the rate of jump {i}", (*path, i, "rate")))
    return Jumps(rates, operators_of([each for _, each in items], lambda i: (*path, i, "operator")))


def matrices_of(given: Any, path: ItemPath = ("matrices",)) -> list[Matrix]:
    """The matrices of a list of pairs of operators and K."""
    given = _listed_only(given, "matrices", path)
    if _is_one(given, lambda _, k: _is_matrix(k)):
        raise InputError("matrices is one (operators, K) pair: a list of pairs, [(operators, K)], is needed", path)
    items = _given.pairs(given, "matrix", path)
    return [matrix_of(operators, k, (*path, i)) for i, (operators, k) in enumerate(items)]


def matrix_of(operators: Any, k: Any, path: ItemPath) -> Matrix:
    """The matrix of operators and K."""
    where = (*path, "operators")
    listed = _given.listed(_listed_only(operators, "operators", where), "operators", where)
    terms = operators_of(listed, lambda j: (*where, j))
    return Matrix(terms, *entries_of(k, len(terms), (*path, "k")))


def _listed_only(given: Any, what: str, path: ItemPath) -> Any:
    if isinstance(given, Mapping):
        raise InputError(f"{what} is a mapping: a list is needed", path)
    return given


def _is_one(given: Any, is_pair: Callable[[Any, Any], bool]) -> bool:
    """Whether one pair is given where a list of pairs is meant."""
    return isinstance(given, (tuple, list)) and len(given) == 2 and is_pair(*given)


def _is_matrix(given: Any) -> bool:
    try:
        array = np.asarray(given)
    except ValueError:
        return False
    return array.ndim == 2 and array.dtype.kind in "iufc"


def operators_of(given: list[Any], path_of: Callable[[int], ItemPath]) -> Operators:
    """The operators of a list, to each of which path_of says the way."""
    if not set(map(type, given)) <= {list, tuple}:
        given = [_operator(each, path_of, i) for i, each in enumerate(given)]
    counts = np.fromiter(map(len, given), np.uint64, len(given))

    @functools.cache
    def ends() -> list[int]:
        found: list[int] = counts.cumsum().tolist()
        return found

    def named(place: int) -> tuple[str, ItemPath]:
        i = bisect.bisect_right(ends(), place)
        j = place - ends()[i] + len(given[i])
        return f"term {j}", (*path_of(i), j)

    return Operators(counts, _items(list(itertools.chain.from_iterable(given)), named, np.complex128))


def _operator(given: Any, path_of: Callable[[int], ItemPath], place: int) -> Collection[Any]:
    """The terms of an operator. A word alone is an operator of one term with the number 1."""
    if isinstance(given, (dict, Mapping)):
        alone = given and not isinstance(next(iter(given)), (str, Word))
        return [(given, 1 + 0j)] if alone else given.items()
    if isinstance(given, (str, Word)):
        return [(given, 1 + 0j)]
    return given if isinstance(given, (list, tuple)) else _given.listed(given, "term", path_of(place))


def _items(items: list[Any], named: Named, kind: type) -> Items:
    """The items of a list of pairs, each of which has a name and a way to it."""
    place = _given.unpaired(items)
    if place is not None:
        raise _given.no_pair(items[place], *named(place))

    def number(place: int) -> tuple[str, ItemPath]:
        what, path = named(place)
        return f"the number of {what}", path

    return Items([word for word, _ in items], _numbers([x for _, x in items], kind, number), named)


def _numbers(given: list[Any], kind: type, named: Named) -> NDArray[Any]:
    """The numbers of a list, real or complex, each of which has a name and a way to it."""
    real = kind is np.float64
    plain: set[type] = {int, float} if real else {int, float, complex}
    if set(map(type, given)) <= plain:
        try:
            return np.fromiter(given, kind, len(given))
        except OverflowError:
            # A whole number without a float: which one is said below.
            pass
    read = _given.real if real else _given.number
    return np.array([read(x, *named(i)) for i, x in enumerate(given)], kind)


def entries_of(given: Any, k: int, path: ItemPath) -> tuple[list[complex], list[int]]:
    """The entries of K, row by row, and how many each row has. As many rows as operators are asked for, of as
    many entries each: the library sees only how many entries there are, and judges that."""
    if isinstance(given, np.ndarray) and given.dtype.kind in "fciu":
        given = given.tolist()
    rows = [_given.listed(row, "a row of K", (*path, i)) for i, row in enumerate(_given.listed(given, "K", path))]
    entries = [
        _given.number(x, f"K[{i}][{j}]", (*path, i, j))
        for i, row in enumerate(rows)
        for j, x in enumerate(row)
    ]
    lengths = [len(row) for row in rows]
    if len(entries) == k * k and lengths != [k] * k:
        raise InputError(f"K has {_rows_said(lengths)}: {k} rows of {k} are needed", path)
    return entries, lengths


def _rows_said(lengths: Sequence[int]) -> str:
    """The rows of K, in few words, however many they are."""
    if len(set(lengths)) < 2:
        each = f" of {lengths[0]}" if lengths else ""
        return _given.counted(len(lengths), "row") + each
    more = ", .." if len(lengths) > 8 else ""
    return f"rows of {', '.join(map(str, lengths[:8]))}{more}"


NO_ITEMS = hamiltonian_of(())
NO_JUMPS = jumps_of(())


# ---- the library's tables ----


def build(n: int, hamiltonian: Items, jumps: Jumps) -> tuple[_library.Built, Tables]:
    """The answer and the tables of a model."""
    operators = jumps.operators
    terms = operators.terms
    sizes = _library.call("model_sizes", len(hamiltonian), len(jumps), operators.longest())
    tables = {name: _table(name, getattr(sizes, name)) for name in TABLES}
    with work_tables() as work:
        built = _library.call(
            "build_model",
            *_texts.joined((hamiltonian, terms), n, work),
            hamiltonian.numbers,
            jumps.rates,
            operators.counts,
            terms.numbers.view(np.float64),
            n,
            *tables.values(),
            *_lent(work, sizes),
        )
    return built, tables


def add_matrix(counts: _library.Model, tables: Tables, matrix: Matrix) -> tuple[_library.Built, Tables]:
    """The answer and the tables, which become longer where they must."""
    operators = matrix.operators
    sizes = _library.call("matrix_sizes", len(operators), operators.longest())
    tables = {name: _longer(name, tables[name], counts, getattr(sizes, name)) for name in TABLES}
    terms = operators.terms
    with work_tables() as work:
        added = _library.call(
            "add_kossakowski",
            counts,
            *_texts.joined((terms,), counts.qubits, work),
            operators.counts,
            terms.numbers.view(np.float64),
            _given.parts(matrix.entries),
            *tables.values(),
            *_lent(work, sizes),
        )
    return added, tables


def with_matrices(
    counts: _library.Model, tables: Tables, matrices: Sequence[Matrix], first: int
) -> tuple[_library.Model, Tables, tuple[Added, ...]]:
    """Counts and tables with matrices added, the first of which is counted so, and where each was added."""
    found = []
    for i, matrix in enumerate(matrices, first):
        added, tables = add_matrix(counts, tables, matrix)
        if added.status.refusal:
            raise matrix_refusal(added.status, counts.qubits, i, counts.jumps, matrix, tables)
        k = np.array(matrix.entries, np.complex128).reshape(2 * [len(matrix.operators)])
        found.append(Added(counts.jumps, counts.terms, matrix.operators.counts, k))
        counts = added.model
    return counts, tables, tuple(found)


def _lent(work: WorkTables, sizes: _library.Sizes) -> list[NDArray[Any]]:
    return [
        work.table("work_words", sizes.work_words),
        work.table("work_numbers", sizes.work_numbers),
    ]


def _table(name: str, length: int) -> NDArray[Any]:
    return zeros(length, np.uint64 if name in _LANES else np.float64)


def _in_use(name: str, counts: _library.Model) -> int:
    places = dict(h_words="hamiltonian", h_coeffs="hamiltonian", jumps="jumps", rates="jumps")
    return _EACH[name] * int(getattr(counts, places.get(name, "terms")))


def _longer(name: str, table: NDArray[Any], counts: _library.Model, more: int) -> NDArray[Any]:
    used = _in_use(name, counts)
    if len(table) >= used + more:
        return table
    made = _table(name, 2 * (used + more))
    made[:used] = table[:used]
    return made


def trimmed(tables: Tables, counts: _library.Model) -> Tables:
    """The places in use, to be read only. A table of which less than half is in use is copied, so that a model
    does not hold much more than it needs."""
    used = {name: table[: _in_use(name, counts)] for name, table in tables.items()}
    used = {name: table if 2 * len(table) >= len(tables[name]) else table.copy() for name, table in used.items()}
    for table in used.values():
        table.flags.writeable = False
    return used


# ---- refusals ----


def model_refusal(status: _library.Status, n: int, hamiltonian: Items, jumps: Jumps, tables: Tables) -> Refusal:
    """The refusal of building."""
    number, first = status.refusal, status.first
    if number == 1:
        return words.text_refusal(status, "", n, ("n",))
    if number == 9:
        sizes = _library.call("model_sizes", len(hamiltonian), len(jumps), jumps.operators.longest())
        needs = dict(h_words=len(hamiltonian), h_coeffs=len(hamiltonian), jumps=len(jumps), rates=len(jumps))
        return _short_table(status, "the model", needs, tables, sizes, {}, ())
    if number == 8:
        for what, count in ("hamiltonian", len(hamiltonian)), ("jumps", len(jumps)):
            if count > _LIMITS[what]:
                return _count(first, what, "the model", {}, (what,))
    for i in range(len(hamiltonian)):
        item = hamiltonian.part(i, i + 1)
        if build(n, item, NO_JUMPS)[0].status.refusal:
            return hamiltonian_refusal(status, n, i, item)
    for i in range(len(jumps)):
        jump = jumps.part(i, i + 1)
        if build(n, NO_ITEMS, jump)[0].status.refusal:
            return jump_refusal(status, n, i, jump)
    return _unexplained(status, "the model")


def hamiltonian_refusal(status: _library.Status, n: int, i: int, item: Items) -> Refusal:
    """The refusal of Hamiltonian item i."""
    (word,), (x,) = item.words, item.numbers.tolist()
    what, path = f"Hamiltonian item {i}", ("hamiltonian", i)
    if status.refusal == 7:
        return Refusal(7, f"{what} has the number {x}: {_RANGE}", {"item": i}, path)
    return _text_refusal(status, word, n, what, {"item": i}, path)


def jump_refusal(status: _library.Status, n: int, i: int, jump: Jumps) -> Refusal:
    """The refusal of jump i."""
    (rate,) = jump.rates.tolist()
    what, path, values = f"jump {i}", ("jumps", i), {"jump": i}
    if status.refusal == 5:
        return Refusal(5, f"{what} has the rate {rate}, below 0", values, (*path, "rate"))
    sound = operators_of([words.made([0] * WORD_LANES, n)], lambda i: ())
    if build(n, NO_ITEMS, Jumps(jump.rates, sound))[0].status.refusal:
        return Refusal(7, f"{what} has the rate {rate}: {_RANGE}", values, (*path, "rate"))
    return _operator_refusal(status, n, what, jump.operators.terms, values, (*path, "operator"))


def matrix_refusal(status: _library.Status, n: int, i: int, before: int, matrix: Matrix, tables: Tables) -> Refusal:
    """The refusal of matrix i, which was added to `before` jumps and pairs."""
    operators, entries, rows = matrix.operators, matrix.entries, matrix.rows
    number, first, second = status.refusal, status.first, status.second
    what, values, path = f"matrix {i}", {"matrix": i}, ("matrices", i)
    k = len(operators)
    if number == 9 and len(entries) != k * k:
        given = f"{_given.counted(second, 'entry', 'entries')} in K ({_rows_said(rows)})"
        needed = f"{first} for {_given.counted(k, 'operator')} ({_rows_said([k] * k)})"
        values |= {"needed": first, "given": second}
        return Refusal(9, f"{what} has {given}, in place of {needed}", values, (*path, "k"))
    if number == 9:
        sizes = _library.call("matrix_sizes", k, operators.longest())
        needs = dict.fromkeys(("jumps", "rates"), min(_LIMITS["jumps"], before + k * (k + 1) // 2))
        return _short_table(status, what, needs, tables, sizes, values, path)
    if number == 10:
        said = f"{what}: {_not_hermitian(first, second, entries, k)}"
        return Refusal(10, said, values | {"row": first, "column": second}, (*path, "k", first, second))
    if number == 8 and k > _LIMITS["operators"]:
        return _count(first, "operators", what, values, (*path, "operators"))
    if number == 7 and _alone(n, Matrix(operators, [0j] * (k * k), [k] * k)) != 7:
        row, column = divmod(first, k)
        values |= {"place": first, "row": row, "column": column}
        said = f"{what}: K[{row}][{column}] is {entries[first]}: {_RANGE}"
        return Refusal(7, said, values, (*path, "k", row, column))
    for j in range(k):
        operator = operators.part(j, j + 1)
        if _alone(n, Matrix(operator, [0j], [1])):
            values |= {"operator": j}
            where = (*path, "operators", j)
            return _operator_refusal(status, n, f"operator {j} of {what}", operator.terms, values, where)
    if number == 8:
        return _count(first, "jumps", "the model", values, path)
    return _unexplained(status, what)


def _not_hermitian(row: int, column: int, entries: Sequence[complex], k: int) -> str:
    """What is wrong with an entry of K and its counterpart."""
    here, there = entries[row * k + column], entries[column * k + row]
    if row == column:
        return f"K[{row}][{row}] is {here}, and an entry on the diagonal must be real"
    return (
        f"K[{row}][{column}] is not the conjugate of K[{column}][{row}]: they are {here} and {there}; where that is"
        " an error of the measurement, give (K + K.conj().T) / 2"
    )


def _alone(n: int, matrix: Matrix) -> int:
    """The number by which a matrix is refused that is added to an empty model, or 0."""
    built, tables = build(n, NO_ITEMS, NO_JUMPS)
    return int(add_matrix(built.model, tables, matrix)[0].status.refusal)


def _operator_refusal(
    status: _library.Status, n: int, what: str, terms: Items, values: dict[str, int], path: ItemPath
) -> Refusal:
    """The refusal of an operator's terms."""
    if status.refusal == 6:
        return Refusal(6, f"{what} has no terms", values, path)
    if status.refusal == 8:
        return _count(status.first, "terms", what, values, path)
    for j in range(len(terms)):
        term = terms.part(j, j + 1)
        if build(n, NO_ITEMS, Jumps(np.zeros(1), Operators(np.ones(1, np.uint64), term)))[0].status.refusal:
            (word,), (x,) = term.words, term.numbers.tolist()
            if status.refusal == 7:
                said = f"term {j} of {what} has the number {x}: {_RANGE}"
                return Refusal(7, said, values, (*path, j))
            return _text_refusal(status, word, n, f"term {j} of {what}", values, (*path, j))
    return _unexplained(status, what)


def _text_refusal(
    status: _library.Status, word: Any, n: int, what: str, values: dict[str, int], path: ItemPath
) -> Refusal:
    found = words.text_refusal(status, word, n, path)
    return Refusal(found.number, f"{what}: {found.said}", values | found.values, path)


def _short_table(
    status: _library.Status,
    what: str,
    needs: Mapping[str, int],
    tables: Tables,
    sizes: _library.Sizes,
    values: dict[str, int],
    path: ItemPath,
) -> Refusal:
    """A table that was lent too short: nothing that was given is to blame. Tables with a place for each item
    are tested in the order of TABLES, then the work tables, whose needs the library alone knows."""
    first, second = status.first, status.second
    lent = [(name, len(tables[name]) // _EACH[name]) for name, need in needs.items() if need == first]
    work = dict(work_words=sizes.work_words // WORD_LANES, work_numbers=sizes.work_numbers // 2)
    lent += [(name, places) for name, places in work.items() if places < first]
    name = next((name for name, places in lent if places == second), "a table")
    short = f"{_given.counted(second, 'place')} in {name}, in place of {first}"
    said = f"{what} was lent {short}: nothing that was given is to blame"
    return Refusal(9, said, values | {"needed": first, "given": second}, path)


def _count(count: int, what: str, of: str, values: dict[str, int], path: ItemPath) -> Refusal:
    names = {
        "hamiltonian": "Hamiltonian items",
        "terms": "terms",
        "operators": "operators",
        "jumps": "jumps and pairs",
    }
    limit = _LIMITS[what]
    said = f"{of} has {count} {names[what]}: at most {limit}"
    if what == "operators":
        said += "; K can be split: pebblelinen.split_matrix(operators, K) gives matrices that add up to it"
    return Refusal(8, said, values | {"count": count, "limit": limit}, path)


def _unexplained(status: _library.Status, what: str) -> Refusal:
    values = {"first": status.first, "second": status.second}
    return Refusal(status.refusal, f"{what}: {CAUSES[status.refusal]} {tuple(values.values())}", values)
