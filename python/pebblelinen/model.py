# SPDX-FileCopyrightText: 2026 The PPVM Authors
# SPDX-License-Identifier: Apache-2.0
"""A model of a device: what it does to words and bases."""
import functools
import math
import os
from collections.abc import Callable, Iterable, Iterator, Mapping, Sequence
from typing import Any, NamedTuple

import numpy as np
from numpy.typing import NDArray

from . import _building, _given, _library, items, kossakowski, matrix
from ._building import AnyMatrix, AnyOperator
from ._files import write_whole
from ._lanes import WORD_LANES, pickled_before
from ._sealed import Sealed
from ._showing import Shown, Table
from ._tables import MOST_TOUCHED, work_tables
from ._types import LaneTable, NumberTable
from .basis import AnyWords, Basis, Entry, not_finite, refusal, too_short
from .check import Checked, compared, prepared
from .combining import summed
from .curve import Curve
from .errors import InputError, Refusal
from .items import operator_text, row_text
from .leakage import TAU_ADD, Leakage
from .plan import AnyTimes
from .run import begun, settings_of, tolerance_of
from .state import AnyState
from .step import Rules, Stepped, rules_of, take_step
from .terms import AnyTerms, Terms
from .words import (
    MAX_WORDS,
    AnyWord,
    Position,
    Word,
    lanes_of,
    places_of,
    qubits,
    register,
    same_register,
    site_text,
    struct_of,
    table,
)

# Positions that leakage takes in a pass.
_PASS = 4096


class Norm(NamedTuple):
    """The norm of a generator, shifted by mu, the mean of its diagonal."""

    norm: float
    mu: float


class Degree(NamedTuple):
    """How a generator's exponential over a time step is to be computed: s stages of m products each."""

    m: int
    s: int
    norm: float
    mu: float


class Evolved(NamedTuple):
    """A basis after a time step, and how many products with the generator it took."""

    basis: Basis
    products: int


def _is_combination(given: Any) -> bool:
    """Whether a combination was given, not a word: a mapping from words to numbers, not from qubits to letters."""
    if isinstance(given, Mapping):
        return isinstance(next(iter(given), None), (str, Word))
    return isinstance(given, Iterable) and not isinstance(given, (str, bytes))


def _place(given: int, count: int, what: str) -> int:
    """A place among so many things of a kind."""
    place = _given.whole(given, f"the place of a {what}", most=max(count - 1, 0))
    if place >= count:
        raise InputError(f"there is no {what} {place}: the model has {count}, counted from 0")
    return place


class Model(Shown, Sealed):
    """A model on a register of n qubits: Hamiltonian terms, jumps and Kossakowski matrices.

    hamiltonian   (word, number) pairs, or a mapping: {"X0 X1": 1.0, "Z0": 0.5}
    jumps         (rate, operator) pairs: [(0.1, {"X0": 0.5, "Y0": 0.5j}), (0.2, "Z0")]
    matrices      (operators, K) pairs, K Hermitian with a row for each operator

    An operator is (word, number) pairs, or a mapping, with complex numbers; a word alone has the number 1.
    (X + iY)/2 is |0><1|, which takes a qubit from 1 to 0: QuTiP's sigmap() and destroy(2).
    Words are texts, or letters by site; see pebblelinen.words.

    A matrix K over operators A adds, summed over all n and m, to the rate of change of an observable p and of
    a state ρ

        K[n][m] (A_n† p A_m - (A_n† A_m p + p A_n† A_m) / 2)
        K[n][m] (A_m ρ A_n† - (A_n† A_m ρ + ρ A_n† A_m) / 2)

    If yours is K[n][m] A_n ρ A_m†, give K.T. A K with an eigenvalue below 0 by more than rounding is accepted,
    with the warning NotPositive; split_matrix gives one over more than 64 operators in parts.

    A model cannot be changed. `hamiltonian`, `jumps` and `matrices` say what it was built from, in the form in
    which they can be given, and with_rate, with_coefficient and with_k give another model, of which only the
    item that changes is read again.
    """

    def __init__(
        self,
        n: int,
        hamiltonian: AnyTerms = (),
        jumps: Iterable[tuple[float, AnyOperator]] = (),
        matrices: Iterable[tuple[Iterable[AnyOperator], AnyMatrix]] = (),
    ) -> None:
        n = register(n)
        given = _building.hamiltonian_of(hamiltonian), _building.jumps_of(jumps)
        added = _building.matrices_of(matrices)
        built, tables = _building.build(n, *given)
        if built.status.refusal:
            raise _building.model_refusal(built.status, n, *given, tables)
        self._hold(given[1].rates, *_building.with_matrices(built.model, tables, added, 0))
        kossakowski.warn_if_not_positive(*self._ks())

    def _hold(
        self,
        rates: NumberTable,
        counts: _library.Model,
        tables: _building.Tables,
        added: tuple[items.Added, ...],
    ) -> None:
        """Takes what was built: the rates as they were given, the library's counts and tables, and where
        matrices were added."""
        self.n: int = counts.qubits
        self.pairs: int = counts.jumps - len(rates)
        self._counts = (counts.qubits, counts.hamiltonian, counts.jumps, counts.terms)
        self._tables = _building.trimmed(tables, counts)
        self._rates = rates
        self._added = added
        # Places to begin with: words that an action touches, candidates, and entries of a generator. They
        # grow where the library asks for more.
        self._touched = 256
        self._candidates = 0
        self._entries = 0
        self._sealed = True

    def __repr__(self) -> str:
        terms = _given.counted(self._counts[1], "Hamiltonian term")
        jumps, pairs = _given.counted(len(self._rates), "jump"), _given.counted(self.pairs, "pair")
        return f"Model of {qubits(self.n)}: {terms}, {jumps}, {pairs}"

    def _shown_tables(self) -> Iterator[Table]:
        """What it was built from. A table without rows is left out."""
        terms = ((word.by_site, repr(x)) for word, x in self.hamiltonian)
        jumps = ((str(i), operator_text(each.operator), repr(each.rate)) for i, each in enumerate(self.jumps))
        rows = (
            (str(i), operator_text(operator), row_text(row))
            for i, each in enumerate(self.matrices)
            for operator, row in zip(each.operators, each.k.tolist())
        )
        operators = sum(len(each.operators) for each in self.matrices)
        for table in [
            Table(("Hamiltonian term", "coefficient"), terms, len(self.hamiltonian)),
            Table(("jump", "operator", "rate"), jumps, len(self.jumps)),
            Table(("matrix", "operator", "row of K"), rows, operators),
        ]:
            if table.length:
                yield table

    # ---- what it was built from, and the same with another number ----

    @property
    def hamiltonian(self) -> Terms:
        """The Hamiltonian terms as they were given."""
        return Terms(self.n, self._tables["h_words"], self._tables["h_coeffs"])

    @functools.cached_property
    def jumps(self) -> tuple[items.Jump, ...]:
        """The jumps as they were given: a rate and an operator each."""
        return items.jumps(self.n, self._rates, self._tables)

    @property
    def matrices(self) -> tuple[items.Matrix, ...]:
        """The Kossakowski matrices as they were given: operators and K each."""
        return items.matrices(self.n, self._added, self._tables)

    def with_coefficient(self, *, word: AnyWord, coefficient: float) -> "Model":
        """The same model with another number at a word of its Hamiltonian."""
        changed = Word(word, n=self.n)
        places = places_of(changed, self.hamiltonian.words, self.n).tolist()
        if len(places) != 1:
            found = f"stands {len(places)} times" if places else "does not stand"
            shown = f"the word {changed.by_site} {found} in the Hamiltonian"
            raise InputError(f"{shown}: where it stands once it can be changed, else build another Model")
        place = places[0]
        item = _building.hamiltonian_of([(changed, coefficient)])
        built, tables = _building.build(self.n, item, _building.NO_JUMPS)
        if built.status.refusal:
            raise _building.hamiltonian_refusal(built.status, self.n, place, item)
        return self._with("h_coeffs", place, tables, self._rates)

    def with_rate(self, *, jump: int, rate: float) -> "Model":
        """The same model with another rate of a jump, which is named by its place among the jumps."""
        place = _place(jump, len(self._rates), "jump")
        given = _building.jumps_of([(rate, items.operator(self.n, place, self._tables))])
        built, tables = _building.build(self.n, _building.NO_ITEMS, given)
        if built.status.refusal:
            raise _building.jump_refusal(built.status, self.n, place, given)
        rates = self._rates.copy()
        rates[place] = given.rates[0]
        return self._with("rates", place, tables, rates)

    def _with(self, name: str, place: int, built: _building.Tables, rates: NumberTable) -> "Model":
        """The same model but for one number of a table, which is the first of a model of one item that the
        library built."""
        table = self._tables[name].copy()
        table[place] = built[name][0]
        model = object.__new__(Model)
        model._hold(rates, _library.Model(*self._counts), {**self._tables, name: table}, self._added)
        return model

    def with_k(self, *, matrix: int, k: AnyMatrix) -> "Model":
        """The same model with another K over the operators of a matrix, which is named by its place among the
        matrices. This and later matrices are added anew, and where K is not positive there is the same warning."""
        place = _place(matrix, len(self._added), "matrix")
        later = self.matrices[place:]
        ks = [k, *(each.k for each in later[1:])]
        given = [
            _building.matrix_of(each.operators, k, ("matrices", i))
            for i, (each, k) in enumerate(zip(later, ks), place)
        ]
        before = self._added[place]
        counts = _library.Model(*self._counts[:2], before.jumps, before.terms)
        # The library writes where this model has its later matrices.
        tables = {name: table.copy() for name, table in self._tables.items()}
        counts, tables, added = _building.with_matrices(counts, tables, given, place)
        model = object.__new__(Model)
        model._hold(self._rates, counts, tables, self._added[:place] + added)
        kossakowski.warn_if_not_positive(*model._ks())
        return model

    def _ks(self) -> tuple[list[NDArray[np.complex128]], Callable[[], list[Sequence[items.Operator]]]]:
        """Every K, and how to find the operators of each."""
        return [each.k for each in self._added], lambda: [each.operators for each in self.matrices]

    def __eq__(self, other: object) -> bool:
        """Whether two models were built from the same words and numbers, in the same order."""
        if not isinstance(other, Model):
            return NotImplemented
        ours, theirs = (
            [m._rates, *m._tables.values(), *(x for each in m._added for x in (each.counts, each.k))]
            for m in (self, other)
        )
        same = self._counts == other._counts and len(ours) == len(theirs)
        return same and all(map(np.array_equal, ours, theirs))

    def __hash__(self) -> int:
        return hash(self._counts)

    def __setstate__(self, state: dict[str, Any]) -> None:
        """What was pickled."""
        _, hamiltonian, _, terms = state["_counts"]
        lanes = [len(state["_tables"][name]) for name in ("h_words", "t_words")]
        if lanes != [WORD_LANES * hamiltonian, WORD_LANES * terms]:
            raise InputError(pickled_before("the model"))
        self.__dict__.update(state)

    def _check(self, basis: Basis) -> None:
        if not isinstance(basis, Basis):
            raise InputError(f"{_given.shown(basis)} stands where a basis is needed")
        same_register(basis, self.n, "basis")

    def _lent(self) -> list[Any]:
        return [_library.Model(*self._counts), *self._tables.values()]

    def _lending(
        self,
        attempt: Callable[[int, int], Any],
        places: int = 0,
        most: Callable[[int], int] = lambda touched: 0,
    ) -> tuple[Any, int]:
        """The answer of attempt(touched, places), where touched are the places of table 1 and `places` those
        of table 2 or 3. They are more each time that the library refuses them as too few, up to what can be
        needed: every word that a model can touch, and `most` of the others. Also those other places."""
        answer: Any = None
        while True:
            touched = self._touched
            try:
                answer = attempt(touched, places)
            except MemoryError:
                if answer is None:
                    raise
                raise too_short(answer.status, ": there is no memory for more") from None
            status = answer.status
            if status.refusal != 13:
                break
            if status.first == 1 and touched < MOST_TOUCHED:
                self._touched = max(self._touched, min(4 * touched, MOST_TOUCHED))
            elif status.first != 1 and places < most(touched):
                places = min(2 * places + 64, most(touched))
            else:
                break
        return answer, places

    # ---- the action on a word ----

    def action(self, observable: AnyWord | AnyTerms) -> Terms:
        """What the model does to an observable, in the Heisenberg picture: the words with their numbers, in
        word order. The observable is a word, or a combination of words: terms, (word, number) pairs or a
        mapping from words to numbers. That of a combination is the sum of the actions on its words, each
        times its number, added in the order in which the words stand."""
        given: Any = observable
        if not _is_combination(given):
            return self._action(lanes_of(given, self.n))
        listed = Terms.of(given, n=self.n)
        acted = [self._action(lanes) * x for lanes, x in zip(listed.words.tolist(), listed.values.tolist())]
        words = np.concatenate([np.zeros((0, WORD_LANES), np.uint64), *(terms.words for terms in acted)])
        values = np.concatenate([np.zeros(0), *(terms.values for terms in acted)])
        return Terms(self.n, *summed(words, values))

    def _action(self, lanes: Sequence[int]) -> Terms:
        out: list[NDArray[Any]] = []

        def attempt(touched: int, _: int) -> Any:
            # An action lists no more words than it touches.
            out[:] = np.empty(WORD_LANES * touched, np.uint64), np.empty(touched)
            with work_tables() as work:
                return _library.call(
                    "compute_action_terms",
                    *self._lent(),
                    struct_of(lanes),
                    work.table("work_words", WORD_LANES * touched),
                    work.table("work_sums", 2 * touched),
                    *out,
                )

        listed, _ = self._lending(attempt)
        status = listed.status
        if status.refusal == 11:
            said = f"the word {site_text(lanes)} has a bit at or above qubit {self.n}"
            raise Refusal(11, said, {"position": Position(status.first), "qubits": self.n})
        if status.refusal:
            raise too_short(status)
        words, values = out
        return Terms(self.n, words[: WORD_LANES * listed.count].copy(), values[: listed.count].copy())

    # ---- leakage out of a basis ----

    def leakage(
        self,
        basis: Basis,
        *,
        max_basis: int,
        admit_basis: int | None = None,
        tau_add: float | None = None,
        protected: AnyWords = (),
    ) -> Leakage:
        """What the model moves out of a basis, onto words neither in it nor protected: at most as many as
        there is room for below max_basis, or admit_basis where that is larger, and those larger than
        tau_add in magnitude (2^-40 where none is given; give 0 for all that are not 0), in word order. It
        says the room: without room nothing is listed, whatever leaks."""
        self._check(basis)
        limits = {"max_basis": _given.whole(max_basis, "max_basis", most=MAX_WORDS)}
        if admit_basis is not None:
            limits["admit_basis"] = _given.whole(admit_basis, "admit_basis", most=MAX_WORDS)
        thresholds = {} if tau_add is None else {"tau_add": _given.real(tau_add, "tau_add")}
        passed = _library.Limits(
            limits["max_basis"],
            admit_basis is not None,
            limits.get("admit_basis", 0),
            tau_add is not None,
            thresholds.get("tau_add", TAU_ADD),
        )
        fixed = table(protected, self.n, "protected")
        with basis._lock:
            # No more words are listed than there is room for.
            room = max(min(max(limits.values()), MAX_WORDS) - len(basis), 0)
            out = np.empty(WORD_LANES * room, np.uint64), np.empty(room)
            listed = self._leak(basis, fixed, passed, room, out)
            if listed.status.refusal:
                raise refusal(listed.status, basis, "protected", fixed, limits, thresholds)
        words, values = out
        return Leakage(
            self.n,
            words[: WORD_LANES * listed.count],
            values[: listed.count],
            room=room,
            entries=len(basis),
            tau_add=passed.tau_add,
        )

    def _leak(
        self,
        basis: Basis,
        fixed: LaneTable,
        limits: _library.Limits,
        room: int,
        out: tuple[LaneTable, NumberTable],
    ) -> _library.Listed:
        entries = len(basis)

        def attempt(touched: int, candidates: int) -> Any:
            lengths = _library.call(
                "leakage_sizes", self.n, entries, len(fixed) // WORD_LANES, touched, candidates
            )
            with work_tables() as work:
                return _library.call(
                    "leakage_with_prune",
                    *self._lent(),
                    basis._lanes,
                    basis._coefficients,
                    entries,
                    fixed,
                    limits,
                    *work.lend(lengths),
                    *out,
                )

        def candidates(each: int) -> int:
            """Those of a pass, and those of earlier passes that there was room for."""
            return min(entries, _PASS) * each + min(room, entries * each)

        first = min(max(candidates(32), self._candidates), candidates(self._touched))
        listed: _library.Listed
        listed, places = self._lending(attempt, first, candidates)
        self._candidates = max(self._candidates, places)
        return listed

    # ---- the generator over a basis ----

    def generator(self, basis: Basis) -> Any:
        """The model over a basis, as a scipy COO matrix: rows and columns are positions, and the column at
        a position holds the action on its word, as far as it stays in the basis. Entries stand by column,
        then by word."""
        rows, columns, values = self._generated("generator", basis, None)
        return matrix.coo(len(basis), rows, columns, values)

    def csr(self, basis: Basis) -> Any:
        """The same as a scipy CSR matrix, with ascending columns in every row."""
        self._check(basis)
        offsets = np.empty(len(basis) + 1, np.uint64)
        return matrix.csr(offsets, *self._generated("build_csr", basis, offsets)[1:])

    def _generated(self, name: str, basis: Basis, offsets: LaneTable | None) -> list[NDArray[Any]]:
        """Rows or offsets, columns and values."""

        def tables(entries: int) -> list[NDArray[Any]]:
            rows: NDArray[Any] = np.empty(entries, np.uint32) if offsets is None else offsets
            return [rows, np.empty(entries, np.uint32), np.empty(entries)]

        self._check(basis)
        with basis._lock:
            listed, out = self._staged(name, basis, tables)
            if listed.status.refusal:
                raise refusal(listed.status, basis)
        return [table if table is offsets else table[: listed.count] for table in out]

    def _staged(
        self, name: str, basis: Basis, tables: Callable[[int], list[NDArray[Any]]]
    ) -> tuple[Any, list[NDArray[Any]]]:
        """The answer of a call that makes the generator's entries, and what it wrote to: `tables` has that for so many
        entries."""
        len_ = len(basis)
        out: list[NDArray[Any]] = []

        def attempt(touched: int, entries: int) -> Any:
            out[:] = tables(entries)
            lengths = _library.call("generator_sizes", self.n, len_, touched, entries)
            with work_tables() as work:
                return _library.call(name, *self._lent(), basis._lanes, len_, *work.lend(lengths), *out)

        return self._lending_entries(len_, attempt), out

    def _lending_entries(self, len_: int, attempt: Callable[[int, int], Any]) -> Any:
        """The answer of attempt(touched, entries), where entries are those of the generator over so many words."""

        def entries(each: int) -> int:
            return len_ * min(each, len_)

        first = min(max(entries(8), self._entries), entries(self._touched))
        answer, places = self._lending(attempt, first, entries)
        self._entries = max(self._entries, places)
        return answer

    def matrix_market(self, basis: Basis) -> bytes:
        """The generator over a basis in the Matrix Market form `coordinate integer general`, for other linear-algebra
        tools: the bytes of its text.

        After the header stand the rows, columns and entries in a line; then each entry in one, by column, then by word:
        its row and column, counted from 1, which are positions plus 1, and its value as the nearest whole count of
        2^-32, halves away from zero. An entry whose count is 0 is written too. Values of 2^30 or more in magnitude
        cannot be written (refusal 15)."""

        def tables(entries: int) -> list[NDArray[Any]]:
            return [np.empty(_library.call("matrix_market_text", entries), np.uint8)]

        self._check(basis)
        with basis._lock:
            written, (text,) = self._staged("matrix_market", basis, tables)
            if written.status.refusal == 15:
                raise self._too_large(basis, written.status.first)
            if written.status.refusal:
                raise refusal(written.status, basis)
        return text[: written.bytes].tobytes()

    def write_matrix_market(self, basis: Basis, path: str | os.PathLike[str]) -> None:
        """Writes the text of matrix_market to a file, whole or not at all: whatever happens, there is either all of it
        or what was there before."""
        write_whole(path, self.matrix_market(basis))

    def _too_large(self, basis: Basis, number: int) -> Refusal:
        """Refusal 15, of an entry by its number from 1: which one it is, and a unit in which all can be written."""
        rows, columns, values = self._generated("generator", basis, None)
        row, column = (basis.entry(position=int(places[number - 1])) for places in (rows, columns))
        value = float(values[number - 1])
        # The largest is below 2^exponent.
        exponent = math.frexp(float(abs(values).max()))[1]
        said = (
            f"entry {number} of the generator, in the row of {row.word.by_site} ({row.position}) and the"
            f" column of {column.word.by_site} ({column.position}), is {value!r}: values are written in counts"
            f" of 2^-32, and from 2^30 on in magnitude they cannot be; in a larger unit, with the model's coefficients,"
            f" rates and K divided by 2^{exponent - 30}, all can"
        )
        found = {"entry": number, "row": row.position, "column": column.position, "value": value}
        return Refusal(15, said, found)

    # ---- the exponential of the generator ----

    def norm(self, basis: Basis) -> Norm:
        """The norm of the generator over a basis, shifted by mu: that of the largest column, the sum of its magnitudes.
        What an action moves out of the basis is no part of it."""
        found = self._normed("norm", basis, {})
        return Norm(found.norm, found.mu)

    def degree(self, basis: Basis, *, dt: float, drop_tol: float = 0.0) -> Degree:
        """How the exponential of dt times the generator is to be computed: s stages of m products, with
        the norm that they come from. A drop_tol of at least 1e-4 asks for less accuracy. A dt that asks for more than
        1,048,576 products is refused (refusal 16), with the largest that does not."""
        numbers = {"dt": _given.real(dt, "dt"), "drop_tol": _given.real(drop_tol, "drop_tol")}
        found = self._normed("expm_degree", basis, numbers)
        return Degree(found.m, found.s, found.norm, found.mu)

    def _normed(self, name: str, basis: Basis, numbers: Mapping[str, float]) -> Any:
        self._check(basis)
        len_ = len(basis)

        def attempt(touched: int, _: int) -> Any:
            lengths = _library.call("generator_sizes", self.n, len_, touched, 0)
            names = "h_index j_index mask heads nexts work_words work_sums".split()
            with work_tables() as work:
                return _library.call(
                    name,
                    *self._lent(),
                    basis._lanes,
                    len_,
                    *numbers.values(),
                    *(work.table(each, getattr(lengths, each)) for each in names),
                    work.table("raws", len_),
                    work.table("diags", len_),
                )

        with basis._lock:
            answer, _ = self._lending(attempt)
            if answer.status.refusal == 7:
                raise not_finite(numbers)
            if answer.status.refusal == 16:
                raise _too_many_products(answer.status, self.norm(basis).norm, **numbers)
            if answer.status.refusal:
                raise refusal(answer.status, basis)
        return answer

    # ---- evolution ----

    def evolve(self, basis: Basis, *, dt: float, drop_tol: float = 0.0) -> Evolved:
        """The basis after a time step: another basis with the same words, whose coefficients are those of the exponential
        of dt times the generator, acting on the coefficients given; and the number of products with the generator that
        it took. The basis given stays as it is.

        The exponential is its Taylor polynomial of degree m in s stages, for the generator as it is; m and s go by |dt|
        times its norm, the largest sum of a column's magnitudes. A drop_tol of at least 1e-4 asks for less accuracy (1e-6
        in place of that of double precision). Nothing enters the basis and nothing leaves it: what the model moves out of
        it is lost, so admit what leaks before. A dt that asks for more than 1,048,576 products is refused (refusal 16),
        with the largest that does not."""
        numbers = {"dt": _given.real(dt, "dt"), "drop_tol": _given.real(drop_tol, "drop_tol")}
        self._check(basis)
        len_ = len(basis)
        out = np.empty(len_)

        def attempt(touched: int, entries: int) -> Any:
            lengths = _library.call("evolution_sizes", self.n, len_, touched, entries)
            with work_tables() as work:
                return _library.call(
                    "evolve",
                    *self._lent(),
                    basis._lanes,
                    basis._coefficients,
                    len_,
                    *numbers.values(),
                    *work.lend(lengths),
                    out,
                )

        with basis._lock:
            answer = self._lending_entries(len_, attempt)
            if answer.status.refusal == 14:
                raise _grown(basis.entry(position=answer.status.first))
            if answer.status.refusal == 16:
                raise _too_many_products(answer.status, self._largest_column(basis), **numbers)
            if answer.status.refusal:
                raise refusal(answer.status, basis, thresholds=numbers)
            evolved = basis.copy()
        evolved.coefficients = out
        return Evolved(evolved, answer.products)

    def step(
        self,
        basis: Basis,
        *,
        dt: float,
        max_basis: int,
        admit_basis: int | None = None,
        tau_add: float | None = None,
        drop_tol: float = 0.0,
        protected: AnyWords = (),
    ) -> Stepped:
        """The basis after a predictor-corrector step: another basis, whose words may be others, and the number of products
        with the generator that it took. The basis given stays as it is.

        What leaks out of the basis is admitted with coefficient 0, as far as there is room below max_basis, or admit_basis
        where that is larger, and above tau_add in magnitude (2^-40 where none is given). The predictor is evolved by dt. If
        there is room left, what leaks at the predicted numbers is admitted too, and if that brought words, the corrector is
        evolved from the numbers given. At the end entries below drop_tol are pruned and the largest max_basis kept;
        protected words that are there stay. A drop_tol of at least 1e-4 asks evolutions for less accuracy."""
        self._check(basis)
        rules = rules_of(
            self.n,
            max_basis=max_basis,
            admit_basis=admit_basis,
            tau_add=tau_add,
            drop_tol=drop_tol,
            protected=protected,
        )
        with basis._lock:
            return take_step(self, basis, _given.real(dt, "dt", ("dt",)), rules)

    def _step(self, basis: Basis, dt: float, rules: Rules) -> tuple[_library.Stepped, Basis]:
        """What the library answers to a step of a copy of a basis, and the copy."""
        limits = _library.Limits(
            rules.max_basis,
            rules.admit_basis is not None,
            rules.admit_basis or 0,
            rules.tau_add is not None,
            TAU_ADD if rules.tau_add is None else rules.tau_add,
        )
        len_, fixed = len(basis), len(rules.protected) // WORD_LANES
        most = max(len_, min(rules.room, MAX_WORDS))
        # How far the copy may grow is not known: few words first, and few entries for each.
        words, each, candidates = min(4 * len_ + 256, most), 8, max(32 * min(len_, _PASS), self._candidates)
        answer: _library.Stepped | None = None
        while True:
            entries = min(max(words * min(each, words), self._entries), words * words)
            lengths = _library.call("step_sizes", self.n, words, fixed, self._touched, candidates, entries)
            after = basis.copy()
            try:
                after._reserve(words)
                with work_tables() as work:
                    told: _library.Stepped = _library.call(
                        "step",
                        *self._lent(),
                        after._lanes,
                        after._coefficients,
                        len_,
                        rules.protected,
                        limits,
                        dt,
                        rules.drop_tol,
                        *work.lend(lengths),
                    )
            except MemoryError:
                # The refusal of before stands: there is no memory for more.
                if answer is None:
                    raise
                break
            answer, status = told, told.status
            if status.refusal != 13:
                break
            if status.first == 1 and self._touched < MOST_TOUCHED:
                self._touched = min(4 * self._touched, MOST_TOUCHED)
            elif status.first == 2 and candidates < most * MOST_TOUCHED:
                candidates = 2 * candidates + 64
            elif status.first == 3 and (words < most or each < words):
                words, each = min(4 * words, most), 4 * each
            else:
                break
        if not answer.status.refusal:
            self._candidates, self._entries = max(self._candidates, candidates), max(self._entries, entries)
            after._len = answer.entries
        return answer, after

    # ---- runs ----

    def run(
        self,
        basis: Basis,
        *,
        times: AnyTimes,
        max_basis: int,
        dt: float | None = None,
        admit_basis: int | None = None,
        tau_add: float | None = None,
        drop_tol: float = 0.0,
        protected: AnyWords = (),
        admissions: int = 1,
        state: AnyState = "0",
        words: Iterable[AnyWord] = (),
        losses: bool = True,
        split: int = 1,
        name: str | None = None,
        progress: bool = True,
        checkpoint: str | os.PathLike[str] | None = None,
    ) -> Curve:
        """Follows an observable, the basis given, from the time 0 to each of the times by steps as `step` takes them, and
        gives the curve of its expectation in a product state, with what was lost beside it. The basis given stays as it is.

        times        rising, from 0 on; or {"to": t, "count": c}, which is 0 and the ends of c equal parts up to t
        dt           the longest step: between two times there are as few equal steps as that allows; without it one
        max_basis, admit_basis, tau_add, drop_tol, protected    as in `step`
        admissions   how often words enter before a step's end: 1 is the step alone, each further one predicts the step
                     and admits what leaks from the predicted numbers before it
        state        the product state: see pebblelinen.state
        words        words whose coefficients are followed
        losses       whether to ask what leaks out of the basis at each step, which takes two more leakages
        split        into how many parts each step is split
        name         the observable's name
        progress     whether to show on a terminal how far it is
        checkpoint   a file that the run writes now and then; where it stands there already, the run goes on from it

        All of it is tested before anything is computed. An interrupt gives the curve so far, which is not `finished`."""
        settings = settings_of(
            self.n,
            times=times,
            max_basis=max_basis,
            dt=dt,
            admit_basis=admit_basis,
            tau_add=tau_add,
            drop_tol=drop_tol,
            protected=protected,
            admissions=admissions,
            state=state,
            words=words,
            losses=losses,
            split=split,
            name=name,
        )
        return begun(self, basis, settings, checkpoint).go(progress=progress, checkpoint=checkpoint)

    def check(self, basis: Basis, *, tolerance: float = 1e-3, progress: bool = True, **settings: Any) -> Checked:
        """The curve of `run`, which takes the same settings, and whether it is the device's or the run's: the same run with
        each step in two halves and with the word limits doubled, and whether the expectation, or the coefficient of a
        word that is followed, moves by more than the tolerance; and through which of the two, in plain words. Where at
        most 4,096 words can be reached, the exact curve stands beside it.

        It says nothing of what tau_add and drop_tol cost, which all three runs have alike: the curve's `dropped` does."""
        tolerance = tolerance_of(tolerance)
        self._check(basis)
        return compared(prepared(self, basis, settings_of(self.n, **settings)), tolerance=tolerance, progress=progress)

    def _largest_column(self, basis: Basis) -> float:
        """The norm of the generator without a shift: magnitudes are added in their order, from 0."""
        _, columns, values = self._generated("generator", basis, None)
        return float(np.bincount(columns, abs(values)).max(initial=0.0))


def _grown(entry: Entry) -> Refusal:
    """Refusal 14 of an evolution."""
    said = (
        f"in a stage of the evolution the number of {entry.word.by_site} at {entry.position} is not finite: it grew"
        " beyond 1.8e308; coefficients that are all divided by one number, or a smaller dt, may do"
    )
    return Refusal(14, said, {"position": entry.position})


def _too_many_products(status: _library.Status, norm: float, dt: float, drop_tol: float) -> Refusal:
    """Refusal 16 of a dt at this norm."""
    enough = f"dt of at most {matrix.largest_step(norm, drop_tol)!r} in magnitude"
    return matrix.too_many_products(status, f"dt = {dt!r} at the norm {norm!r}", enough)
