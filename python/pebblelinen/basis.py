# SPDX-FileCopyrightText: 2026 The PPVM Authors
# SPDX-License-Identifier: Apache-2.0
"""A basis: an ordered list of words with a coefficient each."""
import threading
from collections.abc import Iterable, Iterator, Mapping, Sequence
from typing import Any, NamedTuple

import numpy as np
from numpy.typing import NDArray

from . import _given, _library
from ._lanes import LANES, MAX_QUBITS, WORD_LANES, advice
from ._sealed import Sealed, read_only
from ._showing import SHOWN, Shown, Table
from ._tables import work_tables, zeros
from ._types import LaneTable, NumberTable
from .errors import InputError, Refusal
from .terms import AnyTerms, Terms
from .words import (
    MAX_WORDS,
    AnyWord,
    Position,
    Qubit,
    Word,
    made,
    places_of,
    qubits,
    register,
    table,
    text_refusal,
)


class Entry(NamedTuple):
    """A word of a basis, with its coefficient and its position."""

    position: Position
    word: Word
    coefficient: float

    def __str__(self) -> str:
        return f"{self.position}: {self.word.by_site}, coefficient {self.coefficient!r}"


class Basis(Shown, Sealed):
    """Words with a coefficient each, told apart by their position.

    A word may stand at several positions; `"X12 Z40" in basis` says whether it stands at one, in whichever
    way it is written, and what is no word of the register raises. Entries are given as (word, coefficient)
    pairs, as a mapping or as terms, and are copied.
    """

    def __init__(self, n: int, entries: AnyTerms = ()) -> None:
        self.n = register(n)
        terms = Terms.of(entries, n=self.n)
        self._hold(terms.lanes.copy(), terms.values.copy(), own=True)

    @classmethod
    def from_arrays(
        cls,
        n: int,
        words: Iterable[Any] | NDArray[Any],
        coefficients: Iterable[float] | NDArray[Any] | None = None,
    ) -> "Basis":
        """The basis of an array of lanes, of the shape (entries, 8), and one of coefficients, which are
        0 where none are given.

        Arrays that can be lent as they are are not copied: the basis reads them where they are, and
        takes a copy of its own before it changes anything. Until then `coefficients` is to be read only; it
        can be set at any time."""
        self = object.__new__(cls)
        self.n = register(n)
        lanes = _given.lanes(words, "words")
        if coefficients is None:
            coefficients = np.zeros(len(lanes) // WORD_LANES)
        self._hold(lanes, _given.numbers(coefficients, "coefficients"), own=False)
        return self

    def _hold(self, lanes: LaneTable, coefficients: NumberTable, own: bool) -> None:
        if WORD_LANES * len(coefficients) != len(lanes):
            said = f"{len(coefficients)} coefficients beside {len(lanes)} lanes: each has a word of {WORD_LANES}"
            raise InputError(said + (advice(len(lanes) // len(coefficients)) if len(coefficients) else ""))
        self._lanes = lanes
        self._coefficients = coefficients
        self._len = len(coefficients)
        self._own = own
        # The library reads and writes the tables while other threads run.
        self._lock = threading.RLock()
        self._sealed = True

    def copy(self) -> "Basis":
        """A basis of its own with the same entries."""
        with self._lock:
            other = object.__new__(Basis)
            other.n = self.n
            other._hold(self.lanes.copy(), self.coefficients.copy(), own=True)
            return other

    __copy__ = copy

    def __deepcopy__(self, memo: dict[int, Any]) -> "Basis":
        return self.copy()

    def __reduce__(self) -> tuple[Any, ...]:
        return _copied, (self.n, self.words, self.coefficients)

    @property
    def lanes(self) -> LaneTable:
        """The words in use, flat, to be read only."""
        return read_only(self._lanes[: WORD_LANES * self._len])

    @property
    def words(self) -> LaneTable:
        """The words, eight lanes each, x[0] to x[3], then z[0] to z[3]: an array of uint64 of the shape
        (entries, 8), to be read only."""
        return self.lanes.reshape(-1, WORD_LANES)

    @property
    def coefficients(self) -> NumberTable:
        """The coefficients by position. It is a view: after a call that changes the basis, ask again. While
        the basis reads an array that was given to from_arrays, it is to be read only."""
        view = self._coefficients[: self._len]
        return view if self._own else read_only(view)

    @coefficients.setter
    def coefficients(self, given: Iterable[float] | NDArray[Any]) -> None:
        given = _given.numbers(given, "coefficients")
        if len(given) != self._len:
            raise InputError(f"{len(given)} coefficients for {self._shown_len()}")
        with self._lock:
            self._take_over()
            self._coefficients[: self._len] = given

    def __len__(self) -> int:
        return self._len

    def __contains__(self, word: AnyWord) -> bool:
        """Whether a word stands in the basis, in whichever way it is written. What is no word raises."""
        return len(places_of(word, self.words, self.n)) > 0

    def entry(self, *, position: Position | int) -> Entry:
        """The entry at a position."""
        p = int(Position(position))
        if p >= self._len:
            raise InputError(f"position {p} is outside the basis of {self._shown_len()}")
        lanes = self._lanes[WORD_LANES * p : WORD_LANES * (p + 1)].tolist()
        return Entry(Position(p), made(lanes, self.n), float(self._coefficients[p]))

    def __iter__(self) -> Iterator[Entry]:
        for p in range(self._len):
            yield self.entry(position=p)

    def positions(self, word: AnyWord) -> list[Position]:
        """The positions at which a word stands."""
        return [Position(p) for p in places_of(word, self.words, self.n).tolist()]

    def touching(self, *, qubit: Qubit | int) -> list[Position]:
        """The positions whose words have a letter other than I at a qubit."""
        q = int(Qubit(qubit))
        if q >= min(self.n, MAX_QUBITS):
            raise InputError(f"qubit {q} is outside the register of {qubits(self.n)}")
        lane, bit = q // 64, np.uint64(1 << q % 64)
        found = (self.words[:, lane] | self.words[:, LANES + lane]) & bit
        return [Position(p) for p in np.flatnonzero(found).tolist()]

    def by_site(self) -> dict[str, float]:
        """The coefficients by the words' texts: {"X12 Z40": 0.5}. Of a word that comes twice, the
        last."""
        return {entry.word.by_site: entry.coefficient for entry in self}

    def terms(self) -> Terms:
        """The combination of words that the entries stand for: a copy of words and coefficients, by position."""
        with self._lock:
            return Terms(self.n, self.lanes.copy(), self.coefficients.copy())

    def __str__(self) -> str:
        lines = [f"basis of {self._shown_len()} on {qubits(self.n)}"]
        lines += [str(self.entry(position=p)) for p in range(min(self._len, SHOWN))]
        if self._len > SHOWN:
            lines.append(f".. and {self._len - SHOWN} more")
        return "\n".join(lines)

    def _shown_tables(self) -> Iterator[Table]:
        rows = ((str(int(p)), word.by_site, repr(x)) for p, word, x in self)
        yield Table(("position", "word", "coefficient"), rows, len(self))

    def __repr__(self) -> str:
        return f"Basis of {self._shown_len()} on {qubits(self.n)}"

    def _shown_len(self) -> str:
        return _given.counted(self._len, "entry", "entries")

    # ---- changes ----

    def prune(self, *, drop_tol: float, protected: "AnyWords" = ()) -> int:
        """Drops the entries whose coefficient is below drop_tol in magnitude, but for those of protected
        words. Returns how many entries there are then."""
        drop_tol = _given.real(drop_tol, "drop_tol")
        return self._shorten("prune_basis", drop_tol, protected, {}, {"drop_tol": drop_tol})

    def cap(self, *, limit: int, protected: "AnyWords" = ()) -> int:
        """Keeps the entries of protected words and the largest others, so many that there are limit in
        all; of equally large ones the lower positions. Returns how many entries there are then."""
        limit = _given.whole(limit, "limit", most=MAX_WORDS)
        return self._shorten("cap_basis", limit, protected, {"limit": limit}, {})

    def _shorten(
        self,
        name: str,
        number: float,
        protected: "AnyWords",
        limits: Mapping[str, int],
        thresholds: Mapping[str, float],
    ) -> int:
        fixed = table(protected, self.n, "protected")
        with self._lock:
            self._take_over()
            fixed = self._apart(fixed)
            lengths = _library.call("basis_sizes", self._len, len(fixed) // WORD_LANES, 0)
            with work_tables() as tables:
                kept: _library.Kept = _library.call(
                    name,
                    self.n,
                    self._lanes,
                    self._coefficients,
                    self._len,
                    fixed,
                    number,
                    *tables.lend(lengths),
                )
            if kept.status.refusal:
                raise refusal(kept.status, self, "protected", fixed, limits, thresholds)
            self._len = kept.entries
            return self._len

    def admit(self, listed: AnyTerms, *, limit: int) -> int:
        """Appends words, each with coefficient 0, in the order in which they are listed: as many as
        there is room for below limit, those whose listed value is largest in magnitude. Returns how many
        entries there are then.

        Words are listed by terms, as leakage gives them, by (word, value) pairs or by a mapping."""
        terms = Terms.of(listed, n=self.n)
        limit = _given.whole(limit, "limit", most=MAX_WORDS)
        with self._lock:
            self._take_over()
            list_, values = self._apart(terms.lanes), self._apart(terms.values)
            lengths = _library.call("basis_sizes", 0, 0, len(list_) // WORD_LANES)
            while True:
                with work_tables() as tables:
                    order, work, _, flags = tables.lend(lengths)
                    kept: _library.Kept = _library.call(
                        "add_leakage_capped",
                        self.n,
                        self._lanes,
                        self._coefficients,
                        self._len,
                        list_,
                        values,
                        limit,
                        order,
                        work,
                        flags,
                    )
                # Places for the entries and all that is listed are enough.
                places, enough = kept.status.second, self._len + len(list_) // WORD_LANES
                if kept.status.refusal != 13 or places >= enough:
                    break
                self._reserve(min(2 * places + 64, enough))
            if kept.status.refusal:
                raise refusal(kept.status, self, "listed", list_, {"limit": limit}, {}, values)
            self._len = kept.entries
            return self._len

    def _take_over(self) -> None:
        """Before a change: the tables are to be our own."""
        if not self._own:
            self._lanes, self._coefficients = self.lanes.copy(), self.coefficients.copy()
            self._own = True

    def _apart(self, given: NDArray[Any]) -> NDArray[Any]:
        """An array that shares no memory with what is to be written."""
        ours = self._lanes, self._coefficients
        return given.copy() if any(np.may_share_memory(given, table) for table in ours) else given

    def _reserve(self, places: int) -> None:
        lanes, coefficients = zeros(WORD_LANES * places, np.uint64), zeros(places, np.float64)
        lanes[: WORD_LANES * self._len] = self.lanes
        coefficients[: self._len] = self.coefficients
        self._lanes, self._coefficients = lanes, coefficients


def _copied(n: int, words: NDArray[np.uint64], coefficients: NDArray[np.float64]) -> Basis:
    """A basis that has the arrays for its own."""
    return Basis.from_arrays(n, words, coefficients).copy()


# The ways to give words without values.
AnyWords = Terms | Basis | Iterable[AnyWord] | NDArray[Any]


def refusal(
    status: _library.Status,
    basis: Basis,
    others: str = "",
    lanes: Sequence[Any] | LaneTable = (),
    limits: Mapping[str, int] = {},
    thresholds: Mapping[str, float] = {},
    values: NumberTable | None = None,
) -> Refusal:
    """The refusal of a call on a basis, with its values under names.

    others       what a second list of words is called, and its lanes; its values, where it has some
    limits       word limits by their names
    thresholds   by their names
    """
    number, first, second = status.refusal, status.first, status.second
    if number == 1:
        return text_refusal(status, "", basis.n)
    if number == 8:
        said = _count_said(first, basis, others, lanes, limits)
        return Refusal(8, f"{said}: at most {MAX_WORDS}", {"count": first, "limit": MAX_WORDS})
    if number == 9:
        if values is not None and first == len(lanes) // WORD_LANES and second == len(values):
            said = f"{first} {others} words and {second} values"
        else:
            said = f"the {others} words have {second} lanes: the last word is cut off"
        return Refusal(9, said, {"needed": first, "given": second})
    if number == 11:
        return _outside(first, basis, others)
    if number == 7:
        return _number_refusal(first, basis, others, thresholds)
    if number == 12:
        entry = basis.entry(position=first)
        said = f"the word {entry.word.by_site} at position {first} stood at a lower position"
        return Refusal(12, said, {"position": entry.position})
    if number == 14:
        said = f"the sum of the candidate in place {first}, in word order, is not finite"
        return Refusal(14, said, {"place": first})
    return too_short(status)


def too_short(status: _library.Status, why: str = "") -> Refusal:
    """Refusal 13, where there are no more places to lend."""
    said = f"table {status.first} needs more than {status.second} places{why}"
    return Refusal(13, said, {"table": status.first, "places": status.second})


def _count_said(
    count: int, basis: Basis, others: str, lanes: Sequence[Any] | LaneTable, limits: Mapping[str, int]
) -> str:
    if len(basis) > MAX_WORDS:
        return f"the basis has {count} entries"
    if len(lanes) // WORD_LANES > MAX_WORDS:
        return f"there are {count} {others} words"
    return next((f"{name} is {count}" for name, limit in limits.items() if limit == count), f"{count}")


def _outside(place: int, basis: Basis, others: str) -> Refusal:
    """The basis is tested before the other words, so the first word of it that is outside is the one
    that was found."""
    if place < len(basis):
        word = basis.entry(position=place).word
        if not _library.call("fits_register", word.struct(), basis.n).fits:
            said = f"basis word at position {place} has a bit at or above qubit {basis.n}: {word.by_site}"
            return Refusal(11, said, {"position": Position(place), "qubits": basis.n})
    said = f"the {others} word in place {place} has a bit at or above qubit {basis.n}"
    return Refusal(11, said, {"place": place, "qubits": basis.n}, (place,))


def _number_refusal(index: int, basis: Basis, others: str, thresholds: Mapping[str, float]) -> Refusal:
    """Coefficients are tested first, then listed values or thresholds, which count on from them."""
    if index < len(basis):
        coefficient = basis.entry(position=index).coefficient
        said = f"the coefficient at position {index} is {coefficient}: a finite number is needed"
        return Refusal(7, said, {"position": Position(index)})
    if thresholds:
        return not_finite(thresholds)
    place = index - len(basis)
    said = f"the value of the {others} word in place {place} is not finite"
    return Refusal(7, said, {"place": place}, (place,))


def not_finite(thresholds: Mapping[str, float]) -> Refusal:
    """The refusal of the first number that is not finite."""
    name = next((name for name, x in thresholds.items() if not np.isfinite(x)), "a threshold")
    said = f"{name} is {thresholds.get(name)}: a finite number is needed"
    return Refusal(7, said, {"threshold": name})
