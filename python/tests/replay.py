# SPDX-FileCopyrightText: 2026 The PPVM Authors
# SPDX-License-Identifier: Apache-2.0
"""Asks the library what was recorded of the published Rust, and compares its answers bit for bit.

A recording has a case in each line: lower-case hexadecimal numbers with a space between two. The first is its kind;
then comes what the call is given, and then the whole answer. f64 numbers are recorded by their bits. The lines that
start with # say what the numbers of each kind are; kinds 6, 8, 11, 15, 18 and 24 have answers of document 01 that the
Rust does not give. One of them, "# lanes N", says how many x lanes words have there, and how many z lanes.

recorded.txt was recorded when words had two lanes each and registers at most 128 qubits; recorded-wide.txt has cases of
more qubits. Words of two lanes are widened by zero lanes, tables of lanes are as much longer, and what a refusal counts
in lanes or says of the limit follows. Cases of 129 to 256 qubits, which were refused then, are left out.

Work tables and the places past an answer are full of FILLER before a call, so that what it leaves there shows."""
import ctypes
import re
from collections.abc import Callable, Iterator
from functools import partial
from pathlib import Path
from typing import Any, NamedTuple

import numpy as np
import numpy.typing as npt

from pebblelinen import _library
from pebblelinen._lanes import LANES, MAX_QUBITS, WORD_LANES

FOLDER = Path(__file__).resolve().parent
RECORDINGS = "recorded.txt", "recorded-wide.txt"
FILLER = 9
ACCEPTED = _library.Status(0, 0, 0)

Table = npt.NDArray[Any]

_LINE = re.compile("[0-9a-f]{1,16}(?: [0-9a-f]{1,16})*")


class Malformed(Exception):
    """A line that is no case."""


class Disagreement(Exception):
    """An answer, or a lent table, that is not what it is to be."""


class Recorded(NamedTuple):
    """A line of a recording: which it is, the lanes of words there, and the case."""

    place: str
    lanes: int
    line: str


def bits(answer: Any) -> list[int]:
    """The numbers that an answer is recorded by: those of a struct in the order of its fields."""
    if isinstance(answer, ctypes.Structure):
        return [number for field in answer._fields_ for number in bits(getattr(answer, field[0]))]
    if isinstance(answer, ctypes.Array):
        return list(answer)
    if isinstance(answer, float):
        answer = np.array([answer])
    if isinstance(answer, np.ndarray):
        numbers: list[int] = answer.view(np.uint64 if answer.dtype == np.float64 else answer.dtype).tolist()
        return numbers
    return [int(answer)]


def real(number: int) -> float:
    """The f64 number with these bits."""
    return float(np.array([number], np.uint64).view(np.float64)[0])


class Case:
    """A recorded case, read from left to right, of a recording whose words have so many lanes of each sort."""

    def __init__(self, numbers: list[int], lanes: int) -> None:
        self.numbers = numbers
        self.lanes = lanes
        self.at = 0
        # The lanes of a list of words whose last one is cut off, where there is one.
        self.cut = -1
        # The places of the numbers that were compared with an answer.
        self.compared: list[int] = []

    def take(self, count: int) -> list[int]:
        """So many numbers."""
        taken = self.numbers[self.at : self.at + count]
        if len(taken) < count:
            raise Malformed(f"{count} numbers are to follow, and {len(taken)} do")
        self.at += count
        return taken

    def number(self) -> int:
        """The next number."""
        return self.take(1)[0]

    def table(self, type_: type[np.generic], count: int) -> Table:
        """A table of so many numbers."""
        wide = np.array(self.take(count), np.uint64)
        if type_ is np.float64:
            return wide.view(np.float64)
        table = wide.astype(type_)
        if (table != wide).any():
            raise Malformed(f"a number is too large for {type_.__name__}")
        return table

    def counted(self, type_: type[np.generic]) -> Table:
        """A table with its length before it."""
        return self.table(type_, self.number())

    def wide(self, recorded: int) -> int:
        """How long a table of lanes is now that had so many, a last word that is cut off among them."""
        words, rest = divmod(recorded, 2 * self.lanes)
        return WORD_LANES * words + rest + (LANES - self.lanes) * (rest > self.lanes)

    def widened(self, count: int) -> list[int]:
        """So many recorded lanes, with zero lanes between them for those that words have more now."""
        lanes, more = self.take(count), [0] * (LANES - self.lanes)
        wide: list[int] = []
        for at in range(0, count, 2 * self.lanes):
            x, z = lanes[at : at + self.lanes], lanes[at + self.lanes : at + 2 * self.lanes]
            wide += x + more + z if z else x
            wide += more if len(z) == self.lanes else []
        return wide

    def word(self) -> _library.Word:
        """The next word."""
        lanes = self.widened(2 * self.lanes)
        return _library.Word((*lanes[:LANES],), (*lanes[LANES:],))

    def words(self, count: int) -> Table:
        """A table of so many words."""
        return np.array(self.widened(2 * self.lanes * count), np.uint64)

    def status(self) -> list[int]:
        """The next status, as the library is to give it."""
        refusal, first, second = self.take(3)
        if refusal == 1 and second == 64 * self.lanes:
            second = MAX_QUBITS
        if refusal == 9 and first < second == self.cut:
            first, second = self.wide(first), self.wide(second)
        return [refusal, first, second]

    def agree(self, *answers: Any) -> None:
        """Compares the next numbers with answers."""
        for answer in answers:
            if isinstance(answer, _library.Status):
                self._same(self.status, bits(answer))
            elif isinstance(answer, _library.Word):
                self._same(partial(self.widened, 2 * self.lanes), bits(answer))
            elif isinstance(answer, ctypes.Structure):
                self.agree(*(getattr(answer, field[0]) for field in answer._fields_))
            else:
                own = bits(answer)
                self._same(partial(self.take, len(own)), own)

    def agree_lanes(self, table: Table, recorded: int) -> None:
        """Compares the next so many lanes with a table."""
        self._same(partial(self.widened, recorded), bits(table))

    def _same(self, recorded: Callable[[], list[int]], own: list[int]) -> None:
        place, expected = self.at, recorded()
        self.compared.extend(range(place, self.at))
        if expected != own:
            raise Disagreement(f"{_shown(expected)} is recorded, and the library answers {_shown(own)}")


def _shown(numbers: list[int]) -> str:
    return " ".join(f"{number:x}" for number in numbers)


def expect(own: Any, known: Any) -> None:
    """Compares what is not recorded, since it is the same for all cases."""
    if bits(own) != bits(known):
        raise Disagreement(f"{_shown(bits(known))} is known, and the library answers {_shown(bits(own))}")


def lanes(*lengths: int) -> list[Table]:
    """Tables of 64-bit numbers, full of the filler."""
    return [np.full(length, FILLER, np.uint64) for length in lengths]


def reals(*lengths: int) -> list[Table]:
    """The same of f64 numbers."""
    return [np.full(length, FILLER, np.float64) for length in lengths]


def narrow(*lengths: int) -> list[Table]:
    """The same of 32-bit numbers."""
    return [np.full(length, FILLER, np.uint32) for length in lengths]


def all_hold(number: int, *tables: Table) -> None:
    """Every place of these tables holds this number."""
    for table in tables:
        if table.tobytes() != np.full_like(table, number).tobytes():
            raise Disagreement(f"every place of a table is to hold {number:x}, and it holds {_shown(bits(table))}")


def check_work(status: _library.Status, *tables: Table) -> None:
    """Work tables are all zero after a call that came to use them, and else as they were."""
    all_hold(0 if status.refusal in (0, 13, 14, 15, 16) else FILLER, *tables)


# ---- Words


def text(case: Case) -> None:
    qubits = case.number()
    case.agree(_library.call("parse_pauli_string", case.counted(np.uint8), qubits))


def codes_read(case: Case) -> None:
    case.agree(_library.call("word_from_codes", case.counted(np.uint8)))


def codes_written(case: Case) -> None:
    asked, qubits = case.word(), case.number()
    written = np.full(qubits, FILLER, np.uint8)
    expect(_library.call("codes_from_word", asked, qubits, written), ACCEPTED)
    case.agree(written)


def product(case: Case) -> None:
    p, q = case.word(), case.word()
    phased, commutator = _library.call("pauli_mul", p, q), _library.call("comm_product", p, q)
    case.agree(phased, _library.call("anti_commutes", p, q), commutator.eps)
    expect(commutator.word, phased.word)


# ---- Models


def make(case: Case, matrix: bool) -> tuple[_library.Built, list[Table]]:
    """A model that is built, or a matrix that is added to a model of Hamiltonian terms I; and the model's tables."""
    qubits, texts, lengths = case.number(), case.counted(np.uint8), case.counted(np.uint64)
    h_numbers, rates = case.counted(np.float64), case.counted(np.float64)
    counts, numbers = case.counted(np.uint64), case.counted(np.float64)
    h_words, h_coeffs, jumps, jump_rates, t_words, t_numbers, work_words, work_numbers = case.take(8)
    places = case.wide(h_words), h_coeffs, jumps, jump_rates, case.wide(t_words), t_numbers
    # All zero: the lanes of I, where a matrix is added.
    empty = [np.zeros(length, type_) for length, type_ in zip(places, [np.uint64, np.float64] * 3)]
    work = [*lanes(case.wide(work_words)), *reals(work_numbers)]
    if matrix:
        tables = [empty[0], h_numbers, *empty[2:]]
        before = _library.Model(qubits, len(h_numbers), 0, 0)
        made = _library.call("add_kossakowski", before, texts, lengths, counts, numbers, rates, *tables, *work)
    else:
        tables, given = empty, (texts, lengths, h_numbers, rates, counts, numbers)
        made = _library.call("build_model", *given, qubits, *tables, *work)
    expect(made.model.qubits, qubits if made.status.refusal == 0 else 0)
    if made.status.refusal != 0:
        all_hold(0, *empty)
    check_work(made.status, *work)
    return made, tables


def model(case: Case, matrix: bool = False) -> None:
    made, _ = make(case, matrix)
    case.agree(made.status, made.model.hamiltonian, made.model.jumps, made.model.terms)


def lent_model(case: Case, matrix: bool = False) -> tuple[Any, ...]:
    """A model that was made, as calls take it."""
    made, tables = make(case, matrix)
    expect(made.status, ACCEPTED)
    return made.model, *tables


# ---- Actions


def actions(case: Case, matrix: bool = False) -> None:
    lent = lent_model(case, matrix)
    work_words, work_sums, out_words, out_values = case.take(4)
    for _ in range(case.number()):
        asked = case.word()
        work = [*lanes(case.wide(work_words)), *reals(work_sums)]
        out = [*lanes(case.wide(out_words)), *reals(out_values)]
        listed = _library.call("compute_action_terms", *lent, asked, *work, *out)
        agree_list(case, listed, *out)
        check_work(listed.status, *work)


def agree_list(case: Case, listed: _library.Listed, words: Table, values: Table) -> None:
    """The words listed and their values; places past them are as they were."""
    count = listed.count
    case.agree(listed)
    case.agree_lanes(words[: WORD_LANES * count], 2 * case.lanes * count)
    case.agree(values[:count])
    all_hold(FILLER, words[WORD_LANES * count :], values[count:])


# ---- Bases


def basis(case: Case, name: str) -> None:
    """A call that changes a basis."""
    qubits, length, parameter, *lengths = case.take(11)
    words, coeffs = np.array(case.widened(lengths[0]), np.uint64), case.table(np.float64, lengths[1])
    given, values = np.array(case.widened(lengths[2]), np.uint64), case.table(np.float64, lengths[3])
    case.cut = lengths[2] if lengths[2] % (2 * case.lanes) else -1
    order, work, fixed, kept = tables = lanes(*lengths[4:])
    entries = qubits, words, coeffs, length
    if name == "prune_basis":
        changed = _library.call(name, *entries, given, real(parameter), *tables)
    elif name == "cap_basis":
        changed = _library.call(name, *entries, given, parameter, *tables)
    else:
        changed = _library.call(name, *entries, given, values, parameter, order, work, kept)
    case.agree(changed)
    case.agree_lanes(words, lengths[0])
    case.agree(coeffs, held_by(tables))


def held_by(tables: list[Table]) -> int:
    """What every place of these tables holds, 0 where there is none."""
    places = np.concatenate(tables)
    held = int(places[0]) if places.size else 0
    all_hold(held, places)
    return held


# ---- Leakage

# Places for the entries of a basis, for protected words, of tables 1 and 2, and of the list; lanes of an index and of
# its mask.
ENTRIES, PROTECTED, PLACES, LIST = 8192, 8, 256, 64
INDEX, MASK = 64 * MAX_QUBITS, 64


def leakage(case: Case, matrix: bool = False) -> None:
    lent = lent_model(case, matrix)
    runs, protected, *limits, tau_given, tau_add, touched, held, listed_words = case.take(10)
    words, coeffs = laid(case, runs)
    given = words, coeffs, len(coeffs) - 1, case.words(protected)
    # One of the tables of each sort has as many places as are recorded.
    work = [
        *lanes(INDEX, INDEX, MASK),
        *lanes(WORD_LANES * touched),
        *reals(2 * PLACES),
        *lanes(ENTRIES, 2 * (ENTRIES + PROTECTED), ENTRIES + PROTECTED),  # order, heads, nexts
        *lanes(WORD_LANES * PLACES),  # candidates
        *reals(held),
        *lanes(PLACES, PLACES),  # place_order, place_work
    ]
    out = [*lanes(WORD_LANES * listed_words), *reals(LIST)]
    # An absent tau_add meant 0 when the answers were recorded: it is given here.
    limited = _library.Limits(*limits, 1, real(tau_add) if tau_given else 0.0)
    listed = _library.call("leakage_with_prune", *lent, *given, limited, *work, *out)
    agree_list(case, listed, *out)
    check_work(listed.status, *work)


def laid(case: Case, runs: int) -> tuple[Table, Table]:
    """The words and coefficients of a basis of so many runs of entries alike, with one place more."""
    each = [(case.number(), *case.words(1).tolist(), case.number()) for _ in range(runs)]
    table = np.array(each, np.uint64).reshape(-1, 2 + WORD_LANES)
    entries = np.repeat(table[:, 1:], table[:, 0].astype(np.intp), axis=0)
    entries = np.vstack([entries, np.full((1, WORD_LANES + 1), FILLER, np.uint64)])
    return entries[:, :WORD_LANES].flatten(), entries[:, WORD_LANES].copy().view(np.float64)


# ---- Generators, norms and products

# Places for the words of a basis, for the words that an action touches, and for entries of a generator.
WORDS, TOUCHED, CELLS = 64, 256, 512


def generator(case: Case) -> None:
    [rows] = narrow(CELLS)
    listed, columns, values, _ = cells(case, "generator", rows)
    count = listed.count
    case.agree(listed, count, rows[:count], columns[:count], values[:count])
    all_hold(FILLER, rows[count:], columns[count:], values[count:])


def by_rows(case: Case) -> None:
    [offsets] = lanes(WORDS + 1)
    listed, columns, values, words = cells(case, "build_csr", offsets)
    count, used = listed.count, words + 1 if listed.status.refusal == 0 else 0
    case.agree(listed, used, offsets[:used], columns[:count], values[:count])
    all_hold(FILLER, offsets[used:], columns[count:], values[count:])


def cells(case: Case, name: str, rows: Table) -> tuple[_library.Listed, Table, Table, int]:
    """The call of a generator with a table for rows or offsets: its answer, the columns and values, and how many words
    the basis has."""
    lent = lent_model(case)
    length, touched, places = case.take(3)
    words = case.words(length)
    work = [
        *lanes(INDEX, INDEX, MASK),
        *lanes(2 * WORDS, WORDS),  # heads, nexts
        *lanes(WORD_LANES * touched),
        *reals(2 * TOUCHED),
        *narrow(CELLS, CELLS),  # the stage
        *reals(CELLS),
    ]
    columns, values = *narrow(places), *reals(CELLS)
    listed = _library.call(name, *lent, words, length, *work, rows, columns, values)
    check_work(listed.status, *work)
    return listed, columns, values, length


def norm(case: Case) -> None:
    lent = lent_model(case)
    length, touched, dt, drop_tol = case.take(4)
    words = case.words(length)
    work = [*lanes(INDEX, INDEX, MASK, 2 * WORDS, WORDS, WORD_LANES * touched), *reals(2 * TOUCHED, WORDS, WORDS)]
    answer = _library.call("expm_degree", *lent, words, length, real(dt), real(drop_tol), *work)
    case.agree(answer)
    check_work(answer.status, *work)


def product_of_matrix(case: Case) -> None:
    rows, overwrite, *lengths, work_length = case.take(8)
    types: list[type[np.generic]] = [np.uint64, np.uint32, np.float64, np.float64, np.float64]
    *given, output = (case.table(type_, length) for type_, length in zip(types, lengths))
    [work] = reals(work_length)
    status = _library.call("dot", rows, *given, overwrite != 0, output, work)
    case.agree(status, output)
    check_work(status, work)


def degree(case: Case) -> None:
    t, drop_tol = case.take(2)
    case.agree(_library.call("select_ms", real(t), real(drop_tol)))


# ---- Kinds


def named(case: Case, kinds: tuple[int, ...]) -> None:
    """A case of one of these kinds, which comes first."""
    kind = case.number()
    if kind not in kinds:
        raise Malformed(f"kind {kind} is none of {kinds}")
    KINDS[kind][1](case)


# What the cases of each kind are about, and how one is replayed.
KINDS: dict[int, tuple[str, Callable[[Case], None]]] = {
    1: ("texts", text),
    2: ("codes read", codes_read),
    3: ("codes written", codes_written),
    4: ("products", product),
    5: ("models", model),
    6: ("models refused", model),
    7: ("matrices", partial(model, matrix=True)),
    8: ("matrices refused", partial(model, matrix=True)),
    9: ("actions", actions),
    10: ("actions of matrices", partial(actions, matrix=True)),
    11: ("actions refused", actions),
    12: ("prunes", partial(basis, name="prune_basis")),
    13: ("caps", partial(basis, name="cap_basis")),
    14: ("admissions", partial(basis, name="add_leakage_capped")),
    15: ("bases without the Rust", partial(named, kinds=(12, 13, 14))),
    16: ("leakage", leakage),
    17: ("leakage of matrices", partial(leakage, matrix=True)),
    18: ("leakage without the Rust", leakage),
    19: ("generators", generator),
    20: ("matrices by rows", by_rows),
    21: ("norms and degrees", norm),
    22: ("products of matrices", product_of_matrix),
    23: ("degrees", degree),
    24: ("generators, norms, products and degrees without the Rust", partial(named, kinds=(19, 20, 21, 22, 23))),
}


# The kinds whose calls take a register, and where that stands.
_REGISTER = {**dict.fromkeys((1, 2, 5, 6, 7, 8, 12, 13, 14), 1), 15: 2}


def is_left_out(numbers: list[int], lanes: int) -> bool:
    """Whether a case was refused for qubits that words have room for now."""
    place = _REGISTER.get(numbers[0])
    return place is not None and place < len(numbers) and 64 * lanes < numbers[place] <= MAX_QUBITS


def lines(name: str) -> Iterator[Recorded]:
    """The cases of a recording."""
    lanes = 0
    with (FOLDER / name).open(encoding="ascii", newline="\n") as file:
        for number, line in enumerate(file, 1):
            if line.startswith("# lanes "):
                lanes = int(line.removeprefix("# lanes "))
            if not line.startswith("#"):
                yield Recorded(f"{name}, line {number}", lanes, line.removesuffix("\n"))


def parsed(line: str) -> list[int]:
    """The numbers of a line."""
    if not _LINE.fullmatch(line):
        raise Malformed("not numbers with a space between two")
    return [int(number, 16) for number in line.split(" ")]


def replay(numbers: list[int], lanes: int = LANES) -> tuple[str, Case]:
    """Replays a case: what it is about, and what was read of it."""
    case = Case(numbers, lanes)
    kind = case.number()
    if kind not in KINDS:
        raise Malformed(f"there is no kind {kind}")
    about, ask = KINDS[kind]
    ask(case)
    if case.at != len(numbers):
        raise Malformed(f"{len(numbers) - case.at} numbers more than the case has")
    return about, case
