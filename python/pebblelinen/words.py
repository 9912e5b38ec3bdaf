# SPDX-FileCopyrightText: 2026 The PPVM Authors
# SPDX-License-Identifier: Apache-2.0
"""Pauli words, and the two numbers that must not be taken for each other: a qubit, which is a site of
the device, and a position, which is a place in a basis.

A word can be given in three ways:

    "XIZ"               a text, one letter for each qubit, qubit 0 first; _ is dropped
    "X0 Z2"             by site: letters with their qubits; every other qubit has I
    {0: "X", 2: "Z"}    the same as a mapping
"""
import functools
import re
import struct
from collections.abc import Iterable, Iterator, Mapping, Sequence
from types import MappingProxyType
from typing import Any, ClassVar, Protocol, TypeVar

import numpy as np
from numpy.typing import NDArray

from . import _given, _lanes, _library
from ._lanes import LANES, MAX_QUBITS, PACKED, WORD_LANES
from ._types import ByteTable, ItemPath, LaneTable, WordLanes
from .errors import InputError, Refusal

# The most words of a list, and the largest word limit.
MAX_WORDS = 65_536
LETTERS = "IXZY"  # by code
_CODES = "I is 0, X 1, Z 2, Y 3"
_NO_SIGN = "a word has no sign or phase: give it to the word's number"
_SITE = re.compile(r"([^\s0-9])0*([0-9]+)")


@functools.total_ordering
class _Numbered:
    """A number that says what it counts. It is no int: two kinds are never equal, and there is no
    arithmetic."""

    __slots__ = ("_number",)
    _kind: ClassVar[str]
    _number: int
    _most: ClassVar[int]

    def __init__(self, number: "int | _Numbered") -> None:
        if isinstance(number, _Numbered):
            if type(number) is not type(self):
                raise InputError(f"{number!s} stands where a {self._kind} is needed")
            number = number._number
        object.__setattr__(self, "_number", _given.whole(number, f"a {self._kind}", most=self._most))

    def __setattr__(self, name: str, value: object) -> None:
        raise AttributeError(f"a {self._kind} cannot be changed")

    def __int__(self) -> int:
        return self._number

    def __eq__(self, other: object) -> bool:
        if not isinstance(other, _Numbered) or type(other) is not type(self):
            return NotImplemented
        return self._number == other._number

    def __lt__(self, other: object) -> bool:
        if not isinstance(other, _Numbered) or type(other) is not type(self):
            return NotImplemented
        return self._number < other._number

    def __hash__(self) -> int:
        return hash((self._kind, self._number))

    def __str__(self) -> str:
        return f"{self._kind} {self._number}"

    def __repr__(self) -> str:
        return f"{type(self).__name__}({self._number})"

    def __reduce__(self) -> tuple[Any, ...]:
        return type(self), (self._number,)


class Qubit(_Numbered):
    """A site of the device, counted from 0. It indexes nothing, since most arrays are by position: int(qubit)
    indexes a list of your own that is by qubit."""

    __slots__ = ()
    _kind = "qubit"
    _most = MAX_QUBITS - 1


class Position(_Numbered):
    """A place in a basis, counted from 0: a row or column of its generator. It indexes a list or an array."""

    __slots__ = ()
    _kind = "position"
    _most = MAX_WORDS - 1

    def __index__(self) -> int:
        return self._number


def register(n: int) -> int:
    """The qubits of a register; the library judges how many there may be."""
    return _given.whole(n, "n, the number of qubits,", most=MAX_QUBITS)


class Word:
    """A Pauli word on a register of n qubits. It cannot be changed.

    Words are equal where their registers and letters are. A word is never equal to a text or a mapping, since
    either can be written in many ways, of which a set or a dict would find one: comparing them raises. Compare
    with a Word, or compare `word.by_site` or `word.text`.
    """

    # Packed are the lanes as they stand in a table, for tables of many words.
    __slots__ = ("n", "lanes", "packed")
    n: int
    lanes: WordLanes
    packed: bytes

    def __init__(self, word: "AnyWord", *, n: int) -> None:
        n = register(n)
        _set(self, n, lanes_of(word, n))

    def __setattr__(self, name: str, value: object) -> None:
        raise AttributeError("a word cannot be changed")

    @classmethod
    def from_lanes(cls, lanes: Iterable[int], *, n: int) -> "Word":
        """The word of eight lanes, x[0] to x[3], then z[0] to z[3]: qubit q is bit q % 64 of lane q / 64. Calls
        that take the word test it."""
        lanes = tuple(_given.whole(lane, "a lane") for lane in _given.listed(lanes, "lanes"))
        return made(lanes, register(n))

    @classmethod
    def from_codes(cls, codes: bytes | bytearray | Iterable[int] | NDArray[Any]) -> "Word":
        """The word of codes, one for each qubit: I 0, X 1, Z 2, Y 3."""
        if isinstance(codes, (bytes, bytearray)):
            codes = list(codes)
        given = _given.array(codes, "codes").reshape(-1)
        outside = given[(given < 0) | (given > 255)] if given.dtype.kind in "iu" else given[:0]
        if outside.size:
            raise InputError(f"code {outside[0]}: {_CODES}")
        parsed = _library.call("word_from_codes", _given.lanes(given, "codes").astype(np.uint8))
        status = parsed.status
        if status.refusal == 4:
            raise Refusal(4, f"code {status.first}: {_CODES}", {"code": status.first})
        if status.refusal:
            raise text_refusal(status, codes, given.size)
        return made((*parsed.word.x, *parsed.word.z), given.size)

    @property
    def codes(self) -> ByteTable:
        """The codes of all qubits: I 0, X 1, Z 2, Y 3."""
        out = np.zeros(min(self.n, MAX_QUBITS), np.uint8)
        status = _library.call("codes_from_word", self.struct(), self.n, out)
        if status.refusal == 1:
            raise text_refusal(status, self, self.n)
        if status.refusal:
            raise Refusal(
                status.refusal,
                f"the word {self.by_site} has a letter at or above qubit {self.n}",
                {"position": Position(status.first)},
            )
        return out

    @property
    def text(self) -> str:
        """One letter for each qubit, qubit 0 first."""
        return "".join(LETTERS[code] for code in self.codes)

    @property
    def letters(self) -> Mapping[Qubit, str]:
        """The letters other than I by their qubits, in the order of qubits."""
        return MappingProxyType({Qubit(q): letter for q, letter in _sites(self.lanes)})

    @property
    def by_site(self) -> str:
        """The letters other than I with their qubits: "X12 Z40". The identity is "I0"."""
        return site_text(self.lanes)

    # ---- words of other packages, by their names, since each has an order and a count of its own ----

    @classmethod
    def from_qiskit(cls, label: str) -> "Word":
        """The word of a label of Qiskit, which has a letter for each qubit, qubit 0 last: "XIZ" is Z0 X2."""
        label = _unsigned(label, "Qiskit label", "IXYZ")
        return cls(label[::-1], n=len(label))

    def to_qiskit(self) -> str:
        """The label of Qiskit: qubit 0 last."""
        return self.text[::-1]

    @classmethod
    def from_openfermion(cls, term: Iterable[tuple[int, str]], *, n: int) -> "Word":
        """The word of a term of OpenFermion's QubitOperator: ((0, "X"), (2, "Z")). Qubits count from 0; ()
        is the identity."""
        letters = ((_site(q, ()), letter) for q, letter in _given.pairs(term, "letter"))
        return cls(_each_once(letters, term), n=n)

    def to_openfermion(self) -> tuple[tuple[int, str], ...]:
        """The term of OpenFermion's QubitOperator."""
        return tuple(_sites(self.lanes))

    @classmethod
    def from_stim(cls, text: str) -> "Word":
        """The word of the text of a Pauli string of Stim: "+X_Z", a letter for each qubit, qubit 0 first, where _
        is I. (Elsewhere in this package _ is dropped, so that "X_Z" has two letters.)"""
        text = _unsigned(text.removeprefix("+") if isinstance(text, str) else text, "Pauli string", "I_XYZ")
        return cls(text.replace("_", "I"), n=len(text))

    def to_stim(self) -> str:
        """The text of a Pauli string of Stim, with the sign +."""
        return "+" + self.text.replace("I", "_")

    @classmethod
    def from_julia(cls, *letters: str | int, n: int) -> "Word":
        """The word of letters and sites that count from 1, as ITensors' OpSum and PauliStrings.jl list them:
        Word.from_julia("X", 1, "Z", 3, n=3) is X0 Z2."""
        if len(letters) % 2:
            raise InputError(f"{_given.shown(letters)}: a site is needed after each letter")
        sites = [_given.whole(site, "a site", least=1, most=MAX_QUBITS) for site in letters[1::2]]
        by_qubit = ((site - 1, letter) for site, letter in zip(sites, letters[::2]))
        return cls(_each_once(by_qubit, letters), n=n)

    def to_julia(self) -> tuple[str | int, ...]:
        """Letters and sites that count from 1: ("X", 1, "Z", 3)."""
        found: list[str | int] = []
        for q, letter in _sites(self.lanes):
            found += letter, q + 1
        return tuple(found)

    def letter(self, *, qubit: Qubit | int) -> str:
        """The letter at a qubit of the register."""
        q = int(Qubit(qubit))
        if q >= self.n:
            raise InputError(f"qubit {q} is outside the register of {qubits(self.n)}")
        return dict(_sites(self.lanes)).get(q, "I")

    def times(self, other: "AnyWord") -> tuple[int, "Word"]:
        """The product with another word: (phase, word), which stands for i^phase times the word."""
        product: _library.Phased = _library.call("pauli_mul", self.struct(), self._other(other).struct())
        return product.phase, made((*product.word.x, *product.word.z), self.n)

    def anticommutes(self, other: "AnyWord") -> bool:
        """Whether p q = -q p; otherwise p q = q p."""
        return bool(_library.call("anti_commutes", self.struct(), self._other(other).struct()))

    def shares_qubit(self, other: "AnyWord") -> bool:
        """Whether some qubit has a letter other than I in both words."""
        return bool(_library.call("shares_qubit", self.struct(), self._other(other).struct()))

    def _other(self, other: "AnyWord") -> "Word":
        return Word(other, n=self.n)

    def struct(self) -> _library.Word:
        """The word as the library takes it."""
        return struct_of(self.lanes)

    def __eq__(self, other: object) -> bool:
        if isinstance(other, (str, Mapping)):
            raise InputError(
                f"the word {self.by_site} is compared with {_given.shown(other)}, which is no Word: compare with"
                f" Word({_given.shown(other)}, n={self.n}), or compare word.by_site or word.text"
            )
        if not isinstance(other, Word):
            return NotImplemented
        return (self.n, self.lanes) == (other.n, other.lanes)

    def __lt__(self, other: object) -> bool:
        """The order of words in every list."""
        if not isinstance(other, Word):
            return NotImplemented
        return bool(_library.call("compare_words", self.struct(), same_register(other, self.n).struct()) < 0)

    def __hash__(self) -> int:
        return hash((self.n, self.lanes))

    def __str__(self) -> str:
        return f"{self.by_site} ({qubits(self.n)})"

    def __repr__(self) -> str:
        return f"Word({self.by_site!r}, n={self.n})"

    def __reduce__(self) -> tuple[Any, ...]:
        return made, (self.lanes, self.n)


# The ways to give a word.
AnyWord = str | Mapping[int, str] | Mapping[Qubit, str] | Word


class OfRegister(Protocol):
    """Whatever is of a register of n qubits."""

    n: int


_OfRegister = TypeVar("_OfRegister", bound=OfRegister)


def _set(word: Word, n: int, lanes: Sequence[int]) -> None:
    object.__setattr__(word, "n", n)
    object.__setattr__(word, "lanes", lanes)
    object.__setattr__(word, "packed", PACKED.pack(*lanes))


def made(lanes: Iterable[int], n: int) -> Word:
    """The word of lanes that are known to be such."""
    word, lanes = object.__new__(Word), tuple(lanes)
    try:
        _set(word, n, lanes)
    except struct.error:
        raise InputError(_lanes_said(len(lanes))) from None
    return word


def _lanes_said(count: int) -> str:
    """What is wrong with a word of so many lanes."""
    said = f"{_given.counted(count, 'lane')}: a word has {WORD_LANES}, {_lanes.NAMED}"
    return said + ("; two zeros belong after the two x lanes, and two at the end" if count == 4 else "")


def _each_once(letters: Iterable[tuple[int, Any]], word: Any, path: ItemPath = ()) -> dict[int, Any]:
    """Letters by their qubits, each of which has one."""
    found: dict[int, Any] = {}
    for q, letter in letters:
        if q in found:
            raise InputError(
                f"qubit {q} comes twice in the word {_given.shown(word)}: give the product of its letters, and the"
                " phase to the word's number",
                path,
            )
        found[q] = letter
    return found


def _unsigned(text: Any, what: str, letters: str) -> str:
    """A text of letters; a sign before them is no part of a word."""
    if not isinstance(text, str):
        raise InputError(f"{_given.shown(text)} is no {what}: a text is needed")
    if text[:1] in ("-", "+", "i"):
        raise InputError(f"the {what} {_given.shown(text)}: {_NO_SIGN}")
    wrong = next((letter for letter in text if letter not in letters), None)
    if wrong is not None:
        raise InputError(f"{wrong!r} in the {what} {_given.shown(text)}: {', '.join(letters)} are its letters")
    return text


def qubits(n: int) -> str:
    """1 qubit, 2 qubits."""
    return _given.counted(n, "qubit")


def struct_of(lanes: Sequence[int]) -> _library.Word:
    """Lanes as the library takes a word."""
    return _library.Word((*lanes[:LANES],), (*lanes[LANES:],))


def _sites(lanes: Sequence[int]) -> Iterator[tuple[int, str]]:
    """(qubit, letter) for each letter other than I."""
    x, z = _lanes.joined(lanes)
    left = x | z
    while left:
        q = (left & -left).bit_length() - 1
        left &= left - 1
        yield q, LETTERS[(x >> q & 1) + 2 * (z >> q & 1)]


def site_text(lanes: Sequence[int]) -> str:
    """The word of these lanes by site."""
    return " ".join(f"{letter}{q}" for q, letter in _sites(lanes)) or "I0"


def same_register(thing: _OfRegister, n: int, what: str = "word", path: ItemPath = ()) -> _OfRegister:
    """The thing, which must be of n qubits."""
    if thing.n != n:
        raise InputError(f"a {what} of {qubits(thing.n)} stands where one of {n} is needed", path)
    return thing


def table(given: Any, n: int, what: str) -> LaneTable:
    """A flat table of words, of an array of lanes or of a list of words."""
    if hasattr(given, "lanes") and hasattr(given, "n") and not isinstance(given, Word):
        lanes: LaneTable = same_register(given, n, "list").lanes
        return lanes
    if isinstance(given, np.ndarray) and given.dtype.kind not in "UO":
        return _given.lanes(given, what)
    found = [lanes_of(word, n, (i,)) for i, word in enumerate(_given.listed(given, what))]
    return np.array(found, np.uint64).reshape(-1)


def lanes_of(word: AnyWord, n: int, path: ItemPath = ()) -> WordLanes:
    """The lanes of a word, as the library reads its text."""
    if isinstance(word, Word):
        return same_register(word, n, path=path).lanes
    parsed: _library.Parsed = _library.call("parse_pauli_string", bytes_of(word, n, path), n)
    if parsed.status.refusal:
        raise text_refusal(parsed.status, word, n, path)
    return *parsed.word.x, *parsed.word.z


def places_of(word: AnyWord, words: NDArray[np.uint64], n: int) -> NDArray[np.intp]:
    """The places at which a word stands in an array of words."""
    return np.flatnonzero((words == np.array(lanes_of(word, n), np.uint64)).all(axis=1))


def bytes_of(word: AnyWord, n: int, path: ItemPath = ()) -> ByteTable:
    """The text of a word as bytes, for the library to read. It is longer than the register where a
    qubit is given that is outside it, and the library refuses its length."""
    if isinstance(word, Word):
        return np.frombuffer(same_register(word, n, path=path).text.encode(), np.uint8)
    if isinstance(word, str) and not _has_qubits(word):
        return np.frombuffer(_encoded(word), np.uint8)
    sites = _by_site(word, path)
    # A larger register is refused, whatever the text.
    letters = [b"I"] * max([min(n, MAX_QUBITS), *(q + 1 for q in sites)])
    for q, letter in sites.items():
        letters[q] = _encoded(letter)
    return np.frombuffer(b"".join(letters), np.uint8)


def _encoded(text: str) -> bytes:
    # Bytes of a command line that are no UTF-8 become what they were.
    try:
        return text.encode("utf-8", "surrogateescape")
    except UnicodeEncodeError:
        return text.encode("utf-8", "surrogatepass")


def _has_qubits(text: str) -> bool:
    """Whether a text is by site: one without numbers has a letter for each qubit."""
    return re.search("[0-9]", text) is not None


def _by_site(word: str | Mapping[int, str] | Mapping[Qubit, str], path: ItemPath) -> dict[int, str]:
    """The letters that are given by their qubits."""
    if isinstance(word, str):
        given = []
        for token in word.split():
            match = _SITE.fullmatch(token)
            if not match:
                raise InputError(
                    f"{_given.shown(token)} in the word {_given.shown(word)} is no letter with its qubit"
                    + (_advice(token) or ", such as X12"),
                    path,
                )
            if len(match[2]) > 5:
                raise _no_qubit(match[2], path)
            given.append((int(match[2]), match[1]))
    elif isinstance(word, Mapping):
        given = [(_site(qubit, path), letter) for qubit, letter in word.items()]
    else:
        raise InputError(
            f"{_given.shown(word)} is no word: a text, or letters by their qubits, is needed", path
        )
    for qubit, letter in given:
        if not isinstance(letter, str) or len(letter) != 1:
            raise InputError(f"qubit {qubit} has {_given.shown(letter)}: a letter is needed", path)
    return _each_once(given, word, path)


def _site(qubit: int | Qubit, path: ItemPath) -> int:
    try:
        q = int(Qubit(qubit))
    except InputError as error:
        raise InputError(error.said, path) from None
    if q > 99_999:
        raise _no_qubit(str(q), path)
    return q


def _no_qubit(digits: str, path: tuple[str | int, ...]) -> InputError:
    """Of a number above every register, for which no text is made."""
    shown = digits if len(digits) <= 20 else digits[:20] + ".."
    return InputError(f"qubit {shown}: a register has at most {MAX_QUBITS} qubits, 0 to {MAX_QUBITS - 1}", path)


def _advice(text: str) -> str:
    """What to write instead of a text that is written as words are elsewhere."""
    bare = text.strip()
    if re.match(r"[-+−]|i[IXYZ]", bare):
        return f"; {_NO_SIGN}"
    if "σ" in bare:
        return "; write X, Y, Z for σx, σy, σz"
    if re.fullmatch(r"([A-Za-z][0-9]+){2,}", bare):
        return f"; write {' '.join(re.findall('[A-Z][0-9]+', bare.upper()))!r}, with a space between"
    if re.fullmatch(r"[IXYZ](\s+[IXYZ])+", bare.upper()):
        return f"; write {''.join(bare.upper().split())!r}, without spaces, or letters with their qubits"
    if re.search("[ixyz]", bare) and re.fullmatch(r"[IXYZ_0-9\s]+", bare.upper()):
        return f"; letters are capitals: {_given.shown(bare.upper())}"
    return ""


def text_refusal(status: _library.Status, word: Any, n: int, path: ItemPath = ()) -> Refusal:
    """The refusal of a word's text."""
    first, second = status.first, status.second
    shown = f"the word {word.by_site}" if isinstance(word, Word) else f"the word {_given.shown(word)}"
    text = chr(first) if isinstance(word, Mapping) and first < 128 else word
    advice = _advice(text) if isinstance(text, str) else ""
    if status.refusal == 1:
        limit = {"count": first, "limit": second}
        return Refusal(1, f"a register of {first} qubits: at most {second}", limit, path)
    if status.refusal == 2:
        values: dict[str, Any] = {"expected": first, "got": second}
        outside = _outside(word, n)
        if outside is not None:
            values["qubit"] = Qubit(outside)
            said = f"{shown} has a letter at qubit {outside}, and the register has {qubits(n)}"
            return Refusal(2, said + (f", 0 to {n - 1}" if n else ""), values, path)
        said = f"{shown} has {_given.counted(second, 'letter')}, and the register has {qubits(n)}"
        return Refusal(2, said + advice, values, path)
    byte = f"byte {first}" + (f" ({chr(first)!r})" if first < 128 else "")
    # Letters by site are handed over with a place for each qubit.
    by_site = isinstance(word, Mapping) or isinstance(word, str) and _has_qubits(word)
    at = f"at {'qubit' if by_site else 'place'} {second}"
    said = f"{byte} {at} of {shown} is not I, X, Y or Z{advice}"
    return Refusal(3, said, {"byte": first, "place": second}, path)


def _outside(word: AnyWord, n: int) -> int | None:
    """The first qubit outside the register that a word by site names."""
    if isinstance(word, Word) or isinstance(word, str) and not _has_qubits(word):
        return None
    return min((q for q in _by_site(word, ()) if q >= n), default=None)
