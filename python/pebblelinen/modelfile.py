# SPDX-FileCopyrightText: 2026 The PPVM Authors
# SPDX-License-Identifier: Apache-2.0
"""Model files: a device, and a basis to look at it with, in TOML.

    qubits = 2                          # needed; all else may be left out
    protected = ["Z0"]                  # words that leakage leaves out

    [hamiltonian]                       # words by site, or as texts: "XX", "ZI"
    "X0 X1" = 1.0
    "Z0" = 0.5

    [[jumps]]
    rate = 0.1
    operator = { "X0" = 0.5, "Y0" = "0.5j" }    # complex numbers as texts

    [[jumps]]
    rate = 0.2
    operator = "Z1"                     # one word with the number 1

    [[matrices]]                        # adds K[n][m] A_m ρ A_n† to the rate of change of a state ρ:
    operators = ["X0", "X1"]            # if yours is K[n][m] A_n ρ A_m†, give K transposed
    k = [[1, "0.5j"], ["-0.5j", 1]]

    [basis]                             # words with their coefficients; positions count from 0
    "Z0" = 1.0

    # For run and check, which follow the basis where there are no observables:

    [observables]                       # each by its name: a word, or words with their numbers
    site = "Z0"
    both = { "Z0" = 0.5, "Z1" = 0.5 }

    [state]                             # the product state of expectations: 0 1 + - +i -i or a Bloch vector,
    all = "0"                           # for all qubits, with exceptions by qubit
    1 = [0, 0.6, 0.8]

    [run]
    times = { to = 1.0, count = 10 }    # 0 and the ends of 10 equal parts; or a list: [0, 0.5, 1]
    dt = 0.05                           # the longest step
    max_basis = 1000                    # words held; also admit_basis, tau_add, drop_tol
    admissions = 2                      # how often words enter before a step's end
    words = ["X0 Y1"]                   # whose coefficients are followed
    tolerance = 1e-3                    # by how much the curve may move in a check

Where an order or a word that comes twice matters, `hamiltonian`, `operator`, `basis` and an observable may be lists of
[word, number] instead. `save` writes a model as such a file.
"""
import difflib
import math
import os
import tomllib
from collections.abc import Callable, Iterable, Mapping, Sequence
from typing import Any, NamedTuple

from . import _given, plan, words
from ._files import write_whole
from ._lanes import MAX_QUBITS
from ._modeltext import text_of
from ._types import ItemPath
from .basis import Basis, not_finite
from .errors import InputError, Refusal
from .model import Model
from .run import tolerance_of
from .state import AnyState, ProductState
from .words import MAX_WORDS, AnyWord

__all__ = ["ModelFile", "load", "loads", "save", "text_of"]

_KEYS = ["qubits", "protected", "hamiltonian", "jumps", "matrices", "basis", "observables", "state", "run"]


class ModelFile(NamedTuple):
    """What a file holds. Where it has no basis, that is empty.

    observables   by their names
    run           what the file says of a run, under the names that `model.run` takes, and the tolerance of a check
    state         the product state, where the file has one
    """

    model: Model
    basis: Basis
    protected: list[words.Word]
    observables: dict[str, Basis] = {}
    run: dict[str, Any] = {}
    state: ProductState | None = None

    def followed(self) -> dict[str | None, Basis]:
        """What a run follows, by name: the observables, or where there are none, the basis, which has no name."""
        return {name: basis for name, basis in self.observables.items()} or {None: self.basis}


def load(path: str | os.PathLike[str]) -> ModelFile:
    """Reads a model file."""
    name = os.fspath(path)
    return _found(_read(name), name)


def loads(text: str, name: str) -> ModelFile:
    """Reads the text of a model file, which errors call by this name."""
    try:
        data = tomllib.loads(text)
    except (tomllib.TOMLDecodeError, RecursionError) as error:
        raise InputError(f"this is no TOML: {error}", where=name) from None
    return _found(data, name)


def _found(data: dict[str, Any], name: str) -> ModelFile:
    try:
        return _made(data)
    except (InputError, Refusal) as error:
        key = _key(error.path, data)
        raise error.at(f"{name}: {key}" if key else name) from None


def _read(name: str) -> dict[str, Any]:
    try:
        with open(name, "rb") as file:
            return tomllib.load(file)
    except OSError as error:
        raise InputError(error.strerror or str(error), where=name) from None
    except (tomllib.TOMLDecodeError, UnicodeDecodeError, RecursionError) as error:
        raise InputError(f"this is no TOML: {error}", where=name) from None


def _made(data: dict[str, Any]) -> ModelFile:
    _keys(data, _KEYS, ["qubits"], ())
    n = _given.whole(data["qubits"], "the number of qubits", ("qubits",), MAX_QUBITS)
    model = Model(
        n,
        data.get("hamiltonian", {}),
        [
            (jump["rate"], _operator(jump["operator"], ("jumps", i, "operator")))
            for i, jump in _tables(data, "jumps", ["rate", "operator"])
        ],
        [
            (
                [_operator(x, ("matrices", i, "operators", j)) for j, x in enumerate(_list(matrix, i))],
                _entries(matrix["k"], ("matrices", i, "k")),
            )
            for i, matrix in _tables(data, "matrices", ["operators", "k"])
        ],
    )
    with _under("basis"):
        basis = Basis(n, data.get("basis", {}))
    with _under("protected"):
        protected = _given.listed(data.get("protected", []), "protected")
        lanes = [words.lanes_of(word, n, (i,)) for i, word in enumerate(protected)]
    state = ProductState(n, data["state"], ("state",)) if "state" in data else None
    fixed = [words.made(each, n) for each in lanes]
    return ModelFile(model, basis, fixed, _observables(data, n), _run(data, n), state)


def _observables(data: dict[str, Any], n: int) -> dict[str, Basis]:
    """Each a word, or words with their numbers."""
    found = {}
    for name, given in _table(data, "observables").items():
        with _under("observables"), _under(name):
            found[name] = Basis(n, {given: 1.0} if isinstance(given, str) else given)
            if not len(found[name]):
                raise InputError("this observable has no words")
    return found


def _run(data: dict[str, Any], n: int) -> dict[str, Any]:
    """What the file says of a run."""
    given = _table(data, "run")
    readers: dict[str, Callable[[Any], Any]] = {
        "times": lambda x: list(plan.times_of(x)),
        "dt": plan.dt_of,
        "max_basis": lambda x: _limit(x, "max_basis"),
        "admit_basis": lambda x: _limit(x, "admit_basis"),
        "tau_add": lambda x: _threshold(x, "tau_add"),
        "drop_tol": lambda x: _threshold(x, "drop_tol"),
        "admissions": lambda x: _given.whole(x, "admissions", ("admissions",), MAX_WORDS, 1),
        "words": lambda x: _words(x, n),
        "tolerance": tolerance_of,
        "losses": _flag,
        "split": lambda x: _given.whole(x, "split", ("split",), plan.MOST_STEPS, 1),
    }
    _keys(given, [*readers], [], ("run",))
    with _under("run"):
        return {key: readers[key](x) for key, x in given.items()}


def _limit(given: Any, name: str) -> int:
    limit = _given.whole(given, name, (name,), MAX_WORDS)
    if limit > MAX_WORDS:
        said = f"{name} is {limit}: at most {MAX_WORDS}"
        raise Refusal(8, said, {"count": limit, "limit": MAX_WORDS}, (name,))
    return limit


def _threshold(given: Any, name: str) -> float:
    x = _given.real(given, name, (name,))
    if not math.isfinite(x):
        refused = not_finite({name: x})
        raise Refusal(7, refused.said, refused.values, (name,))
    return x


def _words(given: Any, n: int) -> list[words.Word]:
    listed = _given.listed(given, "words", ("words",))
    return [words.made(words.lanes_of(word, n, ("words", i)), n) for i, word in enumerate(listed)]


def _flag(given: Any) -> bool:
    if not isinstance(given, bool):
        raise InputError(f"losses is {_given.shown(given)}: true or false is needed", ("losses",))
    return given


def _table(data: dict[str, Any], key: str) -> dict[str, Any]:
    given = data.get(key, {})
    if not isinstance(given, dict):
        raise InputError(f"this is to be a table: [{key}]", (key,))
    return given


class _under:
    """Errors inside are about the value of a key."""

    def __init__(self, key: str) -> None:
        self.key = key

    def __enter__(self) -> None:
        pass

    def __exit__(self, kind: object, error: object, _: object) -> None:
        if isinstance(error, (InputError, Refusal)):
            error.path = (self.key, *error.path)


def _tables(data: dict[str, Any], key: str, keys: Sequence[str]) -> Iterable[tuple[int, dict[str, Any]]]:
    """The tables of an array, with their places."""
    given = data.get(key, [])
    if not isinstance(given, list):
        raise InputError(f"this is to be an array of tables: [[{key}]]", (key,))
    for i, table in enumerate(given):
        if not isinstance(table, dict):
            raise InputError(f"this is to be a table with {' and '.join(keys)}", (key, i))
        _keys(table, keys, keys, (key, i))
    return enumerate(given)


def _keys(table: Mapping[str, Any], known: Sequence[str], needed: Sequence[str], path: ItemPath) -> None:
    for key in table:
        if key not in known:
            near = difflib.get_close_matches(key, known, 1)
            hint = f"did you mean {near[0]}?" if near else f"known are {', '.join(known)}"
            raise InputError(f"the key {key!r} is unknown: {hint}", path)
    for key in needed:
        if key not in table:
            raise InputError(f"the key {key!r} is missing", path)


def _list(matrix: Mapping[str, Any], i: int) -> list[Any]:
    return _given.listed(matrix["operators"], "operators", ("matrices", i, "operators"))


def _operator(given: Any, path: ItemPath) -> Any:
    if isinstance(given, str):
        return given
    pairs = _given.pairs(given, "term", path)
    return [(word, _number(x, (*path, i))) for i, (word, x) in enumerate(pairs)]


def _entries(given: Any, path: ItemPath) -> list[list[Any]]:
    rows = _given.listed(given, "K", path)
    return [
        [_number(x, (*path, i, j)) for j, x in enumerate(_given.listed(row, "a row of K", (*path, i)))]
        for i, row in enumerate(rows)
    ]


def _number(given: Any, path: ItemPath) -> Any:
    """A number, or a text as Python writes complex numbers."""
    if not isinstance(given, str):
        return given
    try:
        return complex(given.replace(" ", ""))
    except ValueError:
        raise InputError(f"{given!r} is no number: such as 0.5, '0.5j' or '1-2j' is needed", path) from None


# ---- writing ----


def save(
    path: str | os.PathLike[str],
    model: Model,
    basis: Basis | None = None,
    protected: Iterable[AnyWord] = (),
    *,
    observables: Mapping[str, Basis] = {},
    run: Mapping[str, Any] = {},
    state: AnyState | None = None,
) -> None:
    """Writes a model file, with a basis, protected words and what it says of runs where they are given, whole or not at
    all. Loading it gives the same model, number for number."""
    text = text_of(model, basis, protected, observables=observables, run=run, state=state)
    write_whole(path, text.encode())


# ---- where an error is ----


def _key(path: ItemPath, data: Any) -> str:
    """The way to an item as a reader of the file sees it: jumps[3].operator."X12"."""
    named = ""
    for step in path:
        if step == "n":
            step = "qubits"
        if isinstance(data, dict):
            if isinstance(step, int):
                step = list(data)[step]
                named += f'."{step}"'
            else:
                named += f".{step}" if named else step
            data = data.get(step)
        elif isinstance(data, list) and isinstance(step, int):
            named += f"[{step}]"
            data = data[step] if step < len(data) else None
        else:
            break
    return named
