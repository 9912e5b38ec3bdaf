# SPDX-FileCopyrightText: 2026 The PPVM Authors
# SPDX-License-Identifier: Apache-2.0
"""The text of a model file: what modelfile reads, number for number."""
import math
from collections.abc import Iterable, Mapping, Sequence
from typing import TYPE_CHECKING, Any

from . import words
from .basis import Basis
from .state import AnyState, ProductState
from .words import AnyWord

if TYPE_CHECKING:
    from .model import Model


def text_of(
    model: "Model",
    basis: Basis | None = None,
    protected: Iterable[AnyWord] = (),
    *,
    observables: Mapping[str, Basis] = {},
    run: Mapping[str, Any] = {},
    state: AnyState | None = None,
) -> str:
    """The text of a model file."""
    n = model.n
    lines = [f"qubits = {n}"]
    fixed = [_word_text(words.Word(word, n=n)) for word in protected]
    if fixed:
        lines.append(f"protected = [{', '.join(fixed)}]")
    named = {"hamiltonian": list(model.hamiltonian), "basis": _entries(basis, n)}
    # Lists stand before all tables.
    lines += [f"{name} = {_pairs_text(items)}" for name, items in named.items() if _twice(items)]
    lines += _table_lines("hamiltonian", named["hamiltonian"])
    for jump in model.jumps:
        lines += ["", "[[jumps]]", f"rate = {jump.rate!r}", f"operator = {_operator_text(jump.operator)}"]
    for matrix in model.matrices:
        operators = ", ".join(map(_operator_text, matrix.operators))
        lines += ["", "[[matrices]]", f"operators = [{operators}]", f"k = {_rows_text(matrix.k.tolist())}"]
    lines += _table_lines("basis", named["basis"])
    if observables:
        lines += ["", "[observables]"]
        lines += [f"{_text(name)} = {_operator_text(_entries(each, n))}" for name, each in observables.items()]
    if state is not None:
        each = ProductState(n, state).exceptions()
        lines += ["", "[state]", *(f"{key} = {_plain(x)}" for key, x in each.items())]
    if run:
        lines += ["", "[run]", *(f"{key} = {_plain(x)}" for key, x in run.items())]
    return "\n".join([*lines, ""])


# Words with a number each.
_Items = Sequence[tuple[words.Word, complex]]


def _entries(basis: Basis | None, n: int) -> _Items:
    return [] if basis is None else list(words.same_register(basis, n, "basis").terms())


def _twice(items: _Items) -> bool:
    """Whether a word comes twice: a table has each of its keys once."""
    return len({word for word, _ in items}) < len(items)


def _table_lines(name: str, items: _Items) -> list[str]:
    if not items or _twice(items):
        return []
    return ["", f"[{name}]", *(f"{_word_text(word)} = {_number_text(x)}" for word, x in items)]


def _pairs_text(items: _Items) -> str:
    return f"[{', '.join(f'[{_word_text(word)}, {_number_text(x)}]' for word, x in items)}]"


def _operator_text(operator: _Items) -> str:
    if len(operator) == 1 and repr(operator[0][1]) in ("(1+0j)", "1.0"):
        return _word_text(operator[0][0])
    if _twice(operator):
        return _pairs_text(operator)
    return f"{{ {', '.join(f'{_word_text(word)} = {_number_text(x)}' for word, x in operator)} }}"


def _rows_text(rows: Iterable[Iterable[complex]]) -> str:
    return f"[{', '.join(f'[{row}]' for row in (', '.join(map(_number_text, row)) for row in rows))}]"


def _word_text(word: words.Word) -> str:
    # The identity by site names qubit 0, which a register without qubits does not have.
    return f'"{word.by_site if word.n else ""}"'


def _number_text(x: complex) -> str:
    """A number that is read as it was, signs of zeros too: a complex one is a text."""
    if isinstance(x, complex):
        real = x.imag == 0 and math.copysign(1, x.imag) > 0
        return repr(x.real) if real else f'"{str(x).strip("()")}"'
    return repr(x)


def _plain(x: Any) -> str:
    """Numbers, texts and lists of them."""
    if isinstance(x, words.Word):
        return _word_text(x)
    if isinstance(x, str):
        return _text(x)
    if isinstance(x, bool):
        return str(x).lower()
    if isinstance(x, (list, tuple)):
        return f"[{', '.join(map(_plain, x))}]"
    return repr(x)


def _text(given: str) -> str:
    """A text in quotes, as TOML has it: its control characters and quotes are written by their numbers."""
    plain = (c if c.isprintable() and c not in '"\\' else f"\\U{ord(c):08X}" for c in given)
    return f'"{"".join(plain)}"'
