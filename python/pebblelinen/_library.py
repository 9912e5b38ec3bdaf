# SPDX-FileCopyrightText: 2026 The PPVM Authors
# SPDX-License-Identifier: Apache-2.0
"""The shared object and its functions, as include/pebblelinen.h declares them."""
import ctypes
import functools
import hashlib
import os
from collections.abc import Sequence
from ctypes import Structure, c_bool, c_double, c_int32, c_size_t, c_uint32, c_uint64, c_void_p
from pathlib import Path
from typing import Annotated, Any, TypeVar, get_origin, get_type_hints

import numpy as np

from . import _tree
from ._lanes import LANES
from .errors import LibraryMissing


# A field as Python sees it, and as C does.
Flag = Annotated[bool, c_bool]
Size = Annotated[int, c_size_t]
Small = Annotated[int, c_uint32]
Large = Annotated[int, c_uint64]
Real = Annotated[float, c_double]
Lanes = Annotated[Sequence[int], c_uint64 * LANES]

_Made = TypeVar("_Made", bound=type[Structure])


def _struct(made: _Made) -> _Made:
    """A class whose fields are those that it names, in their order."""
    hints = get_type_hints(made, include_extras=True)
    made._fields_ = [(name, _c_type(hints[name])) for name in made.__annotations__]
    return made


def _c_type(hint: Any) -> Any:
    return hint.__metadata__[0] if get_origin(hint) is Annotated else hint


@_struct
class Status(Structure):
    """A refusal with its values, or 0."""

    refusal: Large
    first: Large
    second: Large


@_struct
class Word(Structure):
    """A word as its lanes."""

    x: Lanes
    z: Lanes


@_struct
class Parsed(Structure):
    """A word that was read."""

    status: Status
    word: Word


@_struct
class Fitting(Structure):
    """Whether a word fits a register."""

    status: Status
    fits: Flag


@_struct
class Phased(Structure):
    """A word times i^phase."""

    word: Word
    phase: Small


@_struct
class Commutator(Structure):
    """A word with the sign of its commutator."""

    word: Word
    eps: Real


@_struct
class Model(Structure):
    """What a model's tables hold."""

    qubits: Size
    hamiltonian: Size
    jumps: Size
    terms: Size


@_struct
class Built(Structure):
    """A model that was built or added to."""

    status: Status
    model: Model


@_struct
class Sizes(Structure):
    """The lengths of a model's tables."""

    h_words: Size
    h_coeffs: Size
    jumps: Size
    rates: Size
    t_words: Size
    t_numbers: Size
    work_words: Size
    work_numbers: Size


@_struct
class Listed(Structure):
    """How many words or entries were listed."""

    status: Status
    count: Size


@_struct
class Kept(Structure):
    """How many entries a basis has then."""

    status: Status
    entries: Size


@_struct
class BasisWork(Structure):
    """The lengths of the work tables of prune, cap and admission."""

    order: Size
    work: Size
    fixed: Size
    kept: Size


@_struct
class Limits(Structure):
    """Word limits and threshold of leakage, each with whether it was given."""

    max_basis: Size
    admit_given: Large
    admit_basis: Size
    tau_given: Large
    tau_add: Real


@_struct
class LeakageLengths(Structure):
    """The lengths of the work tables of leakage."""

    h_index: Size
    j_index: Size
    mask: Size
    work_words: Size
    work_sums: Size
    order: Size
    heads: Size
    nexts: Size
    cand_words: Size
    cand_sums: Size
    place_order: Size
    place_work: Size


@_struct
class GeneratorLengths(Structure):
    """The lengths of the work tables of the generator."""

    h_index: Size
    j_index: Size
    mask: Size
    heads: Size
    nexts: Size
    work_words: Size
    work_sums: Size
    stage_rows: Size
    stage_columns: Size
    stage_values: Size


@_struct
class EvolutionLengths(Structure):
    """The lengths of the work tables of an evolution: those of the generator, the matrix, and its numbers."""

    h_index: Size
    j_index: Size
    mask: Size
    heads: Size
    nexts: Size
    work_words: Size
    work_sums: Size
    stage_rows: Size
    stage_columns: Size
    stage_values: Size
    offsets: Size
    columns: Size
    values: Size
    v: Size
    b: Size
    product: Size


@_struct
class Evolved(Structure):
    """How many products an evolution took."""

    status: Status
    products: Size


@_struct
class StepLengths(Structure):
    """The lengths of the work tables of a step: those of leakage, of its list, of an evolution, and of the copy."""

    h_index: Size
    j_index: Size
    mask: Size
    work_words: Size
    work_sums: Size
    order: Size
    heads: Size
    nexts: Size
    cand_words: Size
    cand_sums: Size
    place_order: Size
    place_work: Size
    list_words: Size
    list_values: Size
    stage_rows: Size
    stage_columns: Size
    columns: Size
    values: Size
    grown_words: Size
    start: Size
    evolved: Size


@_struct
class Stepped(Structure):
    """How many entries a basis has after a step, and how many products it took."""

    status: Status
    entries: Size
    products: Size


@_struct
class Written(Structure):
    """How long the text is that was written."""

    status: Status
    bytes: Size


@_struct
class Row(Structure):
    """Where a row stands."""

    status: Status
    start: Size
    end: Size


@_struct
class Degree(Structure):
    """Products and stages."""

    status: Status
    m: Small
    s: Small


@_struct
class Normed(Structure):
    """The norm of a generator less mu."""

    status: Status
    mu: Real
    norm: Real


@_struct
class Partition(Structure):
    """The same, with products and stages."""

    status: Status
    mu: Real
    norm: Real
    m: Small
    s: Small


def slices(count: int) -> list[Any]:
    """The types of so many slices: a pointer and a length each."""
    return [c_void_p, c_size_t] * count


_LENT_MODEL: list[Any] = [Model, *slices(6)]

# What each function answers and takes.
_FUNCTIONS: dict[str, tuple[Any, list[Any]]] = {
    "parse_pauli_string": (Parsed, [*slices(1), c_size_t]),
    "word_from_codes": (Parsed, slices(1)),
    "codes_from_word": (Status, [Word, c_size_t, *slices(1)]),
    "pauli_mul": (Phased, [Word, Word]),
    "anti_commutes": (c_bool, [Word, Word]),
    "comm_product": (Commutator, [Word, Word]),
    "compare_words": (c_int32, [Word, Word]),
    "shares_qubit": (c_bool, [Word, Word]),
    "fits_register": (Fitting, [Word, c_size_t]),
    "model_sizes": (Sizes, [c_size_t] * 3),
    "matrix_sizes": (Sizes, [c_size_t] * 2),
    "build_model": (Built, [*slices(6), c_size_t, *slices(8)]),
    "add_kossakowski": (Built, [Model, *slices(5), *slices(8)]),
    "compute_action_terms": (Listed, [*_LENT_MODEL, Word, *slices(4)]),
    "basis_sizes": (BasisWork, [c_size_t] * 3),
    "prune_basis": (Kept, [c_size_t, *slices(2), c_size_t, *slices(1), c_double, *slices(4)]),
    "cap_basis": (Kept, [c_size_t, *slices(2), c_size_t, *slices(1), c_size_t, *slices(4)]),
    "add_leakage_capped": (
        Kept,
        [c_size_t, *slices(2), c_size_t, *slices(2), c_size_t, *slices(3)],
    ),
    "leakage_sizes": (LeakageLengths, [c_size_t] * 5),
    "leakage_with_prune": (
        Listed,
        [*_LENT_MODEL, *slices(2), c_size_t, *slices(1), Limits, *slices(12), *slices(2)],
    ),
    "generator_sizes": (GeneratorLengths, [c_size_t] * 4),
    "generator": (Listed, [*_LENT_MODEL, *slices(1), c_size_t, *slices(10), *slices(3)]),
    "build_csr": (Listed, [*_LENT_MODEL, *slices(1), c_size_t, *slices(10), *slices(3)]),
    "matrix_market_text": (c_size_t, [c_size_t]),
    "matrix_market": (Written, [*_LENT_MODEL, *slices(1), c_size_t, *slices(10), *slices(1)]),
    "csr_row": (Row, [c_size_t, *slices(2), c_size_t]),
    "dot": (Status, [c_size_t, *slices(4), c_bool, *slices(2)]),
    "select_ms": (Degree, [c_double, c_double]),
    "norm": (Normed, [*_LENT_MODEL, *slices(1), c_size_t, *slices(9)]),
    "expm_degree": (
        Partition,
        [*_LENT_MODEL, *slices(1), c_size_t, c_double, c_double, *slices(9)],
    ),
    "evolution_sizes": (EvolutionLengths, [c_size_t] * 4),
    "evolve": (
        Evolved,
        [*_LENT_MODEL, *slices(2), c_size_t, c_double, c_double, *slices(16), *slices(1)],
    ),
    "step_sizes": (StepLengths, [c_size_t] * 6),
    "step": (
        Stepped,
        [*_LENT_MODEL, *slices(2), c_size_t, *slices(1), Limits, c_double, c_double, *slices(21)],
    ),
}

# A pointer to lend with length 0 where an array has none.
_somewhere = np.zeros(1, np.uint64)
_SOMEWHERE = _somewhere.__array_interface__["data"][0]


def path() -> Path:
    """Where the shared object is: as PEBBLELINEN_LIBRARY says, that of the source tree's own library, or, of a
    package that was installed, beside this file."""
    if "PEBBLELINEN_LIBRARY" in os.environ:
        place = Path(os.environ["PEBBLELINEN_LIBRARY"])
        advice = "PEBBLELINEN_LIBRARY is to name one, or not to be set"
    elif _tree.is_tree():
        return _of_the_tree()
    else:
        place = Path(__file__).resolve().parent / _tree.NAME
        advice = "install the package again"
    if not place.is_file():
        raise LibraryMissing(f"no shared object at {place}: {advice}")
    return place


def _of_the_tree() -> Path:
    try:
        return _tree.library() / _tree.NAME
    except _tree.NotBuilt as error:
        raise LibraryMissing(str(error)) from None


_library: ctypes.CDLL | None = None
_functions: dict[str, Any] = {}


def _function(name: str) -> Any:
    global _library
    if _library is None:
        where = path()
        try:
            _library = ctypes.CDLL(str(where))
        except OSError as error:
            raise LibraryMissing(f"{where} cannot be loaded: {error}") from None
    try:
        function = getattr(_library, "pebblelinen_" + name)
    except AttributeError:
        raise LibraryMissing(
            f"{_library._name} has no function pebblelinen_{name}: it is not the library of this package"
        ) from None
    function.restype, function.argtypes = _FUNCTIONS[name]
    _functions[name] = function
    return function


def call(name: str, *arguments: Any) -> Any:
    """Calls a function; an array is passed as its pointer and its length. Other threads may run
    meanwhile."""
    passed: list[Any] = []
    for argument in arguments:
        if isinstance(argument, np.ndarray):
            assert argument.flags.c_contiguous and argument.flags.aligned
            passed.append(argument.__array_interface__["data"][0] or _SOMEWHERE)
            passed.append(argument.size)
        else:
            passed.append(argument)
    return (_functions.get(name) or _function(name))(*passed)


@functools.cache
def checksum() -> str:
    """The SHA-256 of the shared object in use."""
    if _library is None:
        _function("basis_sizes")
    assert _library is not None
    return hashlib.sha256(Path(_library._name).read_bytes()).hexdigest()
