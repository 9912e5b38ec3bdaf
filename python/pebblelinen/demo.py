# SPDX-FileCopyrightText: 2026 The PPVM Authors
# SPDX-License-Identifier: Apache-2.0
"""A device to look at: a chain of qubits with couplings, fields, decay and dephasing, a basis that grows around one
observable, and the curve of that observable."""
import time
from collections.abc import Iterator
from typing import Any, NamedTuple

from . import modelfile
from .basis import Basis
from .check import Checked
from .model import Model
from .state import AnyState

QUBITS = 256
SITE = 128
OBSERVABLE = f"Z{SITE}"

_ABOUT = f"""\
# SPDX-FileCopyrightText: 2026 The PPVM Authors
# SPDX-License-Identifier: Apache-2.0
#
# A chain of {QUBITS} qubits with couplings, fields, decay and dephasing.
"""


def items(n: int = QUBITS) -> tuple[dict[str, float], list[tuple[float, str | dict[str, complex]]]]:
    """Hamiltonian and jumps of the chain: XX + YY couplings and weaker ZZ ones between neighbours, fields
    that differ from qubit to qubit, decay and dephasing on each."""
    hamiltonian = {}
    for q in range(n - 1):
        for letter, strength in ("X", 1.0), ("Y", 1.0), ("Z", 0.25):
            hamiltonian[f"{letter}{q} {letter}{q + 1}"] = strength
    for q in range(n):
        hamiltonian[f"Z{q}"] = 0.5 + 0.125 * (q % 4)
    jumps: list[tuple[float, str | dict[str, complex]]] = []
    for q in range(n):
        jumps.append((0.05, {f"X{q}": 0.5, f"Y{q}": 0.5j}))
        jumps.append((0.02, f"Z{q}"))
    return hamiltonian, jumps


def chain(n: int = QUBITS) -> Model:
    """The chain as a model."""
    return Model(n, *items(n))


# A run of the chain whose curve holds: the qubit in the middle starts in 0, and all others fully mixed.
STATE: AnyState = {"all": [0.0, 0.0, 0.0], SITE: "0"}
RUN: dict[str, Any] = {
    "times": [i / 20 for i in range(21)],
    "dt": 0.05,
    "max_basis": 2000,
    "drop_tol": 1e-5,
    "admissions": 2,
}


def as_file() -> str:
    """The chain as a model file, with a run."""
    return _ABOUT + modelfile.text_of(chain(), Basis(QUBITS, {OBSERVABLE: 1.0}), run=RUN, state=STATE)


def decay(model: Model) -> Checked:
    """The curve of that run, and whether it holds: `check` of the file gives the same."""
    return model.check(Basis(QUBITS, {OBSERVABLE: 1.0}), state=STATE, **RUN)


class Round(NamedTuple):
    """What a round of growing found and did. The largest leakage is NaN where there was no room to list any."""

    number: int
    leaked: int
    largest_leakage: float
    words: int
    products: int
    seconds: float


def rounds(model: Model, basis: Basis, *, limit: int, count: int, dt: float) -> Iterator[Round]:
    """Lets a basis grow: what leaks out of it is admitted, then its coefficients are evolved by a time step.
    Yields what each round did."""
    for number in range(1, count + 1):
        start = time.perf_counter()
        leaked = model.leakage(basis, max_basis=limit)
        basis.admit(leaked, limit=limit)
        evolved, products = model.evolve(basis, dt=dt, drop_tol=1e-4)
        basis.coefficients = evolved.coefficients
        seconds = time.perf_counter() - start
        yield Round(number, len(leaked), leaked.largest(), len(basis), products, seconds)
