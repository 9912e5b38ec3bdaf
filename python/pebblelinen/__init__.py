# SPDX-FileCopyrightText: 2026 The PPVM Authors
# SPDX-License-Identifier: Apache-2.0
"""Pebblelinen: how noise moves an observable of a quantum device.

The adjoint Lindblad generator on Pauli words of up to 256 qubits. Every answer comes from a library that is
proved to give it; this package carries numbers in and out.

    from pebblelinen import Basis, Model

    model = Model(2, {"X0 X1": 1.0}, [(0.1, {"X0": 0.5, "Y0": 0.5j})])
    print(model.action("Z0"))
"""
from . import noise, pictures, results
from ._version import __version__
from .basis import Basis, Entry
from .check import Checked
from .curve import Curve, Steps
from .errors import CAUSES, InputError, LibraryMissing, NotPositive, PebblelinenError, Refusal
from .items import Jump, Matrix
from .kossakowski import split_matrix
from .leakage import Leakage
from .matrix import Choice, product, row, select_ms
from .model import Degree, Evolved, Model, Norm
from .modelfile import ModelFile, load, save
from .resuming import resume
from .run import Run
from .state import ProductState
from .step import Stepped
from .terms import Terms
from .words import Position, Qubit, Word

__all__ = [
    "Basis",
    "CAUSES",
    "Checked",
    "Choice",
    "Curve",
    "Degree",
    "Entry",
    "Evolved",
    "InputError",
    "Jump",
    "Leakage",
    "LibraryMissing",
    "Matrix",
    "Model",
    "ModelFile",
    "Norm",
    "NotPositive",
    "PebblelinenError",
    "Position",
    "ProductState",
    "Qubit",
    "Refusal",
    "Run",
    "Stepped",
    "Steps",
    "Terms",
    "Word",
    "__version__",
    "load",
    "noise",
    "pictures",
    "product",
    "results",
    "resume",
    "row",
    "save",
    "select_ms",
    "split_matrix",
]
