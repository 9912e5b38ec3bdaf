# SPDX-FileCopyrightText: 2026 The PPVM Authors
# SPDX-License-Identifier: Apache-2.0
"""The equation in full matrices, for registers of few qubits, and random models to try it on. Nothing here is
taken from the library."""
import functools
import itertools

import numpy as np

LETTERS = {
    "I": np.eye(2, dtype=complex),
    "X": np.array([[0, 1], [1, 0]], dtype=complex),
    "Y": np.array([[0, -1j], [1j, 0]], dtype=complex),
    "Z": np.array([[1, 0], [0, -1]], dtype=complex),
}


def register(n):
    """All texts of n letters."""
    return ["".join(letters) for letters in itertools.product("IXYZ", repeat=n)]


def placed(text, sites, n):
    """The text of n letters with these letters on these sites, and I elsewhere."""
    letters = ["I"] * n
    for site, letter in zip(sites, text):
        letters[site] = letter
    return "".join(letters)


def moved(sites, n, hamiltonian, jumps, matrices):
    """A model on these sites of a register of n qubits."""

    def terms(given):
        return [(placed(text, sites, n), number) for text, number in given]

    jumps = [(rate, terms(operator)) for rate, operator in jumps]
    return terms(hamiltonian), jumps, [([terms(each) for each in operators], k) for operators, k in matrices]


def matrix_of(text):
    return functools.reduce(np.kron, (LETTERS[letter] for letter in text), np.eye(1, dtype=complex))


def operator_of(n, terms):
    zero = np.zeros((2**n, 2**n), dtype=complex)
    return sum((number * matrix_of(text) for text, number in terms), zero)


def dissipator(left, right, p):
    adjoint = left.conj().T
    product = adjoint @ right
    return adjoint @ p @ right - (product @ p + p @ product) / 2


def superoperator(n, hamiltonian, jumps, matrices):
    """The number of each text of the register (rows) in the image of each (columns)."""
    words = np.array([matrix_of(text) for text in register(n)])
    h = operator_of(n, hamiltonian)
    image = 1j * (h @ words - words @ h)
    for rate, terms in jumps:
        jump = operator_of(n, terms)
        image = image + rate * dissipator(jump, jump, words)
    for operators, k in matrices:
        dense = [operator_of(n, terms) for terms in operators]
        for row, left in enumerate(dense):
            for column, right in enumerate(dense):
                image = image + k[row][column] * dissipator(left, right, words)
    # The number of q is the trace of q times the image, divided by that of the identity.
    return np.einsum("qij,pji->qp", words, image) / 2**n


def random_model(rng, n, whole):
    """Hamiltonian, jumps and matrices as Model takes them, of whole numbers or of any."""

    def number():
        return float(rng.randint(-8, 8)) if whole else rng.uniform(-1, 1)

    def text():
        return "".join(rng.choices("IXYZ", (2, 1, 1, 1), k=n))

    def operator():
        count = rng.choice([1, 1, 2, 2, 3, 5])
        real = rng.random() < 0.4
        return [(text(), complex(number(), 0.0 if real else number())) for _ in range(count)]

    hamiltonian = [(text(), number()) for _ in range(rng.randrange(6))]
    jumps = [(abs(number()), operator()) for _ in range(rng.randrange(4))]
    matrices = []
    for _ in range(rng.randrange(3)):
        operators = [operator() for _ in range(rng.randint(1, 3))]
        half = np.array([[complex(number(), number()) for _ in operators] for _ in operators])
        k = np.triu(half, 1) + np.triu(half, 1).conj().T + np.diag(half.diagonal().real)
        matrices.append((operators, k))
    return hamiltonian, jumps, matrices
