# SPDX-FileCopyrightText: 2026 The PPVM Authors
# SPDX-License-Identifier: Apache-2.0
"""Compares actions and generators with QuTiP's Liouvillian, on random models of at most four qubits: on a register
of these alone, and on as many sites of a register of 256 qubits, most of them from 128 to 255. And curves of runs with
QuTiP's mesolve: over all words and growing from one word, on a tenth as many models of at most four qubits, and on a
chain of 8 qubits with room for all 65,536 words.

usage: python/run qutip [--models N] [--seed S]

QuTiP is given the Hamiltonian and collapse operators. A Kossakowski matrix reaches it as the collapse
operators of its eigenvectors, so nothing of how the library treats pairs is shared."""
import argparse
import itertools
import math
import random
import sys

import numpy as np
import qutip

import dense
from pebblelinen import Basis, Model, demo

TOLERANCE = 1e-12
# Of a run that loses nothing, beside mesolve's own accuracy; and of one whose basis grows.
WHOLE, GROWING = 1e-7, 1e-3
MOST_QUBITS = 4
LARGEST = 256
LANE_ENDS = [63, 64, 127, 128, 191, 192, 255]
LETTERS = {"I": qutip.qeye(2), "X": qutip.sigmax(), "Y": qutip.sigmay(), "Z": qutip.sigmaz()}


def word(text):
    return qutip.tensor([LETTERS[letter] for letter in text])


def operator(n, terms):
    return sum((x * word(text) for text, x in terms), 0 * word("I" * n))


def collapses(n, jumps, matrices):
    found = [math.sqrt(rate) * operator(n, terms) for rate, terms in jumps]
    for operators, k in matrices:
        dense = [operator(n, terms) for terms in operators]
        values, vectors = np.linalg.eigh(k)
        for i, value in enumerate(values):
            mixed = sum(np.conj(x) * each for x, each in zip(vectors[:, i], dense))
            found.append(math.sqrt(max(value, 0.0)) * mixed)
    return found


def expected(n, hamiltonian, jumps, matrices, texts):
    """The number of each text (rows) in the image of each (columns), in the Heisenberg picture."""
    liouvillian = qutip.liouvillian(operator(n, hamiltonian), collapses(n, jumps, matrices))
    words = np.array([qutip.operator_to_vector(word(text)).full()[:, 0] for text in texts]).T
    return (words.conj().T @ liouvillian.dag().full() @ words) / 2**n


def random_model(rng, n):
    def number():
        return rng.uniform(-1, 1)

    def terms():
        return [
            ("".join(rng.choices("IXYZ", (2, 1, 1, 1), k=n)), complex(number(), number()))
            for _ in range(rng.choice([1, 1, 2, 3, 5]))
        ]

    hamiltonian = [(text, x.real) for _ in range(rng.randrange(4)) for text, x in terms()]
    jumps = [(rng.uniform(0, 1), terms()) for _ in range(rng.randrange(4))]
    matrices = []
    for _ in range(rng.randrange(3)):
        operators = [terms() for _ in range(rng.randint(1, 4))]
        half = np.array([[complex(number(), number()) for _ in operators] for _ in operators])
        matrices.append((operators, half @ half.conj().T))
    return hamiltonian, jumps, matrices


def some_sites(rng, n):
    """So many sites of the largest register, in any order."""
    found = set(rng.sample(LANE_ENDS, rng.randint(0, n)))
    while len(found) < n:
        found.add(rng.randrange(128, LARGEST))
    return rng.sample(sorted(found), n)


def found_on(sites, n, given, texts):
    """Actions and generator of a model on these sites of a register, over the words of these sites."""
    model = Model(n, *dense.moved(sites, n, *given))
    words = [dense.placed(text, sites, n) for text in texts]
    rows = {word: row for row, word in enumerate(words)}
    ours = np.zeros((len(texts), len(texts)))
    for column, word in enumerate(words):
        for found, value in model.action(word):
            ours[rows[found.text], column] = value
    return ours, model.generator(Basis(n, [(word, 0.0) for word in words])).toarray()


def solved(n, given, observable, vectors, times):
    """The expectation at each time, by mesolve."""
    hamiltonian, jumps, matrices = given
    letters = [LETTERS[letter] for letter in "XYZ"]
    each = [(LETTERS["I"] + sum((x * a for x, a in zip(v, letters)), 0 * LETTERS["I"])) / 2 for v in vectors]
    options = qutip.Options(atol=1e-11, rtol=1e-9, nsteps=100_000)
    start, found = qutip.tensor(each), collapses(n, jumps, matrices)
    ran = qutip.mesolve(operator(n, hamiltonian), start, times, found, [operator(n, observable)], options=options)
    return np.array(ran.expect[0])


def random_vector(rng):
    v = np.array([rng.gauss(0, 1) for _ in range(3)])
    return (v / max(1.0, np.linalg.norm(v))).tolist()


def compare_curves(rng, count):
    """The largest deviations of runs over all words and of those that grow, and how many are too large."""
    largest, disagreements = {"all words": 0.0, "growing": 0.0}, 0
    times = [0.0, 0.1, 0.25, 0.5]
    for case in range(count):
        n = 1 + case % MOST_QUBITS
        given = random_model(rng, n)
        # Rates of a few at most, so that the time step need not be very short.
        size = abs(expected(n, *given, ["".join(x) for x in itertools.product("IXYZ", repeat=n)])).sum(axis=0).max()
        scaled = scaled_by(given, 4.0 / max(size, 4.0))
        text = "".join(rng.choices("IXYZ", (1, 2, 2, 2), k=n))
        vectors = [random_vector(rng) for _ in range(n)]
        theirs = solved(n, scaled, [(text, 1.0)], vectors, times)
        model = Model(n, *scaled)
        every = [("".join(x), float("".join(x) == text)) for x in itertools.product("IXYZ", repeat=n)]
        whole = model.run(Basis(n, every), times=times, max_basis=4**n, state=vectors)
        growing = model.run(Basis(n, {text: 1.0}), times=times, dt=0.025, max_basis=4**n, admissions=2, state=vectors)
        for what, curve, tolerance in ("all words", whole, WHOLE), ("growing", growing, GROWING):
            deviation = abs(curve.values - theirs).max()
            largest[what] = max(largest[what], deviation)
            if not deviation <= tolerance:
                disagreements += 1
                print(f"the curve of {text} ({what}) disagrees by {deviation}: {scaled}")
    return largest, disagreements


def scaled_by(given, factor):
    hamiltonian, jumps, matrices = given
    return (
        [(text, factor * x) for text, x in hamiltonian],
        [(factor * rate, terms) for rate, terms in jumps],
        [(operators, factor * k) for operators, k in matrices],
    )


def compare_chain(n=8):
    """The deviation of the demonstration's chain of 8 qubits, with room for all words, and how many words it held."""
    hamiltonian, jumps = demo.items(n)

    def text(word):
        letters = ["I"] * n
        for letter in word.split():
            letters[int(letter[1:])] = letter[0]
        return "".join(letters)

    def terms(given):
        return [(text(given), 1.0)] if isinstance(given, str) else [(text(word), x) for word, x in given.items()]

    given = terms(hamiltonian), [(rate, terms(each)) for rate, each in jumps], []
    vectors = [[0, 0, 1.0 - 2.0 * (q % 2)] for q in range(n)]
    times = [0.0, 0.1, 0.2, 0.3, 0.4, 0.5]
    curve = demo.chain(n).run(Basis(n, {"Z3": 1.0}), times=times, dt=0.05, max_basis=65_536, admissions=2, state=vectors)
    return abs(curve.values - solved(n, given, [(text("Z3"), 1.0)], vectors, times)).max(), int(curve.steps.held[-1])


def main():
    parser = argparse.ArgumentParser(prog="python/run qutip")
    parser.add_argument("--models", type=int, default=200)
    parser.add_argument("--seed", type=int, default=1)
    options = parser.parse_args()
    rng = random.Random(options.seed)
    # What the guide says of the lowering operator.
    assert operator(1, [("X", 0.5), ("Y", 0.5j)]) == qutip.tensor(qutip.sigmap()) == qutip.tensor(qutip.destroy(2))
    largest = {"action": 0.0, "generator": 0.0}
    actions = disagreements = 0
    for case in range(options.models):
        n = 1 + case % MOST_QUBITS
        given = random_model(rng, n)
        texts = ["".join(letters) for letters in itertools.product("IXYZ", repeat=n)]
        theirs = expected(n, *given, texts)
        for sites, qubits in (range(n), n), (some_sites(rng, n), LARGEST):
            actions += len(texts)
            for what, numbers in zip(largest, found_on(sites, qubits, given, texts)):
                deviation = abs(numbers - theirs).max()
                largest[what] = max(largest[what], deviation)
                if not deviation <= TOLERANCE * max(1.0, abs(theirs).max()):
                    disagreements += 1
                    print(f"the {what} disagrees by {deviation} on the sites {list(sites)}: {given}")
    print(
        f"{options.models} models, each on two registers, {actions} actions and as many columns of generators: {disagreements}"
        f" disagreements, largest deviations {largest['action']:.3g} and {largest['generator']:.3g}"
    )
    curves = max(options.models // 10, MOST_QUBITS)
    deviations, others = compare_curves(rng, curves)
    print(
        f"{curves} models, two curves each against mesolve: {others} disagreements, largest deviations"
        f" {deviations['all words']:.3g} over all words and {deviations['growing']:.3g} growing from one"
    )
    deviation, held = compare_chain()
    print(f"a chain of 8 qubits with room for all words: {held} held, largest deviation {deviation:.3g}")
    return 1 if disagreements or others or not deviation <= GROWING else 0


if __name__ == "__main__":
    sys.exit(main())
