# SPDX-FileCopyrightText: 2026 The PPVM Authors
# SPDX-License-Identifier: Apache-2.0
"""The predictor-corrector step as documents 01 and 02 write it, number by number in f64: what the package's is held to.
Nothing here is taken from the library. Words are texts; the model is the full matrix of dense.py over all words of
the register, whose numbers are exact where those of the model are whole."""
import numpy as np

import dense
import taylor
from taylor import Refused

TAU_ADD = 2.0**-40


def key(text):
    """Words are ordered by their x bits, then by their z bits, qubit 0 in the lowest."""
    bits = [sum((letter in letters) << q for q, letter in enumerate(text)) for letters in ("XY", "ZY")]
    return tuple(bits)


class Device:
    """A model by its action on each word: (word, number) in word order."""

    def __init__(self, n, hamiltonian, jumps, matrices):
        texts = dense.register(n)
        image = dense.superoperator(n, hamiltonian, jumps, matrices).real
        rows = sorted(range(len(texts)), key=lambda row: key(texts[row]))
        self.action = {
            text: [(texts[row], np.float64(image[row, column])) for row in rows if image[row, column] != 0]
            for column, text in enumerate(texts)
        }

    def leakage(self, words, numbers, protected, limit, tau_add):
        """The words listed, in word order, with their sums: one pass, so at most 4,096 words."""
        known = {*words, *protected}
        sums = {}
        for position in sorted(range(len(words)), key=lambda position: -abs(numbers[position])):
            for word, number in self.action[words[position]]:
                if word not in known:
                    sums[word] = sums.get(word, np.float64(0.0)) + np.float64(numbers[position]) * number
        candidates = sorted(sums, key=key)
        for place, word in enumerate(candidates):
            if not np.isfinite(sums[word]):
                raise Refused(14, "place", place)
        room = max(limit - len(words), 0)
        stay = sorted(candidates, key=lambda word: -abs(sums[word]))[:room]
        return [(word, sums[word]) for word in candidates if word in stay and abs(sums[word]) > tau_add]

    def evolve(self, words, numbers, dt, drop_tol):
        rows = {word: row for row, word in enumerate(words)}
        entries = [
            (rows[word], column, number)
            for column, each in enumerate(words)
            for word, number in self.action[each]
            if word in rows
        ]
        try:
            return taylor.evolve(entries, numbers, dt, drop_tol)
        except Refused as refused:
            number, first, second = refused.args
            raise (Refused(14, "position", first) if number == 14 else Refused(16, first, second)) from None

    def step(self, words, numbers, *, dt, max_basis, admit_basis=None, tau_add=None, drop_tol=0.0, protected=()):
        """Words and coefficients after the step, and the products. The input has passed its tests."""
        with np.errstate(all="ignore"):
            return self._step(list(words), list(numbers), dt, max_basis, admit_basis, tau_add, drop_tol, protected)

    def _step(self, words, numbers, dt, max_basis, admit_basis, tau_add, drop_tol, protected):
        if not words:
            return [], [], 0
        limit = max(max_basis, max_basis if admit_basis is None else admit_basis)
        tau_add = TAU_ADD if tau_add is None else tau_add
        first = [word for word, _ in self.leakage(words, numbers, protected, limit, tau_add)]
        words, numbers = words + first, numbers + [0.0] * len(first)
        answer, products = self.evolve(words, numbers, dt, drop_tol)
        if len(words) < limit:
            second = [word for word, _ in self.leakage(words, answer, protected, limit, tau_add)]
            if second:
                words, numbers = words + second, numbers + [0.0] * len(second)
                answer, more = self.evolve(words, numbers, dt, drop_tol)
                products += more
        return *capped(*pruned(words, answer, drop_tol, protected), max_basis, protected), products


def pruned(words, numbers, drop_tol, protected):
    if drop_tol <= 0:
        return words, numbers
    return unzipped([(w, x) for w, x in zip(words, numbers) if abs(x) >= drop_tol or w in protected])


def capped(words, numbers, limit, protected):
    if len(words) <= limit:
        return words, numbers
    fixed = [position for position, word in enumerate(words) if word in protected]
    others = [position for position, word in enumerate(words) if word not in protected]
    others.sort(key=lambda position: -abs(numbers[position]))
    kept = sorted(fixed + others[: max(limit - len(fixed), 0)])
    return unzipped([(words[position], numbers[position]) for position in kept])


def unzipped(entries):
    return [word for word, _ in entries], [x for _, x in entries]
