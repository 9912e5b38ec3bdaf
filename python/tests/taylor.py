# SPDX-FileCopyrightText: 2026 The PPVM Authors
# SPDX-License-Identifier: Apache-2.0
"""Evolution over one time step as document 02 writes it, number by number in f64: what the library's is held to. Nothing
here is taken from the library. Entries are (row, column, value) by column, then by word, as the generator lists them."""
import numpy as np

# Al-Mohy and Higham (2011): the threshold of each degree from 1 on, for double precision and for the tolerance 1e-6.
THETA = [
    *(2.29e-16, 2.58e-8, 1.39e-5, 3.40e-4, 2.40e-3, 9.07e-3, 2.38e-2, 5.00e-2, 8.96e-2, 1.44e-1),
    *(2.14e-1, 3.00e-1, 4.00e-1, 5.14e-1, 6.41e-1, 7.81e-1, 9.31e-1, 1.09, 1.26, 1.44),
    *(1.62, 1.82, 2.01, 2.22, 2.43, 2.64, 2.86, 3.08, 3.31, 3.54),
]
THETA_LOOSE = [
    *(2.000e-06, 2.447e-03, 2.863e-02, 1.025e-01, 2.262e-01, 3.911e-01, 5.866e-01, 8.045e-01, 1.039, 1.285),
    *(1.539, 1.801, 2.067, 2.337, 2.610, 2.885, 3.162, 3.441, 3.721, 4.001),
    *(4.282, 4.564, 4.847, 5.129, 5.412, 5.696, 5.979, 6.263, 6.546, 6.830),
]
MOST_STAGES = 2**32 - 1
MOST_PRODUCTS = 1_048_576


class Refused(Exception):
    """A refusal, by its number and values."""


def norm(len_, entries):
    """The largest sum of a column's magnitudes."""
    raws = [np.float64(0.0)] * len_
    for _, column, value in entries:
        raws[column] = raws[column] + abs(np.float64(value))
    return max(raws, default=np.float64(0.0))


def degree(t, drop_tol):
    """m and s: the first pair of least product."""
    pairs = [(1, 1)]
    if t > 0:
        table = THETA_LOOSE if drop_tol >= 1e-4 else THETA
        stages = [np.ceil(t / np.float64(threshold)) for threshold in table]
        pairs = [(m, int(min(max(s, 1), MOST_STAGES))) for m, s in enumerate(stages, 1)]
    m, s = min(pairs, key=lambda pair: pair[0] * pair[1])
    if m * s > MOST_PRODUCTS:
        raise Refused(16, m, s)
    return m, s


def evolve(entries, coefficients, dt, drop_tol=0.0):
    """The evolved coefficients and the number of products."""
    if not len(coefficients):
        return [], 0
    with np.errstate(all="ignore"):
        dt = np.float64(dt)
        m, s = degree(abs(dt) * norm(len(coefficients), entries), drop_tol)
        by_row = [[] for _ in coefficients]
        for row, column, value in sorted(entries, key=lambda entry: entry[:2]):
            by_row[row].append((column, np.float64(value)))
        v = [np.float64(x) for x in coefficients]
        for _ in range(s):
            b = list(v)
            for j in range(1, m + 1):
                step = dt / np.float64(s * j)
                products = tested([row_sum(row, b) for row in by_row])
                b = tested([x * step for x in products])
                v = tested([x + y for x, y in zip(v, b)])
    return v, m * s


def row_sum(row, b):
    """A row of the product: from 0, in the order of columns, zeros skipped."""
    total = np.float64(0.0)
    for column, value in row:
        if b[column] != 0:
            total = total + value * b[column]
    return total


def tested(numbers):
    for row, x in enumerate(numbers):
        if not np.isfinite(x):
            raise Refused(14, row, 0)
    return numbers
