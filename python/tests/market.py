# SPDX-FileCopyrightText: 2026 The PPVM Authors
# SPDX-License-Identifier: Apache-2.0
"""The Matrix Market form written plainly, in exact numbers: what the library's text is held to."""
from fractions import Fraction

HEADER = b"%%MatrixMarket matrix coordinate integer general\n"
UNIT = Fraction(1, 2**32)


def count(value):
    """The nearest whole count of 2^-32, halves away from zero."""
    exact = abs(Fraction(value)) / UNIT
    whole = (2 * exact.numerator + exact.denominator) // (2 * exact.denominator)
    return -whole if value < 0 else whole


def entries(matrix):
    """Row, column and count of each entry of a COO matrix, places from 1."""
    places = zip(matrix.row.tolist(), matrix.col.tolist(), matrix.data.tolist())
    return [(row + 1, column + 1, count(value)) for row, column, value in places]


def text(len_, listed):
    """The text of these entries over so many words."""
    lines = [f"{len_} {len_} {len(listed)}\n", *(f"{row} {column} {whole}\n" for row, column, whole in listed)]
    return HEADER + "".join(lines).encode()
