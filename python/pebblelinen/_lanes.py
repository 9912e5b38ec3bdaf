# SPDX-FileCopyrightText: 2026 The PPVM Authors
# SPDX-License-Identifier: Apache-2.0
"""How wide a word is: the one place that says how many lanes it has.

Qubit q is bit q % 64 of lane q / 64. A word has LANES lanes of x bits and as many of z bits; in a table it has
its x lanes, then its z lanes."""
import struct
from collections.abc import Sequence

LANES = 4
WORD_LANES = 2 * LANES
MAX_QUBITS = 64 * LANES

# What the lanes of a word are called, in their order.
NAMED = f"x[0] to x[{LANES - 1}], then z[0] to z[{LANES - 1}]"

# The lanes of a word of 128 qubits, which was the largest once.
_OLD = 4
_OLD_ADVICE = (
    "; words of two x lanes and two z lanes, as they were for at most 128 qubits, are widened by"
    " numpy.insert(words, [2, 2, 4, 4], 0, axis=1)"
)

# The lanes of a word as they stand in a table: x86-64 has the lowest byte first.
PACKED = struct.Struct(f"<{WORD_LANES}Q")

_LANE = (1 << 64) - 1
_HALF = 8 * LANES


def split(bits: int) -> list[int]:
    """The bits of all qubits, as lanes."""
    return [bits >> 64 * lane & _LANE for lane in range(LANES)]


def joined(lanes: Sequence[int]) -> tuple[int, int]:
    """The x bits and the z bits of a word of these lanes, each as one number."""
    packed = PACKED.pack(*lanes)
    return int.from_bytes(packed[:_HALF], "little"), int.from_bytes(packed[_HALF:], "little")


def pickled_before(what: str) -> str:
    """What is said of a pickle whose words have the lanes that words had before."""
    return f"{what} was pickled when words had {_OLD} lanes: make it anew, or save models as model files"


def advice(lanes: int) -> str:
    """What to do where words of so many lanes were given."""
    return _OLD_ADVICE if lanes == _OLD else ""
