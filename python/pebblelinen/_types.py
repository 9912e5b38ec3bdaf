# SPDX-FileCopyrightText: 2026 The PPVM Authors
# SPDX-License-Identifier: Apache-2.0
"""Names for the types that several modules share."""
import numpy as np
from numpy.typing import NDArray

# Flat tables: of words, WORD_LANES lanes each; of numbers; of texts; of columns.
LaneTable = NDArray[np.uint64]
NumberTable = NDArray[np.float64]
ByteTable = NDArray[np.uint8]
ColumnTable = NDArray[np.uint32]

# The lanes of a word: those of x, then those of z.
WordLanes = tuple[int, ...]

# The way to an item of the input: a key, then places, counted from 0, and further keys.
ItemPath = tuple[str | int, ...]
