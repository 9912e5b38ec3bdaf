# SPDX-FileCopyrightText: 2026 The PPVM Authors
# SPDX-License-Identifier: Apache-2.0
"""python -m pebblelinen: the command."""
from .command import run

run()
