# SPDX-FileCopyrightText: 2026 The PPVM Authors
# SPDX-License-Identifier: Apache-2.0
"""The version of the package, for the package itself and for its wheel."""
__version__ = "0.1.0"
