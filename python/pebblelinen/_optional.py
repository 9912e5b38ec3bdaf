# SPDX-FileCopyrightText: 2026 The PPVM Authors
# SPDX-License-Identifier: Apache-2.0
"""Packages that only some of the work needs: each is imported where it is asked for, and not before."""
import importlib
from typing import Any

from .errors import LibraryMissing


def needed(module: str, what: str, extra: str) -> Any:
    """A module, or words that say what needs it and how to get it."""
    try:
        return importlib.import_module(module)
    except ImportError as error:
        package = module.partition(".")[0]
        raise LibraryMissing(
            f"{what} needs {package}, which cannot be imported ({error}): apt-get install python3-{package}, or in a"
            f" virtual environment pip install 'pebblelinen[{extra}]'"
        ) from None
