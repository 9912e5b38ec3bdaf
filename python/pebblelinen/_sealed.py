# SPDX-FileCopyrightText: 2026 The PPVM Authors
# SPDX-License-Identifier: Apache-2.0
"""What cannot be changed: attributes of things that the library was told of once, and arrays that are shared."""
from typing import Any

import numpy as np
from numpy.typing import NDArray


class Sealed:
    """Its attributes are set while it is made, up to `self._sealed = True`. After that those that a user sees
    cannot be set, and no others can be added: a name that is mistyped would be set to no effect. Those that
    begin with _ are the package's own."""

    _sealed = False

    def __setattr__(self, name: str, value: Any) -> None:
        if self._sealed and not name.startswith("_") and not _has_setter(type(self), name):
            kind = type(self).__name__
            raise AttributeError(f"{name} of a {kind} cannot be set: make another {kind}")
        super().__setattr__(name, value)


def _has_setter(kind: type, name: str) -> bool:
    found = getattr(kind, name, None)
    return isinstance(found, property) and found.fset is not None


def read_only(array: NDArray[Any]) -> NDArray[Any]:
    """A view of an array that cannot be written to."""
    view = array.view()
    view.flags.writeable = False
    return view
