# SPDX-FileCopyrightText: 2026 The PPVM Authors
# SPDX-License-Identifier: Apache-2.0
"""Checkpoints: what a run has done so far, as a file of numpy arrays (npz) with its settings as JSON."""
import io
import json
import os
import zipfile
from collections.abc import Mapping
from pathlib import Path
from typing import Any

import numpy as np
from numpy.typing import NDArray

from ._files import write_whole
from .errors import InputError

# The form of these files.
_FORM = "pebblelinen run 1"
_NEEDED = {"form", "settings", "done", "basis_words", "basis_coefficients", "values", "followed", "steps"}


def write(path: str | os.PathLike[str], settings: Mapping[str, Any], arrays: Mapping[str, NDArray[Any]]) -> None:
    """Writes a checkpoint, whole or not at all."""
    texts = {"form": np.array(_FORM), "settings": np.array(json.dumps(settings, allow_nan=False))}
    out = io.BytesIO()
    np.savez(out, **texts, **arrays)
    write_whole(path, out.getvalue())


def read(path: str | os.PathLike[str]) -> tuple[dict[str, Any], dict[str, NDArray[Any]]]:
    """Settings and arrays of a checkpoint."""
    name = os.fspath(path)
    if os.path.exists(name) and not os.path.isfile(name):
        raise InputError("this is no file, and no checkpoint of a run", where=name)
    try:
        # From memory: of a damaged file numpy would leave its own open.
        with np.load(io.BytesIO(Path(name).read_bytes()), allow_pickle=False) as file:
            arrays = {key: file[key] for key in file.files}
        if not _NEEDED <= {*arrays} or str(arrays["form"]) != _FORM:
            raise InputError("this is no checkpoint of a run", where=name)
        return json.loads(str(arrays["settings"])), arrays
    except OSError as error:
        raise InputError(error.strerror or str(error), where=name) from None
    except InputError:
        raise
    except (AttributeError, EOFError, KeyError, TypeError, ValueError, zipfile.BadZipFile):
        raise InputError("this is no checkpoint of a run", where=name) from None
