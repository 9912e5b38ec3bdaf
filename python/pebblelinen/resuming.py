# SPDX-FileCopyrightText: 2026 The PPVM Authors
# SPDX-License-Identifier: Apache-2.0
"""Runs that go on from a checkpoint, or are made again from what a curve keeps of its run."""
import os
from collections.abc import Mapping
from typing import Any

from . import _checkpoint, modelfile
from .basis import Basis
from .curve import Curve
from .errors import InputError
from .run import Run, settings_from


def run_of(settings: Mapping[str, Any], where: str = "settings") -> Run:
    """The run that has these settings, from its beginning: those that a curve or a checkpoint keeps."""
    plain = dict(settings)
    try:
        model = modelfile.loads(plain["model"], where).model
        basis = Basis(model.n, [(word, x) for word, x in plain["observable"]])
        return Run(model, basis, settings_from(plain))
    except (KeyError, TypeError) as error:
        raise InputError(f"these are no settings of a run: {error}", where=where) from None


def resume(path: str | os.PathLike[str], *, progress: bool = True) -> Curve:
    """Goes on with the run of a checkpoint, which has all that it needs, and writes its checkpoints there. The curve is
    that of a run that was never stopped, bit for bit."""
    found, _ = _checkpoint.read(path)
    run = run_of(found, os.fspath(path))
    run.go_on_from(path)
    return run.go(progress=progress, checkpoint=path)
