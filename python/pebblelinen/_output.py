# SPDX-FileCopyrightText: 2026 The PPVM Authors
# SPDX-License-Identifier: Apache-2.0
"""What the commands that have curves do with them besides printing: pictures and result files."""
import argparse
import os
import sys
from collections.abc import Callable, Iterator, Mapping, Sequence
from typing import TypeVar

from . import pictures, results
from ._curves import Result
from .errors import InputError, PebblelinenError

# What a file gave: its path, and results by their names.
Found = tuple[str, Mapping[str, Result]]

# The exit status where a file was not written: that of bad usage.
NOT_WRITTEN = 2

_SomeResult = TypeVar("_SomeResult", bound=Result)


def add_options(made: argparse.ArgumentParser) -> None:
    """The options that name files to write."""
    _add(made, "--plot", "PICTURE", "draw the curves in one figure: .png, .svg or .pdf; may be repeated")
    _add(made, "--out", "RESULT", "write the curves: .h5 with everything, .csv as a table; may be repeated")


def add_beside(made: argparse.ArgumentParser) -> None:
    """The option that names results to draw beside those that are computed."""
    _add(made, "--beside", "RESULT", "draw what is stored in an .h5 file beside them; may be repeated")


def _add(made: argparse.ArgumentParser, option: str, kind: str, about: str) -> None:
    made.add_argument(option, action="append", default=[], metavar=kind, help=about)


def look_ahead(options: argparse.Namespace) -> None:
    """Refuses, before anything is computed, what could not be read or written after it."""
    for path in options.plot:
        pictures.ending(path)
        pictures.load()
    for path in options.out:
        if results.ending(path) == "h5":
            results.load_h5py()
    for path in *options.plot, *options.out:
        folder = os.path.dirname(os.path.realpath(path))
        if not os.path.isdir(folder):
            raise InputError(f"there is no folder {folder}", where=path)
    if _beside(options) and not options.plot:
        raise InputError("--beside draws beside the curves: say where with --plot")
    for path in once(_beside(options)):
        results.load(path)


def once(paths: Sequence[str]) -> Sequence[str]:
    """The paths, each of which is to come once."""
    twice = next((path for path in paths if paths.count(path) > 1), None)
    if twice is not None:
        raise InputError("this file is named twice", where=twice)
    return paths


def write(options: argparse.Namespace, found: Sequence[Found]) -> None:
    """Writes all that was asked for: what was computed is stored, and what was stored before is drawn beside it. A file
    that cannot be written is told, and is no reason to lose what was computed."""
    if not any(each for _, each in found):
        # A check that was interrupted has nothing to write.
        options.failed = [*options.out, *options.plot]
        return
    stored = [(path, results.load_named(path)) for path in _beside(options)]
    for path in options.out:
        _try(options, path, lambda: results.save(path, labelled(found)))
    for path in options.plot:
        _try(options, path, lambda: pictures.plot(labelled([*found, *stored]), path))


def _try(options: argparse.Namespace, path: str, make: Callable[[], object]) -> None:
    try:
        make()
    except PebblelinenError as error:
        print(f"pebblelinen: {error}", file=sys.stderr)
        options.failed = [*_failed(options), path]
        options.status = NOT_WRITTEN


def _failed(options: argparse.Namespace) -> list[str]:
    failed: list[str] = getattr(options, "failed", [])
    return failed


def _beside(options: argparse.Namespace) -> Sequence[str]:
    found: Sequence[str] = getattr(options, "beside", [])
    return found


def lines(options: argparse.Namespace) -> Iterator[str]:
    """What was written, for people."""
    for name, paths in answer(options).items():
        for path in paths:
            yield f"written to {path}" if name == "out" else f"drawn in {path}"


def answer(options: argparse.Namespace) -> dict[str, list[str]]:
    """What was written, for programs."""
    named = {"out": options.out, "plot": options.plot}
    written = {name: [path for path in paths if path not in _failed(options)] for name, paths in named.items()}
    return {name: paths for name, paths in written.items() if paths}


def labelled(files: Sequence[tuple[str, Mapping[str, _SomeResult]]]) -> dict[str, _SomeResult]:
    """The results of several files under names that tell them apart: of one file as they are, of several with the
    file's name, which is enough where each has one."""
    if len(files) == 1:
        return dict(files[0][1])
    paths = [path for path, _ in files]
    short = [os.path.splitext(os.path.basename(path))[0] for path in paths]
    names = short if len({*short}) == len(short) else paths
    one = all(len(found) <= 1 for _, found in files)
    return {
        (name if one else f"{name}: {label}"): result
        for name, (_, found) in zip(names, files)
        for label, result in found.items()
    }
