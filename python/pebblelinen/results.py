# SPDX-FileCopyrightText: 2026 The PPVM Authors
# SPDX-License-Identifier: Apache-2.0
"""Results as files: HDF5 with everything in it, so that a curve can be made again from its file alone, and CSV with the
curve.

    from pebblelinen import results

    results.save("decay.h5", curve)             # or a check, or several in a list; decay.csv for a table
    (stored,) = results.load("decay.h5")        # the same curve, with its numpy arrays
    results.as_dataset(stored)                  # as an xarray data set
    results.model_of("decay.h5")                # the model file that it was made from
    results.rerun("decay.h5")                   # the curve, made again

HDF5 is written and read by h5py, data sets are xarray's; each is imported only where it is asked for. A file has a
group for each result, "0", "1" and so on, and in it a data set for each array, with its units."""
import csv
import io
import json
import os
import zlib
from collections.abc import Mapping
from typing import Any

import numpy as np
from numpy.typing import NDArray

from . import modelfile
from ._curves import Result, Results, curve_of, is_checked, named
from ._files import write_whole
from ._optional import needed
from ._types import NumberTable
from ._version import __version__
from .basis import Basis
from .check import Checked
from .curve import Curve, Steps
from .errors import InputError
from .resuming import run_of

# What a file says that it is, and how its groups are laid out: another layout has another number.
_FORMAT = "pebblelinen results"
_LAYOUT = 1

ENDINGS = "h5", "hdf5", "csv"

_TIME = "model unit of time"
_RATE = "1 / model unit of time"
_NUMBER = "1"
_LANES = "bits: x[0] to x[3], then z[0] to z[3], qubit q at bit q % 64 of lane q / 64"

# The units of every array that is written.
_CURVE_UNITS = {
    "times": _TIME,
    "values": _NUMBER,
    "leaked": _NUMBER,
    "dropped": _NUMBER,
    "estimate": _NUMBER,
}
_STEP_UNITS = {
    "time": _TIME,
    "dt": _TIME,
    "held": "words",
    "products": "products",
    "leak_sum_before": _RATE,
    "leak_root_before": _RATE,
    "leak_sum_after": _RATE,
    "leak_root_after": _RATE,
    "dropped_sum": _NUMBER,
    "dropped_root": _NUMBER,
}
_CHECK_UNITS = {"moved_by_step": _NUMBER, "moved_by_room": _NUMBER, "band": _NUMBER}
_CHECK_COLUMNS = "moved_by_step", "moved_by_room", "exact"
_SETTING_UNITS = {"dt": _TIME, "times": _TIME}


def save(path: str | os.PathLike[str], results: Results) -> None:
    """Writes one or several curves, from a run, a check or another file, to a file, whole or not at all: .h5 or .hdf5
    for HDF5 with everything, .csv for a table of the curve. Of a mapping the names are kept as labels."""
    kind = ending(path)
    pairs = named(results)
    write_whole(path, csv_text(results).encode() if kind == "csv" else _hdf5(load_h5py(), pairs))


def load(path: str | os.PathLike[str]) -> list[Result]:
    """Reads the results of an HDF5 file, in the order in which they were given."""
    return [result for _, result in _read(path)]


def load_named(path: str | os.PathLike[str]) -> dict[str, Result]:
    """The same, by the names that they had when they were saved: those of a mapping, or of the observables."""
    return dict(_read(path))


def model_of(path: str | os.PathLike[str], place: int = 0) -> modelfile.ModelFile:
    """The model file that a result was made from: the first of the file, or the one at a place, counted from 0."""
    return modelfile.loads(_settings(path, place)["model"], f"{os.fspath(path)}: the model")


def rerun(path: str | os.PathLike[str], place: int = 0, *, progress: bool = True) -> Curve:
    """The curve of a result, made again from its file alone: of the first, or of the one at a place, counted from 0."""
    return run_of(_settings(path, place), os.fspath(path)).go(progress=progress)


def _settings(path: str | os.PathLike[str], place: int) -> dict[str, Any]:
    stored = load(path)
    if not 0 <= place < len(stored):
        raise InputError(f"there is no result {place}: the file has {len(stored)}", where=os.fspath(path))
    return curve_of(stored[place]).settings


def ending(path: str | os.PathLike[str]) -> str:
    """The kind of file that a name asks for: h5 or csv."""
    name = os.fspath(path)
    kind = os.path.splitext(name)[1].lower().removeprefix(".")
    if kind not in ENDINGS:
        raise InputError("results are a file that ends in .h5 (or .hdf5), with everything, or in .csv", where=name)
    return "csv" if kind == "csv" else "h5"


def load_h5py() -> Any:
    """h5py, or words that say how to get it."""
    return needed("h5py", "an HDF5 file", "results")


# ---- writing HDF5 ----


def _hdf5(h5py: Any, pairs: list[tuple[str, Result]]) -> bytes:
    made = io.BytesIO()
    with _new_file(h5py, made) as file:
        _say(h5py, file, "format", _FORMAT)
        file.attrs["layout"] = _LAYOUT
        file.attrs["results"] = len(pairs)
        _say(h5py, file, "version", __version__)
        for place, (label, result) in enumerate(pairs):
            group = _new_group(h5py, file, str(place))
            _say(h5py, group, "label", label)
            if is_checked(result):
                _put_checked(h5py, group, result)
            else:
                _put_curve(h5py, group, curve_of(result))
    return made.getvalue()


def _new_file(h5py: Any, made: io.BytesIO) -> Any:
    # HDF5 1.10 and later keep checksums of all that describes the data, so that what is damaged is told and not
    # followed. Texts of variable length have none, and are followed out of the file: nothing is written as one.
    access = h5py.h5p.create(h5py.h5p.FILE_ACCESS)
    access.set_fileobj_driver(h5py.h5fd.fileobj_driver, made)
    access.set_libver_bounds(h5py.h5f.LIBVER_V110, h5py.h5f.LIBVER_LATEST)
    kind = _without_clock(h5py, h5py.h5p.FILE_CREATE)
    return h5py.File(h5py.h5f.create(b"results", h5py.h5f.ACC_TRUNC, kind, access))


def _new_group(h5py: Any, parent: Any, name: str) -> Any:
    kind = _without_clock(h5py, h5py.h5p.GROUP_CREATE)
    return h5py.Group(h5py.h5g.create(parent.id, name.encode(), gcpl=kind))


def _without_clock(h5py: Any, kind: Any) -> Any:
    """Without the time at which it is made: the same results are the same file."""
    made = h5py.h5p.create(kind)
    made.set_obj_track_times(False)
    return made


def _put_checked(h5py: Any, group: Any, checked: Checked) -> None:
    _say(h5py, group, "kind", "check")
    group.attrs["tolerance"] = float(checked.tolerance)
    group.attrs["ok"] = bool(checked.ok)
    _say(h5py, group, "says", checked.says)
    for key, unit in _CHECK_UNITS.items():
        _put(h5py, group, key, getattr(checked, key), unit)
    if checked.exact is not None:
        _put(h5py, group, "exact", checked.exact, _NUMBER)
    for key in "curve", "half_step", "double_room":
        _put_curve(h5py, _new_group(h5py, group, key), getattr(checked, key))


def _put_curve(h5py: Any, group: Any, curve: Curve) -> None:
    _say(h5py, group, "kind", "curve")
    _say(h5py, group, "name", curve.name)
    group.attrs["finished"] = bool(curve.finished)
    for key, unit in _CURVE_UNITS.items():
        _put(h5py, group, key, getattr(curve, key), unit)
    _put_data(group, "word_names", _texts(h5py, list(curve.words)))
    shape = len(curve.words), len(curve.times)
    _put(h5py, group, "word_coefficients", np.array(list(curve.words.values()), np.float64).reshape(shape), _NUMBER)
    steps = _new_group(h5py, group, "steps")
    for key, unit in _STEP_UNITS.items():
        _put(h5py, steps, key, getattr(curve.steps, key), unit)
    basis = _new_group(h5py, group, "basis")
    basis.attrs["n"] = curve.basis.n
    _put(h5py, basis, "words", curve.basis.words, _LANES)
    _put(h5py, basis, "coefficients", curve.basis.coefficients, _NUMBER)
    settings = _new_group(h5py, group, "settings")
    names = _texts(h5py, sorted(curve.settings))
    settings.attrs.create("names", names, dtype=names.dtype)
    for key, value in sorted(curve.settings.items()):
        _put_setting(h5py, settings, key, value)


def _put(h5py: Any, group: Any, name: str, array: NDArray[Any], unit: str) -> None:
    _say(h5py, _put_data(group, name, array), "units", unit)


def _put_data(group: Any, name: str, array: NDArray[Any]) -> Any:
    # Of long arrays, such as the lanes of words, most bits are 0. What is damaged must not be unpacked.
    packed = {"compression": "gzip", "shuffle": True, "fletcher32": True} if array.size > 1024 else {}
    made = group.create_dataset(name, data=array, dtype=array.dtype, **packed)
    # HDF5 has no checksum of a single number or text, and for that of arrays two bytes of 0 are the same as two of 255.
    made.attrs["crc32"] = _crc32(array[()])
    return made


def _crc32(data: Any) -> int:
    return zlib.crc32(np.asarray(data).tobytes())


def _say(h5py: Any, item: Any, name: str, text: str) -> None:
    """An attribute that is a text."""
    one = _texts(h5py, [text])
    item.attrs.create(name, one[0], dtype=one.dtype)


def _texts(h5py: Any, texts: list[str]) -> NDArray[Any]:
    """Texts in as many bytes as the longest has. HDF5 has no text of no bytes."""
    coded = [text.encode() for text in texts]
    return np.array(coded, h5py.string_dtype("utf-8", max([1, *map(len, coded)])))


def _put_setting(h5py: Any, group: Any, name: str, value: Any) -> None:
    """A plain value, as others can read it. What there is not is empty."""
    if value is None:
        made = group.create_dataset(name, data=h5py.Empty(np.float64))
    else:
        stored = _storable(value)
        array = _texts(h5py, [stored]).reshape(()) if isinstance(stored, str) else np.array(stored)
        made = _put_data(group, name, array)
        if type(stored) is not type(value):
            made.attrs["json"] = True
    if name in _SETTING_UNITS:
        _say(h5py, made, "units", _SETTING_UNITS[name])


def _storable(value: Any) -> str | bool | int | float | list[float]:
    """A value that is none of these as a text, in JSON."""
    if isinstance(value, (str, bool, int, float)):
        return value
    if isinstance(value, list) and value and all(type(x) is float for x in value):
        return value
    return json.dumps(value)


# ---- reading HDF5 ----


# What h5py, or a part that is not as it was written, may raise.
_DAMAGE = KeyError, OSError, RuntimeError, TypeError, AttributeError, ValueError


class _Opened:
    """A result file that is read. What is wrong with it is said in words."""

    def __init__(self, path: str | os.PathLike[str]) -> None:
        self.name = os.fspath(path)
        self.h5py = load_h5py()

    def __enter__(self) -> Any:
        try:
            # A folder, or nothing at all, is no matter of HDF5.
            with open(self.name, "rb"):
                pass
        except OSError as error:
            raise InputError(error.strerror or str(error), where=self.name) from None
        try:
            self.file = self.h5py.File(self.name, "r")
        except OSError as error:
            raise InputError(f"this is no HDF5 file: {error}", where=self.name) from None
        try:
            self._look()
        except InputError:
            self.file.close()
            raise
        except _DAMAGE as error:
            self.file.close()
            raise self._damaged(error) from None
        return self.file

    def _look(self) -> None:
        about = self.file.attrs
        if _text(about.get("format")) != _FORMAT:
            raise InputError("this HDF5 file has no results of pebblelinen", where=self.name)
        if about.get("layout") != _LAYOUT:
            raise InputError(
                f"this file has the layout {about.get('layout')}, written by pebblelinen {_text(about.get('version'))}:"
                f" pebblelinen {__version__} reads the layout {_LAYOUT}",
                where=self.name,
            )

    def __exit__(self, kind: object, error: object, _: object) -> None:
        self.file.close()
        if isinstance(error, _DAMAGE):
            raise self._damaged(error) from None

    def _damaged(self, error: Exception) -> InputError:
        return InputError(f"something is missing or damaged in this file: {error}", where=self.name)


def _read(path: str | os.PathLike[str]) -> list[tuple[str, Result]]:
    with _Opened(path) as file:
        # What others may have put beside the results is theirs. Nor is HDF5 asked what a group has: where that is
        # damaged, it crashes.
        groups = [file[str(place)] for place in range(file.attrs["results"])]
        return [(_text(group.attrs["label"]), _result(group)) for group in groups]


def _text(stored: Any) -> str:
    """A text that was read: as it was written, or as other tools may have put it."""
    return stored.decode() if isinstance(stored, bytes) else str(stored)


def _data(made: Any) -> Any:
    """What a data set has, if it is as it was written."""
    found = made[()]
    if "crc32" in made.attrs and made.attrs["crc32"] != _crc32(found):
        raise InputError(f"{made.name} is not as it was written")
    return found


def _result(group: Any) -> Result:
    return _checked(group) if _text(group.attrs["kind"]) == "check" else _curve(group)


def _checked(group: Any) -> Checked:
    return Checked(
        curve=_curve(group["curve"]),
        half_step=_curve(group["half_step"]),
        double_room=_curve(group["double_room"]),
        moved_by_step=_data(group["moved_by_step"]),
        moved_by_room=_data(group["moved_by_room"]),
        exact=_data(group["exact"]) if "exact" in group else None,
        tolerance=float(group.attrs["tolerance"]),
        says=_text(group.attrs["says"]),
        ok=bool(group.attrs["ok"]),
    )


def _curve(group: Any) -> Curve:
    basis, settings = group["basis"], group["settings"]
    curve = Curve(
        name=_text(group.attrs["name"]),
        finished=bool(group.attrs["finished"]),
        times=_data(group["times"]),
        values=_data(group["values"]),
        words=dict(zip(map(_text, _data(group["word_names"])), _data(group["word_coefficients"]))),
        steps=Steps(**{key: _data(group["steps"][key]) for key in _STEP_UNITS}),
        basis=Basis.from_arrays(int(basis.attrs["n"]), _data(basis["words"]), _data(basis["coefficients"])),
        settings={key: _setting(settings[key]) for key in map(_text, settings.attrs["names"])},
    )
    by_time = {curve.times.shape, curve.values.shape, *(table.shape for table in curve.words.values())}
    if len(by_time) > 1 or len({table.shape for table in curve.steps}) > 1:
        raise InputError("arrays that belong together have other lengths")
    return curve


def _setting(made: Any) -> Any:
    if made.shape is None:
        return None
    found = _data(made)
    if isinstance(found, bytes):
        text = _text(found)
        return json.loads(text) if "json" in made.attrs else text
    return found.tolist()


# ---- tables ----


def csv_text(results: Results) -> str:
    """The curves as a table: a row for each time, numbers in full. Of several results, a first column has the names;
    what is not there is empty."""
    pairs = named(results)
    words = list(dict.fromkeys(word for _, result in pairs for word in curve_of(result).words))
    checks = [key for key in _CHECK_COLUMNS if any(_column(result, key) is not None for _, result in pairs)]
    made = io.StringIO()
    table = csv.writer(made, lineterminator="\n")
    first = ["curve"] if len(pairs) > 1 else []
    table.writerow([*first, "time", "value", *words, "held", "leaked", "dropped", "estimate", *checks])
    for name, result in pairs:
        curve = curve_of(result)
        columns: list[list[float] | None] = [
            curve.times.tolist(),
            curve.values.tolist(),
            *(curve.words[word].tolist() if word in curve.words else None for word in words),
            curve.held_at().tolist(),
            curve.leaked.tolist(),
            curve.dropped.tolist(),
            curve.estimate.tolist(),
            *(_column(result, key) for key in checks),
        ]
        for i in range(len(curve.times)):
            cells = ["" if column is None else repr(column[i]) for column in columns]
            table.writerow([name, *cells] if first else cells)
    return made.getvalue()


def _column(result: Result, key: str) -> list[float] | None:
    found = getattr(result, key, None)
    return None if found is None else found.tolist()


def as_dataset(result: Result) -> Any:
    """A result as an xarray data set: by time the value, the losses, the coefficients of chosen words, and of a check
    how far the curve moved; by step what each step did; by position the basis at the last time. Every variable has
    its units, and the attributes have the settings."""
    xarray = needed("xarray", "a data set", "results")
    curve = curve_of(result)
    variables: dict[str, tuple[Any, ...]] = {
        "value": ("time", curve.values, {"units": _NUMBER}),
        **{key: ("time", getattr(curve, key), {"units": _NUMBER}) for key in ("leaked", "dropped", "estimate")},
        "coefficient": (
            ("word", "time"),
            np.array(list(curve.words.values()), np.float64).reshape(len(curve.words), len(curve.times)),
            {"units": _NUMBER},
        ),
        **{f"step_{key}": ("step", getattr(curve.steps, key), {"units": unit}) for key, unit in _STEP_UNITS.items()},
        "basis_words": (("position", "lane"), curve.basis.words, {"units": "bits"}),
        "basis_coefficients": ("position", curve.basis.coefficients, {"units": _NUMBER}),
    }
    attributes = {"name": curve.name, "finished": int(curve.finished), **_attributes(curve.settings)}
    if is_checked(result):
        variables |= {key: ("time", getattr(result, key), {"units": _NUMBER}) for key in _CHECK_UNITS}
        if result.exact is not None:
            variables["exact"] = "time", result.exact, {"units": _NUMBER}
        attributes |= {"tolerance": result.tolerance, "says": result.says, "ok": int(result.ok)}
    coordinates = {"time": ("time", curve.times, {"units": _TIME}), "word": ("word", np.array(list(curve.words), str))}
    return xarray.Dataset(variables, coordinates, attributes)


def _attributes(settings: Mapping[str, Any]) -> dict[str, Any]:
    """What a netCDF file can hold too: there is no truth value in it, and nothing for what there is not."""
    stored = {f"setting_{key}": _storable(x) for key, x in settings.items() if x is not None}
    return {key: int(x) if isinstance(x, bool) else x for key, x in stored.items()}
