# SPDX-FileCopyrightText: 2026 The PPVM Authors
# SPDX-License-Identifier: Apache-2.0
"""Results as files: what is read back is what was written, bit for bit."""
import csv
import os
import subprocess
import sys
import tempfile
import unittest
from pathlib import Path
from unittest import mock

import h5py
import numpy as np

import made_curves
from pebblelinen import Checked, Curve, InputError, LibraryMissing, results

TABLES = "times", "values", "leaked", "dropped", "estimate"

# Loads damaged files, in a process of its own: HDF5 may crash. What is loaded is written again, to the same bytes.
DAMAGE = """
import random
import made_curves
from pebblelinen import InputError, results

def content(path):
    with open(path, "rb") as file:
        return file.read()

results.save("whole.h5", {"one": made_curves.curve(), "long": made_curves.curve(count=1100)})
whole = content("whole.h5")
chance = random.Random(5)
told = 0
for i in range(40):
    data = bytearray(whole)
    for _ in range(chance.choice([1, 2, 8, 32])):
        data[chance.randrange(len(data))] = chance.randrange(256)
    with open("damaged.h5", "wb") as file:
        file.write(data)
    try:
        stored = results.load_named("damaged.h5")
    except InputError:
        told += 1
    else:
        results.save("again.h5", stored)
        assert content("again.h5") == whole, i
print(told)
"""


class Case(unittest.TestCase):
    def setUp(self):
        folder = tempfile.TemporaryDirectory()
        self.addCleanup(folder.cleanup)
        self.folder = Path(folder.name)
        self.path = self.folder / "decay.h5"

    def same(self, first, second):
        self.assertEqual(first.dtype, second.dtype)
        self.assertEqual(first.shape, second.shape)
        self.assertEqual(first.tobytes(), second.tobytes())

    def same_curve(self, stored, curve):
        self.assertEqual((stored.name, stored.finished), (curve.name, curve.finished))
        for name in TABLES:
            self.same(getattr(stored, name), getattr(curve, name))
        for name in curve.steps._fields:
            self.same(getattr(stored.steps, name), getattr(curve.steps, name))
        self.assertEqual(list(stored.words), list(curve.words))
        for word, table in curve.words.items():
            self.same(stored.words[word], table)
        self.assertEqual(stored.basis.n, curve.basis.n)
        self.same(stored.basis.words, curve.basis.words)
        self.same(stored.basis.coefficients, curve.basis.coefficients)
        self.assertEqual(stored.settings, curve.settings)
        for name, value in curve.settings.items():
            self.assertIs(type(stored.settings[name]), type(value), name)


class Hdf5(Case):
    def test_a_curve(self):
        curve = made_curves.curve()
        self.assertTrue(np.isnan(curve.leaked).any())
        results.save(self.path, curve)
        (stored,) = results.load(self.path)
        self.same_curve(stored, curve)
        self.assertIs(type(stored), Curve)

    def test_a_check(self):
        for exact in True, False:
            checked = made_curves.checked(exact=exact, ok=exact)
            results.save(self.path, checked)
            (stored,) = results.load(self.path)
            self.assertIs(type(stored), Checked)
            for name in "curve", "half_step", "double_room":
                self.same_curve(getattr(stored, name), getattr(checked, name))
            for name in "moved_by_step", "moved_by_room", "band":
                self.same(getattr(stored, name), getattr(checked, name))
            self.assertEqual(stored.exact is None, checked.exact is None)
            if exact:
                self.same(stored.exact, checked.exact)
            self.assertEqual((stored.tolerance, stored.says, stored.ok), (checked.tolerance, checked.says, checked.ok))

    def test_several_with_labels(self):
        given = {"before": made_curves.checked(), "after": made_curves.curve(rate=0.3)}
        given |= {f"more {i}": made_curves.curve(f"Z{i}") for i in range(10)}
        results.save(self.path, given)
        stored = results.load(self.path)
        self.assertEqual(len(stored), 12)
        self.same_curve(stored[1], given["after"])
        self.same_curve(stored[11], given["more 9"])
        # What was read can be written again.
        named = results.load_named(self.path)
        self.assertEqual(list(named), list(given))
        results.save(self.folder / "again.h5", named)
        self.assertEqual((self.folder / "again.h5").read_bytes(), self.path.read_bytes())

    def test_a_curve_without_words_or_steps(self):
        none = np.zeros(0)
        for curve in (
            made_curves.curve(count=1, unknown=0, words={}),
            made_curves.curve(times=none, values=none, words={"Z1": none}, finished=False),
        ):
            results.save(self.path, curve)
            self.same_curve(results.load(self.path)[0], curve)

    def test_every_array_has_units(self):
        results.save(self.path, made_curves.checked())
        units = {}

        def look(name, item):
            if isinstance(item, h5py.Dataset) and item.dtype.kind in "fiu" and "settings" not in name:
                units[name] = item.attrs["units"].decode()

        with h5py.File(self.path) as file:
            file.visititems(look)
            self.assertEqual(file["0/curve/settings/dt"].attrs["units"], b"model unit of time")
        self.assertEqual(len(units), 4 + 3 * (5 + 1 + 10 + 2))
        self.assertEqual(units["0/curve/times"], "model unit of time")
        self.assertEqual(units["0/curve/steps/leak_sum_before"], "1 / model unit of time")
        self.assertEqual(units["0/half_step/steps/held"], "words")
        self.assertEqual(units["0/exact"], "1")

    def test_others_read_it_without_this_package(self):
        curve = made_curves.curve()
        results.save(self.path, curve)
        with h5py.File(self.path) as file:
            self.assertEqual(file["0/settings/model"].asstr()[()], curve.settings["model"])
            self.assertEqual(file["0/settings/max_basis"][()], 16)
            self.assertEqual(set(file["0/settings"]), set(curve.settings))
            np.testing.assert_array_equal(file["0/values"], curve.values)

    def test_the_model(self):
        results.save(self.path, [made_curves.checked(rate=0.1), made_curves.curve(rate=0.3)])
        self.assertEqual(results.model_of(self.path).model.jumps[0].rate, 0.1)
        file = results.model_of(self.path, 1)
        self.assertEqual(file.model.jumps[0].rate, 0.3)
        self.assertEqual(file.basis.terms().by_site(), {"Z1": 1.0})
        for place in 2, -1:
            with self.assertRaisesRegex(InputError, f"no result {place}: the file has 2"):
                results.model_of(self.path, place)

    def test_what_is_no_result(self):
        self.path.write_bytes(b"no HDF5")
        with self.assertRaisesRegex(InputError, "decay.h5: this is no HDF5 file"):
            results.load(self.path)
        with h5py.File(self.path, "w") as file:
            file["values"] = [1.0]
        with self.assertRaisesRegex(InputError, "no results of pebblelinen"):
            results.load(self.path)
        with self.assertRaisesRegex(InputError, "No such file"):
            results.load(self.folder / "missing.h5")
        with self.assertRaisesRegex(InputError, "Is a directory"):
            results.load(self.folder)

    def test_another_layout(self):
        results.save(self.path, made_curves.curve())
        with h5py.File(self.path, "r+") as file:
            file.attrs["layout"] = 2
            file.attrs["version"] = "9.0"
        with self.assertRaisesRegex(InputError, "layout 2, written by pebblelinen 9.0: .* reads the layout 1"):
            results.load(self.path)

    def test_a_damaged_file(self):
        for gone in "0/values", "0/steps/held", "0/settings", "0/basis/words":
            results.save(self.path, made_curves.curve())
            with h5py.File(self.path, "r+") as file:
                del file[gone]
            with self.assertRaisesRegex(InputError, "missing or damaged"):
                results.load(self.path)
        for changed, value in ("0/values", [1.0]), ("0/steps/held", [1]), ("0/basis/words", [[1, 2]]), ("0/times", "a"):
            results.save(self.path, made_curves.curve())
            with h5py.File(self.path, "r+") as file:
                del file[changed]
                file[changed] = value
            with self.assertRaisesRegex(InputError, "decay.h5: something is missing or damaged"):
                results.load(self.path)
        for changed in "0/settings/dt", "0/word_coefficients", "0/basis/coefficients":
            results.save(self.path, made_curves.curve())
            with h5py.File(self.path, "r+") as file:
                file[changed][...] = 0.5
            with self.assertRaisesRegex(InputError, f"damaged in this file: /{changed} is not as it was written"):
                results.load(self.path)
        results.save(self.path, made_curves.curve())
        self.path.write_bytes(self.path.read_bytes()[:-5000])
        with self.assertRaises(InputError):
            results.load(self.path)

    def test_damaged_bytes(self):
        ran = subprocess.run(
            [sys.executable, "-W", "error", "-c", DAMAGE],
            cwd=self.folder,
            env={**os.environ, "PYTHONPATH": os.pathsep.join(map(os.path.abspath, sys.path))},
            capture_output=True,
            text=True,
            timeout=60,
        )
        self.assertEqual((ran.returncode, ran.stderr), (0, ""))
        self.assertGreater(int(ran.stdout), 20)

    def test_texts_of_any_length(self):
        words = {"Z1 " * 30000: np.zeros(11), "": np.ones(11)}
        curve = made_curves.curve("\u03c3 " * 40000, words=words)
        curve.settings.update(model="# \u03c3\n" * 50000, state="")
        results.save(self.path, {"": curve})
        self.same_curve(results.load_named(self.path)[""], curve)
        results.save(self.path, made_curves.curve(settings={}))
        self.assertEqual(results.load(self.path)[0].settings, {})

    def test_nothing_is_of_variable_length(self):
        found = []

        def look(name, item):
            found.extend(item.attrs.get_id(key).dtype for key in item.attrs)
            found.extend([item.dtype] if isinstance(item, h5py.Dataset) else [])

        results.save(self.path, made_curves.checked())
        with h5py.File(self.path) as file:
            look("/", file)
            file.visititems(look)
        self.assertEqual({kind.kind for kind in found}, set("biufS"))

    def test_what_others_put_beside_it(self):
        results.save(self.path, made_curves.curve())
        with h5py.File(self.path, "r+") as file:
            file["notes"] = "measured on Tuesday"
            file["7"] = "and on Wednesday"
            file["0/mine"] = [1, 2]
            file["0/settings/mine"] = "warm"
        self.assertEqual(len(results.load(self.path)), 1)

    def test_nothing_is_written_on_an_error(self):
        self.path.write_bytes(b"before")
        broken = made_curves.curve(words={"Z1": np.zeros(3)})
        with self.assertRaises(ValueError):
            results.save(self.path, broken)
        for name in "decay.txt", "decay", "decay.h5.gz":
            with self.assertRaisesRegex(InputError, r"\.h5 .* \.csv"):
                results.save(self.folder / name, made_curves.curve())
        self.assertEqual(self.path.read_bytes(), b"before")
        self.assertEqual(list(self.folder.iterdir()), [self.path])


class Csv(Case):
    def rows(self, given):
        path = self.folder / "decay.csv"
        results.save(path, given)
        with path.open(newline="") as file:
            return list(csv.reader(file))

    def column(self, rows, name):
        place = rows[0].index(name)
        return np.array([float(row[place]) for row in rows[1:]])

    def test_a_curve(self):
        curve = made_curves.curve()
        rows = self.rows(curve)
        self.assertEqual(rows[0], ["time", "value", "Z1", "Y0 X1", "held", "leaked", "dropped", "estimate"])
        for name, table in ("time", curve.times), ("value", curve.values), ("leaked", curve.leaked):
            np.testing.assert_array_equal(self.column(rows, name), table)
        for name, table in curve.words.items():
            self.same(self.column(rows, name), table)
        self.same(self.column(rows, "dropped"), curve.dropped)
        np.testing.assert_array_equal(self.column(rows, "estimate"), curve.estimate)
        self.assertEqual([row[4] for row in rows[1:]], [str(held) for held in range(1, 12)])

    def test_a_check(self):
        checked = made_curves.checked()
        rows = self.rows(checked)
        for name in "moved_by_step", "moved_by_room", "exact":
            self.same(self.column(rows, name), getattr(checked, name))
        self.assertNotIn("exact", self.rows(made_curves.checked(exact=False))[0])

    def test_several(self):
        after = made_curves.curve("X0", words={"X0": np.linspace(0.0, 1.0, 11)})
        rows = self.rows({"before": made_curves.checked(), "after": after})
        self.assertEqual(rows[0][:6], ["curve", "time", "value", "Z1", "Y0 X1", "X0"])
        self.assertEqual([row[0] for row in rows[1:]], ["before"] * 11 + ["after"] * 11)
        self.assertEqual(rows[-1][3:6], ["", "", "1.0"])
        self.assertEqual(rows[-1][-1], "")
        self.assertEqual({len(row) for row in rows}, {len(rows[0])})


class Dataset(Case):
    def test_a_check(self):
        checked = made_curves.checked()
        results.save(self.path, checked)
        dataset = results.as_dataset(results.load(self.path)[0])
        curve = checked.curve
        self.same(dataset.value.values, curve.values)
        self.same(dataset.time.values, curve.times)
        self.same(dataset.coefficient.sel(word="Y0 X1").values, curve.words["Y0 X1"])
        self.same(dataset.step_leak_sum_after.values, curve.steps.leak_sum_after)
        self.same(dataset.basis_words.values, curve.basis.words)
        self.same(dataset.band.values, checked.band)
        self.same(dataset.exact.values, checked.exact)
        for name, variable in dataset.variables.items():
            if name != "word":
                self.assertTrue(variable.attrs["units"], name)
        self.assertEqual(dataset.time.units, "model unit of time")
        self.assertEqual(dataset.attrs["setting_model"], curve.settings["model"])
        self.assertEqual(dataset.attrs["says"], checked.says)
        # A netCDF file could hold these.
        for name, value in dataset.attrs.items():
            self.assertIn(type(value), (str, int, float, list), name)
        self.assertEqual((dataset.attrs["setting_observable"], dataset.attrs["ok"]), ('[["Z1", 1.0]]', 1))
        self.assertNotIn("setting_admit_basis", dataset.attrs)

    def test_a_curve_as_it_was_computed(self):
        dataset = results.as_dataset(made_curves.curve(words={}))
        self.assertEqual(dict(dataset.sizes), {"time": 11, "word": 0, "step": 10, "position": 3, "lane": 8})
        self.assertAlmostEqual(float(dataset.value.interp(time=0.05)), 0.3317, 4)


class Without(Case):
    def test_h5py(self):
        results.save(self.path, made_curves.curve())
        with mock.patch.dict(sys.modules, {"h5py": None}):
            said = r"an HDF5 file needs h5py.*apt-get install python3-h5py.*pebblelinen\[results\]"
            with self.assertRaisesRegex(LibraryMissing, said):
                results.save(self.folder / "other.h5", made_curves.curve())
            with self.assertRaisesRegex(LibraryMissing, said):
                results.load(self.path)
            results.save(self.folder / "other.csv", made_curves.curve())
        self.assertEqual({path.name for path in self.folder.iterdir()}, {"decay.h5", "other.csv"})

    def test_xarray(self):
        with mock.patch.dict(sys.modules, {"xarray": None}):
            with self.assertRaisesRegex(LibraryMissing, "a data set needs xarray"):
                results.as_dataset(made_curves.curve())


if __name__ == "__main__":
    unittest.main()
