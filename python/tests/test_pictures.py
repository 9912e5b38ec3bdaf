# SPDX-FileCopyrightText: 2026 The PPVM Authors
# SPDX-License-Identifier: Apache-2.0
"""Pictures of curves: what stands in them is looked at, in the figure and in the files."""
import base64
import html
import struct
import sys
import tempfile
import unittest
import xml.etree.ElementTree
from pathlib import Path
from unittest import mock

import numpy as np
from matplotlib.colors import to_hex
from matplotlib.figure import Figure

import made_curves
from pebblelinen import InputError, LibraryMissing, pictures


def lines(axes):
    """(x, y) of every line, by its label."""
    return {line.get_label(): line.get_data() for line in axes.lines}


def legend(axes):
    return [text.get_text() for text in axes.get_legend().get_texts()]


def shown_size(png):
    """Width and height, from the head of a PNG."""
    return struct.unpack(">II", png[16:24])


class Drawn(unittest.TestCase):
    def same(self, line, x, y):
        np.testing.assert_array_equal(line[0], x)
        np.testing.assert_array_equal(line[1], y)

    def test_a_curve(self):
        curve = made_curves.curve()
        top, words, held, lost = pictures.plot(curve).axes
        drawn = lines(top)
        self.same(drawn["Z1"], curve.times, curve.values)
        self.same(drawn["Z1: estimate above"], curve.times, curve.values + curve.estimate)
        self.same(drawn["Z1: estimate below"], curve.times, curve.values - curve.estimate)
        for word, values in curve.words.items():
            self.same(lines(words)[word], curve.times, values)
        self.same(lines(held)["Z1"], curve.steps.time, curve.steps.held)
        leaked = (curve.steps.leak_sum_before + curve.steps.leak_sum_after) / 2 * curve.steps.dt
        self.same(lines(lost)["Z1: leaked"], curve.steps.time, leaked)
        # A logarithm has no place for 0.
        x, y = lines(lost)["Z1: dropped"]
        self.same((x[np.isfinite(y)], y[np.isfinite(y)]), curve.steps.time[[1, 4, 7]], [1e-5] * 3)
        self.assertEqual(lost.get_yscale(), "log")

    def test_labels(self):
        top, words, held, lost = pictures.plot(made_curves.curve()).axes
        self.assertEqual(top.get_ylabel(), "expectation of Z1")
        self.assertEqual(words.get_ylabel(), "coefficient")
        self.assertEqual(held.get_ylabel(), "words held")
        self.assertEqual(lost.get_ylabel(), "lost in a step")
        self.assertEqual(lost.get_xlabel(), "time (in the model's unit of time)")
        self.assertEqual(legend(top), ["Z1", "estimate of the error's bound"])
        self.assertEqual(legend(words), ["Z1", "Y0 X1"])
        self.assertEqual(
            legend(lost), ["leaked: rate times step, not known in 2 of 10 steps", "dropped by prune and cap"]
        )

    def test_a_check(self):
        checked = made_curves.checked()
        figure = pictures.plot(checked)
        top = figure.axes[0]
        (band,) = top.collections
        self.assertEqual(band.get_label(), "Z1: check")
        curve, corners = checked.curve, {tuple(corner) for corner in band.get_paths()[0].vertices}
        for side in curve.values - checked.band, curve.values + checked.band:
            self.assertLessEqual(set(zip(curve.times, side)), corners)
        self.same(lines(top)["Z1: exact"], curve.times, checked.exact)
        self.assertEqual(
            legend(top), ["Z1", "check: half the step, twice the room", "exact", "estimate of the error's bound"]
        )
        self.assertEqual(figure._suptitle.get_text(), checked.says)
        top = pictures.plot(made_curves.checked(exact=False)).axes[0]
        self.assertNotIn("exact", legend(top))

    def test_several(self):
        before, after, third = made_curves.checked(), made_curves.curve(rate=0.3), made_curves.curve("X0", 0.5)
        top, held, lost = pictures.plot({"before": before, "after": after, "third": third}).axes
        drawn = lines(top)
        for name, curve in ("before", before.curve), ("after", after), ("third", third):
            self.same(drawn[name], curve.times, curve.values)
            self.same(lines(held)[name], curve.steps.time, curve.steps.held)
        self.assertEqual(legend(top)[:3], ["before", "after", "third"])
        self.assertEqual(top.get_ylabel(), "expectation")
        # Told apart by colour, and without it.
        thick = [line for line in top.lines if line.get_label() in ("before", "after", "third")]
        self.assertEqual(len({to_hex(line.get_color()) for line in thick}), 3)
        self.assertEqual(len({line.get_linestyle() for line in thick}), 3)
        self.assertIsNone(top.figure._suptitle)

    def test_names(self):
        curves = [made_curves.curve(), made_curves.curve("X0"), made_curves.curve(finished=False)]
        names = ["Z1 (1)", "X0", "Z1 (2) (stopped early)"]
        self.assertEqual(legend(pictures.plot(curves).axes[0])[:3], names)
        # A dollar starts no formula.
        odd = "$x_1$ & <rate> \\alpha"
        self.assertIn(html.escape(odd).encode(), pictures.picture_bytes({odd: curves[0]}, "svg"))

    def test_many_are_told_apart(self):
        figure = pictures.plot([made_curves.curve(rate=i / 100) for i in range(30)])
        told = {str((line.get_color(), line._unscaled_dash_pattern)) for line in figure.axes[1].lines}
        self.assertEqual(len(told), 30)

    def test_the_estimate_does_not_squash_the_curve(self):
        for leaking in 0.0, 1e-3, 1e3:
            curve = made_curves.curve(unknown=0, leaking=leaking)
            low, high = curve.values.min(), curve.values.max()
            least, most = pictures.plot(curve).axes[0].get_ylim()
            self.assertLess(least, low)
            self.assertGreater(most, high)
            self.assertGreater((high - low) / (most - least), 0.6)

    def test_what_is_unknown_or_nothing(self):
        for unknown, said in (0, "nothing was lost"), (10, "what leaked is not known, and nothing was dropped"):
            curve = made_curves.curve(unknown=unknown, leaking=0.0, dropped=0.0)
            lost = pictures.plot(curve).axes[-1]
            self.assertEqual([text.get_text() for text in lost.texts], [said])
            self.assertTrue(pictures.picture_bytes(curve))
        steps = curve.steps._replace(dropped_sum=curve.steps.dropped_sum * np.nan)
        curve = made_curves.curve(times=curve.times[1:], values=curve.values[1:], words={}, steps=steps)
        self.assertEqual(legend(pictures.plot(curve).axes[0]), ["Z1"])

    def test_one_time_and_a_flat_curve(self):
        self.assertTrue(pictures.picture_bytes(made_curves.curve(count=1, unknown=0)))
        # A run that was stopped before its first time has none.
        none = np.zeros(0)
        stopped = made_curves.curve(times=none, values=none, words={"Z1": none}, finished=False)
        self.assertTrue(pictures.picture_bytes(stopped))
        for value in 0.0, -2.0:
            curve = made_curves.curve(values=np.full(11, value))
            least, most = pictures.plot(curve).axes[0].get_ylim()
            self.assertLess(least, value)
            self.assertGreater(most, value)

    def test_a_figure_of_the_user(self):
        figure = Figure(figsize=(4, 3))
        self.assertIs(pictures.plot(made_curves.curve(), figure=figure), figure)
        self.assertEqual(len(figure.axes), 4)

    def test_words_that_were_followed(self):
        many = {f"Z{q}": np.zeros(11) for q in range(40)}
        words = pictures.plot(made_curves.curve(words=many)).axes[1]
        self.assertEqual(len(words.lines), 12)
        self.assertEqual(words.get_ylabel(), "coefficient\n(12 of 40)")
        self.assertEqual(len(pictures.plot(made_curves.curve(words={})).axes), 3)
        # Those of a check have their bands.
        checked = made_curves.checked()
        bands = pictures.plot(checked).axes[1].collections
        self.assertEqual(len(bands), 2)

    def test_what_is_no_curve(self):
        for given, said in ([], "no curve"), ([3], "3 is no curve"), (3, "a list is needed"), ("Z0", "a list"):
            with self.assertRaisesRegex(InputError, said):
                pictures.plot(given)


class Files(unittest.TestCase):
    def setUp(self):
        folder = tempfile.TemporaryDirectory()
        self.addCleanup(folder.cleanup)
        self.folder = Path(folder.name)

    def test_every_ending(self):
        heads = {"one.png": b"\x89PNG\r\n\x1a\n", "two.svg": b"<?xml", "three.pdf": b"%PDF-", "FOUR.PNG": b"\x89PNG"}
        for name, head in heads.items():
            pictures.plot(made_curves.checked(words={}), self.folder / name)
            self.assertTrue((self.folder / name).read_bytes().startswith(head), name)
        self.assertEqual({path.name for path in self.folder.iterdir()}, set(heads))
        self.assertEqual(shown_size((self.folder / "one.png").read_bytes()), (700, 640))

    def test_letters_in_an_svg(self):
        pictures.plot({"before": made_curves.checked()}, self.folder / "one.svg")
        root = xml.etree.ElementTree.parse(self.folder / "one.svg").getroot()
        texts = ["".join(text.itertext()).strip() for text in root.iter("{http://www.w3.org/2000/svg}text")]
        for text in "before", "exact", "expectation of Z1", "words held", "time (in the model's unit of time)":
            self.assertIn(text, texts)

    def test_the_same_curves_make_the_same_file(self):
        curve = made_curves.curve(words={})
        # A PNG has no time in it.
        for form in "svg", "pdf":
            self.assertEqual(pictures.picture_bytes(curve, form), pictures.picture_bytes(curve, form))

    def test_other_endings(self):
        for name in "one.jpg", "png", "one.", "one.png.gz":
            with self.assertRaisesRegex(InputError, r"\.png, \.svg or \.pdf"):
                pictures.plot(made_curves.curve(), self.folder / name)
        with self.assertRaisesRegex(InputError, "png, svg or pdf"):
            pictures.picture_bytes(made_curves.curve(), "jpg")
        self.assertEqual(list(self.folder.iterdir()), [])

    def test_nothing_is_written_on_an_error(self):
        old = self.folder / "old.png"
        old.write_bytes(b"before")
        broken = made_curves.curve(values=np.zeros(3))
        with self.assertRaises(ValueError):
            pictures.plot(broken, old)
        self.assertEqual(old.read_bytes(), b"before")
        with self.assertRaisesRegex(InputError, "No such file"):
            pictures.plot(made_curves.curve(), self.folder / "missing" / "one.png")
        self.assertEqual(list(self.folder.iterdir()), [old])

    def test_in_jupyter(self):
        self.assertTrue(pictures.plot(made_curves.curve(words={}))._repr_png_().startswith(b"\x89PNG"))
        for result in made_curves.curve(words={}), made_curves.checked(words={}):
            bundle = result._repr_mimebundle_()
            self.assertEqual(set(bundle), {"image/png", "text/html"})
            png = base64.b64decode(bundle["image/png"])
            self.assertEqual(png, result._repr_png_())
            # Of HTML and a picture, Jupyter shows the first: it has both, and a table.
            root = xml.etree.ElementTree.fromstring(f"<div>{bundle['text/html']}</div>")
            kind, _, data = root.find("img").get("src").partition(",")
            self.assertEqual((kind, base64.b64decode(data)), ("data:image/png;base64", png))
            self.assertEqual(root.find("img").get("alt"), repr(result))
            self.assertEqual(len(root.findall("table/tr")), 12)

    def test_pyplot_is_left_alone(self):
        self.assertNotIn("matplotlib.pyplot", sys.modules)


class WithoutMatplotlib(unittest.TestCase):
    def test_it_says_so(self):
        with mock.patch.dict(sys.modules, {"matplotlib": None, "matplotlib.figure": None}):
            said = r"a picture needs matplotlib.*apt-get install python3-matplotlib.*pebblelinen\[plot\]"
            with self.assertRaisesRegex(LibraryMissing, said):
                pictures.plot(made_curves.curve(), "never.png")
            self.assertIsNone(made_curves.curve()._repr_png_())
            self.assertEqual(made_curves.curve()._repr_mimebundle_(), {})
            self.assertTrue(made_curves.curve()._repr_html_().startswith("<p>"))


if __name__ == "__main__":
    unittest.main()
