# SPDX-FileCopyrightText: 2026 The PPVM Authors
# SPDX-License-Identifier: Apache-2.0
"""Pictures and result files of the commands: real runs, what is written of them, and what is refused before one."""
import csv
import io
import os
import subprocess
import sys
import unittest
from pathlib import Path
from unittest import mock

import numpy as np
from scipy.integrate import solve_ivp

import pebblelinen
from pebblelinen import Basis, Model, Run, demo, load, modelfile, noise, pictures, results
from test_command import Case

DEVICE = """
qubits = 2
state = "10"
[hamiltonian]
"X0 X1" = 0.5
"Y0 Y1" = 0.5
[[jumps]]
rate = 0.1
operator = { "X0" = 0.5, "Y0" = "0.5j" }
[observables]
site = "Z0"
other = { "Z1" = 1.0 }
[run]
times = { to = 1.0, count = 4 }
max_basis = 16
"""
ONE = "--observable", "site"


class Commands(Case):
    def setUp(self):
        super().setUp()
        self.addCleanup(os.chdir, os.getcwd())
        os.chdir(Path(self.path).parent)
        Path("before.toml").write_text(DEVICE)
        Path("after.toml").write_text(DEVICE.replace("0.1", "0.4"))

    def files(self):
        return {path.name for path in Path().iterdir()} - {"before.toml", "after.toml", "device.toml"}

    def drawn(self, *arguments):
        """What a command prints, and the figures that it draws."""
        figures = []

        def plot(*given):
            figures.append(pictures_plot(*given))

        pictures_plot = pictures.plot
        with mock.patch("pebblelinen.pictures.plot", plot):
            out = self.answered(*arguments)
        return out, figures

    def lines(self, figure):
        return {line.get_label(): line.get_ydata() for line in figure.axes[0].lines if ":" not in line.get_label()}

    def test_a_run(self):
        files = "--plot", "one.png", "--out", "one.h5", "--out", "one.csv"
        out, (figure,) = self.drawn("run", "before.toml", *ONE, *files)
        self.assertTrue(out.endswith("written to one.h5\nwritten to one.csv\ndrawn in one.png\n"))
        self.assertEqual(self.files(), {"one.png", "one.h5", "one.csv"})
        (curve,) = results.load("one.h5")
        np.testing.assert_array_equal(self.lines(figure)["site"], curve.values)
        rows = list(csv.DictReader(io.StringIO(Path("one.csv").read_text())))
        self.assertEqual([float(row["value"]) for row in rows], curve.values.tolist())
        answer = self.json("run", "before.toml", *ONE, "--plot", "one.svg", "--plot", "one.pdf")
        self.assertEqual(answer["plot"], ["one.svg", "one.pdf"])
        self.assertEqual(answer["curves"][0]["values"], curve.values.tolist())

    def test_a_check(self):
        _, (figure,) = self.drawn("check", "before.toml", *ONE, "--plot", "one.png", "--out", "one.h5")
        (checked,) = results.load("one.h5")
        self.assertTrue(checked.ok)
        self.assertEqual(figure._suptitle.get_text().replace("\n", " "), checked.says)
        np.testing.assert_array_equal(figure.axes[0].lines[0].get_ydata(), checked.exact)

    def test_several_observables(self):
        _, (figure,) = self.drawn("run", "before.toml", "--plot", "two.png", "--out", "two.h5")
        self.assertEqual(list(self.lines(figure)), ["site", "other"])
        self.assertEqual(list(results.load_named("two.h5")), ["site", "other"])

    def test_several_models(self):
        out, (figure,) = self.drawn("run", "before.toml", "after.toml", *ONE, "--plot", "both.png", "--out", "both.h5")
        self.assertEqual([line for line in out.splitlines() if line.endswith("toml:")], ["before.toml:", "after.toml:"])
        drawn = self.lines(figure)
        self.assertEqual(list(drawn), ["before", "after"])
        self.assertLess(drawn["before"][-1], drawn["after"][-1])
        for name, stored in results.load_named("both.h5").items():
            np.testing.assert_array_equal(drawn[name], stored.values)
        answer = self.json("check", "before.toml", "after.toml", "--dt", "0.05")
        self.assertEqual([each["file"] for each in answer["files"]], ["before.toml", "after.toml"])
        self.assertEqual(answer["ok"], True)
        names = [f"{file}: {name}" for file in ("before", "after") for name in ("site", "other")]
        for what in "run", "check":
            _, table, _ = self.run_command(what, "before.toml", "after.toml", "--csv")
            rows = list(csv.DictReader(io.StringIO(table)))
            self.assertEqual([row["observable"] for row in rows[::5]], names)

    def test_beside_what_was_stored(self):
        self.answered("check", "before.toml", *ONE, "--out", "old.h5")
        files = "--beside", "old.h5", "--plot", "both.png", "--out", "new.h5"
        _, (figure,) = self.drawn("run", "after.toml", *ONE, *files)
        self.assertEqual(list(self.lines(figure)), ["after", "old"])
        # What is stored is what was computed.
        self.assertEqual(len(results.load("new.h5")), 1)
        _, (again,) = self.drawn("plot", "new.h5", "old.h5", "--plot", "both.svg")
        for (name, now), (stored, then) in zip(self.lines(figure).items(), self.lines(again).items()):
            self.assertEqual((name, stored), (("after", "new") if name == "after" else ("old", "old")))
            np.testing.assert_array_equal(now, then)

        _, (figure,) = self.drawn("run", "after.toml", "before.toml", *ONE, "--beside", "old.h5", "--plot", "three.png")
        self.assertEqual(list(self.lines(figure)), ["after", "before", "old"])
        # Names that would be the same are those of the files.
        Path("old.h5").rename("after.h5")
        _, (figure,) = self.drawn("run", "after.toml", *ONE, "--beside", "after.h5", "--plot", "both.png")
        self.assertEqual(list(self.lines(figure)), ["after.toml", "after.h5"])

    def test_a_file_that_cannot_be_written_in_the_end(self):
        Path("folder.h5").mkdir()
        status, out, error = self.run_command("run", "before.toml", "--out", "folder.h5", "--out", "one.csv")
        self.assertEqual((status, error), (2, "pebblelinen: folder.h5: this is no file, and cannot be written as one\n"))
        self.assertIn("site: 5 times", out)
        self.assertTrue(out.endswith("written to one.csv\n"))
        self.assertNotIn("folder", out)

    def test_an_interrupt(self):
        advance, left = Run.advance, [2]

        def interrupted(run):
            left[0] -= 1
            if left[0] < 0:
                raise KeyboardInterrupt
            advance(run)

        files = "--out", "one.h5", "--plot", "one.png"
        with mock.patch("pebblelinen.run.Run.advance", interrupted):
            status, out, _ = self.run_command("run", "before.toml", *ONE, *files)
            self.assertEqual(status, 130)
            self.assertTrue(out.endswith("written to one.h5\ndrawn in one.png\n"))
            (curve,) = results.load("one.h5")
            self.assertEqual((curve.finished, curve.times.tolist()), (False, [0.0, 0.25, 0.5]))
            # A check has no answer then, and there is nothing to write.
            status, out, _ = self.run_command("check", "before.toml", *ONE, "--out", "two.h5", "--plot", "two.png")
        self.assertEqual(status, 130)
        self.assertNotIn("two", out)
        self.assertEqual(self.files(), {"one.h5", "one.png"})

    def test_plot(self):
        self.answered("check", "before.toml", "--out", "old.h5")
        out, (figure,) = self.drawn("plot", "old.h5", "--plot", "old.png", "--out", "old.csv")
        self.assertEqual(list(self.lines(figure)), ["site", "other"])
        self.assertIn("site: expectation of site at 5 times\n  yes: ", out)
        self.assertTrue(out.endswith("written to old.csv\ndrawn in old.png\n"))
        answer = self.json("plot", "old.h5", "--plot", "old.png")
        self.assertEqual(answer["curves"][1], {"name": "other", "observable": "other", "finished": True})
        table = self.answered("plot", "old.h5", "--plot", "old.png", "--csv")
        self.assertEqual(table, Path("old.csv").read_text())

    def test_what_is_refused_before_anything_is_computed(self):
        Path("text.h5").write_text("no result")
        Path("small.toml").write_text(DEVICE.replace("max_basis = 16", "max_basis = 0"))
        before = self.files()
        with mock.patch("pebblelinen.run.Run.advance", side_effect=AssertionError("a step was done")):
            for arguments, said in (
                (["run", "before.toml", "--plot", "one.jpg"], "one.jpg: a picture is a file that ends in .png, .svg or"),
                (["check", "before.toml", "--out", "one.txt"], "one.txt: results are a file that ends in .h5"),
                (["run", "before.toml", "--out", "missing/one.h5"], "there is no folder"),
                (["run", "before.toml", "--plot", "one.png", "--beside", "text.h5"], "text.h5: this is no HDF5 file"),
                (["run", "before.toml", "--beside", "text.h5"], "say where with --plot"),
                (["run", "before.toml", "before.toml"], "before.toml: this file is named twice"),
                (["run", "before.toml", "after.toml", "--checkpoint", "x"], "a checkpoint is that of one model file"),
                (["run", "before.toml", "small.toml"], "small.toml: "),
                (["plot", "text.h5"], "say where to draw"),
                (["plot", "text.h5", "--plot", "one.png"], "text.h5: this is no HDF5 file"),
                (["demo", "--plot", "one.gif"], "one.gif: a picture is"),
            ):
                status, out, error = self.run_command(*arguments)
                self.assertEqual((status, out), (2, ""), arguments)
                self.assertIn(said, error)
            for hidden, option, said in (
                ("matplotlib.figure", ["--plot", "one.png"], "a picture needs matplotlib"),
                ("h5py", ["--out", "one.h5"], "an HDF5 file needs h5py"),
            ):
                with mock.patch.dict(sys.modules, {hidden: None}):
                    status, _, error = self.run_command("run", "before.toml", *option)
                self.assertEqual(status, 2)
                self.assertIn(said, error)
        self.assertEqual(self.files(), before)

    def test_nothing_is_imported_before_it_is_asked_for(self):
        look = "import sys, pebblelinen.command\nprint(*{'matplotlib', 'h5py', 'xarray', 'tqdm'}.intersection(sys.modules))"
        place = {**os.environ, "PYTHONPATH": str(Path(pebblelinen.__file__).resolve().parent.parent)}
        ran = subprocess.run([sys.executable, "-W", "error", "-c", look], env=place, capture_output=True, text=True)
        self.assertEqual((ran.stdout, ran.stderr), ("\n", ""))

    def test_without_the_packages(self):
        hidden = dict.fromkeys(["matplotlib", "matplotlib.figure", "h5py", "xarray", "tqdm"])
        with mock.patch.dict(sys.modules, hidden):
            self.answered("run", "before.toml", "--out", "one.csv")
            self.answered("check", "before.toml")


class Again(Case):
    """A curve from its file alone."""

    def test_rerun(self):
        jumps = [*noise.decay(qubit=0, t1=3.0), *noise.dephasing(qubit=1, t1=5.0, t2=4.0)]
        matrices = [(["Z1", "Z2"], [[0.2, 0.1j], [-0.1j, 0.2]])]
        model = Model(3, {"X0 X1": 0.7, "Y1 Y2": 1 / 3, "Z0": 0.1}, jumps, matrices)
        basis = Basis(3, {"Z0": 1.0, "Z1": -1 / 3})
        state = {"all": "+", 1: [0.1, 0.2, -0.3]}
        path = Path(self.path).with_name("run.h5")
        for settings in (
            {"times": [0.0, 0.3, 1.1], "dt": 0.1, "max_basis": 9, "words": ["Z0", "X0 Y1"], "protected": ["Z0"]},
            {"times": {"to": 1.0, "count": 3}, "max_basis": 5, "admit_basis": 12, "drop_tol": 1e-3, "tau_add": 0.0},
            {"times": [0.5], "max_basis": 64, "admissions": 3, "losses": False, "name": "two sites"},
        ):
            curve = model.run(basis, state=state, **settings)
            results.save(path, curve)
            again = results.rerun(path)
            self.assertEqual(again.values.tobytes(), curve.values.tobytes())
            self.assertEqual(again.settings, curve.settings)
            for name in curve.steps._fields:
                self.assertEqual(getattr(again.steps, name).tobytes(), getattr(curve.steps, name).tobytes(), name)
            self.assertEqual(again.basis.coefficients.tobytes(), curve.basis.coefficients.tobytes())
            self.assertEqual(list(again.words), list(curve.words))
            for word, followed in curve.words.items():
                self.assertEqual(again.words[word].tobytes(), followed.tobytes())
            # And the model in it can be saved, changed and run.
            file = results.model_of(path)
            self.assertEqual(file.model, model)
            self.assertEqual(file.run["max_basis"], settings["max_basis"])

    def test_a_check_that_was_stored(self):
        checked = Model(2, {"X0 X1": 1.0}).check(Basis(2, {"Z0": 1.0}), times=[0.0, 1.0], max_basis=1)
        self.assertFalse(checked.ok)
        path = Path(self.path).with_name("check.h5")
        results.save(path, checked)
        (stored,) = results.load(path)
        self.assertEqual((stored.ok, stored.says, repr(stored)), (False, checked.says, repr(checked)))
        self.assertEqual(results.rerun(path).values.tobytes(), checked.curve.values.tobytes())


def one_excitation(times, sites=61):
    """Z on the demonstration's site, where it starts in 1 and all others in 0: no more than one qubit is ever in 1, so
    that a density matrix over the sites around it says all. What lies further away is not reached."""
    numbers = np.arange(sites) - sites // 2 + demo.SITE
    hopping = 2.0 * (np.eye(sites, k=1) + np.eye(sites, k=-1))
    energy = hopping - 2 * np.diag(0.5 + 0.125 * (numbers % 4))
    damping = 0.05 + 4 * 0.02 * (1 - np.eye(sites))

    def change(_, flat):
        matrix = flat.reshape(sites, sites)
        return (-1j * (energy @ matrix - matrix @ energy) - damping * matrix).ravel()

    start = np.zeros((sites, sites), complex)
    start[sites // 2, sites // 2] = 1
    solved = solve_ivp(change, (0, times[-1]), start.ravel(), t_eval=times, rtol=1e-9, atol=1e-12)
    return 1 - 2 * solved.y.reshape(sites, sites, -1)[sites // 2, sites // 2].real


class Demonstration(Case):
    def test_a_curve_of_256_qubits_that_is_known(self):
        settings = {"times": {"to": 1.0, "count": 25}, "max_basis": 2000, "admit_basis": 4000, "state": {demo.SITE: "1"}}
        curve = demo.chain().run(Basis(256, {demo.OBSERVABLE: 1.0}), losses=False, **settings)
        self.assertLess(abs(curve.values - one_excitation(curve.times)).max(), 0.01)

    def test_the_decay(self):
        os.chdir(Path(self.path).parent)
        self.addCleanup(os.chdir, "/")
        files = "--save", "chain.toml", "--out", "decay.h5", "--plot", "decay.png"
        out = self.answered("demo", "--rounds", "1", *files)
        self.assertIn("yes: the curve of Z128 holds within 0.001: ", out)
        self.assertIn("pebblelinen run chain.toml --beside decay.h5 --plot both.png", out)
        self.assertTrue(Path("decay.png").read_bytes().startswith(b"\x89PNG"))
        (checked,) = results.load("decay.h5")
        # The file says the same: the curve can be made again from it, and after a change.
        file = load("chain.toml")
        self.assertEqual(file.model, demo.chain())
        self.assertEqual(modelfile.loads(demo.as_file(), "demo").run, file.run)
        rerun = file.model.run(file.basis, state=file.state, **file.run)
        self.assertEqual(rerun.values.tobytes(), checked.curve.values.tobytes())
        # A file that stands there is the user's.
        Path("chain.toml").write_text("mine")
        self.answered("demo", "--rounds", "1", "--save", "chain.toml")
        self.assertEqual(Path("chain.toml").read_text(), "mine")


if __name__ == "__main__":
    unittest.main()
