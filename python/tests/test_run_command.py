# SPDX-FileCopyrightText: 2026 The PPVM Authors
# SPDX-License-Identifier: Apache-2.0
"""The commands step, run and check: what they print for people and for programs, their exit status, what a model file says
of runs, and interrupts."""
import csv
import io
import json
import os
import signal
import subprocess
import sys
import time
import unittest
from pathlib import Path
from unittest import mock

import numpy as np

import pebblelinen
import test_command
import test_modelfile
from pebblelinen import Basis, Model, ProductState, demo, load, modelfile, runcommand, save

FILE = """
qubits = 3
protected = ["Z1"]
[hamiltonian]
"X0 X1" = 1.0
"Y1 Y2" = 0.5
"Z0" = 0.5
[[jumps]]
rate = 0.2
operator = { "X1" = 0.5, "Y1" = "0.5j" }
[observables]
site = "Z1"
both = { "Z0" = 0.5, "Z1" = 0.5 }
[state]
all = "1"
2 = [0, 0.6, 0.8]
[run]
times = { to = 0.4, count = 2 }
dt = 0.1
max_basis = 30
drop_tol = 1e-6
words = ["Z1"]
"""


class Case(test_command.Case):
    def setUp(self):
        super().setUp()
        self.write(FILE)
        self.file = load(self.path)

    def rows(self, *arguments):
        return list(csv.reader(io.StringIO(self.answered(*arguments, "--csv"))))

    def curve(self, name="site", **changed):
        file = self.file
        settings = {"protected": file.protected, "state": file.state, **file.run} | changed
        return file.model.run(file.observables[name], name=name, **settings)


class Run(Case):
    def test_for_people(self):
        lines = self.answered("run", self.path).splitlines()
        curve = self.curve()
        self.assertEqual(lines[0], "Model of 3 qubits: 3 Hamiltonian terms, 1 jump, 0 pairs")
        self.assertEqual(lines[2], f"site: 3 times, 4 steps, {curve.steps.products.sum()} products with the generator")
        self.assertEqual(lines[3].split(), ["time", "value", "words", "Z1", "estimate"])
        shown = [line.split() for line in lines[4:7]]
        self.assertEqual([row[0] for row in shown], ["0", "0.2", "0.4"])
        self.assertEqual([row[1] for row in shown], [f"{x:.6f}" for x in curve.values])
        self.assertEqual([row[2] for row in shown], [str(x) for x in curve.held_at()])
        self.assertEqual([row[4] for row in shown], [f"{x:.2g}" for x in curve.estimate])
        self.assertTrue(lines[8].startswith("both: 3 times"))

    def test_for_programs(self):
        answer = self.json("run", self.path)
        self.assertEqual([each["name"] for each in answer["curves"]], ["site", "both"])
        for each in answer["curves"]:
            curve = self.curve(each["name"])
            self.assertEqual(each["values"], curve.values.tolist())
            self.assertEqual(each["words"], {"Z1": curve.words["Z1"].tolist()})
            self.assertEqual(each["estimate"], curve.estimate.tolist())
            self.assertEqual(each["steps"]["leak_root_after"], curve.steps.leak_root_after.tolist())
            self.assertEqual(each["settings"], curve.settings)
            self.assertTrue(each["finished"])

    def test_as_a_table(self):
        header, *rows = self.rows("run", self.path)
        self.assertEqual(header, ["observable", "time", "value", "held", "leaked", "dropped", "estimate", "Z1"])
        curve = self.curve("both")
        self.assertEqual([row[0] for row in rows], ["site"] * 3 + ["both"] * 3)
        columns = curve.times, curve.values, curve.held_at(), curve.leaked, curve.dropped, curve.estimate, curve.words["Z1"]
        self.assertEqual([row[1:] for row in rows[3:]], [list(map(repr, row)) for row in zip(*(x.tolist() for x in columns))])

    def test_options_go_before_the_file(self):
        arguments = "--observable both --times 0.1 0.3 --dt 0.05 --max-basis 9 --admit-basis 12 --tau-add 1e-8 --drop-tol 1e-4"
        arguments += " --admissions 2 --state 01+ --words Z0 X1"
        (answer,) = self.json("run", self.path, *arguments.split())["curves"]
        changed = {"times": [0.1, 0.3], "dt": 0.05, "max_basis": 9, "admit_basis": 12, "tau_add": 1e-8, "drop_tol": 1e-4}
        curve = self.curve("both", **changed, admissions=2, state="01+", words=["Z0", "X1"])
        self.assertEqual((answer["values"], answer["settings"]), (curve.values.tolist(), curve.settings))

    def test_without_losses(self):
        answer = self.json("run", self.path, "--no-losses")["curves"][0]
        self.assertEqual(answer["estimate"], [0.0, None, None])
        self.assertIn("unknown", self.answered("run", self.path, "--no-losses"))

    def test_the_basis_is_the_observable(self):
        """Where a file has no observables."""
        self.write('qubits = 1\n[hamiltonian]\n"Z" = 0.5\n[basis]\n"X" = 1.0\n')
        curve = self.json("run", self.path, "--times", "1", "--max-basis", "4", "--state", "+")["curves"][0]
        self.assertEqual(curve["name"], "X0")
        self.assertAlmostEqual(curve["values"][0], np.cos(1.0), delta=1e-14)

    def test_the_demonstration(self):
        """Its model file says a run, as the command's help has it."""
        self.write(self.answered("demo", "--model"))
        (curve,) = self.json("run", self.path, "--times", "0", "0.1")["curves"]
        self.assertEqual((curve["name"], curve["values"][0]), ("Z128", 1.0))
        self.assertEqual(load(self.path).run, demo.RUN)
        self.assertEqual(load(self.path).state, ProductState(256, demo.STATE))

    def test_checkpoints(self):
        place = Path(self.path).with_name("run.npz")
        whole = self.answered("run", self.path, "--observable", "site", "--json")
        self.answered("run", self.path, "--observable", "site", "--checkpoint", str(place))
        self.assertTrue(place.exists())
        with mock.patch.object(pebblelinen.run.Run, "advance", side_effect=AssertionError("it is done")):
            again = self.answered("run", self.path, "--observable", "site", "--checkpoint", str(place), "--json")
        self.assertEqual(again, whole)
        # Each of several observables has its own.
        self.answered("run", self.path, "--checkpoint", str(place.with_name("all.npz")))
        names = sorted(path.name for path in place.parent.glob("*.npz"))
        self.assertEqual(names, ["all.both.npz", "all.site.npz", "run.npz"])
        status, _, error = self.run_command("run", self.path, "--observable", "both", "--checkpoint", str(place))
        self.assertEqual(status, 2)
        self.assertIn("the checkpoint of another run: it differs in name, observable", error)

    def test_states_that_look_like_options(self):
        for state, expected in ("-i", "l"), ("-", "-"), ("-01", "-01"), ("+i", "r"):
            (curve,) = self.json("run", self.path, "--observable", "site", "--state", state)["curves"]
            self.assertEqual(curve["settings"]["state"], expected if len(expected) == 3 else 3 * expected)

    def test_all_is_tested_before_anything_is_computed(self):
        """The last observable, and its checkpoint, too."""
        folder = Path(self.path).with_name("run.both.npz")
        folder.mkdir()
        with mock.patch.object(Model, "leakage", side_effect=AssertionError("asked")):
            for text, arguments, said in [
                (FILE, ["--max-basis", "1"], f"{self.path}: max_basis is 1, below the 2 words"),
                (FILE.replace("= 30", "= 1"), [], f"{self.path}: run.max_basis: max_basis is 1, below the 2 words"),
                (FILE.replace('both = { "Z0" = 0.5', 'both = { "Z0" = nan'), [], "refusal 7: the coefficient at position 0"),
            ]:
                self.write(text)
                for command in "run", "check":
                    status, out, error = self.run_command(command, self.path, *arguments)
                    self.assertEqual((status, out), (1 if "refusal" in said else 2, ""))
                    self.assertIn(said, error)
            self.write(FILE)
            status, out, error = self.run_command("run", self.path, "--checkpoint", str(folder.with_name("run.npz")))
            self.assertEqual((status, out), (2, ""))
            self.assertIn("run.both.npz: this is no file", error)
            status, out, error = self.run_command("check", self.path, "--tolerance", "-1")
            self.assertIn("the tolerance is -1.0", error)

    def test_bad_usage(self):
        for arguments, said in [
            (["--observable", "neither"], "there is no observable 'neither': known are site, both"),
            (["--times", "0.2", "0.1"], "times are to rise"),
            (["--max-basis", "1"], "max_basis is 1, below the 2 words of the observable"),
            (["--state", "00"], "has 2 letters"),
            (["--words", "Z"], "refusal 2"),
            (["--max-basis", "70000"], "refusal 8: max_basis is 70000"),
            (["--drop-tol", "nan"], "refusal 7: drop_tol is nan"),
        ]:
            status, out, error = self.run_command("run", self.path, *arguments)
            self.assertEqual((status, out), (1 if "refusal" in said else 2, ""), arguments)
            self.assertIn(said, error)
            self.assertIn(self.path, error)
        for text, said in [
            (FILE.replace("times", "#"), "times is missing: give the file [run] with times, or --times"),
            (FILE.replace("max_basis", "#"), "max_basis is missing: give the file [run] with max_basis, or --max-basis"),
            ('qubits = 1\n[hamiltonian]\n"Z" = 0.5', "this file has no observable to follow"),
        ]:
            self.write(text)
            status, out, error = self.run_command("run", self.path)
            self.assertEqual((status, out), (2, ""))
            self.assertIn(said, error)

    def test_an_interrupt(self):
        """The curve so far is printed, and the command ends with 130."""
        kept, calls = pebblelinen.run.Run.advance, []

        def advance(run):
            calls.append(1)
            if len(calls) == 4:
                raise KeyboardInterrupt
            kept(run)

        with mock.patch.object(pebblelinen.run.Run, "advance", advance):
            status, out, error = self.run_command("run", self.path, "--json")
        self.assertEqual((status, error), (130, "pebblelinen: interrupted: this is the curve so far\n"))
        (answer,) = json.loads(out)["curves"]
        self.assertEqual((answer["finished"], answer["times"], len(answer["steps"]["time"])), (False, [0.0, 0.2], 3))

    def test_an_interrupt_of_the_process(self):
        """By the signal, in the middle; and it goes on from its checkpoint."""
        self.write(modelfile.text_of(demo.chain(), Basis(256, {"Z128": 1.0})))
        place = Path(self.path).with_name("run.npz")
        arguments = ["run", self.path, "--times", "0", "30", "--dt", "0.01", "--max-basis", "300", "--no-losses", "--json"]
        process = subprocess.Popen(
            [sys.executable, "-m", "pebblelinen", *arguments, "--checkpoint", place],
            env={**os.environ, "PYTHONPATH": str(Path(pebblelinen.__file__).resolve().parent.parent)},
            stdout=subprocess.PIPE,
            stderr=subprocess.PIPE,
            text=True,
        )
        while not place.exists() and process.poll() is None:
            time.sleep(0.01)
        time.sleep(0.3)
        process.send_signal(signal.SIGINT)
        out, error = process.communicate(timeout=60)
        self.assertEqual((process.returncode, error), (130, "pebblelinen: interrupted: this is the curve so far\n"))
        (answer,) = json.loads(out)["curves"]
        done = len(answer["steps"]["time"])
        self.assertTrue(0 < done < 3000)
        self.assertEqual((answer["finished"], answer["times"]), (False, [0.0]))
        with np.load(place) as kept:
            self.assertEqual(int(kept["done"]), done)


class Check(Case):
    def test_yes_and_no(self):
        lines = self.answered("check", self.path, "--observable", "site").splitlines()
        self.assertEqual(lines[3].split(), "time value half the step twice the room exact".split())
        self.assertTrue(lines[-1].startswith("yes: the curve of site holds within 0.001"), lines[-1])
        status, out, error = self.run_command("check", self.path, "--max-basis", "3", "--tolerance", "1e-2")
        self.assertEqual((status, error), (3, ""))
        self.assertIn("no: the curve of site does not hold within 0.01, through the room", out)
        self.write(FILE + "tolerance = 1e-12\n")
        status, out, _ = self.run_command("check", self.path, "--json")
        answer = json.loads(out)
        self.assertEqual((status, answer["ok"], [each["tolerance"] for each in answer["checks"]]), (3, False, [1e-12] * 2))

    def test_for_programs(self):
        answer = self.json("check", self.path)["checks"][0]
        file = self.file
        checked = file.model.check(
            file.observables["site"], name="site", protected=file.protected, state=file.state, **file.run
        )
        self.assertEqual((answer["says"], answer["ok"]), (checked.says, True))
        for name in "moved_by_step", "moved_by_room", "band", "exact":
            self.assertEqual(answer[name], getattr(checked, name).tolist())
        for name in "curve", "half_step", "double_room":
            self.assertEqual(answer[name]["values"], getattr(checked, name).values.tolist())
        header, *rows = self.rows("check", self.path)
        self.assertEqual(header, ["observable", "time", "value", "moved_by_step", "moved_by_room", "exact", "ok"])
        self.assertEqual(rows[2][:2] + rows[2][5:], ["site", "0.4", repr(answer["exact"][2]), "True"])

    def test_an_interrupt(self):
        kept, calls = runcommand.compared, []

        def compared(*arguments, **named):
            calls.append(1)
            if len(calls) == 2:
                raise KeyboardInterrupt
            return kept(*arguments, **named)

        with mock.patch.object(runcommand, "compared", compared):
            status, out, error = self.run_command("check", self.path, "--json")
        self.assertEqual((status, error), (130, "pebblelinen: interrupted: these are the checks so far\n"))
        answer = json.loads(out)
        self.assertEqual((answer["ok"], [each["name"] for each in answer["checks"]]), (False, ["site"]))

    def test_help(self):
        _, out, _ = self.run_command("--help")
        for name in "step", "run", "check":
            self.assertIn(f"pebblelinen {name}", out)
            status, about, _ = self.run_command(name, "--help")
            self.assertEqual(status, 0)
            self.assertIn("[observables]", about)


class Step(test_command.Case):
    def test_step(self):
        self.write('qubits = 1\nprotected = ["X"]\n[hamiltonian]\n"Z" = 1.0\n[basis]\n"X" = 1.0\n')
        file = load(self.path)
        basis, products = file.model.step(file.basis, dt=0.5, max_basis=2, protected=file.protected)
        x, y = basis.coefficients.tolist()
        lines = self.answered("step", self.path, "--dt", "0.5", "--max-basis", "2").splitlines()
        self.assertEqual(
            lines[2:],
            [
                f"2 positions after the step dt = 0.5: {products} products with the generator, 1 word entered, 0 left",
                "  word            before   coefficient",
                f"  position 0: X0  1.0      {x!r}",
                f"  position 1: Y0  -       {y!r}",
            ],
        )
        answer = self.json("step", self.path, "--dt", "0.5", "--max-basis", "2")
        named = [{"word": "X0", "before": 1.0, "coefficient": x}, {"word": "Y0", "before": None, "coefficient": y}]
        self.assertEqual(answer, {"qubits": 1, "products": products, "entries": named, "left": []})
        table = list(csv.reader(io.StringIO(self.answered("step", self.path, "--dt", "0.5", "--max-basis", "2", "--csv"))))
        self.assertEqual(table[2], ["1", "Y0", "", repr(y)])

    def test_words_that_leave(self):
        self.write('qubits = 1\n[hamiltonian]\n"Z" = 1.0\n[basis]\n"X" = 1.0\n')
        arguments = ["step", self.path, "--dt", "0.5", "--max-basis", "1", "--admit-basis", "2", "--drop-tol", "0.3"]
        answer = self.json(*arguments)
        self.assertEqual(([each["word"] for each in answer["entries"]], answer["left"]), (["Y0"], ["X0"]))
        self.assertIn("1 word entered, 1 left", self.answered(*arguments))

    def test_saved(self):
        """The file goes on from there, with all that it says of runs."""
        self.write(FILE + '[basis]\n"Z1" = 1.0\n')
        out = str(Path(self.path).with_name("later.toml"))
        lines = self.answered("step", self.path, "--dt", "0.1", "--max-basis", "30", "--save", out).splitlines()
        self.assertEqual(lines[-1], f"written to {out} with the basis after the step")
        before, after = load(self.path), load(out)
        expected = before.model.step(before.basis, dt=0.1, max_basis=30, protected=before.protected).basis
        self.assertEqual(after.basis.by_site(), expected.by_site())
        self.assertEqual((after.model, after.protected, after.run, after.state), (before.model, before.protected, before.run, before.state))
        self.assertEqual({k: x.by_site() for k, x in after.observables.items()}, {k: x.by_site() for k, x in before.observables.items()})

    def test_errors(self):
        status, out, error = self.run_command("step", self.path, "--dt", "nan", "--max-basis", "4")
        self.assertEqual((status, error), (1, "pebblelinen: refusal 7: dt is nan: a finite number is needed\n"))
        self.assertEqual(self.run_command("step", self.path, "--dt", "1")[0], 2)


class Files(test_modelfile.Case):
    """What a model file says of runs, and mistakes in it, with the key."""

    def test_what_a_file_holds(self):
        file = self.load(FILE)
        self.assertEqual(file.observables["site"].by_site(), {"Z1": 1.0})
        self.assertEqual(file.observables["both"].by_site(), {"Z0": 0.5, "Z1": 0.5})
        self.assertEqual(file.state, ProductState(3, {"all": "1", 2: [0, 0.6, 0.8]}))
        self.assertEqual([*file.run], ["times", "dt", "max_basis", "drop_tol", "words"])
        self.assertEqual(file.run["times"], [0.0, 0.2, 0.4])
        bare = self.load("qubits = 2")
        self.assertEqual((bare.observables, bare.run, bare.state), ({}, {}, None))
        self.assertEqual(self.load('qubits = 2\nstate = "+i"').state, ProductState(2, "r"))
        whole = {"admit_basis": 9, "tau_add": 0.0, "admissions": 2, "tolerance": 0.1, "losses": False, "split": 2}
        lines = "\n".join(f"{key} = {json.dumps(x)}" for key, x in whole.items())
        self.assertEqual(self.load(f"qubits = 2\n[run]\n{lines}").run, whole)

    def test_saved_and_loaded(self):
        file = self.load(FILE)
        model, basis, protected, *_ = file
        save(self.path, model, basis, protected, observables=file.observables, run=file.run, state=file.state)
        again = load(self.path)
        self.assertEqual((again.model, again.run, again.state), (model, file.run, file.state))
        self.assertEqual(again.observables["both"].by_site(), file.observables["both"].by_site())
        odd = {'a.b "c" \\ \n é': Basis(3, [("Z0", 1.0), ("Z0", 0.5)])}
        save(self.path, model, observables=odd, state="01+")
        again = load(self.path)
        self.assertEqual(list(again.observables), list(odd))
        self.assertEqual(len(again.observables[next(iter(odd))]), 2)

    def test_mistakes(self):
        def run(line):
            return f"qubits = 2\n[run]\n{line}"

        for text, key, said in [
            (run("time = [1]"), "run", "the key 'time' is unknown: did you mean times?"),
            (run("times = [0, 1, 0.5]"), "run.times[2]", "times are to rise"),
            (run("times = 1"), "run.times", "a list is needed"),
            (run("times = { to = 1 }"), "run.times", "the keys to and count"),
            (run("times = { to = -1, count = 2 }"), "run.times.to", "above 0 is needed"),
            (run("times = { to = 1, count = 2.5 }"), "run.times.count", "a whole number is needed"),
            (run("dt = 0"), "run.dt", "a finite number above 0 is needed"),
            (run("max_basis = 1.5"), "run.max_basis", "a whole number is needed"),
            (run('drop_tol = "1"'), "run.drop_tol", "a real number is needed"),
            (run("admissions = 0"), "run.admissions", "from 1 to"),
            (run('words = "Z0"'), "run.words", "a list is needed"),
            (run('words = ["Z0", "Z0Z1"]'), "run.words[1]", "no letter with its qubit"),
            (run("tolerance = 0"), "run.tolerance", "above 0 is needed"),
            (run("losses = 1"), "run.losses", "true or false is needed"),
            ("qubits = 2\nrun = 3", "run", "this is to be a table: [run]"),
            ("qubits = 2\nobservables = []", "observables", "this is to be a table: [observables]"),
            ("qubits = 2\n[observables]\nz = {}", "observables.z", "this observable has no words"),
            ('qubits = 2\n[observables]\nz = { "Z0" = "1" }', 'observables.z."Z0"', "a real number is needed"),
            ('qubits = 2\n[state]\n2 = "0"', "state.2", "qubit 2 is outside the register of 2 qubits"),
            ('qubits = 2\n[state]\nsome = "0"', "state.some", "is no qubit"),
            ('qubits = 2\n[state]\nall = [1, 1, 0]', "state.all", "Bloch vector of length"),
            ('qubits = 2\nstate = "012"', "state", "has 3 letters"),
        ]:
            with self.subTest(said, key=key):
                self.wrong(text, key, said)
        self.refused(run("max_basis = 65537"), 8, "run.max_basis", "max_basis is 65537: at most 65536")
        self.refused(run("tau_add = nan"), 7, "run.tau_add", "tau_add is nan: a finite number is needed")
        said = "the word 'Z2' has a letter at qubit 2, and the register has 2 qubits, 0 to 1"
        self.refused('qubits = 2\n[observables]\nz = "Z2"', 2, "observables.z", said)
        self.refused(run('words = ["Z2"]'), 2, "run.words[0]", said)


if __name__ == "__main__":
    unittest.main()
