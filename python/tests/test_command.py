# SPDX-FileCopyrightText: 2026 The PPVM Authors
# SPDX-License-Identifier: Apache-2.0
"""The command: what it prints for people and for programs, and its exit status."""
import contextlib
import csv
import io
import json
import os
import signal
import subprocess
import sys
import tempfile
import time
import unittest
from pathlib import Path

import pebblelinen
from pebblelinen import _progress, command

MODEL = """
qubits = 3
protected = ["Z2"]
[hamiltonian]
"X0 X1" = 1.0
"Z0" = 0.5
[[jumps]]
rate = 0.5
operator = { "X0" = 0.5, "Y0" = "0.5j" }
[basis]
"Z0" = 1.0
"X1 Z2" = 0.25
"""


class Case(unittest.TestCase):
    def setUp(self):
        folder = tempfile.TemporaryDirectory()
        self.addCleanup(folder.cleanup)
        self.path = str(Path(folder.name) / "device.toml")
        self.write(MODEL)

    def write(self, text):
        Path(self.path).write_text(text)

    def run_command(self, *arguments):
        """Exit status, standard output, standard error."""
        out, error = io.StringIO(), io.StringIO()
        with contextlib.redirect_stdout(out), contextlib.redirect_stderr(error):
            try:
                status = command.main(arguments)
            except SystemExit as end:
                status = end.code
        return status, out.getvalue(), error.getvalue()

    def answered(self, *arguments):
        status, out, error = self.run_command(*arguments)
        self.assertEqual((status, error), (0, ""))
        return out

    def json(self, *arguments):
        return json.loads(self.answered(*arguments, "--json"))


class Commands(Case):
    def test_action(self):
        out = self.answered("action", self.path, "Z0", "I0")
        self.assertEqual(
            out.splitlines(),
            [
                "Model of 3 qubits: 2 Hamiltonian terms, 1 jump, 0 pairs",
                "",
                "action on Z0: 3 words",
                "  I0      0.5",
                "  Z0     -0.5",
                "  Y0 X1   2.0",
                "",
                "action on I0: 0 words",
            ],
        )
        terms = [{"word": "I0", "value": 0.5}, {"word": "Z0", "value": -0.5}, {"word": "Y0 X1", "value": 2.0}]
        answer = {"qubits": 3, "actions": [{"word": "Z0", "terms": terms}]}
        self.assertEqual(self.json("action", self.path, "ZII"), answer)
        words = [each["word"] for each in self.json("action", self.path)["actions"]]
        self.assertEqual(words, ["Z0", "X1 Z2"])

    def test_leakage(self):
        out = self.answered("leakage", self.path, "--max-basis", "10")
        self.assertEqual(
            out.splitlines(),
            [
                "Model of 3 qubits: 2 Hamiltonian terms, 1 jump, 0 pairs",
                "basis: 2 positions, 1 protected word; room for 8 words more",
                "",
                "leakage: 2 words, largest 2.0",
                "  I0      0.5",
                "  Y0 X1   2.0",
            ],
        )
        answer = self.json("leakage", self.path, "--max-basis", "3", "--tau-add", "0.1")
        terms = [{"word": "Y0 X1", "value": 2.0}]
        self.assertEqual(answer, {"qubits": 3, "room": 1, "full": True, "largest": 2.0, "terms": terms})
        answer = self.json("leakage", self.path, "--max-basis", "2", "--admit-basis", "4")
        self.assertEqual(len(answer["terms"]), 2)

    def csv(self, *arguments):
        return list(csv.reader(io.StringIO(self.answered(*arguments, "--csv"))))

    def test_csv(self):
        out = self.answered("action", self.path, "Z0", "X1 Z2", "--csv")
        self.assertEqual(out.splitlines()[:2], ["observable,word,value", "Z0,I0,0.5"])
        for arguments in ["action", self.path, "Z0"], ["leakage", self.path, "--max-basis", "10"]:
            terms = self.json(*arguments)
            terms = terms["terms"] if "terms" in terms else terms["actions"][0]["terms"]
            found = [(row[-2], float(row[-1])) for row in self.csv(*arguments)[1:]]
            self.assertEqual(found, [(each["word"], each["value"]) for each in terms])
        header, *rows = self.csv("generator", self.path)
        self.assertEqual(header, ["row", "column", "value", "row word", "column word"])
        answer = self.json("generator", self.path)
        entries = [(each["row"], each["column"], each["value"]) for each in answer["entries"]]
        self.assertEqual([(int(row), int(column), float(x)) for row, column, x, *_ in rows], entries)
        for row, column, _, *words in rows:
            self.assertEqual(words, [answer["basis"][int(row)], answer["basis"][int(column)]])
        header, row = self.csv("degree", self.path, "--dt", "0.1")
        answer = self.json("degree", self.path, "--dt", "0.1")
        self.assertEqual(header, ["dt", "m", "s", "norm", "mu"])
        self.assertEqual([float(x) for x in row], [0.1, *(answer[name] for name in header[1:])])
        header, *rows = self.csv("demo", "--rounds", "2")
        self.assertEqual(header[:2], ["number", "leaked"])
        self.assertEqual([row[0] for row in rows], ["1", "2"])

    def test_csv_has_every_line(self):
        terms = "\n".join(f'"Z0 {letter}{q}" = 1.0' for q in range(1, 30) for letter in "XZ")
        self.write(f"qubits = 30\n[hamiltonian]\n{terms}")
        self.assertEqual(len(self.csv("action", self.path, "X0")), 1 + 58)

    def test_one_form_at_a_time(self):
        status, out, error = self.run_command("action", self.path, "--csv", "--json")
        self.assertEqual((status, out), (2, ""))
        self.assertIn("not allowed with", error)
        status, out, error = self.run_command("demo", "--model", "--csv")
        self.assertEqual((status, out), (2, ""))
        self.assertIn("--model prints a model file", error)
        self.write(MODEL.replace("rate = 0.5", "rate = -0.5"))
        status, out, error = self.run_command("action", self.path, "--csv")
        self.assertEqual((status, out), (1, ""))
        self.assertIn("refusal 5", error)

    def test_long_lists_are_cut(self):
        terms = "\n".join(f'"Z0 {letter}{q}" = 1.0' for q in range(1, 30) for letter in "XZ")
        self.write(f"qubits = 30\n[hamiltonian]\n{terms}")
        lines = self.answered("action", self.path, "X0").splitlines()
        self.assertEqual(lines[-1], "  .. and 18 more: --all shows them")
        self.assertEqual(len(self.answered("action", self.path, "X0", "--all").splitlines()), 3 + 58)
        self.assertEqual(len(self.json("action", self.path, "X0")["actions"][0]["terms"]), 58)

    def test_help_is_enough_to_begin(self):
        status, out, _ = self.run_command("--help")
        self.assertEqual(status, 0)
        for name in "demo", "action", "leakage", "generator", "degree", "evolve":
            self.assertIn(f"pebblelinen {name}", out)
            status, about, _ = self.run_command(name, "--help")
            self.assertEqual(status, 0)
            self.assertTrue(name == "demo" or "[hamiltonian]" in about)

    def test_version(self):
        self.assertRegex(pebblelinen.__version__, r"^\d+\.\d+\.\d+$")
        self.assertEqual(self.run_command("--version"), (0, f"pebblelinen {pebblelinen.__version__}\n", ""))

    def test_the_demo_model_can_be_read(self):
        self.write(self.answered("demo", "--model"))
        terms = self.json("action", self.path)["actions"][0]["terms"]
        self.assertEqual(len(terms), 6)


class Errors(Case):
    def refused(self, number, said, *arguments):
        status, out, error = self.run_command(*arguments)
        self.assertEqual((status, out), (1, ""))
        self.assertEqual(error, f"pebblelinen: {said}\n")
        status, out, error = self.run_command(*arguments, "--json")
        self.assertEqual(status, 1)
        told = json.loads(out)["error"]
        self.assertEqual((told["refusal"], told["said"]), (number, said))
        return told

    def test_refusals_end_with_1(self):
        self.write(MODEL.replace("rate = 0.5", "rate = -0.5"))
        told = self.refused(
            5,
            f"{self.path}: jumps[0].rate: refusal 5: jump 0 has the rate -0.5, below 0",
            "action",
            self.path,
        )
        self.assertEqual(told["values"], {"jump": 0})
        self.assertEqual(told["where"], f"{self.path}: jumps[0].rate")
        self.write(MODEL)
        said = "refusal 2: the word 'X3' has a letter at qubit 3, and the register has 3 qubits, 0 to 2"
        told = self.refused(2, said, "action", self.path, "X3")
        self.assertEqual(told["values"], {"expected": 3, "got": 4, "qubit": 3})
        said = "refusal 8: max_basis is 65537: at most 65536"
        self.refused(8, said, "leakage", self.path, "--max-basis", "65537")
        said = "refusal 7: tau_add is nan: a finite number is needed"
        self.refused(7, said, "leakage", self.path, "--max-basis", "9", "--tau-add", "nan")

    def test_bad_usage_ends_with_2(self):
        for arguments, said in [
            ([], "required"),
            (["act"], "invalid choice"),
            (["action"], "FILE"),
            (["action", self.path + "x"], "No such file"),
            (["action", self.path, "X0X1"], "no letter with its qubit"),
            (["leakage", self.path], "--max-basis"),
            (["leakage", self.path, "--max-basis", "many"], "invalid int"),
            (["leakage", self.path, "--max-basis", "-1"], "max_basis is -1"),
            (["leakage", self.path, "--max-basis", "9", "--tau-add", "x"], "invalid float"),
            (["demo", "--rounds", "-1"], "--rounds is -1"),
        ]:
            status, out, error = self.run_command(*arguments)
            self.assertEqual((status, out), (2, ""), arguments)
            self.assertIn(said, error)
        self.write("qubits = 3\nhamiltonain = {}")
        status, out, error = self.run_command("action", self.path, "--json")
        self.assertEqual(status, 2)
        self.assertIn("did you mean hamiltonian?", json.loads(out)["error"]["said"])
        self.write("qubits = 3")
        self.assertEqual(self.run_command("action", self.path)[0], 2)

    def test_without_the_library(self):
        environment = {**os.environ, "PEBBLELINEN_LIBRARY": self.path + "x"}
        ran = self.process("action", self.path, env=environment)
        self.assertEqual(ran.returncode, 2)
        self.assertIn(f"no shared object at {self.path}x: PEBBLELINEN_LIBRARY is to name one", ran.stderr)
        environment["PEBBLELINEN_LIBRARY"] = self.path
        ran = self.process("action", self.path, env=environment)
        self.assertIn("cannot be loaded", ran.stderr)

    def process(self, *arguments, **options):
        environment = options.pop("env", os.environ)
        python = Path(pebblelinen.__file__).resolve().parent.parent
        return subprocess.run(
            [sys.executable, "-m", "pebblelinen", *arguments],
            env={**environment, "PYTHONPATH": str(python)},
            capture_output=True,
            text=True,
            timeout=60,
            **options,
        )

    def test_as_a_process(self):
        ran = self.process("action", self.path, "Z0")
        self.assertEqual((ran.returncode, ran.stderr), (0, ""))
        self.assertEqual(self.process("action", self.path, "z0").returncode, 1)
        self.assertEqual(self.process("action", self.path, os.fsdecode(b"\xff")).returncode, 1)


class Readers(Case):
    """Readers that have gone, as head does: the command ends as other programs do, and says nothing."""

    def start(self, *arguments, out):
        python = Path(pebblelinen.__file__).resolve().parent.parent
        return subprocess.Popen(
            [sys.executable, "-m", "pebblelinen", *arguments],
            env={**os.environ, "PYTHONPATH": str(python)},
            stdout=out,
            stderr=subprocess.PIPE,
            text=True,
        )

    def ended_quietly(self, process):
        self.assertEqual(process.stderr.read(), "")
        self.assertEqual(process.wait(60), -signal.SIGPIPE)
        process.stderr.close()

    def test_after_a_line(self):
        # More than a pipe holds.
        process = self.start("action", self.path, *["Z0"] * 2000, out=subprocess.PIPE)
        self.assertEqual(process.stdout.readline(), "Model of 3 qubits: 2 Hamiltonian terms, 1 jump, 0 pairs\n")
        process.stdout.close()
        self.ended_quietly(process)

    def test_before_the_first_line(self):
        for arguments in ["action", self.path], ["action", self.path, "--json"], ["demo", "--model"]:
            with self.subTest(arguments):
                reader, writer = os.pipe()
                os.close(reader)
                process = self.start(*arguments, out=writer)
                os.close(writer)
                self.ended_quietly(process)


class Progress(unittest.TestCase):
    def told(self, seconds, terminal=False):
        error = io.StringIO()
        error.isatty = lambda: terminal
        with contextlib.redirect_stderr(error), _progress.working("leakage"):
            time.sleep(seconds)
        return error.getvalue()

    def test_only_work_over_a_second_is_told(self):
        self.assertEqual(self.told(0.1), "")
        self.assertEqual(self.told(1.2), "pebblelinen: leakage, 1 s\n")
        self.assertEqual(self.told(1.2, True), "\rpebblelinen: leakage, 1 s\r\033[K")


if __name__ == "__main__":
    unittest.main()
