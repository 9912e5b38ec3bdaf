# SPDX-FileCopyrightText: 2026 The PPVM Authors
# SPDX-License-Identifier: Apache-2.0
"""The package as users install it: from the tree and from a wheel, each into a fresh virtual environment, without
network. numpy and scipy are those of the system."""
import os
import re
import subprocess
import sys
import tempfile
import unittest
import zipfile
from pathlib import Path
from unittest import mock

import pebblelinen
from pebblelinen import Basis, LibraryMissing, Model, _tree, command

ROOT = Path(__file__).resolve().parent.parent.parent
OFFLINE = ["--no-index", "--no-build-isolation", "--no-cache-dir", "--disable-pip-version-check"]

ANSWER = """
import pebblelinen
from pebblelinen import _library
print(pebblelinen.__file__)
print(_library.path())
print(pebblelinen.Model(1, {"X0": 1.0}).action("Z0"))
"""

# What a type checker is to accept of the installed package, which it knows only where that says that it is typed.
TYPED = """
from pebblelinen import Basis, Model

model: Model = Model(2, {"X0 X1": 1.0}, [(0.1, {"X0": 0.5, "Y0": 0.5j})])
largest: float = model.leakage(Basis(2, {"Z0": 1.0}), max_basis=8).largest()
"""


def run(*arguments, folder):
    """What a process prints that knows nothing of this tree."""
    environment = {name: x for name, x in os.environ.items() if name not in ("PYTHONPATH", "PEBBLELINEN_LIBRARY")}
    ran = subprocess.run(arguments, cwd=folder, env=environment, capture_output=True, text=True)
    if ran.returncode:
        raise AssertionError(f"{arguments}: {ran.returncode}\n{ran.stdout}{ran.stderr}")
    return ran.stdout


class Installed(unittest.TestCase):
    @classmethod
    def setUpClass(cls):
        # The wheel has the library in dist/: it is not to be built here.
        assert _tree.current() == ROOT / "dist", "dist/ is not what its sources make: run tools/update-dist"
        folder = tempfile.TemporaryDirectory()
        cls.addClassCleanup(folder.cleanup)
        cls.folder = Path(folder.name)
        run(sys.executable, "-m", "pip", "wheel", *OFFLINE, "--no-deps", "-w", ".", str(ROOT), folder=cls.folder)
        (cls.wheel,) = cls.folder.glob("*.whl")

    def test_the_wheel(self):
        self.assertEqual(self.wheel.name, f"pebblelinen-{pebblelinen.__version__}-py3-none-linux_x86_64.whl")
        with zipfile.ZipFile(self.wheel) as wheel:
            held = {name.split("/")[-1]: name for name in wheel.namelist()}
            self.assertEqual(wheel.read(held[_tree.NAME]), (ROOT / "dist" / _tree.NAME).read_bytes())
            self.assertEqual(held["py.typed"], "pebblelinen/py.typed")
            about = wheel.read(held["METADATA"]).decode()
            modules = {name for name in held if name.endswith(".py")}
        self.assertEqual(modules, {file.name for file in Path(pebblelinen.__file__).parent.glob("*.py")})
        needed = re.findall("^Requires-Dist: (.*)$", about, re.MULTILINE)
        self.assertEqual([each for each in needed if ";" not in each], ["numpy"])
        extras = {
            "scipy": ["scipy"],
            "plot": ["matplotlib (>=3.6)"],
            "results": ["h5py", "xarray"],
            "progress": ["tqdm"],
            "all": ["scipy", "matplotlib (>=3.6)", "h5py", "xarray", "tqdm"],
        }
        self.assertEqual(
            {name: {each.split(" ;")[0] for each in needed if each.endswith(f"extra == '{name}'")} for name in extras},
            {name: set(packages) for name, packages in extras.items()},
        )

    def test_installed_from_the_wheel(self):
        self.installed("from-wheel", self.wheel)

    def test_installed_from_the_tree(self):
        self.installed("from-tree", ROOT)

    def installed(self, name, what):
        environment = self.folder / name
        run(sys.executable, "-m", "venv", "--system-site-packages", environment, folder=self.folder)
        python = str(environment / "bin" / "python")
        run(python, "-m", "pip", "install", *OFFLINE, str(what), folder=self.folder)

        package, library, *action = run(python, "-c", ANSWER, folder=self.folder).splitlines()
        self.assertTrue(Path(package).is_relative_to(environment), package)
        self.assertEqual(Path(library), Path(package).with_name(_tree.NAME))
        self.assertEqual(action, ["Y0   2.0"])

        program = str(environment / "bin" / "pebblelinen")
        said = run(program, "--version", folder=self.folder)
        self.assertEqual(said, f"pebblelinen {pebblelinen.__version__}\n")
        said = run(program, "demo", "--rounds", "2", folder=self.folder)
        self.assertIn("generator over 26 positions:", said)

        (self.folder / "typed.py").write_text(TYPED)
        checked = "-m", "mypy", "--strict", "--cache-dir", str(ROOT / "target" / "mypy")
        run(sys.executable, *checked, "--python-executable", python, "typed.py", folder=self.folder)


class WithoutScipy(unittest.TestCase):
    def setUp(self):
        hidden = mock.patch.dict(sys.modules, {"scipy": None, "scipy.sparse": None})
        hidden.start()
        self.addCleanup(hidden.stop)

    def test_only_matrices_need_it(self):
        model, basis = Model(1, {"X0": 1.0}), Basis(1, {"Z0": 1.0})
        basis.admit(model.leakage(basis, max_basis=4), limit=4)
        self.assertEqual(model.action("Z0").by_site(), {"Y0": 2.0})
        self.assertEqual(model.degree(basis, dt=0.1).s, 1)
        self.assertEqual(len(model.evolve(basis, dt=0.1).basis), 2)
        for matrix in model.csr, model.generator:
            with self.assertRaisesRegex(LibraryMissing, r"pip install 'pebblelinen\[scipy\]'"):
                matrix(basis)

    def test_the_command_says_so(self):
        with mock.patch("sys.stdout"):
            self.assertEqual(command.main(["demo", "--rounds", "1"]), 0)
        with tempfile.NamedTemporaryFile(suffix=".toml") as file, mock.patch("sys.stderr") as error:
            file.write(b'qubits = 1\n[basis]\n"X" = 1.0\n')
            file.flush()
            self.assertEqual(command.main(["generator", file.name]), 2)
        self.assertIn("pebblelinen: a generator is a scipy matrix", str(error.write.call_args_list))


if __name__ == "__main__":
    unittest.main()
