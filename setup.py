# SPDX-FileCopyrightText: 2026 The PPVM Authors
# SPDX-License-Identifier: Apache-2.0
"""Puts the library into the wheel: that of dist/, or one that is built, with its proofs, where the sources are others.
All else is in pyproject.toml."""
import runpy
import shutil
from pathlib import Path

from setuptools import setup
from setuptools.command.build_py import build_py

ROOT = Path(__file__).resolve().parent
TREE = runpy.run_path(str(ROOT / "python" / "pebblelinen" / "_tree.py"))


class BuildWithLibrary(build_py):
    """The modules, from nothing, and the shared object beside them."""

    def run(self) -> None:
        made = Path(self.build_lib) / "pebblelinen"
        if not self.editable_mode:
            # What an earlier build left there would be packed too.
            shutil.rmtree(made, ignore_errors=True)
        super().run()
        if not self.editable_mode:
            shutil.copy(TREE["library"]() / TREE["NAME"], made)


(ROOT / "target" / "wheel").mkdir(parents=True, exist_ok=True)
setup(cmdclass={"build_py": BuildWithLibrary})
