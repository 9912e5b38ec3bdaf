# SPDX-FileCopyrightText: 2026 The PPVM Authors
# SPDX-License-Identifier: Apache-2.0
"""What editors, type checkers and help() are told: complete type hints, and a docstring for everything public."""
import importlib
import inspect
import os
import pkgutil
import subprocess
import sys
import unittest
from pathlib import Path

import pebblelinen

ROOT = Path(__file__).resolve().parent.parent.parent


class Types(unittest.TestCase):
    def test_hints_are_complete_and_agree(self):
        ran = subprocess.run(
            [sys.executable, "-m", "mypy", "--package", "pebblelinen"],
            cwd=ROOT,
            env={**os.environ, "MYPYPATH": str(ROOT / "python")},
            capture_output=True,
            text=True,
        )
        self.assertEqual(ran.returncode, 0, ran.stdout + ran.stderr)


class Docstrings(unittest.TestCase):
    def public(self):
        """(name, thing) of everything public: modules, what they define, and methods and properties."""
        for info in pkgutil.iter_modules(pebblelinen.__path__):
            if info.name == "__main__":
                continue
            module = importlib.import_module(f"pebblelinen.{info.name}")
            yield module.__name__, module
            for name, thing in vars(module).items():
                if name.startswith("_") or getattr(thing, "__module__", None) != module.__name__:
                    continue
                if inspect.isfunction(thing) or inspect.isclass(thing):
                    yield f"{module.__name__}.{name}", thing
                if inspect.isclass(thing):
                    yield from self.members(thing)

    def members(self, class_):
        for name, member in vars(class_).items():
            member = getattr(member, "__func__", member)
            if not name.startswith("_") and (inspect.isfunction(member) or isinstance(member, property)):
                yield f"{class_.__module__}.{class_.__qualname__}.{name}", member

    def test_everything_public_has_one(self):
        found = dict(self.public())
        self.assertGreater(len(found), 80)
        self.assertEqual([name for name, thing in found.items() if not inspect.getdoc(thing)], [])

    def test_what_is_exported_has_its_own(self):
        for name in pebblelinen.__all__:
            thing = getattr(pebblelinen, name)
            if inspect.isclass(thing):
                # Not one that was made for it, or that of its base.
                self.assertFalse((thing.__doc__ or f"{name}(").startswith(f"{name}("), name)


if __name__ == "__main__":
    unittest.main()
