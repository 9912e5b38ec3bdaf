# SPDX-FileCopyrightText: 2026 The PPVM Authors
# SPDX-License-Identifier: Apache-2.0
"""The examples of docs/USING.md, as they stand: each section is run from top to bottom, and what it prints is held
to what the guide says."""
import contextlib
import io
import os
import re
import shlex
import tempfile
import unittest
from pathlib import Path

import numpy as np
from PIL import Image

from pebblelinen import command

GUIDE = Path(__file__).resolve().parent.parent.parent / "docs" / "USING.md"
BLOCK = re.compile(r"^```(\w+)\n(.*?)^```$", re.MULTILINE | re.DOTALL)
PICTURE = re.compile(r"^!\[.+\]\((\S+)\)$", re.MULTILINE)


def sections():
    """The blocks of each section that has some: (language, text) one after another; a picture that it shows is one."""
    parts = re.split(r"^## (.*)$", GUIDE.read_text(), flags=re.MULTILINE)
    found = {title: BLOCK.findall(text) for title, text in zip(parts[1::2], parts[2::2])}
    shown = {title: [("picture", name) for name in PICTURE.findall(text)] for title, text in zip(parts[1::2], parts[2::2])}
    return {title: blocks + shown[title] for title, blocks in found.items() if blocks}


class Case(unittest.TestCase):
    def run_section(self, blocks):
        names, printed = {"__name__": "__main__"}, ""
        for language, text in blocks:
            if language == "python":
                self.assertEqual(printed, "", "the guide does not say what was printed")
                printed = self.printed(lambda: exec(compile(text, str(GUIDE), "exec"), names))
            elif language == "text":
                self.assertEqual(printed, text)
                printed = ""
            elif language == "toml":
                name = re.match(r"# (\S+)\n", text)[1]
                Path(name).write_text(text)
            elif language == "console":
                self.run_commands(text)
            elif language == "picture":
                self.compare(text)
            else:
                self.fail(f"a block of {language}")
        self.assertEqual(printed, "", "the guide does not say what was printed")

    def run_commands(self, text):
        for line, expected in re.findall(r"^\$ (.*)\n((?:(?!\$ ).*\n)*)", text, re.MULTILINE):
            program, *arguments = shlex.split(line)
            self.assertEqual(program, "./pebblelinen")
            self.assertEqual(self.printed(lambda: command.main(arguments)), expected)

    def compare(self, name):
        """The picture beside the guide is the one that was drawn, with fewer colours."""
        kept = GUIDE.with_name(name)
        self.assertLess(kept.stat().st_size, 40_000)
        drawn, shown = (np.asarray(Image.open(path).convert("RGB"), float) for path in (name, kept))
        self.assertEqual(drawn.shape, shown.shape)
        said = f"docs/{name} is not what the guide draws: python/run pictures makes it anew"
        self.assertLess(abs(drawn - shown).mean(), 1.0, said)

    def printed(self, call):
        out = io.StringIO()
        with contextlib.redirect_stdout(out):
            call()
        return out.getvalue()

    def setUp(self):
        folder = tempfile.TemporaryDirectory()
        self.addCleanup(folder.cleanup)
        self.addCleanup(os.chdir, os.getcwd())
        os.chdir(folder.name)


class Guide(Case):
    def test_examples(self):
        done = 0
        for title, blocks in sections().items():
            if not title.startswith("Example 3"):
                with self.subTest(title):
                    self.run_section(blocks)
                    done += 1
        self.assertEqual(done, 7)


if __name__ == "__main__":
    unittest.main()
