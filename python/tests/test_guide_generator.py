# SPDX-FileCopyrightText: 2026 The PPVM Authors
# SPDX-License-Identifier: Apache-2.0
"""The example of docs/USING.md that needs the generator."""
import unittest

import test_guide


class Generator(test_guide.Case):
    def test_example(self):
        (blocks,) = [blocks for title, blocks in test_guide.sections().items() if title.startswith("Example 3")]
        self.run_section(blocks)


if __name__ == "__main__":
    unittest.main()
