# SPDX-FileCopyrightText: 2026 The PPVM Authors
# SPDX-License-Identifier: Apache-2.0
"""Makes the pictures of docs/USING.md anew: runs its examples, and keeps what they draw beside it, with fewer colours so
that it is small."""
import contextlib
import io
import os
import tempfile

from PIL import Image

import test_guide


def main() -> None:
    """Runs each section that shows a picture, and keeps its pictures."""
    for title, blocks in test_guide.sections().items():
        names = [text for language, text in blocks if language == "picture"]
        if not names:
            continue
        with tempfile.TemporaryDirectory() as folder:
            os.chdir(folder)
            case = test_guide.Case()
            with contextlib.redirect_stdout(io.StringIO()):
                case.run_section([block for block in blocks if block[0] != "picture"])
            for name in names:
                kept = test_guide.GUIDE.with_name(name)
                few = Image.open(name).convert("RGB").quantize(256, dither=Image.Dither.NONE)
                few.save(kept, optimize=True)
                print(f"{title}: docs/{name}, {kept.stat().st_size} bytes")
            os.chdir("/")


if __name__ == "__main__":
    main()
