# SPDX-FileCopyrightText: 2026 The PPVM Authors
# SPDX-License-Identifier: Apache-2.0
"""The library of a source tree: dist/, which is kept with the sources, or target/shared/, which
tools/build-shared makes.

In each, made-from names the toolchain and has the checksums of the library and of the crates that it was made
from. A library is used only where these are the checksums of what stands there; otherwise it is built, with its
proofs.

As a program this prints the folder of the library, with --sources the checksums of the crates. It needs nothing
but Python."""
import hashlib
import os
import shutil
import subprocess
import sys
from collections.abc import Iterator
from pathlib import Path

ROOT = Path(__file__).resolve().parent.parent.parent
NAME = "libpebblelinen.so"
_STATIC = "libpebblelinen.a"
_FOLDERS = "dist", "target/shared"
# The crates whose functions the library has.
_EXPORTS = "pebblelinen_c", "step_c"


class NotBuilt(OSError):
    """There is no library of these sources, and none can be built."""


def is_tree() -> bool:
    """Whether this file stands among the library's sources."""
    return (ROOT / "crates.txt").is_file()


def sources() -> str:
    """A line for each crate of the library: a checksum, as `find CRATE -path CRATE/out -prune -o -type f -print0 |
    LC_ALL=C sort -z | xargs -0 sha256sum | sha256sum` gives it, and the crate. In out/ the toolchain keeps its work."""
    lines = (line.partition("#")[0].partition(":") for line in (ROOT / "crates.txt").read_text().splitlines())
    # A word after the name says what kind of crate it is.
    needs = {name.split()[0]: needed.split() for name, colon, needed in lines if colon}
    below: list[str] = []
    left = [*_EXPORTS]
    while left:
        name = left.pop(0)
        if name not in below:
            below.append(name)
            left += needs.get(name, [])
    return "".join(_crate(f"crates/{name}") for name in below)


def _crate(crate: str) -> str:
    files: list[str] = []
    for folder, folders, found in os.walk(ROOT / crate):
        if Path(folder) == ROOT / crate and "out" in folders:
            folders.remove("out")
        files += (os.path.join(folder, file) for file in found)
    names = sorted((os.path.relpath(file, ROOT) for file in files), key=os.fsencode)
    lines = "".join(_line(ROOT / name, name) for name in names)
    return f"{hashlib.sha256(os.fsencode(lines)).hexdigest()}  {crate}\n"


def _line(file: Path, name: str) -> str:
    return f"{hashlib.sha256(file.read_bytes()).hexdigest()}  {name}\n"


def current() -> Path | None:
    """The folder of a library that was made from the sources that stand here."""
    made_from = sources()
    return next((folder for folder in _folders() if not _changed(folder, made_from)), None)


def _folders() -> Iterator[Path]:
    return (ROOT / folder for folder in _FOLDERS)


def _changed(folder: Path, made_from: str) -> list[str]:
    """What is not as it was when the library in a folder was made."""
    try:
        made = (folder / "made-from").read_text(errors="replace").partition("\n")[2]
        now = "".join(_line(folder / name, name) for name in (_STATIC, NAME)) + made_from
    except OSError as error:
        return [os.path.relpath(error.filename, ROOT)]
    if made == now:
        return []
    lines = set(made.splitlines()) ^ set(now.splitlines())
    return sorted({line.partition("  ")[2] for line in lines} - {""}) or ["made-from"]


def library() -> Path:
    """The folder of the library of these sources, which is built where there is none."""
    found = current()
    if found is None:
        _build()
        found = current()
    if found is None:
        raise NotBuilt("the sources of the library changed while it was built: run tools/build-shared again")
    return found


def _build() -> None:
    if shutil.which("rt") is None:
        changed = _changed(ROOT / "dist", sources())
        more = f" and {len(changed) - 4} more" if len(changed) > 4 else ""
        raise NotBuilt(
            f"dist/ was not made from the sources that stand here ({', '.join(changed[:4])}{more}), and to build"
            " the library from them the Rattle toolchain is needed: put rt on the path, or bring back the sources"
            " that dist/ was made from with 'git checkout crates crates.txt dist'"
        )
    if subprocess.run([ROOT / "tools" / "build-shared"], stdout=2).returncode:
        raise NotBuilt("the library was not built from the sources that stand here: tools/build-shared failed")


def main() -> None:
    """Prints the library's folder, or the checksums of the crates."""
    if sys.argv[1:] == ["--sources"]:
        print(sources(), end="")
    else:
        try:
            print(library())
        except NotBuilt as error:
            sys.exit(f"pebblelinen: {error}")


if __name__ == "__main__":
    main()
