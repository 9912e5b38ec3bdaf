# SPDX-FileCopyrightText: 2026 The PPVM Authors
# SPDX-License-Identifier: Apache-2.0
"""Which library a source tree uses: that of dist/ or one that was built, and never an old one. Tried on a small tree
of few sources with a stand-in for the toolchain, which counts its builds."""
import os
import shutil
import subprocess
import tempfile
import timeit
import unittest
from pathlib import Path

from pebblelinen import _tree

ROOT = Path(__file__).resolve().parent.parent.parent
FILES = "libpebblelinen.a", "libpebblelinen.so", "made-from"

CRATES = """\
# From below to above.
refusal:
word: refusal
pebblelinen: word
pebblelinen_c staticlib: word pebblelinen
step: word
step_c staticlib: word step
examples: pebblelinen io
"""

TOOLCHAIN = """\
#!/bin/sh
kit=$(dirname "$0")
echo "$*${RT_JOBS+, $RT_JOBS jobs}" >>"$kit/asked"
case $1 in
version) echo "a toolchain" ;;
doc) echo "$kit/START-HERE.md" ;;
ci)
    if [ -e "$kit/broken" ]; then
        echo "no proof of this"
        exit 1
    fi
    ls crates >>"$kit/asked"
    for crate in $(sed -n 's/:.*//p' crates.txt); do
        mkdir -p "crates/$crate/out/rlib/$crate.rlib"
        echo "rt: $crate proved"
    done
    ;;
esac
"""

# What links a crate that `rt ci` proved, over the libraries below it, which stand where it left them.
BUILD = """\
#!/bin/sh
kit=$(dirname "$(dirname "$0")")
asked="$1 $3"
while [ $# -gt 2 ]; do
    case $1 in
    --jobs) asked="$asked, $2 jobs" ;;
    --crate-name) crate=$2 ;;
    --extern)
        case $2 in
        std=*) ;;
        *) [ -d "${2#*=}" ] || exit 1 ;;
        esac
        ;;
    esac
    shift
done
echo "$asked" >>"$kit/asked"
ar x "$STATIC" "$crate.o"
ar rcsD "$2" "$crate.o"
"""

MODEL = 'qubits = 1\n[hamiltonian]\n"X0" = 1.0\n'


class Case(unittest.TestCase):
    @classmethod
    def setUpClass(cls):
        folder = tempfile.TemporaryDirectory()
        cls.addClassCleanup(folder.cleanup)
        cls.folder = Path(folder.name).resolve()
        cls.whole = cls.folder / "whole"

    def setUp(self):
        self.tree = self.folder / "tree"
        self.addCleanup(shutil.rmtree, self.tree)
        if not self.whole.exists():
            self.make()
            self.tree.rename(self.whole)
        shutil.copytree(self.whole, self.tree)

    def make(self):
        """A tree whose library is in dist/."""
        shutil.copytree(ROOT / "tools", self.tree / "tools")
        package = self.tree / "python" / "pebblelinen"
        shutil.copytree(ROOT / "python" / "pebblelinen", package, ignore=shutil.ignore_patterns("__pycache__"))
        shutil.copy(ROOT / "pebblelinen", self.tree)
        self.write("crates.txt", CRATES)
        for crate in "refusal", "word", "pebblelinen", "pebblelinen_c", "step", "step_c", "examples":
            self.write(f"crates/{crate}/src/lib.rt", crate)
        self.write("device.toml", MODEL)
        self.write("rt/rt", TOOLCHAIN).chmod(0o755)
        self.write("rt/bin/rattle", BUILD).chmod(0o755)
        self.ran("tools/update-dist")
        self.assertEqual(self.builds(), 1)
        shutil.rmtree(self.tree / "target")

    def write(self, name, text):
        file = self.tree / name
        file.parent.mkdir(parents=True, exist_ok=True)
        file.write_text(text)
        return file

    def run_in_tree(self, *command, path=None):
        """Runs a command of the tree, with the toolchain on the path, or with another path."""
        environment = {**os.environ, "STATIC": str(ROOT / "dist" / "libpebblelinen.a")}
        environment["PATH"] = path or f"{self.tree}/rt:{os.environ['PATH']}"
        for name in "PEBBLELINEN_LIBRARY", "PYTHONPATH", "RT_JOBS":
            environment.pop(name, None)
        program, *arguments = command
        return subprocess.run(
            [self.tree / program, *arguments], cwd=self.tree, env=environment, capture_output=True, text=True
        )

    def ran(self, *command, **options):
        done = self.run_in_tree(*command, **options)
        self.assertEqual(done.returncode, 0, done.stderr)
        return done

    def answered(self, **options):
        """What the command says on standard error while it answers."""
        done = self.ran("pebblelinen", "action", "device.toml", "Z0", **options)
        self.assertEqual(done.stdout.splitlines()[-1], "  Y0   2.0")
        return done.stderr

    def bare(self):
        """A path with what the command needs of the system: neither the toolchain nor gcc is on it."""
        programs = self.tree / "programs"
        programs.mkdir(exist_ok=True)
        for program in "bash", "dirname", "realpath":
            if not (programs / program).exists():
                (programs / program).symlink_to(shutil.which(program))
        return str(programs)

    def asked(self):
        return (self.tree / "rt" / "asked").read_text().splitlines()

    def builds(self):
        return len([line for line in self.asked() if line.startswith("build pebblelinen_c")])


class Libraries(Case):
    def test_dist_serves_without_toolchain_and_gcc(self):
        self.assertEqual(self.answered(path=self.bare()), "")
        self.assertFalse((self.tree / "target").exists())

    def test_dist_serves_with_the_toolchain(self):
        self.assertEqual(self.answered(), "")
        self.assertEqual(self.builds(), 1)

    def test_what_the_library_is_not_made_from_may_change(self):
        self.write("crates/examples/src/lib.rt", "changed")
        self.write("crates/further/src/lib.rt", "new")
        self.write("crates/word/out/kept", "work of the toolchain")
        self.answered()
        self.assertEqual(self.builds(), 1)

    def test_changed_sources_without_toolchain(self):
        self.write("crates/word/src/lib.rt", "changed")
        done = self.run_in_tree("pebblelinen", "action", "device.toml", "Z0", path=self.bare())
        self.assertEqual((done.returncode, done.stdout), (2, ""))
        self.assertEqual(
            done.stderr,
            "pebblelinen: dist/ was not made from the sources that stand here (crates/word), and to build the library"
            " from them the Rattle toolchain is needed: put rt on the path, or bring back the sources that dist/ was"
            " made from with 'git checkout crates crates.txt dist'\n",
        )
        self.write("crates/word/src/lib.rt", "word")
        self.assertEqual(self.answered(path=self.bare()), "")

    def test_changed_sources_are_built_once_on_all_cores(self):
        self.write("crates/word/src/lib.rt", "changed")
        self.assertIn("building the library with its proofs", self.answered())
        cores = subprocess.run(["nproc"], capture_output=True, text=True).stdout.strip()
        # Proved are the crates below the exports, and nothing else.
        proved = self.asked()[-8:]
        self.assertEqual(proved[:5], [f"ci, {cores} jobs", "pebblelinen", "refusal", "step", "word"])
        self.assertEqual(proved[5:], ["doc", *(f"build {crate}, {cores} jobs" for crate in ("pebblelinen_c", "step_c"))])
        self.assertEqual(self.builds(), 2)
        self.assertEqual(self.answered(), "")
        self.assertEqual(self.builds(), 2)
        # An older one in target/ is no better than one in dist/.
        self.write("crates/word/src/lib.rt", "changed again")
        self.answered()
        self.assertEqual(self.builds(), 3)

    def test_every_way_to_change_sources(self):
        lib = self.tree / "crates" / "refusal" / "src" / "lib.rt"
        changes = [
            ("a file more", lambda: self.write("crates/refusal/specs/more.antt", "")),
            ("a file less", lambda: lib.unlink()),
            ("a name", lambda: lib.rename(lib.with_name("other.rt"))),
            ("a crate less", lambda: self.write("crates.txt", CRATES.replace("word: refusal", "word:"))),
            ("an export", lambda: self.write("crates/step_c/src/lib.rt", "changed")),
            ("the shared object", lambda: self.damage("libpebblelinen.so")),
            ("the static library", lambda: self.damage("libpebblelinen.a")),
            ("no checksums", lambda: (self.tree / "dist" / "made-from").unlink()),
            ("other checksums", lambda: self.damage("made-from")),
            ("no library", lambda: shutil.rmtree(self.tree / "dist")),
        ]
        for what, change in changes:
            with self.subTest(what):
                shutil.rmtree(self.tree)
                shutil.copytree(self.whole, self.tree)
                self.assertEqual(self.library(), "dist")
                change()
                self.assertEqual(self.library(), "target/shared")
                self.assertEqual(self.builds(), 2)

    def library(self):
        """The folder of the library that is used."""
        self.write("find", "#!/bin/sh\nexec /usr/bin/python3 -P python/pebblelinen/_tree.py\n").chmod(0o755)
        return str(Path(self.ran("find").stdout.strip()).relative_to(self.tree))

    def damage(self, name):
        with open(self.tree / "dist" / name, "ab") as file:
            file.write(b"\n\xff")

    def test_a_build_that_fails(self):
        self.write("crates/word/src/lib.rt", "wrong")
        self.write("rt/broken", "")
        done = self.run_in_tree("pebblelinen", "action", "device.toml", "Z0", "--json")
        self.assertEqual(done.returncode, 2)
        self.assertIn("no proof of this", done.stderr)
        self.assertIn("the library was not built from the sources that stand here", done.stderr)
        self.assertTrue(done.stdout.startswith('{"error"'))
        self.assertFalse((self.tree / "target" / "shared" / "made-from").exists())


    def test_comparing_is_quick(self):
        """On this tree, at each start."""
        self.assertLess(min(timeit.repeat(_tree.current, number=1, repeat=5)), 0.3)

    def test_no_wheel_has_an_old_library(self):
        for file in "pyproject.toml", "setup.py", "README.md", "LICENSE", "NOTICE":
            shutil.copy(ROOT / file, self.tree)
        script = "exec /usr/bin/python3 -m pip wheel --no-index --no-deps --no-build-isolation --no-cache-dir ."
        self.write("wheel", f"#!{shutil.which('bash')}\n{script}\n").chmod(0o755)
        self.ran("wheel", path=self.bare())
        self.write("crates/word/src/lib.rt", "changed")
        done = self.run_in_tree("wheel", path=self.bare())
        self.assertEqual(done.returncode, 1)
        self.assertIn("not made from the sources that stand here (crates/word)", done.stdout + done.stderr)


class Dist(Case):
    def test_what_is_kept_is_what_was_built(self):
        self.ran("tools/update-dist", "--check")
        self.assertEqual(self.builds(), 2)
        for file in FILES:
            with self.subTest(file):
                kept = (self.tree / "dist" / file).read_bytes()
                self.assertEqual(kept, (self.tree / "target" / "shared" / file).read_bytes())
        made_from = (self.tree / "dist" / "made-from").read_text().splitlines()
        self.assertEqual(made_from[0].split(), ["toolchain:", "a", "toolchain"])
        names = [line.split()[1] for line in made_from[1:]]
        crates = "pebblelinen_c", "step_c", "word", "pebblelinen", "step", "refusal"
        self.assertEqual(names, [*FILES[:2], *(f"crates/{crate}" for crate in crates)])

    def test_checksums_are_those_of_sha256sum(self):
        made_from = (self.tree / "dist" / "made-from").read_text().splitlines()
        line = next(line for line in made_from if line.endswith(" crates/word"))
        files = "find crates/word -path crates/word/out -prune -o -type f -print0"
        script = f"{files} | LC_ALL=C sort -z | xargs -0 sha256sum | sha256sum"
        ran = subprocess.run(["bash", "-c", script], cwd=self.tree, capture_output=True, text=True)
        self.assertEqual(line.split(), [ran.stdout.split()[0], "crates/word"])

    def test_any_difference_is_told(self):
        for file in FILES:
            with self.subTest(file):
                path = self.tree / "dist" / file
                kept = path.read_bytes()
                path.write_bytes(kept[:200] + bytes([kept[200] ^ 1]) + kept[201:])
                done = self.run_in_tree("tools/update-dist", "--check")
                self.assertEqual(done.returncode, 1)
                said = f"dist/{file} is not what its sources make: run tools/update-dist and commit dist/"
                self.assertEqual(done.stderr.splitlines()[-1], said)
                path.write_bytes(kept)
        self.ran("tools/update-dist", "--check")

    def test_a_toolchain_that_changed_is_told(self):
        self.write("rt/rt", TOOLCHAIN.replace("a toolchain", "another one")).chmod(0o755)
        self.assertEqual(self.run_in_tree("tools/update-dist", "--check").returncode, 1)
        self.ran("tools/update-dist")
        self.ran("tools/update-dist", "--check")

    def test_linking_gives_the_same_bytes_everywhere(self):
        made = []
        for folder in "one", "two/three":
            static = self.tree / folder / f"lib{folder[0]}.a"
            static.parent.mkdir(parents=True)
            shutil.copy(ROOT / "dist" / "libpebblelinen.a", static)
            self.ran("tools/link-shared", str(static), f"{folder}/made.so")
            made.append((self.tree / folder / "made.so").read_bytes())
        self.assertEqual(made[0], made[1])
        self.assertEqual(made[0], (self.tree / "dist" / "libpebblelinen.so").read_bytes())
        self.assertNotIn(os.fsencode(self.tree), made[0])


if __name__ == "__main__":
    unittest.main()
