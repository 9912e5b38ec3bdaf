# SPDX-FileCopyrightText: 2026 The PPVM Authors
# SPDX-License-Identifier: Apache-2.0
"""Reads Matrix Market files of random generators by Octave, in the way that docs/USING.md names, and compares every entry.

usage: python/run octave [--models N] [--seed S]

Octave hands back each number by its bits. What is expected is computed in exact numbers from the generator's entries
(tests/market.py): counts of 2^-32, which are all exact in f64."""
import argparse
import math
import random
import struct
import subprocess
import sys
import tempfile
from pathlib import Path

import dense
import market
from pebblelinen import Basis, Model

READER = """
arguments = argv();
for k = 1:numel(arguments)
  file = fopen(arguments{k});
  fgetl(file);
  size_line = fscanf(file, "%d", 3);
  entries = fscanf(file, "%d %d %f", [3, Inf]);
  fclose(file);
  if isempty(entries) entries = zeros(3, 0); end
  generator = sparse(entries(1, :), entries(2, :), entries(3, :) * 2^-32, size_line(1), size_line(2));
  printf("file %d %d %d %d\\n", size_line, columns(entries));
  [row, column, value] = find(generator);
  for i = 1:numel(value) printf("%d %d %s\\n", row(i), column(i), num2hex(value(i))); end
end
"""


def random_case(rng):
    """A model and a basis: of few qubits, or with numbers of every size that can be written."""
    if rng.random() < 0.5:
        n = rng.randint(1, 3)
        texts = dense.register(n)
        return Model(n, *dense.random_model(rng, n, False)), Basis(n, dict.fromkeys(rng.sample(texts, len(texts) // 2), 0.0))
    n = rng.randint(1, 40)
    model = Model(n, [(f"Z{q}", math.ldexp(rng.uniform(0.5, 1.0), rng.randint(-40, 29))) for q in range(n)])
    return model, Basis(n, [(f"{letter}{q}", 0.0) for q in range(n) for letter in "XY"])


def expected(model, basis):
    """What Octave is to find: the size line and how many lines follow; then the entries that are not 0, by column."""
    listed = market.entries(model.generator(basis))
    values = [(row, column, float(whole * market.UNIT)) for row, column, whole in listed if whole]
    values.sort(key=lambda entry: (entry[1], entry[0]))
    lines = [f"{row} {column} {struct.pack('>d', value).hex()}" for row, column, value in values]
    return [f"file {len(basis)} {len(basis)} {len(listed)} {len(listed)}", *lines]


def main():
    parser = argparse.ArgumentParser(prog="python/run octave")
    parser.add_argument("--models", type=int, default=100)
    parser.add_argument("--seed", type=int, default=1)
    options = parser.parse_args()
    rng = random.Random(options.seed)
    cases = [random_case(rng) for _ in range(options.models)]
    with tempfile.TemporaryDirectory() as folder:
        files = [Path(folder, f"{place}.mtx") for place in range(len(cases))]
        for file, (model, basis) in zip(files, cases):
            model.write_matrix_market(basis, file)
        reader = Path(folder, "reader.m")
        reader.write_text(READER)
        command = ["octave-cli", "--quiet", "--no-init-file", reader, *files]
        found = subprocess.run(command, capture_output=True, text=True, check=True).stdout.splitlines()
    wanted = [line for case in cases for line in expected(*case)]
    wrong = [pair for pair in zip(found, wanted) if pair[0] != pair[1]]
    for ours, theirs in wrong[:10]:
        print(f"Octave has {ours}, expected {theirs}")
    entries = len(wanted) - len(cases)
    print(f"{len(cases)} files, {entries} entries that are not 0, {len(found)} lines of {len(wanted)}: {len(wrong)} wrong")
    return 1 if wrong or len(found) != len(wanted) else 0


if __name__ == "__main__":
    sys.exit(main())
