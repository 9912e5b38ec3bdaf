# SPDX-FileCopyrightText: 2026 The PPVM Authors
# SPDX-License-Identifier: Apache-2.0
"""What the package costs beside the C call: leakage, generator, CSR, Matrix Market and evolution of a chain of 256 qubits
over 65,536 words, building a large model, and loading.

usage: python/run bench [--words N] [--rounds R] [--seed S]

The chain has XX, YY and ZZ couplings, Z fields, and the jumps (X + iY)/2 and Z on each qubit; words have one
to four letters on six neighbouring qubits. Package and C call take turns in one process, each lending
tables of its own; the C call's are ready before the clock starts. The shortest of the rounds counts. The
first call of the package, which finds out how long its tables must be, is told apart.

The text of Matrix Market is also timed, beyond the generator that it is made from, beside a loop of fprintf over the
same entries to /dev/null (fprintf_loop.c) and beside scipy's mmwrite of the counts to memory.

The evolution is held to the definition, bit for bit, with scipy's products and the norm and degree of tests/taylor.py, and
timed beside its parts, the matrix by rows and as many products, and beside scipy's expm_multiply on the same matrix.

A run of 40 steps, whose basis grows from one word to 4,096, is timed beside the sum of the library's calls in it.

The large model has 4,096 Hamiltonian terms and 4,096 jumps of two terms, words on two neighbours; the package
builds it from words that were read before, the C call from their texts; and changes one rate of it."""
import argparse
import ctypes
import io
import random
import subprocess
import sys
import tempfile
import time
from pathlib import Path
from unittest import mock

import numpy as np

import taylor
from pebblelinen import Basis, Model, Word, _library, _tables, product
from pebblelinen._lanes import WORD_LANES, split

QUBITS = 256
LIMIT = 65_536
# More words than one action touches, and more candidates than are held at a time.
TOUCHED = 1024
CANDIDATES = 1 << 17
# More entries in a column than there are on average.
ENTRIES = 16
# A time step.
STEP = 0.05


def chain(rng):
    def number():
        return 1 + rng.randrange(1000) / 1024

    neighbours = [(f"{p}{q} {p}{q + 1}", number()) for q in range(QUBITS - 1) for p in "XYZ"]
    fields = [(f"Z{q}", number()) for q in range(QUBITS)]
    decay = [(number(), {f"X{q}": 0.5, f"Y{q}": 0.5j}) for q in range(QUBITS)]
    dephasing = [(number(), f"Z{q}") for q in range(QUBITS)]
    return Model(QUBITS, neighbours + fields, decay + dephasing)


def local_words(rng, count):
    found = {}
    while len(found) < count:
        first = rng.randrange(QUBITS - 5)
        x = z = 0
        for _ in range(rng.randint(1, 4)):
            bit = 1 << first + rng.randrange(6)
            letter = rng.choice("XYZ")
            x, z = x & ~bit | bit * (letter != "Z"), z & ~bit | bit * (letter != "X")
        found[*split(x), *split(z)] = None
    return np.array(list(found), np.uint64)


def c_call(name, *arguments):
    """A call with all its arguments ready: the address and length of each array."""
    arrays = [array for array in arguments if isinstance(array, np.ndarray)]
    passed = []
    for argument in arguments:
        if isinstance(argument, np.ndarray):
            passed += [argument.ctypes.data, argument.size]
        else:
            passed.append(argument)
    function = _library._function(name)

    def call():
        assert arrays
        answer = function(*passed)
        assert answer.status.refusal == 0, answer.status.refusal
        if hasattr(answer, "model"):
            return answer.model.hamiltonian
        return next(getattr(answer, name) for name in ("bytes", "products", "count") if hasattr(answer, name))

    return call


def tables(lengths, types):
    return [
        np.zeros(getattr(lengths, name), types.get(name, np.uint64)) for name, _ in lengths._fields_
    ]


def leakage_call(model, basis):
    lengths = _library.call("leakage_sizes", QUBITS, len(basis), 0, TOUCHED, CANDIDATES)
    floats = dict.fromkeys("work_sums cand_sums".split(), np.float64)
    return c_call(
        "leakage_with_prune",
        *model._lent(),
        basis.lanes,
        basis.coefficients,
        len(basis),
        np.zeros(0, np.uint64),
        _library.Limits(LIMIT, 0, 0, 0, 0.0),
        *tables(lengths, floats),
        np.zeros(WORD_LANES * LIMIT, np.uint64),
        np.zeros(LIMIT),
    )


def generator_call(name, model, basis, out):
    """A call over the basis that writes to these tables, for so many entries."""
    entries = ENTRIES * len(basis)
    lengths = _library.call("generator_sizes", QUBITS, len(basis), TOUCHED, entries)
    types = dict(work_sums=np.float64, stage_values=np.float64, stage_rows=np.uint32, stage_columns=np.uint32)
    return c_call(
        name,
        *model._lent(),
        basis.lanes,
        len(basis),
        *tables(lengths, types),
        *out(entries),
    )


def evolution_call(model, basis):
    lengths = _library.call("evolution_sizes", QUBITS, len(basis), TOUCHED, ENTRIES * len(basis))
    return c_call(
        "evolve",
        *model._lent(),
        basis.lanes,
        basis.coefficients,
        len(basis),
        STEP,
        0.0,
        *tables(lengths, _tables._TYPES),
        np.zeros(len(basis)),
    )


def of_entries(entries):
    return np.zeros(entries, np.uint32), np.zeros(entries, np.uint32), np.zeros(entries)


def of_text(entries):
    return (np.zeros(_library.call("matrix_market_text", entries), np.uint8),)


def fprintf_call(matrix, path):
    """The C loop over a generator's entries."""
    with tempfile.TemporaryDirectory() as made:
        shared = Path(made, "fprintf_loop.so")
        source = Path(__file__).with_name("fprintf_loop.c")
        subprocess.run(["gcc", "-O2", "-shared", "-fPIC", "-o", shared, source, "-lm"], check=True)
        loop = ctypes.CDLL(str(shared)).write_entries
    loop.restype = ctypes.c_size_t
    tables = [np.ascontiguousarray(table) for table in (matrix.row, matrix.col, matrix.data)]
    pointers = [ctypes.c_void_p(table.ctypes.data) for table in tables]
    sizes = ctypes.c_size_t(matrix.shape[0]), ctypes.c_size_t(matrix.nnz)
    return lambda: (loop(str(path).encode(), *sizes, *pointers), len(tables))[0]


def matrix_market(model, basis, rounds):
    """What a text takes beyond the generator, as a part of what the loop of fprintf takes."""
    import scipy.io

    matrix = model.generator(basis)
    with tempfile.TemporaryDirectory() as made:
        path = Path(made, "chain.mtx")
        fprintf_call(matrix, path)()
        assert path.read_bytes() == model.matrix_market(basis), "both write the same"
    generator = generator_call("generator", model, basis, of_entries)
    text = generator_call("matrix_market", model, basis, of_text)
    loop = fprintf_call(matrix, "/dev/null")
    best = dict.fromkeys([generator, text, loop], float("inf"))
    for _ in range(rounds):
        for call in best:
            best[call] = min(best[call], timed(call)[0])
    counts = matrix.copy()
    counts.data = np.rint(matrix.data * 2.0**32).astype(np.int64)
    scipys, _ = timed(lambda: scipy.io.mmwrite(io.BytesIO(), counts))
    beyond = best[text] - best[generator]
    print(
        f"Matrix Market, {matrix.nnz} entries, {text()} bytes, beyond the generator's {best[generator] * 1e3:.1f} ms:"
        f" {beyond * 1e3:.1f} ms, fprintf {best[loop] * 1e3:.1f} ms ({beyond / best[loop]:.2f} of it),"
        f" scipy's mmwrite {scipys * 1e3:.0f} ms"
    )
    return beyond / best[loop]


def evolution(model, basis, rounds):
    """What an evolution takes, as a part of what its matrix and its products take."""
    import scipy.sparse.linalg

    csr, c = model.csr(basis), basis.coefficients
    found, products = model.evolve(basis, dt=STEP)
    raws = np.bincount(model.generator(basis).col, abs(model.generator(basis).data))
    m, s = taylor.degree(STEP * raws.max(), 0.0)
    v = c.copy()
    for _ in range(s):
        b = v
        for j in range(1, m + 1):
            b = (csr @ b) * (STEP / (s * j))
            v = v + b
    assert (found.coefficients.tobytes(), products) == (v.tobytes(), m * s), "it is the definition's"
    out, exponent = np.zeros(len(basis)), STEP * csr
    calls = {
        "evolve": lambda: model.evolve(basis, dt=STEP),
        "csr": lambda: model.csr(basis),
        "product": lambda: product(csr, c, out=out),
        "scipy": lambda: scipy.sparse.linalg.expm_multiply(exponent, c),
    }
    best = dict.fromkeys(calls, float("inf"))
    for _ in range(rounds):
        for name, call in calls.items():
            best[name] = min(best[name], timed(call)[0])
    off = abs(calls["scipy"]() - found.coefficients).max()
    parts = best["csr"] + products * best["product"]
    print(
        f"evolution by dt = {STEP}, {products} products over {csr.nnz} entries: {best['evolve'] * 1e3:.1f} ms; CSR"
        f" {best['csr'] * 1e3:.1f} ms and {products} products of {best['product'] * 1e3:.2f} ms are {parts * 1e3:.1f} ms"
        f" ({best['evolve'] / parts:.2f} of it); scipy's expm_multiply {best['scipy'] * 1e3:.1f} ms, off by at most {off:.1e}"
    )
    return best["evolve"] / parts


def running(model, rounds):
    """What a run costs beyond the library's calls, with its losses and without, as a part of these."""
    kept, spent = _library.call, 0.0

    def call(*arguments):
        nonlocal spent
        seconds, answer = timed(lambda: kept(*arguments))
        spent += seconds
        return answer

    observable = Basis(QUBITS, {f"Z{QUBITS // 2}": 1.0})
    worst = 0.0
    for losses in True, False:
        found = []
        for _ in range(rounds):
            spent = 0.0
            with mock.patch.object(_library, "call", call):
                seconds, curve = timed(
                    lambda: model.run(
                        observable, times=[2.0], dt=STEP, max_basis=4096, drop_tol=1e-6, losses=losses, progress=False
                    )
                )
            found.append((seconds, spent))
        seconds, spent = min(found)
        more = seconds / spent - 1
        worst = max(worst, more)
        what = "a run with its losses" if losses else "a run without losses"
        print(f"{what}: {len(curve.steps.dt)} steps to {len(curve.basis)} words in {seconds:.3f} s, {100 * more:.1f} % more than the library")
    return worst


def items(rng):
    """Hamiltonian and jumps of a large model."""

    def word():
        q = rng.randrange(QUBITS - 1)
        return Word({q: rng.choice("XYZ"), q + 1: rng.choice("XYZ")}, n=QUBITS)

    hamiltonian = [(word(), 1 + rng.random()) for _ in range(4096)]
    jumps = [(rng.random(), [(word(), rng.random()), (word(), 1j * rng.random())]) for _ in range(4096)]
    return hamiltonian, jumps


def building_call(hamiltonian, jumps):
    terms = [term for _, operator in jumps for term in operator]
    texts = "".join(word.text for word, _ in hamiltonian + terms)
    sizes = _library.call("model_sizes", len(hamiltonian), len(jumps), 2)
    floats = dict.fromkeys("h_coeffs rates t_numbers work_numbers".split(), np.float64)
    return c_call(
        "build_model",
        np.frombuffer(texts.encode(), np.uint8),
        np.full(len(hamiltonian) + len(terms), QUBITS, np.uint64),
        np.array([x for _, x in hamiltonian]),
        np.array([rate for rate, _ in jumps]),
        np.full(len(jumps), 2, np.uint64),
        np.array([x for _, x in terms], complex).view(float),
        QUBITS,
        *tables(sizes, floats),
    )


def timed(call):
    # The processor's time, since other work on the machine is none of ours.
    start = time.process_time()
    count = call()
    return time.process_time() - start, count


def compare(what, package, direct, rounds):
    first, count = timed(package)
    best = {package: first, direct: float("inf")}
    for _ in range(rounds):
        for call in direct, package:
            seconds, listed = timed(call)
            assert listed == count, (listed, count)
            best[call] = min(best[call], seconds)
    over = best[package] / best[direct] - 1
    print(
        f"{what}: C call {best[direct] * 1e3:.1f} ms, package {best[package] * 1e3:.1f} ms"
        f" ({over * 100:+.1f} %), its first call {first * 1e3:.1f} ms, {count} listed"
    )
    return over


def retuning(given, rounds):
    """What a model with another rate takes, as a part of what building it takes."""
    model = Model(QUBITS, *given)
    build, retune = (
        min(timed(call)[0] for _ in range(rounds))
        for call in (lambda: Model(QUBITS, *given), lambda: model.with_rate(jump=7, rate=0.5))
    )
    print(f"another rate: {retune * 1e3:.2f} ms ({retune / build * 100:.1f} % of building)")
    return retune / build


def loading():
    """Seconds until a word was read, in a fresh process: the clock's and the processor's."""
    program = (
        "import time; clocks = time.perf_counter, time.process_time; start = [c() for c in clocks];"
        "import pebblelinen; pebblelinen.Word('X', n=1);"
        "print(*(c() - s for c, s in zip(clocks, start)))"
    )
    ran = [subprocess.run([sys.executable, "-c", program], capture_output=True, text=True) for _ in range(15)]
    return [min(times) for times in zip(*(map(float, each.stdout.split()) for each in ran))]


def main():
    parser = argparse.ArgumentParser(prog="python/run bench")
    parser.add_argument("--words", type=int, default=65_536)
    parser.add_argument("--rounds", type=int, default=9)
    parser.add_argument("--seed", type=int, default=1)
    options = parser.parse_args()
    rng = random.Random(options.seed)
    model = chain(rng)
    words = local_words(rng, options.words)
    basis = Basis.from_arrays(QUBITS, words, [rng.uniform(-0.5, 0.5) for _ in words])
    print(f"{model}, {len(basis)} words, limit {LIMIT}")

    import scipy.sparse  # noqa: F401  loaded once, not in the first call

    comparisons = [
        ("leakage", lambda: len(model.leakage(basis, max_basis=LIMIT)), lambda: leakage_call(model, basis)),
        (
            "generator",
            lambda: model.generator(basis).nnz,
            lambda: generator_call("generator", model, basis, of_entries),
        ),
        (
            "CSR",
            lambda: model.csr(basis).nnz,
            lambda: generator_call(
                "build_csr", model, basis, lambda k: (np.zeros(len(basis) + 1, np.uint64), *of_entries(k)[1:])
            ),
        ),
        (
            "Matrix Market",
            lambda: len(model.matrix_market(basis)),
            lambda: generator_call("matrix_market", model, basis, of_text),
        ),
        ("evolution", lambda: model.evolve(basis, dt=STEP).products, lambda: evolution_call(model, basis)),
    ]
    worst = max(
        compare(what, package, direct(), options.rounds) for what, package, direct in comparisons
    )
    written = matrix_market(model, basis, options.rounds)
    evolved = evolution(model, basis, options.rounds)
    ran = running(model, options.rounds)
    given = items(rng)
    built = compare(
        "building", lambda: len(Model(QUBITS, *given).hamiltonian), building_call(*given), 10 * options.rounds
    )
    retuned = retuning(given, 10 * options.rounds)
    clock, processor = loading()
    print(f"loading: {clock:.3f} s, {processor:.3f} s of the processor")
    return 0 if worst < 0.05 and written <= 1 and evolved < 1.1 and ran < 0.1 and built < 1 and retuned < 0.05 and processor < 0.3 else 1


if __name__ == "__main__":
    sys.exit(main())
