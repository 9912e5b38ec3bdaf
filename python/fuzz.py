# SPDX-FileCopyrightText: 2026 The PPVM Authors
# SPDX-License-Identifier: Apache-2.0
"""Damaged calls of the package: whatever is passed ends in an answer or in an exception of the package.

usage: python/run fuzz [--calls N] [--seed S]"""
import argparse
import collections
import random
import sys
import warnings

import numpy as np

import pebblelinen
from pebblelinen import Basis, Model, PebblelinenError, Position, Qubit, Terms, Word, _library

NAN, INF = float("nan"), float("inf")


class Odd:
    """It can be iterated, compared and shown only with an error."""

    def __iter__(self):
        raise TypeError("no")

    def __repr__(self):
        raise ValueError("no")


def junk(rng):
    lanes = np.zeros((2, 8), np.uint64)
    lanes[0, [0, 4]] = 1, 2
    lanes[1, [0, rng.randrange(1, 8)]] = rng.getrandbits(64), rng.getrandbits(64)
    numbers = np.array([0.5, rng.choice([NAN, INF, -INF, 1e308, 0.0])])
    return rng.choice(
        [
            None, True, -1, 0, 1, 2, 3, 128, 129, 256, 257, 65_536, 65_537, 1 << 63, 1 << 64, 10**400, 10**5000, 0.0, -0.0, 0.5, 1e308,
            NAN, INF, -INF, 1j, complex(NAN, 1), "", "X", "x", "XYZ", "X0 Z2", "X5", "X0 X0", "é", "X\udcff", "\0",
            "X" * 200, "X99999", b"XYZ", bytearray(b"X"), [], {}, (), set(), [[]], [None], ["X"], ["XYZ"], [1, 2],
            [("XYZ", 1)], [("XYZ", NAN)], {"XYZ": 1}, {"XYZ": 1j}, {0: "X"}, {0: "XX"}, {-1: "X"}, {5: "Z"},
            {Position(0): "X"}, Position(0), Qubit(0), object(), Odd(), range(3), iter("XYZ"), lanes, lanes[0],
            lanes[:, :3], lanes[:, :4], lanes.astype(float), lanes.T, lanes[::-1], lanes.view(np.int64), lanes[:0], numbers,
            numbers[::2], numbers.astype(">f8"), numbers.astype(complex), numbers.astype(object), numbers[0],
            numbers.reshape(1, 2), np.ma.array(numbers), np.array("X"), np.array(["XYZ", "ZZZ"]), np.array(1.0),
            np.uint64(3), np.float32(0.5), np.bool_(True), np.datetime64("2000"), Word("XYZ", n=3), Word("X", n=1),
            Word.from_lanes([1 << 40, *7 * [0]], n=3), Basis(3, {"XYZ": 1}), Basis(1), Model(3), type, len,
            np.zeros((2, 2)), np.zeros((3, 4)), [(["XYZ"], [[1]])], [(["XYZ"], [[NAN]])], [(1, "XYZ")],
            [(1, {"XYZ": 1, "ZZI": 1j})], [(-1, "XYZ")], [(["XYZ"] * 65, np.zeros((65, 65)))],
            Terms(3, lanes, numbers), Terms(3, lanes, [1.0]), Terms(3, np.arange(7, dtype=np.uint64), [1]),
        ]
    )  # fmt: skip


def sound_or(rng, sound):
    return junk(rng) if rng.random() < 0.4 else sound


def calls(rng):
    def any_of(*sound):
        return sound_or(rng, rng.choice(sound))

    model = Model(3, {"XXI": 1.0, "Z2": 0.5}, [(0.5, {"X0": 0.5, "Y0": 0.5j})])
    basis = Basis(3, {"XYZ": 1.0, "Z0": -0.5, "IXI": 0.25})
    words = ["XYZ", "X0 Z2", {1: "Y"}]
    found = {
        "Word": lambda: Word(any_of(*words), n=any_of(3)),
        "Word.from_lanes": lambda: Word.from_lanes(any_of([1, 0, 0, 0, 2, 0, 0, 0], [1, 0, 2, 0]), n=any_of(3)).text,
        "Word.from_codes": lambda: Word.from_codes(any_of([0, 1, 2], b"\0\3")),
        "Word.times": lambda: Word("XYZ", n=3).times(any_of(*words)),
        "Word.letter": lambda: Word("XYZ", n=3).letter(qubit=any_of(1)),
        "Model": lambda: Model(
            any_of(3),
            any_of({"XYZ": 1.0}, [("X0", 1)]),
            any_of([(1.0, "XYZ")], [(any_of(0.5), any_of("X0", {"XYZ": 1j}))]),
            any_of([], [(["X0", any_of("Y1")], [[1, any_of(1j)], [-1j, 1]])], [(["X0"], any_of([[1]]))]),
        ),
        "action": lambda: model.action(any_of(*words)),
        "leakage": lambda: model.leakage(
            any_of(basis),
            max_basis=any_of(10, 65_536),
            admit_basis=any_of(None, 20),
            tau_add=any_of(None, 0.1),
            protected=any_of([], ["ZZZ"]),
        ),
        "Basis": lambda: Basis(any_of(3), any_of({"XYZ": 1.0}, [("Z0", any_of(0.5))])),
        "Basis.from_arrays": lambda: Basis.from_arrays(
            any_of(3), any_of(np.zeros((2, 8), np.uint64)), any_of(np.zeros(2), None)
        ).cap(limit=1),
        "prune": lambda: basis.prune(drop_tol=any_of(0.3), protected=any_of([], ["XYZ"])),
        "cap": lambda: basis.cap(limit=any_of(1), protected=any_of([], ["XYZ"])),
        "admit": lambda: basis.admit(any_of({"ZZZ": 1.0}, model.action("XYZ")), limit=any_of(2, 9)),
        "coefficients": lambda: setattr(basis, "coefficients", any_of([1.0, 2.0, 3.0])),
        "entry": lambda: basis.entry(position=any_of(1)),
        "positions": lambda: basis.positions(any_of(*words)),
        "touching": lambda: basis.touching(qubit=any_of(1)),
        "in": lambda: any_of(*words) in rng.choice([basis, model.action("XYZ")]),
        "terms": lambda: model.action("XYZ")[any_of(*words)],
        "get": lambda: model.action("XYZ").get(any_of(*words), 0.0),
        "split_matrix": lambda: pebblelinen.split_matrix(
            any_of(["X0", "Y1"], ["XYZ"] * 65), any_of([[1, 1j], [-1j, 1]], np.eye(65))
        ),
    }
    if hasattr(_library.ctypes.CDLL(str(_library.path())), "pebblelinen_generator"):
        csr = model.csr(basis)
        found |= {
            "generator": lambda: model.generator(any_of(basis)),
            "csr": lambda: model.csr(any_of(basis)),
            "matrix_market": lambda: model.matrix_market(any_of(basis)),
            "norm": lambda: model.norm(any_of(basis)),
            "degree": lambda: model.degree(any_of(basis), dt=any_of(0.1), drop_tol=any_of(0.0)),
            "evolve": lambda: model.evolve(any_of(basis), dt=any_of(0.1, -3.0), drop_tol=any_of(0.0)),
            "select_ms": lambda: pebblelinen.select_ms(any_of(0.3), any_of(0.0)),
            "product": lambda: pebblelinen.product(
                any_of(csr, damaged(rng, csr)),
                any_of(np.zeros(3), [1, 2, 3]),
                out=any_of(None, np.zeros(3)),
                add=rng.random() < 0.5,
            ),
            "row": lambda: pebblelinen.row(any_of(csr, damaged(rng, csr)), position=any_of(0, 2)),
        }
    return found


def damaged(rng, csr):
    made = csr.copy()
    for name in rng.sample(["indptr", "indices", "data"], rng.randint(1, 2)):
        table = getattr(made, name)
        if rng.random() < 0.3:
            setattr(made, name, table[: rng.randrange(len(table) + 1)])
        elif len(table):
            table[rng.randrange(len(table))] = rng.choice([-1, 0, 1, 5, 2**31 - 1])
            setattr(made, name, table.astype(rng.choice([np.int32, np.int64, np.float64, np.uint64])))
    return made


def main():
    parser = argparse.ArgumentParser(prog="python/run fuzz")
    parser.add_argument("--calls", type=int, default=20_000)
    parser.add_argument("--seed", type=int, default=1)
    options = parser.parse_args()
    warnings.simplefilter("error")
    rng = random.Random(options.seed)
    ended = collections.Counter()
    for _ in range(options.calls):
        name, call = rng.choice(list(calls(rng).items()))
        try:
            call()
            ended["answer"] += 1
        except PebblelinenError as error:
            assert str(error)
            ended[type(error).__name__] += 1
        except Exception:
            print(f"{name} ended otherwise")
            raise
    print(f"{options.calls} damaged calls of the package: {dict(ended)}")


if __name__ == "__main__":
    sys.exit(main())
