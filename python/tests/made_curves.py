# SPDX-FileCopyrightText: 2026 The PPVM Authors
# SPDX-License-Identifier: Apache-2.0
"""Curves that no run computed, for tests of pictures and files."""
import math

import numpy as np

from pebblelinen import Basis, Checked, Curve, Model, Steps, modelfile


def curve(name="Z1", rate=0.1, count=11, *, unknown=2, leaking=1e-3, dropped=1e-5, finished=True, **others):
    """A decay with its losses, which are not known in the last steps. Others are given to the curve in place of what
    it would have."""
    times = np.linspace(0.0, 1.0, count)
    ends = times[1:]
    leak = leaking * (1 + ends) / 3
    leak[len(leak) - unknown :] = math.nan
    drops = np.where(np.arange(count - 1) % 3 == 1, dropped, 0.0)
    steps = Steps(
        time=ends,
        dt=np.diff(times),
        held=np.arange(2, count + 1),
        products=np.arange(count - 1) * 7,
        leak_sum_before=leak,
        leak_root_before=leak / 2,
        leak_sum_after=leak * 1.5,
        leak_root_after=leak / 3,
        dropped_sum=drops,
        dropped_root=drops / 2,
    )
    model = Model(2, {"X0 X1": 1 / 3}, [(rate, "Z1")])
    given = {
        "name": name,
        "times": times,
        "values": np.exp(-rate * times) / 3,
        "words": {"Z1": np.cos(times), "Y0 X1": -times / 7},
        "steps": steps,
        "basis": Basis(2, {"Z1": 1 / 3, "Y0 X1": -0.0, "X0 Y1": 5e-324}),
        "finished": finished,
        "settings": {
            "model": modelfile.text_of(model, Basis(2, {"Z1": 1.0}), ["Z1"]),
            "n": 2,
            "dt": 0.1,
            "times": times.tolist(),
            "max_basis": 16,
            "admit_basis": None,
            "drop_tol": 1e-300,
            "losses": True,
            "state": "10",
            "observable": [["Z1", 1.0]],
            "words": [],
            "version": "0.1.0",
            "library": "ab" * 32,
        },
    }
    return Curve(**{**given, **others})


def checked(name="Z1", rate=0.1, *, exact=True, ok=True, **more):
    """A curve with its check."""
    main = curve(name, rate, **more)
    by_step, by_room = 0.01 * main.times, 0.003 * main.times**2
    return Checked(
        curve=main,
        half_step=curve(name, rate, unknown=10, values=main.values + by_step, words=main.words),
        double_room=curve(name, rate, unknown=0, words=main.words),
        moved_by_step=by_step,
        moved_by_room=by_room,
        exact=main.values + by_step / 3 if exact else None,
        tolerance=0.02,
        says="half the time step moved the curve by at most 0.01, twice the room by 0.003",
        ok=ok,
    )
