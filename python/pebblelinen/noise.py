# SPDX-FileCopyrightText: 2026 The PPVM Authors
# SPDX-License-Identifier: Apache-2.0
"""Noise as it is named and measured: jumps of one qubit, by times.

    from pebblelinen import Model, noise

    jumps = noise.decay(qubit=0, t1=50.0) + noise.dephasing(qubit=0, t1=50.0, t2=70.0)
    model = Model(2, {"X0 X1": 1.0}, jumps)

Each function gives a list of jumps, as Model takes them; lists are added. A rate is one over a time: times are in
the unit of time in which the Hamiltonian's numbers are angular frequencies. A time of infinity has the rate 0.
|0> is the ground state, Z|0> = |0>.
"""
import math

from . import _given
from .errors import InputError
from .words import Qubit

# A jump as Model takes it: its rate, and its operator by words.
AnyJump = tuple[float, dict[str, complex]]


def decay(*, qubit: Qubit | int, t1: float, excited: float = 0.0) -> list[AnyJump]:
    """Energy decay with the time T1, to the ground state, or to a thermal state in which |1> has the population
    `excited`.

    Jumps: (X + iY)/2 = |0><1| at the rate (1 - excited)/T1, and where `excited` is above 0
    (X - iY)/2 = |1><0| at the rate excited/T1.

    With z = 1 - 2 excited, the value of Z in the end:

        <Z>(t) = z + (<Z>(0) - z) exp(-t/T1)
        <X>(t) = <X>(0) exp(-t/(2 T1)), and Y the same
    """
    q, t1 = int(Qubit(qubit)), _time(t1, "T1")
    share = _given.real(excited, "the population of the excited state")
    if not 0 <= share <= 1:
        raise InputError(f"the population of the excited state is {share}: from 0 to 1 is needed")
    down: AnyJump = ((1 - share) / t1, {f"X{q}": 0.5, f"Y{q}": 0.5j})
    up: AnyJump = (share / t1, {f"X{q}": 0.5, f"Y{q}": -0.5j})
    return [down, up] if share else [down]


def dephasing(*, qubit: Qubit | int, t1: float, t2: float) -> list[AnyJump]:
    """What dephasing is left, besides decay with the time T1, to bring the coherence time to T2. Decay itself is
    not in it: add decay(qubit=.., t1=..). Where there is none, T1 is math.inf.

    Jump: Z at the rate 1/(2 Tphi), where 1/Tphi = 1/T2 - 1/(2 T1). Together with decay:

        <X>(t) = <X>(0) exp(-t/T2), and Y the same
        <Z>(t) as decay alone has it

    Decay alone gives T2 = 2 T1, so that a longer T2 is refused.
    """
    q, t1, t2 = int(Qubit(qubit)), _time(t1, "T1"), _time(t2, "T2")
    if t2 > 2 * t1:
        raise InputError(
            f"T2 is {t2} and T1 is {t1}: T2 is at most 2 T1, {2 * t1}, since decay alone dephases so fast"
        )
    return [((1 / t2 - 1 / (2 * t1)) / 2, {f"Z{q}": 1.0})]


def depolarizing(*, qubit: Qubit | int, time: float) -> list[AnyJump]:
    """Depolarizing with a time constant T: the qubit's state tends to the fully mixed one as
    exp(-t/T) rho + (1 - exp(-t/T)) I/2.

    Jumps: X, Y and Z, each at the rate 1/(4 T).

        <X>(t) = <X>(0) exp(-t/T), and Y and Z the same

    Where X, Y or Z happens with the probability p/3 each in a gate of the time t, T = -t / log(1 - 4 p/3).
    """
    q, rate = int(Qubit(qubit)), 1 / (4 * _time(time, "the time"))
    return [(rate, {f"{letter}{q}": 1.0}) for letter in "XYZ"]


def _time(given: float, what: str) -> float:
    time = _given.real(given, what)
    if math.isnan(time) or time <= 0:
        raise InputError(f"{what} is {time}: a time above 0 is needed")
    return time
