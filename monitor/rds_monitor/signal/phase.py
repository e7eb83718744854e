"""The phase of a slowly turning phasor, estimated from noisy values at equal steps."""

import math
from typing import NamedTuple

import numpy
from numpy.lib.stride_tricks import sliding_window_view

from .samples import Complexes, Reals


class Phases(NamedTuple):
    """For each step: the phase in radians, which goes on beyond a turn; by how much it turns per step; and the
    coherence, 1 if all values about it agree, near 0 for noise."""

    phase: Reals
    turn: Reals
    coherence: Reals


def bell(reach: int) -> Reals:
    """Weights of the steps up to `reach` on both sides."""
    return numpy.hanning(2 * reach + 3)[1:-1]


class PhaseTrack:
    """Estimates from the values on both sides of a step, so that it is right from the first one on.

    The turn is that between neighbours, over `wide` steps on each side, and at most `limit`. Without it, the
    values of `reach` steps on each side are summed. Below the coherence `least` the phase goes on as it turned
    before. A step is answered once the `wide` steps after it are there."""

    def __init__(self, reach: int, wide: int, limit: float, least: float):
        self._reach, self._wide, self._limit, self._least = reach, wide, limit, least
        self._near, self._far = bell(reach), bell(wide)
        self._rest: Complexes = numpy.zeros(wide + 1, complex)
        self._phase = self._usual = self._seen = 0.0

    def push(self, values: Complexes) -> Phases:
        """Of values of magnitude 1 or less, which are weighted by it."""
        values = numpy.concatenate([self._rest, values])
        count = values.size - 2 * self._wide - 1
        if count <= 0:
            self._rest = values
            return Phases(numpy.zeros(0), numpy.zeros(0), numpy.zeros(0))
        self._rest = values[count:]
        steps = numpy.convolve(values[1:] * values[:-1].conj(), self._far, "valid")
        turn = numpy.clip(numpy.angle(steps), -self._limit, self._limit)
        first = 1 + self._wide - self._reach
        windows = sliding_window_view(values[first : first + count + 2 * self._reach], 2 * self._reach + 1)
        back = numpy.exp(-1j * turn[:, None] * numpy.arange(-self._reach, self._reach + 1)) * self._near
        sums = (windows * back).sum(axis=1)
        coherence = numpy.abs(sums) / self._near.sum()
        return Phases(self._unwrapped(numpy.angle(sums), turn, coherence), turn, coherence)

    def _unwrapped(self, angles: Reals, turns: Reals, coherence: Reals) -> Reals:
        phases = []
        phase = self._phase
        for angle, turn, sure in zip(angles.tolist(), turns.tolist(), (coherence >= self._least).tolist()):
            if sure:
                phase += turn
                phase += math.remainder(angle - phase, math.tau)
                # The mean turn of the last thousand coherent steps or so, step by step, so that chunks do not matter.
                self._seen = min(1000.0, self._seen + 1)
                self._usual += (turn - self._usual) / self._seen
            else:
                phase += self._usual
            phases.append(phase)
        self._phase = phase
        return numpy.array(phases)
