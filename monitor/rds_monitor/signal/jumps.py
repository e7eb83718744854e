"""Where carrier or bit clock jump: samples were dropped there, or the transmitter's pilot jumped."""

import math
from typing import List, NamedTuple

import numpy
from numpy.lib.stride_tricks import sliding_window_view

from .samples import Complexes, Reals, Signal
from .symbols import CHIP_RATE, TINY, powers


class Sides(NamedTuple):
    """Both sides of each boundary: the mean phasors of the segments before and after it."""

    before: Complexes
    after: Complexes
    evidence: Reals  # that their phases differ
    turned: Reals  # at each segment, which was undone


def means(streams: Signal, count: int) -> Signal:
    """Of each `count` values in a row."""
    sums = numpy.cumsum(streams, axis=1)
    result = sums[:, count - 1 :].copy()
    result[:, 1:] -= sums[:, :-count]
    return result / count


class Jumps:
    """Cuts a signal at its jumps.

    Two streams of phasors turn slowly: the signal's square, whose phase is twice that of the carrier, and the line at
    the bit rate of the power of two samples' difference a chip apart, whose phase is that of the clock. Both are summed
    over short segments, and the means on the two sides of each boundary are compared."""

    CHIPS = 8  # of a segment: 3.4 ms
    REACH = 24  # segments on each side that are compared
    WIDE = 40  # and that tell how fast the phasors turn,
    LAGS, LAG = (1, 6), 12  # segments per step, ever more exactly
    EVIDENCE = 30.0  # the natural logarithm of a ratio of likelihoods
    COHERENT = 0.15  # of the squares, on both sides: 1 without noise
    # The least variance of a segment that is believed: a phase is not thought more exact than a jump that matters.
    VARIANCE = numpy.array([[0.1], [0.0055]])

    def __init__(self, rate: float, rows: int):
        self._spacing = rate / CHIP_RATE
        self._length = round(self.CHIPS * self._spacing)
        # Segments on each side of a boundary.
        self._needed = self.REACH + self.WIDE + sum(self.WIDE + lag for lag in self.LAGS)
        # As if silence were before the signal.
        self._lines: Complexes = numpy.zeros((2, self._needed), complex)
        self._boundary = 0  # the next one, and the segment of that number is after it
        self._signal: Complexes = numpy.zeros((rows, 0), complex)
        self._first = 0  # the place of its first sample
        self._given = 0  # and of the first one that was not given on

    def push(self, signal: Complexes) -> List[Complexes]:
        """The signal, some 0.5 s late, in parts: between each two is a jump."""
        self._signal = numpy.concatenate([self._signal, signal], axis=1)
        # The lines of whole segments, 1 if the phasors of all samples agree.
        known = self._boundary - self._needed + self._lines.shape[1]
        more = (self._first + self._signal.shape[1]) // self._length - known
        phasors = self._phasors(known * self._length, (known + more) * self._length)
        segments = phasors.reshape(2, more, self._length)
        sums = segments.sum(axis=2) / numpy.maximum(abs(segments).sum(axis=2), TINY)
        self._lines = numpy.concatenate([self._lines, sums], axis=1)
        count = max(0, self._lines.shape[1] - 2 * self._needed + 1)
        places = self._places(count) if count else []
        self._boundary += count
        self._lines = self._lines[:, count:]
        parts = [self._part(place) for place in [*places, (self._boundary - 2) * self._length]]
        kept = max(self._first, min(self._given, (self._boundary - 4) * self._length))
        self._signal, self._first = self._signal[:, kept - self._first :], kept
        return parts

    def finish(self) -> List[Complexes]:
        due = self._first + self._signal.shape[1] - self._given
        parts = []
        for part in self.push(numpy.zeros((len(self._signal), (self._needed + 4) * self._length), complex)):
            parts.append(part[:, :due])
            due -= parts[-1].shape[1]
        return parts

    def _part(self, end: int) -> Complexes:
        begin, self._given = self._given, max(self._given, end)
        return self._signal[:, begin - self._first : self._given - self._first]

    def _phasors(self, first: int, last: int) -> Complexes:
        """Of the samples from one place to another, both streams."""
        chip = round(self._spacing)
        begin = first - self._first
        signal = self._signal[0, max(0, begin - chip) : last - self._first]
        signal = numpy.append(numpy.zeros(max(0, chip - begin)), signal)
        pairs = powers(signal[chip:] - signal[:-chip])
        signal = signal[chip:]
        turns = numpy.arange(first, last) / (2 * self._spacing) % 1
        return numpy.stack([signal * signal, pairs * numpy.exp(-2j * math.pi * turns)])

    def _turned(self) -> Reals:
        """How far the phasors had turned at each segment: by the steps of neighbours, then by those of longer sums."""
        turned = numpy.zeros(self._lines.shape)
        for lag in self.LAGS:
            sums = means(self._lines * numpy.exp(-1j * turned), lag)
            steps = numpy.zeros((2, turned.shape[1] + 2 * self.WIDE - 2), complex)
            begin = lag + self.WIDE - 1
            steps[:, begin : 1 - begin] = sums[:, lag:] * sums[:, :-lag].conj()
            turned += numpy.cumsum(numpy.angle(means(means(steps, self.WIDE), self.WIDE)) / lag, axis=1)
        return turned

    def _slopes(self, lines: Complexes) -> Reals:
        """How fast these turn on both sides of a boundary, whatever they do there."""
        sums = means(lines, self.LAG)
        steps = sums[:, self.LAG :] * sums[:, : -self.LAG].conj()
        sides = means(steps, self.WIDE - 2 * self.LAG + 1)
        result: Reals = numpy.angle(sides[:, : -self.WIDE] + sides[:, self.WIDE :]) / self.LAG
        return result

    def _sides(self) -> Sides:
        """Of the boundaries that have `WIDE` segments beside them."""
        turned = self._turned()
        lines = self._lines * numpy.exp(-1j * turned)
        reach, beside = self.REACH, self.WIDE - self.REACH
        sums = means(lines[:, beside : lines.shape[1] - beside], reach)
        apart = numpy.exp(-0.5j * reach * self._slopes(lines))
        before, after = sums[:, :-reach] / apart, sums[:, reach:] * apart
        power = means(powers(lines[:, beside : lines.shape[1] - beside]), 2 * reach)
        variance = power - (powers(before) + powers(after)) / 2
        amplitudes = abs(before) + abs(after)
        # How fast noisy phasors turn is not known well, which makes their phases differ.
        unsure = 1 + 4 * variance / numpy.maximum(amplitudes**2, TINY)
        weight = reach * amplitudes / (unsure * numpy.maximum(variance, self.VARIANCE))
        evidence = (weight * (amplitudes - abs(before + after))).sum(axis=0)
        evidence[numpy.minimum(abs(before[0]), abs(after[0])) < self.COHERENT] = 0
        return Sides(before, after, evidence, turned)

    def _places(self, count: int) -> List[int]:
        """The jumps at the next `count` boundaries: those with enough evidence, and the most around."""
        sides = self._sides()
        first, evidence = self._needed - self.WIDE, sides.evidence
        around = evidence[first - self.REACH : first + count + self.REACH]
        highest = sliding_window_view(around, 2 * self.REACH + 1).max(axis=1)
        own = evidence[first : first + count]
        found = numpy.flatnonzero((own == highest) & (own > self.EVIDENCE))
        return [self._located(int(at), sides) for at in found]

    def _located(self, at: int, sides: Sides) -> int:
        """The place of a jump near a boundary, to the sample, by the phases of the segments farther away."""
        boundary, index = self._boundary + at, self._needed - self.WIDE + at
        first, last = max(0, boundary - 2) * self._length, (boundary + 2) * self._length
        segments = numpy.arange(first, last) / self._length - boundary + self._needed + at - 0.5
        turned = [numpy.interp(segments, numpy.arange(own.size), own) for own in sides.turned]
        apart = sides.before[:, index - 2, None] - sides.after[:, index + 2, None]
        back = numpy.exp(-1j * numpy.array(turned))
        gain = self._phasors(first, last) * back * apart.conj() / self.VARIANCE
        return first + int(numpy.cumsum(numpy.append(0, gain.real.sum(axis=0))).argmax())
