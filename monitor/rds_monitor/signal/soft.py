"""Symbols for soft decisions: signed bytes, the log-likelihood ratios of their signs in 1/16 nat."""

import numpy

from .samples import Complexes, Reals
from .symbols import TINY, Bits, Carrier

UNIT, TOP = 16.0, 127
AMPLITUDE_REACH = 32  # segments on both sides
# Of the noise: the larger one of these means is believed, since bursts of it are short.
NOISE_REACHES = (8, 2)


def around(segments: Reals, reach: int) -> Reals:
    """Sums of the segments up to `reach` on both sides, of all but the `AMPLITUDE_REACH` at both ends."""
    beside = AMPLITUDE_REACH - reach
    inner = segments[beside : segments.size - beside]
    return numpy.convolve(inner, numpy.ones(2 * reach + 1), "valid")


class SoftSymbols:
    """Makes bytes of symbols on the real axis. A symbol that was lost is 0, in the input and in the output.

    With the amplitude A and the noise's variance s, a value x is exp(2 A x / s) times likelier if 1 was sent than if -1 was. The
    imaginary parts have only noise."""

    def __init__(self) -> None:
        self._symbols: Complexes = numpy.zeros(0, complex)  # that were not answered
        # Of segments: the sums of the squares of real and imaginary parts, and how many symbols were received.
        self._sums: Reals = numpy.zeros((3, AMPLITUDE_REACH))

    def push(self, symbols: Complexes) -> Bits:
        """The bytes, some 0.2 s late."""
        self._symbols = numpy.concatenate([self._symbols, symbols])
        length = Carrier.SYMBOLS_PER_SEGMENT
        first, last = self._sums.shape[1] - AMPLITUDE_REACH, self._symbols.size // length
        new = self._symbols[first * length : last * length].reshape(-1, length)
        columns = numpy.stack([new.real**2, new.imag**2, new != 0]).sum(axis=2)
        self._sums = numpy.concatenate([self._sums, columns], axis=1)
        return self._answered(max(0, last - AMPLITUDE_REACH))

    def finish(self) -> Bits:
        due = self._symbols.size
        return self.push(numpy.zeros((AMPLITUDE_REACH + 1) * Carrier.SYMBOLS_PER_SEGMENT, complex))[:due]

    def _answered(self, count: int) -> Bits:
        length = Carrier.SYMBOLS_PER_SEGMENT
        reals, imaginaries, received = self._sums[:, : count + 2 * AMPLITUDE_REACH]
        values = self._symbols[: count * length].real.reshape(count, length)
        self._symbols, self._sums = self._symbols[count * length :], self._sums[:, count:]
        if not count:
            return numpy.zeros(0, "u1")
        counts = numpy.maximum(around(received, AMPLITUDE_REACH), 1)
        amplitude = numpy.sqrt(numpy.maximum(around(reals - imaginaries, AMPLITUDE_REACH) / counts, 0))
        noises = [
            around(imaginaries, reach) / numpy.maximum(around(received, reach), 1) for reach in NOISE_REACHES
        ]
        noise = numpy.maximum(numpy.max(noises, axis=0), TINY)
        with numpy.errstate(over="ignore"):
            ratios = 2 * UNIT * amplitude[:, None] * numpy.abs(values) / noise[:, None]
        # A sign is never lost, so that the bits are those of hard decisions.
        sizes = numpy.clip(ratios, 1, TOP).astype("i1") * numpy.sign(values).astype("i1")
        symbols: Bits = sizes.ravel().view("u1")
        return symbols
