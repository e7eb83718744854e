"""MPX from IQ: the FM station's channel, an equaliser against multipath, and the discriminator."""

from fractions import Fraction
from typing import Optional, Sequence, Tuple

import numpy

from .filters import Bands, Passband, at_least
from .samples import Complexes, Reals, Signal

# A stereo station with RDS fills some 264 kHz. Beyond 80 kHz is little of it, but more of a strong neighbour 200 kHz away.
CHANNEL_HZ = 82000.0  # on both sides, passed whole
EDGE_HZ = 34000.0  # and from there to nothing
LEAST_RATE = 234000.0
UNFILTERED_RATE = 256000  # IQ of this rate or less has no room for a neighbour
DEVIATION_HZ = 75000.0  # of full scale
SILENCE = 1e-9  # below the amplitude of any sample form


def channel_filter(frequencies: Reals) -> Reals:
    beyond = numpy.clip((numpy.abs(frequencies) - CHANNEL_HZ) / EDGE_HZ, 0, 1)
    gain: Reals = (1 + numpy.cos(numpy.pi * beyond)) / 2
    return gain


class Equaliser:
    """Undoes multipath: a filter fitted so that its output has the constant amplitude of FM.

    By blocks: what the filter gives is brought to amplitude 1, and the next taps are those that come nearest to that
    by least squares. Noise makes the amplitude vary too, and a filter against it would harm the signal: the more it
    varies, the more the taps are held to one that passes the signal as it is. From the old taps to the new ones the
    output is faded over a block, since a sudden change would be a click. The signal as it came is given beside it.
    """

    TAPS, BLOCK = 32, 1024
    KEPT = 0.5  # of the sums of the blocks before
    STEADY = 0.02  # how much the taps are held to what they were, by the power of the signal
    PLAIN = 2.0  # and to a filter that passes it, by its power and the variance of the output's amplitude

    def __init__(self) -> None:
        self._taps: Complexes = numpy.zeros(self.TAPS, complex)
        lags = numpy.arange(self.TAPS)[:, None] - numpy.arange(self.TAPS)
        self._later, self._lags = lags >= 0, numpy.abs(lags)
        self._rest: Complexes = numpy.zeros(self.TAPS - 1, complex)
        self._own: Complexes = numpy.zeros(self.TAPS, complex)
        self._wanted: Complexes = numpy.zeros(self.TAPS, complex)
        self._fade = numpy.arange(self.BLOCK) / self.BLOCK
        self._variance = 0.1

    def push(self, signal: Complexes) -> Complexes:
        self._rest = numpy.concatenate([self._rest, signal])
        done = [numpy.zeros((2, 0), complex)]
        while self._rest.size >= self.BLOCK + self.TAPS - 1:
            done.append(self._of_block(self._rest[: self.BLOCK + self.TAPS - 1]))
            self._rest = self._rest[self.BLOCK :]
        return numpy.concatenate(done, axis=1)

    def finish(self) -> Complexes:
        left = self._rest.size - self.TAPS + 1
        return self.push(numpy.zeros(self.BLOCK, complex))[:, :left]

    def _of_block(self, signal: Complexes) -> Complexes:
        amplitude = float(numpy.abs(signal).mean())
        plain = signal[self.TAPS - 1 - self.TAPS // 2 :][: self.BLOCK]
        if amplitude < SILENCE:
            return numpy.stack([plain * 0, plain * 0])
        if not self._taps.any():
            self._taps[self.TAPS // 2] = 1 / amplitude
        output = numpy.convolve(signal, self._taps, "valid")
        before = self._taps
        self._fit(signal, output)
        change = numpy.convolve(signal, self._taps - before, "valid")
        return numpy.stack([output + change * self._fade, plain])

    def _fit(self, signal: Complexes, output: Complexes) -> None:
        """The sums of products of the samples a lag apart, and of samples and wanted output, give the taps."""
        amplitude = numpy.maximum(numpy.abs(output), 1e-12)
        variance = min(1.0, float(amplitude.var()) / float(amplitude.mean()) ** 2)
        self._variance = self.KEPT * self._variance + (1 - self.KEPT) * variance
        self._own = self.KEPT * self._own + numpy.correlate(signal, signal[: self.BLOCK], "valid")
        wanted = numpy.correlate(signal, output / amplitude, "valid")[::-1].conj()
        self._wanted = self.KEPT * self._wanted + wanted
        squares = numpy.where(self._later, self._own[self._lags], self._own[self._lags].conj())
        power = float(self._own[0].real) + 1e-300
        steady, plain = self.STEADY * power, self.PLAIN * self._variance * power
        right = self._wanted + steady * self._taps
        right[self.TAPS // 2] += plain * self._wanted[self.TAPS // 2] / power
        self._taps = numpy.linalg.solve(squares + (steady + plain) * numpy.eye(self.TAPS), right)


def station_channels(rate: int, offsets: Sequence[float]) -> Optional[Bands]:
    """The channels of stations at these offsets from the centre of IQ, in Hz; None if all of it is one channel."""
    if rate <= UNFILTERED_RATE and not any(offsets):
        return None
    block = at_least(rate / 60)
    shape = (CHANNEL_HZ + EDGE_HZ, channel_filter, LEAST_RATE, block, False)
    return Bands([Passband(Fraction(rate), offset, *shape) for offset in offsets])


class FmReceiver:
    """MPX of a station's channel by a discriminator, 75 kHz of deviation as 1."""

    def __init__(self, rate: Fraction, equalise: bool):
        self.rate = rate
        self._equaliser = Equaliser() if equalise else None
        self._last: Signal = numpy.zeros((2 if equalise else 1, 1), "c8")
        self.level: Tuple[float, int] = (0.0, 0)  # the sum of the channel's power, and over how many samples

    def response(self, frequency: float) -> float:
        """Of the discriminator, which gives the mean over a sample."""
        return float(numpy.sinc(frequency / float(self.rate)))

    def push(self, channel: Signal) -> Reals:
        """A row, or with the equaliser two: equalised, and as it came."""
        power, count = self.level
        self.level = power + float(numpy.vdot(channel, channel).real), count + channel.size
        return self._discriminated(self._equaliser.push(channel) if self._equaliser else channel[None])

    def finish(self) -> Reals:
        last = self._equaliser.finish() if self._equaliser else numpy.zeros((1, 0), "c8")
        return self._discriminated(last)

    def _discriminated(self, signal: Signal) -> Reals:
        signal = numpy.concatenate([self._last.astype(signal.dtype), signal], axis=1)
        self._last = signal[:, -1:]
        steps: Reals = numpy.angle(signal[:, 1:] * signal[:, :-1].conj()).astype("f8")
        return steps * (float(self.rate) / (2 * numpy.pi * DEVIATION_HZ))
