"""Bands of a signal, each shifted to 0 Hz and filtered, by Fourier transforms of overlapping blocks."""

import math
from fractions import Fraction
from typing import Callable, Iterator, List, Optional, Sequence, Union

import numpy

from .samples import Complexes, Reals, Signal
from .transforms import transforms

Gain = Callable[[Reals], Reals]  # of a filter by frequency
OVERLAPS = 32  # of which a block has the length


def at_least(number: Union[float, Fraction]) -> int:
    """The lowest power of two that is no less."""
    return 1 << max(0, math.ceil(math.log2(number)))


def fast_size(number: Union[float, Fraction]) -> int:
    """The lowest multiple of twice the overlaps that is no less, and whose other factors are 2, 3 and 5."""
    size = math.ceil(number / (2 * OVERLAPS))
    while True:
        rest = size
        for factor in (2, 3, 5):
            while rest % factor == 0:
                rest //= factor
        if rest == 1:
            return size * 2 * OVERLAPS
        size += 1


class Passband:
    """The part of a signal within `reach` Hz of `centre`, at `rate_out`, the lowest rate above `least` that a block allows.

    Of a block's Fourier transform this part is filtered; transformed back, it is at 0 Hz and has fewer samples. A real
    signal keeps its amplitude: cos(2 pi centre t) becomes 1."""

    def __init__(
        self, rate: Fraction, centre: float, reach: float, gain: Gain, least: float, block: int, is_real: bool
    ):
        self.rate, self.block, self.is_real = rate, block, is_real
        self.kept = min(block, fast_size(Fraction(least) * block / rate))
        self.rate_out = rate * self.kept / block
        self.hz_per_bin = float(rate) / block
        middle = round(centre / self.hz_per_bin)
        self._reached = min(math.ceil(reach / self.hz_per_bin), (self.kept - 1) // 2)
        self._first = (middle - self._reached) % block
        beside = numpy.arange(-self._reached, self._reached + 1) * self.hz_per_bin
        # A station may be off by a part of a bin's width, but not the carrier of RDS.
        self.centre = Fraction(centre) if is_real else middle * rate / block
        passed = gain(beside + middle * self.hz_per_bin - float(self.centre))
        passed *= self.kept / block * (2 if is_real else 1)
        self._response = passed.astype("f8" if is_real else "f4")
        turns = float(self.centre / rate - Fraction(middle, block)) * block / self.kept
        self._turn = numpy.exp(-2j * math.pi * turns * numpy.arange(self.kept)) if is_real else None

    def fill(self, spectrum: Signal, transformed: Signal) -> None:
        """Filters the band out of a block's transform, which goes on with its first bins, into a spectrum of zeros."""
        reached, first = self._reached, self._first
        part = transformed[:, first : first + 2 * reached + 1] * self._response
        spectrum[:, : reached + 1], spectrum[:, self.kept - reached :] = part[:, reached:], part[:, :reached]

    def turn(self, signal: Signal, place: int, inner: slice) -> None:
        """Of the block that begins at this place: shifts its inner part from the bins to 0 Hz."""
        turned = numpy.exp(-2j * math.pi * float(self.centre * place / self.rate % 1))
        signal *= signal.dtype.type(turned)
        if self._turn is not None:
            signal *= self._turn[inner]


class Bands:
    """Passbands of one signal, by one Fourier transform per block for all of them. They have the same rates and block,
    and each row is a signal. Real signals are in double precision, complex ones in single.

    Blocks overlap, since the filter reads both ends of a block as neighbours; both are left out."""

    def __init__(self, bands: Sequence[Passband], rows: int = 1):
        self.bands, self._rows = list(bands), rows
        one = self.bands[0]
        self.block, self.kept, self._is_real = one.block, one.kept, one.is_real
        self.overlap = self.block // OVERLAPS
        self._place = 0  # of the block's first sample
        self._kind, self._kind_out = ("f8", "c16") if one.is_real else ("c8", "c8")
        self._parts: List[Signal] = [numpy.zeros((rows, self.overlap // 2), self._kind)]
        self._size = self.overlap // 2  # of all parts
        self.watch: Optional[Callable[[Signal], None]] = None  # is told the spectrum of each block

    def push(self, samples: Signal) -> List[Complexes]:
        """The signals of the bands, each with the rows of these samples."""
        self._parts.append(samples)
        self._size += samples.shape[1]
        done = list(self._blocks()) if self._size >= self.block else []
        empty = numpy.zeros((len(self.bands), self._rows, 0), self._kind_out)
        return list(numpy.concatenate(done, axis=2) if done else empty)

    def _blocks(self) -> Iterator[Signal]:
        whole = numpy.concatenate(self._parts, axis=1, dtype=self._kind, casting="same_kind")
        step, at = self.block - self.overlap, 0
        while self._size - at >= self.block:
            yield self._of_block(whole[:, at : at + self.block])
            at += step
            self._place += step
        self._parts, self._size = [whole[:, at:]], self._size - at

    def _of_block(self, samples: Signal) -> Signal:
        transformed = (numpy.fft.rfft if self._is_real else transforms().fft)(samples)
        if not self._is_real:
            # A band may go on from the last bin to the first one.
            both = [transformed, transformed[:, : self.kept]]
            transformed = numpy.concatenate(both, axis=1, dtype="c8", casting="same_kind")
        if self.watch:
            self.watch(transformed)
        spectra = numpy.zeros((len(self.bands), self._rows, self.kept), self._kind_out)
        for band, spectrum in zip(self.bands, spectra):
            band.fill(spectrum, transformed)
        margin = self.kept // OVERLAPS // 2
        inner = slice(margin, self.kept - margin)
        signals: Signal = (numpy.fft if self._is_real else transforms()).ifft(spectra)[:, :, inner]
        for band, signal in zip(self.bands, signals):
            band.turn(signal, self._place, inner)
        return signals

    def finish(self) -> List[Complexes]:
        """The signals up to the last sample."""
        self.watch = None  # the last block is silent at its end
        due = (self._size - self.overlap // 2) * self.kept / self.block
        last = self.push(numpy.zeros((self._rows, self.block), self._kind))
        return [signal[:, : math.ceil(due)] for signal in last]
