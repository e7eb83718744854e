"""Which stations are in a capture: where its spectrum has a hump, and RDS is received."""

from typing import List, NamedTuple, Sequence

import numpy

from ..rows.items import Fault
from .filters import at_least
from .receiver import Capture
from .samples import Reals, Signal
from .symbols import BIT_RATE

HZ_PER_BIN = 2500.0  # of a spectrum, at most
RASTER_HZ = 50e3  # of stations' frequencies
HALF_CHANNEL_HZ = 100e3  # of a station, which has to be in the band
WIDTH_HZ = 80e3  # on both sides of a station, for its sum
HUMP = 1.02  # by how much its sum is above those beside it: noise varies by less
APART_HZ = 150e3  # two stations are farther apart
SETTLED = 3 * BIT_RATE  # bits after which stations without RDS are left out
LEAST_SHARE = 0.05  # of these in valid blocks: noise has a hundredth of it


class Spectrum(NamedTuple):
    """The mean power by frequency, of a full-scale sample as 1: that of a bin, and the offsets of bins from the centre, in Hz."""

    power: Reals
    offsets: Reals


def spectrum_of(samples: Signal, rate: int, full_scale: float) -> Spectrum:
    size = at_least(rate / HZ_PER_BIN)
    window = numpy.hanning(size).astype("f4")
    blocks = samples[: samples.size // size * size].reshape(-1, size)
    if not len(blocks):
        raise Fault("the input is too short for a spectrum")
    sums = numpy.zeros(size)
    for some in numpy.array_split(blocks, max(1, len(blocks) // 64)):
        sums += (numpy.abs(numpy.fft.fft(some * window)) ** 2).sum(axis=0)
    power = sums / len(blocks) / (float((window**2).sum()) * size * full_scale**2)
    return Spectrum(numpy.fft.fftshift(power), numpy.fft.fftshift(numpy.fft.fftfreq(size, 1 / rate)))


def is_inside(offset: float, rate: int) -> bool:
    """Whether the band of a capture has all of a station's channel."""
    return abs(offset) + HALF_CHANNEL_HZ <= rate / 2


def weights_of(reach: int) -> Reals:
    """The weight of each bin up to `reach` bins from a frequency: a Hann window, whose zeros are the bins after them."""
    return numpy.hanning(2 * reach + 3)[1:-1]


def candidates(spectrum: Spectrum, centre: float) -> List[float]:
    """The offsets of possible stations: those of the raster with more power than the next ones on both sides."""
    step = float(spectrum.offsets[1] - spectrum.offsets[0])
    rate = round(step * spectrum.offsets.size)
    reach = round(WIDTH_HZ / step)
    weights = weights_of(reach)
    sums = numpy.convolve(spectrum.power, weights / weights.sum(), "same")
    raster = numpy.arange(numpy.ceil((centre - rate / 2) / RASTER_HZ), (centre + rate / 2) / RASTER_HZ + 1)
    offsets = raster * RASTER_HZ - centre
    level = numpy.interp(offsets, spectrum.offsets, sums)
    humps = 1 + numpy.flatnonzero((level[1:-1] > HUMP * level[:-2]) & (level[1:-1] > HUMP * level[2:]))
    return [float(offset) for offset in offsets[humps] if is_inside(offset, rate)]


def with_rds(capture: Capture, offsets: Sequence[float]) -> List[int]:
    """The numbers of the stations that have RDS. Of two that are too near to each other to be two it is the better one."""
    shares = [receiver.quality.received.share for receiver in capture.receivers]
    kept: List[int] = []
    for number in sorted(range(len(offsets)), key=lambda one: -shares[one]):
        beside = (abs(offsets[number] - offsets[other]) for other in kept)
        if shares[number] >= LEAST_SHARE and all(apart >= APART_HZ for apart in beside):
            kept.append(number)
    return sorted(kept)
