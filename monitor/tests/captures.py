"""IQ with several FM stations, as a wideband receiver gives it, for tests of what takes it apart."""

from __future__ import annotations

import sys
from functools import lru_cache
from typing import List, NamedTuple, Sequence, Tuple

import numpy
from conftest import TOP, encode
from modulator import Array, Path, iq, mpx, stored


sys.path.insert(0, str(TOP / "monitor" / "demo"))

from station import Programme  # noqa: E402

NARROW = 480000  # samples per second of a station by itself: all of its spectrum


class Sent(NamedTuple):
    """A station of a capture: its offset from the centre in Hz, the packed bits it sends, none without RDS, its level in
    dB, its second paths, and whether it is noise in place of FM."""

    offset: float
    data: bytes
    level: float = 0.0
    paths: Tuple[Path, ...] = ()
    is_noise: bool = False


def alone(station: Sent, seconds: float, seed: int) -> Array:
    """The station at 0 Hz, by amplitude 1 at 0 dB, without noise."""
    size = int(seconds * NARROW)
    if station.is_noise:
        random = numpy.random.default_rng(seed)
        spectrum = numpy.zeros(size, complex)
        near = numpy.abs(numpy.fft.fftfreq(size, 1 / NARROW)) < 75000
        count = int(near.sum())
        spectrum[near] = random.standard_normal(count) + 1j * random.standard_normal(count)
        signal = numpy.fft.ifft(spectrum)
        signal /= numpy.sqrt(numpy.mean(numpy.abs(signal) ** 2))
    else:
        level = 0.0 if not station.data else 0.03
        data = station.data or bytes(int(seconds * 1187.5 / 8) + 2)
        signal = iq(mpx(data, NARROW, snr=60, seed=seed, level=level)[:size], NARROW, station.paths)
        assert signal.size == size, "it sends too few bits"
    return 10 ** (station.level / 20) * signal


def noise(size: int, rate: int, level: float, seed: int = 7) -> Array:
    """White noise of this level in 200 kHz, in dB."""
    random = numpy.random.default_rng(seed)
    amplitude = numpy.sqrt(10 ** (level / 10) * rate / 200e3 / 2)
    return amplitude * (random.standard_normal(size) + 1j * random.standard_normal(size))


def captured(
    stations: Sequence[Sent], rate: int, seconds: float, noise_level: float, signals: Sequence[Array] = ()
) -> Array:
    """All of them in one signal, each in its place of the spectrum."""
    size = int(seconds * rate)
    spectrum = numpy.zeros(size, complex)
    given: List[Array] = list(signals) or [alone(one, seconds, seed) for seed, one in enumerate(stations)]
    for station, signal in zip(stations, given):
        own = numpy.fft.fft(signal)
        bins = numpy.fft.fftfreq(own.size, 1 / own.size).astype(int) + round(station.offset * seconds)
        # each bin once: the whole has no fewer samples than a station
        spectrum[bins % size] += own
    return numpy.fft.ifft(spectrum) * (rate / NARROW) + noise(size, rate, noise_level)


# A small capture for tests of commands: two stations by their frequencies, and one at the centre that sends no RDS.
SMALL_RATE, SMALL_SECONDS, SMALL_CENTRE = 600000, 1.9, 97950000
PROGRAMMES = {
    hertz: [programme.group(number) for number in range(23)]
    for hertz, programme in (
        (98100000, Programme(0xD318, "ALPHA", "Now")),
        (97800000, Programme(0xD319, "<B> & C", "")),
    )
}


@lru_cache(None)
def small_capture() -> bytes:
    """As integers of 16 bits. The second station is 15 dB weaker."""
    levels = dict(zip(PROGRAMMES, (0.0, -15.0)))
    sent = [Sent(hertz - SMALL_CENTRE, encode(PROGRAMMES[hertz]), levels[hertz]) for hertz in PROGRAMMES]
    return stored(captured([*sent, Sent(0.0, b"", -12.0)], SMALL_RATE, SMALL_SECONDS, -60), "s16")
