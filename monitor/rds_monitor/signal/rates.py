"""Which sample rate a signal has, by its pilot and its RDS."""

from typing import List, Optional, Tuple

import numpy

from .receiver import PILOT_HZ, Capture
from .samples import Reals, Signal
from .symbols import Bits

_COMMON = """
128000 170000 171000 176400 190000 192000 200000 220500 228000 240000 250000 256000 300000 320000 384000 480000
500000 768000 900001 912000 960000 1000000 1024000 1152000 1200000 1440000 1536000 1800000 1920000 2000000 2048000
2400000 2500000 2560000 2800000 2880000 3000000 3200000"""
COMMON = tuple(map(int, _COMMON.split()))
RATES = range(COMMON[0], COMMON[-1] + 1)
BLOCK = 1 << 15
TRIED = 6


def _spectrum(samples: Signal) -> Reals:
    """The mean power of MPX by frequency, or of IQ's phase steps."""
    samples = samples[: 16 * BLOCK + 1]
    if numpy.iscomplexobj(samples):
        samples = numpy.angle(samples[1:] * samples[:-1].conj())
    count = min(16, samples.size // BLOCK)
    blocks = samples[: count * BLOCK].reshape(count, BLOCK) * numpy.hanning(BLOCK)
    power: Reals = (numpy.abs(numpy.fft.rfft(blocks)) ** 2).mean(axis=0)
    return power


def _prominence(power: Reals, rate: float) -> float:
    """How much higher the pilot's line is than what is beside it, if this is the rate."""
    middle = round(PILOT_HZ / rate * BLOCK)
    if not 40 <= middle < power.size - 40:
        return 0.0
    beside = numpy.concatenate([power[middle - 40 : middle - 8], power[middle + 9 : middle + 41]])
    return float(power[middle - 2 : middle + 3].max() / (numpy.median(beside) + 1e-300))


def _by_pilot(power: Reals) -> List[int]:
    """Rates at which one of the strongest lines would be the pilot."""
    slowest, fastest = (int(PILOT_HZ / rate * BLOCK) for rate in (RATES[-1], RATES[0]))
    low, high = max(40, slowest), min(power.size - 40, fastest)
    window = power[low:high].copy()
    found = []
    for _ in range(2):
        if window.size < 3:
            break
        peak = int(window.argmax())
        a, b, c = numpy.log(power[low + peak - 1 : low + peak + 2] + 1e-300)
        beside = (a - c) / (2 * (a - 2 * b + c)) if a + c != 2 * b else 0.0
        rate = round(PILOT_HZ * BLOCK / (low + peak + beside) / 10) * 10
        if rate in RATES:
            found.append(rate)
        window[max(0, peak - 8) : peak + 9] = 0
    return found


def locked(samples: Signal, rate: int, offset: float = 0.0) -> Tuple[float, Bits]:
    """The part of the time with RDS, and the bits."""
    capture = Capture(rate, numpy.iscomplexobj(samples), 1.0, [offset])
    bits = [*capture.push(samples), *capture.finish()]
    quality = capture.receivers[0].quality
    return quality.locked / max(1, quality.segments), numpy.concatenate(bits)


def likely_rate(samples: Signal, besides: Optional[int] = None, offset: float = 0.0) -> Optional[int]:
    """The rate at which RDS is received from some seconds of samples; `besides` was tried already."""
    if samples.size < 2 * BLOCK:
        return None
    power = _spectrum(samples)
    common = sorted(COMMON, key=lambda rate: -_prominence(power, rate))[:TRIED]
    near = [rate for rate in _by_pilot(power) if all(abs(rate - known) > known * 2e-4 for known in common)]
    for rate in [*common, *near]:
        if rate != besides and locked(samples[: 6 * rate], rate, offset)[0] > 0.5:
            return rate
    return None
