"""Several stations of one capture: each gives what it gives alone."""

from __future__ import annotations

import importlib
from typing import List, Set, Tuple

import numpy
import pytest
from captures import NARROW, Sent, alone, captured, noise
from conftest import encode
from measure_demod import Words, bits_of, received, whole_groups
from modulator import Array, words

from rds_monitor.signal import filters, transforms
from rds_monitor.signal.receiver import Capture

RATE, SECONDS, NOISE = 2400000, 1.9, -60.0
LEVELS = (0, -18, -10, -30, -12, 0, -20, -5, -25, -8, 0, -15)
MULTIPATH, WITHOUT_RDS, LIKE_NOISE = 4, 7, 9
GROUPS = [words(seed, 23) for seed in range(len(LEVELS))]
OFFSETS = [200e3 * number - 1100e3 for number in range(len(LEVELS))]


def station(number: int) -> Sent:
    data = b"" if number == WITHOUT_RDS else encode(GROUPS[number])
    paths = ((5.0, 0.5, 90.0, 0.0),) if number == MULTIPATH else ()
    return Sent(OFFSETS[number], data, LEVELS[number], paths, number == LIKE_NOISE)


def groups_in(capture: Capture, signal: Array) -> List[Set[Words]]:
    packed = (numpy.packbits(bits).tobytes() for bits in bits_of(capture, signal, 1 << 18))
    return [set(whole_groups(bits)) for bits in packed]


@pytest.mark.xdist_group("capture")
def test_twelve_stations() -> None:
    """In 2.4 MHz, 200 kHz apart, by up to 30 dB of other levels: the groups of each are those of the station by itself, but for
    one in a hundred."""
    stations = [station(number) for number in range(len(LEVELS))]
    signals = [alone(one, SECONDS, seed) for seed, one in enumerate(stations)]
    capture = Capture(RATE, True, 1.0, OFFSETS, [OFFSETS[MULTIPATH]])
    together = groups_in(capture, captured(stations, RATE, SECONDS, NOISE, signals))
    lost = count = 0
    for number, (signal, found) in enumerate(zip(signals, together)):
        own = signal + noise(signal.size, NARROW, NOISE)
        wanted = set(received(own, NARROW, equalise=number == MULTIPATH)[0]) & set(GROUPS[number])
        assert bool(wanted) == (number not in (WITHOUT_RDS, LIKE_NOISE))
        assert not found - set(GROUPS[number])
        lost, count = lost + len(wanted - found), count + len(wanted)
        level = capture.receivers[number].quality.report()["level_dbfs"]
        assert abs(level - 10 * numpy.log10(numpy.mean(numpy.abs(signal) ** 2))) < 1
    assert count >= 10 * 18 and lost <= count / 100


@pytest.mark.xdist_group("capture")
def test_a_neighbour_costs_a_decibel_at_most() -> None:
    """200 kHz away and 20 dB stronger, beside a weak signal and a good one."""
    groups = words(5, 34)
    own, neighbour = Sent(0.0, encode(groups)), Sent(200000.0, encode(words(6, 34)), 20.0)
    signals = [alone(one, 2.9, seed) for seed, one in enumerate((own, neighbour))]

    def found(stations: List[Sent], level: float) -> Tuple[int, float]:
        signal = captured(stations, 2 * NARROW, 2.9, level, signals[: len(stations)])
        told, report = received(signal, 2 * NARROW)
        return len(set(told) & set(groups)), report["snr_db"]

    for level in (-12.0, -30.0):
        beside, louder = found([own, neighbour], level), found([own], level + 1)
        assert beside[0] >= louder[0] and beside[1] >= louder[1] - 0.05, level


@pytest.fixture(scope="module")
def two() -> Array:
    """At 600,000 samples per second, by 12 dB of unlike levels."""
    stations = [Sent(-150e3, encode(GROUPS[0])), Sent(170e3, encode(GROUPS[1]), -12.0)]
    return captured(stations, 600000, SECONDS, NOISE)


@pytest.fixture(scope="module")
def by_numpy(two: Array) -> List[Set[Words]]:
    with pytest.MonkeyPatch.context() as patch:
        patch.setattr(filters, "transforms", lambda: numpy.fft)
        return groups_in(Capture(600000, True, 1.0, [-150e3, 170e3]), two)


@pytest.mark.xdist_group("capture")
@pytest.mark.parametrize("module", ["pyfftw", "scipy.fft"])
def test_the_same_groups_by_each_module(
    two: Array, by_numpy: List[Set[Words]], module: str, monkeypatch: pytest.MonkeyPatch
) -> None:
    pytest.importorskip(module)
    known = transforms.Fftw() if module == "pyfftw" else importlib.import_module(module)
    monkeypatch.setattr(filters, "transforms", lambda: known)
    assert groups_in(Capture(600000, True, 1.0, [-150e3, 170e3]), two) == by_numpy
    assert min(map(len, by_numpy)) >= 18


def test_the_first_module_that_is_installed(monkeypatch: pytest.MonkeyPatch) -> None:
    there = ["numpy.fft", "scipy.fft", "pyfftw"]

    def found(name: str) -> str:
        if name not in there:
            raise ImportError(name)
        return name

    monkeypatch.setattr(transforms.importlib, "import_module", found)
    chosen = transforms.transforms.__wrapped__
    assert isinstance(chosen(), transforms.Fftw)
    for name in ("scipy.fft", "numpy.fft"):
        there.pop()
        assert chosen() == name


@pytest.mark.xdist_group("capture")
def test_stations_that_are_left_out_later(two: Array) -> None:
    """Those that stay lose nothing."""
    offsets = [0.0, 170e3, -150e3]
    capture, (whole,) = Capture(600000, True, 1.0, offsets), bits_of(Capture(600000, True, 1.0, [170e3]), two)
    before = capture.push(two[:400000])[1]
    capture.keep([1])
    rest = [capture.push(two[400000:]), capture.finish()]
    assert (numpy.concatenate([before, *(bits for (bits,) in rest)]) == whole).all()
