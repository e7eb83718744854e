#!/usr/bin/python3
"""A simulated wideband receiver: u8 IQ of several FM stations, over and over, in real time: capture.py --keep FILE > iq.u8

Each station sends pilot, a tone and RDS. The part that is repeated has whole groups, and whole cycles of all carriers, so no bit is lost
where it begins again. It is made in some seconds, and kept in FILE."""

from __future__ import annotations

import argparse
import os
import sys
import time
from typing import Any, List, NamedTuple, Tuple

import numpy

from station import RATE, Programme, encoded

# Of the capture and of a station by itself, in samples per second; and the groups that are repeated.
WIDE, NARROW, GROUPS = 1187500, 237500, 38
SECONDS = GROUPS * 104 / RATE
CENTRE = 98.0
DEVIATION_HZ = 75000


class OnAir(NamedTuple):
    """A station of the capture: its frequency in MHz, its level in dB, and what it sends."""

    frequency: float
    level: float
    programme: Programme


STATIONS: Tuple[OnAir, ...] = (
    OnAir(97.6, 0, Programme(0xD321, "DELTA", "Delta", clock=None)),
    OnAir(97.8, -20, Programme(0xD322, "EPSILON", "Epsilon", clock=None)),
    OnAir(98.2, -6, Programme(0xD323, "ZETA", "Zeta", clock=None)),
    OnAir(98.4, -12, Programme(0xD324, "ETA FM", "Eta", clock=None)),
)


def bits_of(programme: Programme) -> Any:
    """From a group on with which the number of ones is even, so that the differential code goes on where it begins again."""
    for first in range(GROUPS):
        groups = [programme.group(number) for number in range(first, first + GROUPS)]
        bits = numpy.unpackbits(numpy.frombuffer(encoded(groups), "u1"))
        if bits.sum() % 2 == 0:
            return bits
    raise ValueError("no beginning gives an even number of ones")


def baseband(programme: Programme) -> Any:
    """Biphase symbols of the standard's shape, by their spectrum."""
    bits = bits_of(programme)
    signs = 2.0 * numpy.bitwise_xor.accumulate(bits) - 1
    impulses = numpy.zeros(round(SECONDS * NARROW))
    per_chip = NARROW // round(2 * RATE)
    impulses[::per_chip] = numpy.column_stack([signs, -signs]).ravel()
    frequencies = numpy.fft.rfftfreq(impulses.size, 1 / NARROW)
    shape = numpy.where(frequencies < 2 * RATE, numpy.cos(numpy.pi * frequencies / (4 * RATE)), 0)
    signal = numpy.fft.irfft(numpy.fft.rfft(impulses) * shape, impulses.size)
    return signal / numpy.sqrt(numpy.mean(signal**2))


def spectrum_of(station: OnAir, number: int) -> Any:
    """Of its FM signal, around its own frequency."""
    data = baseband(station.programme)
    times = 2 * numpy.pi * numpy.arange(data.size) / NARROW
    tone = round((400 + 100 * number) * SECONDS) / SECONDS
    sines = [numpy.sin(hertz * times) for hertz in (tone, 19000, 57000)]
    mpx = 0.5 * sines[0] + 0.09 * sines[1] + 0.03 * data * sines[2]
    phases = numpy.cumsum(mpx - mpx.mean()) * (2 * numpy.pi * DEVIATION_HZ / NARROW)
    return 10 ** (station.level / 20) * numpy.fft.fft(numpy.exp(1j * phases))


def capture() -> bytes:
    """The part that is repeated."""
    size = round(SECONDS * WIDE)
    spectrum = numpy.zeros(size, complex)
    for number, station in enumerate(STATIONS):
        own = spectrum_of(station, number)
        bins = numpy.fft.fftfreq(own.size, 1 / own.size).astype(int)
        numpy.add.at(spectrum, (bins + round(1e6 * (station.frequency - CENTRE) * SECONDS)) % size, own)
    signal = numpy.fft.ifft(spectrum)
    random = numpy.random.default_rng(1)
    signal += numpy.std(signal) / 300 * (random.standard_normal(size) + 1j * random.standard_normal(size))
    whole = numpy.rint(signal.view("f8") * (120 / numpy.abs(signal).max()) + 127.5)
    return bytes(whole.astype("u1").tobytes())


def play(data: bytes) -> None:
    """In real time, without end."""
    begin, sent = time.monotonic(), 0
    while True:
        due = int((time.monotonic() - begin) * WIDE) * 2
        parts: List[bytes] = []
        while sent < due:
            at = sent % len(data)
            parts.append(data[at : at + due - sent])
            sent += len(parts[-1])
        for part in parts:
            sys.stdout.buffer.write(part)
        sys.stdout.buffer.flush()
        time.sleep(0.05)


def main() -> int:
    parser = argparse.ArgumentParser(description=(__doc__ or "").split("\n")[0])
    parser.add_argument(
        "--keep", required=True, metavar="FILE", help="make the part that is repeated, or take it from here"
    )
    parser.add_argument("--make", action="store_true", help="only make it")
    arguments = parser.parse_args()
    if not os.path.exists(arguments.keep):
        with open(f"{arguments.keep}.new", "wb") as file:
            file.write(capture())
        os.replace(f"{arguments.keep}.new", arguments.keep)
    if not arguments.make:
        with open(arguments.keep, "rb") as file:
            play(file.read())
    return 0


if __name__ == "__main__":
    try:
        sys.exit(main())
    except (BrokenPipeError, KeyboardInterrupt):
        sys.exit(1)
