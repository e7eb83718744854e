#!/usr/bin/env python3
"""A simulated receiver, for demonstrations and tests: packed bits of a station that is on the air all the time.

    station.py --pi D318 --ps ALPHA --rt 'Now: nothing' [--errors RATE] [--outage EVERY:SECONDS] > bits

Group N of a station is the same whoever receives it: it begins N / 11.418 seconds after 1970. Each sixth group has its number (6A).
--errors is the rate of wrong bits. --outage is noise for the last SECONDS of every EVERY seconds. --dies ends the program after some
seconds of the station, --hangs lets it go on without output, --wrong-pi is another PI for some seconds, like an outage."""

from __future__ import annotations

import argparse
import os
import sys
import time
from typing import Any, Iterable, Iterator, List, NamedTuple, Optional, Tuple

RATE, GROUP_BITS, GROUP_BYTES = 1187.5, 104, 13
GROUPS_PER_SECOND = RATE / GROUP_BITS
Words = Tuple[int, int, int, int]


class Periodic(NamedTuple):
    """The last `seconds` of every `every` seconds."""

    every: float
    seconds: float

    def holds(self, utc: float) -> bool:
        return utc % self.every >= self.every - self.seconds


class Programme(NamedTuple):
    """What a station sends: `af` are two codes of alternative frequencies, `clock` by how many minutes the clock time is off; None sends
    none."""

    pi: int
    ps: str
    rt: str
    pty: int = 10
    tp: bool = True
    wrong_pi: Optional[Periodic] = None
    ta: bool = False
    af: int = 0xE0CD
    clock: Optional[int] = 0

    def group(self, number: int) -> Words:
        begin, end = number / GROUPS_PER_SECOND, (number + 1) / GROUPS_PER_SECOND
        pi = self.pi ^ 0x0101 if self.wrong_pi and self.wrong_pi.holds(begin) else self.pi
        common = self.tp << 10 | self.pty << 5
        if self.clock is not None and int(end / 60) > int(begin / 60):
            return (pi, *clock_words(int(end / 60) + self.clock, common))
        turn = number % 6
        if turn == 5:
            return pi, 6 << 12 | common, number >> 16 & 0xFFFF, number & 0xFFFF
        if turn % 2:
            return (pi, *text_words(self.rt, number // 2, common))
        segment = number // 2 % 4
        return pi, common | self.ta << 4 | 8 | segment, self.af, pair(self.ps.ljust(8), segment)


def pair(text: str, at: int) -> int:
    return int.from_bytes(text.encode("ascii", "replace")[2 * at : 2 * at + 2], "big")


def text_words(text: str, number: int, common: int) -> Tuple[int, int, int]:
    text = (text + "\r")[:64].ljust(-(-(len(text) + 1) // 4) * 4)[:64]
    segment = number % (len(text) // 4)
    return 2 << 12 | common | segment, pair(text, 2 * segment), pair(text, 2 * segment + 1)


def clock_words(minutes: int, common: int) -> Tuple[int, int, int]:
    """Group 4A: the minute that begins where it ends."""
    day, hour, minute = 40587 + minutes // 1440, minutes // 60 % 24, minutes % 60
    return 4 << 12 | common | day >> 15, (day & 0x7FFF) << 1 | hour >> 4, (hour & 15) << 12 | minute << 6


# x^10 + x^8 + x^7 + x^5 + x^4 + x^3 + 1, and the offset words A, B, C and D.
GENERATOR, OFFSETS = 0x5B9, (0x0FC, 0x198, 0x168, 0x1B4)


def _checkword(word: int) -> int:
    rest = word << 10
    for bit in range(15, -1, -1):
        if rest >> bit + 10 & 1:
            rest ^= GENERATOR << bit
    return rest


# A checkword is the sum of those of the word's bytes.
HIGH = [_checkword(byte << 8) for byte in range(256)]
LOW = [_checkword(byte) for byte in range(256)]


def encoded(groups: Iterable[Words]) -> bytes:
    """The bits of groups of version A, 13 bytes each."""
    data = bytearray()
    for words in groups:
        group = 0
        for word, offset in zip(words, OFFSETS):
            group = group << 26 | word << 10 | HIGH[word >> 8] ^ LOW[word & 0xFF] ^ offset
        data += group.to_bytes(GROUP_BYTES, "big")
    return bytes(data)


class Air:
    """Bytes as they are sent, group by group, from the one that is on the air."""

    def __init__(self, namespace: argparse.Namespace):
        self._random: Any = None
        if namespace.errors or namespace.outage:
            # Its import takes ten times as long as all else here.
            import numpy

            self._numpy: Any = numpy
            self._random = numpy.random.default_rng(int(namespace.pi, 16))
        words = int(namespace.pi, 16), namespace.ps, namespace.rt, namespace.pty
        self._programme = Programme(*words, wrong_pi=namespace.wrong_pi)
        self._errors, self._outage = namespace.errors, namespace.outage

    def groups(self, numbers: range) -> bytes:
        data = encoded(self._programme.group(number) for number in numbers)
        return self._damaged(data, numbers) if self._random else data

    def _damaged(self, data: bytes, numbers: range) -> bytes:
        numpy = self._numpy
        sent = numpy.frombuffer(data, "u1").reshape(-1, GROUP_BYTES)
        if self._errors:
            sent = sent ^ numpy.packbits(self._random.random((len(sent), GROUP_BITS)) < self._errors, axis=1)
        if self._outage:
            begins = [number / GROUPS_PER_SECOND for number in numbers]
            noise = numpy.array([self._outage.holds(begin) for begin in begins])[:, None]
            sent = numpy.where(noise, self._random.integers(0, 256, sent.shape, "u1"), sent)
        return bytes(sent.tobytes())


def moments() -> Iterator[float]:
    """UTC of the station, ten times a second: that of a fast watch, if one started this."""
    begin, speed = map(float, os.environ.get("RDS_MONITOR_FAST", "0 1").split())
    while True:
        yield begin + (time.time() - begin) * speed
        time.sleep(0.1)


def periodic(text: str) -> Periodic:
    every, _, seconds = text.partition(":")
    return Periodic(float(every), float(seconds))


def options() -> argparse.Namespace:
    parser = argparse.ArgumentParser(description=(__doc__ or "").split("\n")[0])
    parser.add_argument("--pi", required=True)
    parser.add_argument("--ps", required=True)
    parser.add_argument("--rt", default="")
    parser.add_argument("--pty", type=int, default=10)
    parser.add_argument("--errors", type=float, default=0.0)
    for name in ("--outage", "--wrong-pi"):
        parser.add_argument(name, type=periodic)
    for name in ("--dies", "--hangs"):
        parser.add_argument(name, type=float)
    parser.add_argument("--sent", help="a file that gets the first group of each write and the one after it")
    return parser.parse_args()


def main() -> int:
    plan = options()
    air, first, sent = Air(plan), None, 0
    log: List[int] = [os.open(plan.sent, os.O_WRONLY | os.O_APPEND | os.O_CREAT)] if plan.sent else []
    for utc in moments():
        number = int(utc * GROUPS_PER_SECOND)
        if first is None:
            first, sent, begin = number, number, utc
        if plan.hangs is not None and utc - begin >= plan.hangs:
            time.sleep(3600)
        if number > sent:
            os.write(1, air.groups(range(sent, number)))
            for file in log:
                os.write(file, f"{sent} {number}\n".encode())
            sent = number
        if plan.dies is not None and utc - begin >= plan.dies:
            print("the dongle was unplugged", file=sys.stderr)
            return 1
    return 0


if __name__ == "__main__":
    try:
        sys.exit(main())
    except (BrokenPipeError, KeyboardInterrupt):
        sys.exit(1)
