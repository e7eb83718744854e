"""Times: UTC counted by the monotonic clock, and when bits were sent, by when they came."""

import math
import time
from collections import deque
from typing import Deque, NamedTuple, Optional, Tuple

from ..rows.clock import RATE

STEP = 1.0  # a step of the machine's clock, in seconds, that is not just its being kept right


class Now(NamedTuple):
    """A moment: seconds of the monotonic clock, and UTC since 1970 by the machine's clock."""

    steady: float
    utc: float


class Times:
    """The machine's clocks, or ones that are `speed` times as fast and begin with them: `begin` is the UTC of that."""

    def __init__(self, speed: float = 1.0):
        self.speed = speed
        self._steady, self.begin = time.monotonic(), time.time()

    def now(self) -> Now:
        begins, now = (self._steady, self.begin), (time.monotonic(), time.time())
        return Now(*(begin + (at - begin) * self.speed for begin, at in zip(begins, now)))


class SteadyUtc:
    """UTC by the monotonic clock, and the steps of the machine's clock against it."""

    def __init__(self, now: Now, speed: float = 1.0):
        self._ahead, self._least = now.utc - now.steady, STEP * speed

    def step(self, now: Now) -> float:
        """How far the machine's clock was set since the last call, if it was. The new time counts from now on."""
        ahead = now.utc - now.steady
        moved, self._ahead = ahead - self._ahead, ahead
        return moved if abs(moved) > self._least else 0.0

    def utc(self, now: Now) -> float:
        return now.steady + self._ahead


class Timing(NamedTuple):
    """Positions as UTC: that of bit 0, and bits per second."""

    start: float
    rate: float = RATE

    def utc(self, place: float) -> float:
        return self.start + place / self.rate

    def place(self, utc: float) -> int:
        """The first position that is not before this time."""
        return math.ceil((utc - self.start) * self.rate)


class BitPace(NamedTuple):
    """How many times as fast as 1187.5 per second bits come, and since when."""

    factor: float
    since: float


class Arrivals:
    """The timing of a session by when its bits come.

    A bit cannot come before it was sent, so the read that came with the least delay counts: of the first second for the
    start, of the last ten for its corrections. At a cut the timing goes on without a jump, at a rate that makes up for
    the difference within an hour; only bits that come later for good make the time jump, and then forward."""

    SETTLING, WINDOW, LATE, NOISE, HORIZON = 1.0, 10.0, 0.5, 0.05, 3600.0
    MOST = 1e-3  # by which a rate is off
    # Seconds of bits that a receiver may have had before it was started, and over which their pace is measured.
    BACKLOG, PACE, PACE_LEAST = 60.0, 30.0, 10.0
    KNEE = 0.02  # by how many seconds of bits a read is off a straight line if the pace changed at it

    def __init__(self, speed: float = 1.0, began: float = -math.inf):
        self.timing: Optional[Timing] = None
        self._speed, self._began = speed, began
        self._first = self._since = 0.0
        self._before, self._settled = 0.0, False
        self._delays: Deque[Tuple[int, float]] = deque()  # of each second, and since when
        self._noted = 0
        self.reads: Deque[Tuple[float, int]] = deque()

    def take(self, place: int, utc: float) -> None:
        """The bits up to this position had come at this time."""
        if self.timing is None:
            self.timing = Timing(max(utc - place / RATE, self._began - self.BACKLOG * self._speed))
            self._first, self._since = self.timing.start, utc
        delay = utc - self.timing.utc(place)
        self._settled |= utc - self._since >= self.SETTLING * self._speed
        if delay < 0 and not self._settled:
            start = max(self.timing.start + delay, self._first - self.SETTLING * self._speed)
            self.timing = Timing(start)
            delay = utc - self.timing.utc(place)
        self._note(int(utc / self._speed), delay)
        if not self.reads or utc - self.reads[-1][0] >= self._speed:
            self.reads.append((utc, place))
        while self.reads[0][0] < utc - self.PACE * self._speed:
            self.reads.popleft()

    def _note(self, second: int, delay: float) -> None:
        self._noted = self._noted if self._delays else second
        if self._delays and self._delays[-1][0] == second:
            delay = min(delay, self._delays.pop()[1])
        self._delays.append((second, delay))
        while self._delays[0][0] <= second - self.WINDOW:
            self._delays.popleft()

    def delay(self) -> float:
        """The least delay of the last seconds: 0 while they are too few, or if it is only noise."""
        if not self._delays or self._delays[-1][0] - self._noted < self.WINDOW - 1:
            return 0.0
        least = min(delay for _, delay in self._delays)
        return least if abs(least) > self.NOISE * self._speed else 0.0

    @property
    def ahead(self) -> float:
        """By how many seconds the last bits came before they can have been sent."""
        return max(0.0, -self._delays[-1][1]) if self._delays else 0.0

    def pace(self) -> Optional[BitPace]:
        """That of the last bits, if they tell. It changed at the read that is furthest from the line through the first and the last one."""
        if len(self.reads) < 2 or self.reads[-1][0] - self.reads[0][0] < self.PACE_LEAST * self._speed:
            return None
        (first, begin), (last, end) = self.reads[0], self.reads[-1]
        rate = (end - begin) / (last - first)
        off, knee = max((abs(place - begin - rate * (utc - first)), utc) for utc, place in self.reads)
        return BitPace(rate / RATE, knee if off > self.KNEE * self._speed * RATE else first)

    def is_late(self) -> bool:
        return self.delay() > self.LATE * self._speed

    def jump(self, seconds: float) -> None:
        """The time jumps forward: bits were dropped, or the machine's clock was set."""
        assert self.timing is not None and seconds >= 0
        self.timing = Timing(_up(self.timing.start + seconds), self.timing.rate)
        self._delays.clear()
        self._before, self._settled = 0.0, True

    def cut(self, place: int, utc: float) -> None:
        """From this position on the rate is the one by which the bits came."""
        assert self.timing is not None
        delay, lasted, self._settled = self.delay(), utc - self._since, True
        drift = (delay - self._before) / lasted if lasted > 600 else 0.0
        slow = (1 + drift + delay / self.HORIZON) * RATE / self.timing.rate
        rate = round(RATE / min(max(slow, 1 - self.MOST), 1 + self.MOST), 4)
        self._delays.clear()
        self._before, self._since = delay, utc
        if rate != self.timing.rate:
            self.timing = Timing(_up(self.timing.utc(place) - place / rate), rate)


def _up(seconds: float) -> float:
    """To the next millisecond, as names of files have it, so that no time goes back."""
    return math.ceil(seconds * 1000) / 1000
