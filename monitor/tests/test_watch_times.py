"""The times of bits by when they come: drifting clocks, late reads, dropped samples, and a machine's clock that is set."""

from __future__ import annotations

import random
from typing import Iterator, List, Tuple

import numpy
import pytest
from hypothesis import given
from hypothesis import strategies as st

from rds_monitor.watch.times import RATE, Arrivals, Now, SteadyUtc, Times, Timing

BEGIN = 1795748400.0


def reads(
    seconds: float, ppm: float, delays: "Iterator[float]", every: float = 1.0
) -> Iterator[Tuple[int, float, float]]:
    """Position, the UTC at which it was on the air, and when it came."""
    for n in range(1, int(seconds / every) + 1):
        place = int(n * every * RATE)
        sent = BEGIN + place / (RATE * (1 + ppm * 1e-6))
        yield place, sent, sent + next(delays)


def jitter(seed: int, most: float) -> Iterator[float]:
    chance = random.Random(seed)
    while True:
        yield chance.uniform(0.02, most)


# Whatever a clock's speed is, all is the same as by one that is right, but for the unit of time.
at_each_speed = pytest.mark.parametrize("speed", [1, 4])


@pytest.mark.parametrize("ppm", [-120, -20, 0, 20, 120])
def test_a_day_of_a_clock_that_drifts(ppm: float) -> None:
    """Cut each hour: no time is off by more than a second, and none goes back."""
    arrivals = Arrivals()
    last, cuts = 0.0, 0
    for place, sent, came in reads(86400, ppm, jitter(1, 0.3)):
        arrivals.take(place, came)
        assert arrivals.timing is not None and not arrivals.is_late()
        told = arrivals.timing.utc(place)
        assert told >= last and abs(told - sent) < 1
        last = told
        if (came - BEGIN) // 3600 > cuts:
            cuts += 1
            arrivals.cut(place, came)
    assert cuts in (23, 24) and abs(arrivals.timing.rate / RATE - 1 - ppm * 1e-6) < 60e-6


@at_each_speed
def test_the_first_second_corrects_the_start(speed: int) -> None:
    """The first read was held up by 0.4 s, and those that follow were not. It is corrected by a second at most."""
    arrivals = Arrivals(speed)
    for place, came, start in (
        (1187, 1187 / RATE + 0.4, 0.4),
        (1306, 1306 / RATE + 0.01, 0.01),
        (5000, 1.3, -0.6),
    ):
        arrivals.take(speed * place, BEGIN + speed * came)
        assert arrivals.timing == Timing(pytest.approx(BEGIN + speed * start, abs=1e-3))
    assert arrivals.ahead == pytest.approx(speed * (5000 / RATE - 0.6 - 1.3), abs=0.01)


def test_a_start_that_jumped_is_not_corrected() -> None:
    arrivals = Arrivals()
    arrivals.take(int(RATE), BEGIN + 1.4)
    arrivals.jump(0.5)
    arrivals.take(int(1.6 * RATE), BEGIN + 2.2)
    assert arrivals.timing == Timing(pytest.approx(BEGIN + 0.9, abs=2e-3))
    assert arrivals.ahead == pytest.approx(0.3, abs=2e-3)
    # It is no drift either: twenty minutes later bits still come in time.
    for second in range(1190, 1201):
        arrivals.take(int(second * RATE), BEGIN + second + 0.9)
    arrivals.cut(int(1200 * RATE), BEGIN + 1200.9)
    assert arrivals.timing.rate == RATE


@at_each_speed
@pytest.mark.parametrize("after, start", [(0.9, 0.1), (1.1, 0.4)])
def test_the_start_is_corrected_for_a_second(after: float, start: float, speed: int) -> None:
    """The first read was held up by 0.4 s, and the second one, `after` seconds later, by 0.1 s."""
    arrivals = Arrivals(speed)
    for came, delay in ((2, 0.4), (2 + after, 0.1)):
        arrivals.take(int(speed * (came - delay) * RATE), BEGIN + speed * came)
    assert arrivals.timing == Timing(pytest.approx(BEGIN + speed * start, abs=1e-3))


def test_of_a_second_the_read_with_the_least_delay_counts() -> None:
    """Of two that came before they can have been sent, by a second and by half of one."""
    arrivals = Arrivals()
    for place, came in ((RATE, 1), (101.2 * RATE, 100.2), (101.3 * RATE, 100.8)):
        arrivals.take(int(place), BEGIN + came)
    assert arrivals.ahead == pytest.approx(1, abs=0.01)


@at_each_speed
@pytest.mark.parametrize("seconds, start", [(1, 0), (30, -29), (60, -59), (100, -60.5)])
def test_bits_from_before_a_receiver_was_started(seconds: int, start: float, speed: int) -> None:
    """A second after that it gives them all at once. It had those of a minute, or a second more, and no others."""
    arrivals = Arrivals(speed, began=BEGIN)
    arrivals.take(int(speed * seconds * RATE), BEGIN + speed)
    assert arrivals.timing is not None and abs(arrivals.timing.start - BEGIN - speed * start) <= 0.5 * speed


@at_each_speed
@pytest.mark.parametrize(
    "late, delay, is_late", [(0.04, 0, False), (0.06, 0.06, False), (0.49, 0.49, False), (0.51, 0.51, True)]
)
def test_when_a_delay_counts(late: float, delay: float, is_late: bool, speed: int) -> None:
    """Less than a twentieth of a second is noise. Of half a second and more the time jumps."""
    arrivals = Arrivals(speed)
    for second in range(1, 21):
        arrivals.take(int(speed * second * RATE), BEGIN + speed * (second + (late if second > 5 else 0)))
    assert arrivals.delay() == pytest.approx(speed * delay, abs=0.002) and arrivals.is_late() == is_late
    assert arrivals.ahead == 0


@at_each_speed
def test_dropped_samples_make_the_time_jump_forward(speed: int) -> None:
    """Bits that come two seconds late for good. A read that is late once changes nothing."""
    arrivals = Arrivals(speed)
    delays: List[float] = [0.05] * 60 + [3.0] + [0.05] * 30 + [2.05] * 30
    seen = []
    for place, _, came in reads(len(delays), 0, iter(delays)):
        arrivals.take(speed * place, BEGIN + speed * (came - BEGIN))
        seen.append(arrivals.is_late())
        if seen[-1]:
            arrivals.jump(arrivals.delay())
    # The last read in time came after 91 s, and the first one that is ten seconds later is the hundredth, two seconds late.
    assert seen.index(True) == 98 and seen.count(True) == 1
    assert arrivals.timing is not None and abs(arrivals.timing.start - BEGIN - 2.05 * speed) < 0.02 * speed


@at_each_speed
@pytest.mark.parametrize("factor", [0.97, 1.02, 1.3])
def test_when_the_pace_changes(factor: float, speed: int) -> None:
    """It is another one from second 60 to 100. The first look that tells so says when that began. One that does not change is known after
    ten seconds, and told of the last thirty."""
    arrivals, place, found, since = Arrivals(speed), 0.0, [], {}
    for second in range(1, 150):
        place += RATE * (factor if 60 < second <= 100 else 1)
        arrivals.take(int(speed * place), BEGIN + speed * second)
        pace = arrivals.pace()
        since[second] = pace and (pace.since - BEGIN) / speed
        is_off = pace is not None and abs(pace.factor - 1) > 0.01
        if pace and is_off != (len(found) % 2 == 1):
            found.append((pace.since - BEGIN) / speed)
    assert len(found) == 2 and numpy.allclose(found, (60, 100), atol=1.5)
    assert [since[second] for second in (10, 11, 31, 32, 55)] == [None, 1, 1, 2, 25]


@at_each_speed
def test_a_read_of_each_second_counts(speed: int) -> None:
    """Of eight in a second; and before the first one no bit is ahead."""
    arrivals = Arrivals(speed)
    assert arrivals.ahead == 0
    for eighth in range(1, 161):
        arrivals.take(int(speed * eighth / 8 * RATE), BEGIN + speed * eighth / 8)
    assert [utc - BEGIN for utc, _ in arrivals.reads] == [speed * (second + 0.125) for second in range(20)]


def test_a_pace_by_two_reads() -> None:
    arrivals = Arrivals()
    for second in (1, 11):
        arrivals.take(int(1.5 * second * RATE), BEGIN + second)
    assert arrivals.pace() == (pytest.approx(1.5, abs=0.001), BEGIN + 1)


@pytest.mark.parametrize(
    "lasted, late, rate",
    [
        (600, 0.36, 1187.3813),
        (601, 0.36, 1186.6705),
        (3600, 0.36, 1187.2625),
        (3600, 0.049, 1187.5),
        (3600, 9, 1186.3137),
        (3600, -9, 1188.6887),
    ],
)
def test_the_rate_after_a_cut(lasted: int, late: float, rate: float) -> None:
    """It makes up for a delay within an hour, and after ten minutes or less not for more. It is off by a thousandth at most. The next delay
    is known by ten seconds."""
    arrivals = Arrivals()
    for second in range(lasted + 1):
        arrivals.take(int(second * RATE), BEGIN + second + (late if second > 5 else 0))
    place, before = int(lasted * RATE), arrivals.timing
    arrivals.cut(place, BEGIN + lasted)
    assert arrivals.timing is not None and before is not None and arrivals.timing.rate == rate
    assert 0 <= arrivals.timing.utc(place) - before.utc(place) < 0.00101
    for second in range(1, 11):
        arrivals.take(int((lasted + second) * RATE), BEGIN + lasted + second + late)
        known = second == 10 and abs(late) > 0.05
        assert arrivals.delay() == (pytest.approx(late, abs=0.02) if known else 0)


@given(st.lists(st.floats(0, 5), min_size=30, max_size=200), st.floats(-200, 200))
def test_no_time_goes_back(delays: List[float], ppm: float) -> None:
    """However reads are held up, and wherever parts are cut."""
    arrivals = Arrivals()
    last, settled = 0.0, 0
    for n, (place, _, came) in enumerate(reads(len(delays), ppm, iter(delays))):
        arrivals.take(place, came)
        assert arrivals.timing is not None
        if n < 3:
            continue
        if arrivals.is_late():
            arrivals.jump(arrivals.delay())
        if n % 25 == 24:
            arrivals.cut(place, came)
        assert arrivals.timing.utc(place) >= last - 1e-6
        last, settled = arrivals.timing.utc(place), settled + 1
    assert settled


def test_positions_and_times() -> None:
    timing = Timing(BEGIN, 1187.5)
    for utc in (BEGIN, BEGIN + 0.0001, BEGIN + 3600, BEGIN + 86400.123):
        place = timing.place(utc)
        assert timing.utc(place) >= utc > timing.utc(place - 1)


def test_steps_of_the_machines_clock() -> None:
    clock = SteadyUtc(Now(100, BEGIN))
    assert clock.step(Now(101, BEGIN + 1)) == 0 and clock.utc(Now(101, 0)) == BEGIN + 1
    assert clock.step(Now(102, BEGIN + 2.9)) == 0 and clock.utc(Now(102, 0)) == BEGIN + 2.9
    assert clock.step(Now(103, BEGIN + 3600)) == pytest.approx(3596.1)
    assert clock.step(Now(104, BEGIN - 86400)) == pytest.approx(-90001)
    assert clock.utc(Now(105, 0)) == BEGIN - 86399
    fast = SteadyUtc(Now(100, BEGIN), 4)
    assert [fast.step(Now(104, BEGIN + 7.9)), fast.step(Now(108, BEGIN + 16))] == [0, pytest.approx(4.1)]


def test_a_fast_clock() -> None:
    times = Times(100)
    first = times.now()
    while times.now().steady - first.steady < 2:
        pass
    later = times.now()
    assert abs((later.utc - first.utc) - (later.steady - first.steady)) < 5
