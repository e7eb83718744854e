"""Times: UTC by a start and a rate, and both by the station's clock."""

from __future__ import annotations

import argparse
import datetime
from typing import List, Sequence

import numpy
import pytest
from hypothesis import given, settings, strategies as st

from conftest import STATION
from made import group_row, listing, run, said
from rds_monitor.measures.clock import Tick, fit, go_together, slope_of, stretches_of, ticks_of
from rds_monitor.rows.clock import Clock, number_of, rate_of, start_of, utc_text, utc_texts
from rds_monitor.rows.items import Fault

STARTS = """
1970-01-01T00:00:00Z 1999-12-31T23:59:59Z 2000-02-28T23:59:59Z 2024-02-29T12:00:00Z 2026-03-29T00:30:00Z
2026-12-31T23:59:59Z 2100-02-28T23:30:00Z
""".split()


@pytest.mark.parametrize("start", STARTS)
def test_utc(start: str) -> None:
    clock, begin = Clock(start_of(start)), datetime.datetime.strptime(start, "%Y-%m-%dT%H:%M:%SZ")
    for place in (0, 1188, 5937500, 68719476700):
        whole = begin + datetime.timedelta(seconds=place / 1187.5 + 0.0005)
        assert clock.utc(place) == [whole.isoformat(timespec="milliseconds")[:23] + "Z"]
        assert utc_texts(numpy.array([(clock.start or 0) + place / 1187.5])) == clock.utc(place)


NO_STARTS = """
2026-03-29 2026-02-29T00:00:00Z 2026-13-01T00:00:00Z 2026-03-29T24:00:00Z 1969-12-31T00:00:00Z
2026-03-29T00:30:00 9999-12-31T23:59:59Z
""".split()


@pytest.mark.parametrize("start", [*NO_STARTS, "2026-03-29 00:30:00Z", ""])
def test_starts_that_are_none(start: str) -> None:
    done = run("errors", "--start", start)
    assert done.status == 2 and "is no time in UTC, such as 2026-03-29T00:30:00Z" in done.err


@pytest.mark.parametrize("rate", ["37", "9999", "1187,5", "-1187.5", "1.1.8", "ppm", "nan", "inf"])
def test_rates_that_are_none(rate: str) -> None:
    done = run("errors", f"--rate={rate}")
    assert done.status == 2 and "1187.5 within a tenth" in done.err


def test_numbers_at_their_bounds() -> None:
    assert [rate_of("1068.1"), rate_of("1306.9")] == [1068.1, 1306.9]
    assert number_of("999999999999") == 10**12 - 1 and number_of("0.123456789") == 0.123456789
    assert start_of("1970-01-01T00:00:01.123456Z") == pytest.approx(1.123456)
    for make, text in (
        (number_of, "1000000000000"),
        (number_of, "0.1234567891"),
        (start_of, "1970-01-01T00:00:01.1234567Z"),
    ):
        with pytest.raises(argparse.ArgumentTypeError):
            make(text)


def test_the_last_start_has_times_to_the_end_of_the_longest_recording() -> None:
    for command in (["json", "--redsea"], ["json"], ["info", "--csv"], ["groups", "--times"], ["table"]):
        rows = said(*command, "--start", "9990-12-31T23:59:59Z", STATION)
        assert "9991-01-01T00:0" in rows[-1]
    assert Clock(start_of("9990-12-31T23:59:59Z"), 1068.1).utc(2**36)[0].startswith("9993-01-14T")


# ---- the station's clock


@pytest.mark.parametrize("bits", range(116, 125))
def test_ticks_that_go_together(bits: int) -> None:
    """Two bits a second: the clocks differ by less than half a second, and a hundredth of a minute."""
    pair = Tick(1000, 0), Tick(1000 + bits, 60)
    assert go_together(*pair, 2.0, 0.0) == (bits == 120)
    assert go_together(*pair, 2.0, 0.01) == (118 <= bits <= 122)
    assert not go_together(pair[1], pair[1], 2.0, 1.0)


def minute_group(place: int, time: int) -> numpy.ndarray:
    """A group of clock time that ends at this place, and says this many seconds since 1970."""
    day, second = 40587 + time // 86400, time % 86400
    hour, minute = second // 3600, second // 60 % 60
    words = (0xD393, 0x4540 | day >> 15, (day & 0x7FFF) << 1 | hour >> 4, (hour & 15) << 12 | minute << 6 | 2)
    return group_row(place - 104, words)


def clock_times(hours: int, ppm: float, dropped: int = 0, wrong: int = 97) -> bytes:
    """The clock times of some hours from 2026-03-29T00:31Z on, which begin 17.25 s after half past, by a clock that is
    off by `ppm` parts per million; each within a tenth of a second, one in `wrong` says another minute, and half way
    bits are absent.
    """
    random, rows = numpy.random.default_rng(5), []
    first = start_of("2026-03-29T00:30:00Z")
    for n in range(1, hours * 60):
        end = 1187.5 * (1 + ppm / 1e6) * (n * 60 - 17.25 + random.uniform(-0.1, 0.1))
        wrong_by = 420 if n % wrong == 50 else 0
        rows.append(minute_group(int(end - dropped * (n > hours * 30)), int(first) + 60 * n + wrong_by))
    return listing(rows, totals=False)


@pytest.mark.parametrize("ppm, dropped", [(0, 0), (37, 0), (-120, 11875)])
def test_the_samplers_clock(ppm: float, dropped: int) -> None:
    text = clock_times(31, ppm, dropped)
    head, row = said("clock", "--unfinished", data=text)
    assert head == "groups,stretches,hours,rate,ppm,within_ppm,start_utc"
    found = dict(zip(head.split(","), row.split(",")))
    assert abs(float(found["ppm"]) - ppm) < 0.5 and float(found["within_ppm"]) < 1
    assert found["start_utc"].startswith("2026-03-29T00:30:17")
    assert (found["groups"], found["hours"]) == ("1859", "30.97")
    options = said("clock", "--unfinished", "--options", data=text)[0].split()
    assert options[::2] == ["--start", "--rate"]
    steps = said("clock", "--unfinished", "--steps", data=text)[1:]
    assert [round(float(step.split(",")[2]), 0) for step in steps] == ([10] if dropped else [])
    # By these options a minute begins as it should.
    place = int(1187.5 * (1 + ppm / 1e6) * 42.75)
    rows = said("types", "--unfinished", *options, data=listing([group_row(place, (1, 2, 3, 4))], False))
    assert rows[1].split(",")[-1][:19] in ("2026-03-29T00:31:00", "2026-03-29T00:30:59")


def test_a_recording_that_is_too_short(station_listing: bytes) -> None:
    done = run("clock", data=station_listing)
    fault = "no three of the 74 valid groups of clock time go together over ten minutes"
    assert (done.status, done.err) == (1, f"rds-monitor clock: {fault}\n")
    with pytest.raises(Fault):
        fit([])


def test_the_first_start() -> None:
    """Ten minutes from the first one of 1970 on, by a clock that is right."""
    rows = [minute_group(71250 * n, 60 * n) for n in range(1, 12)]
    told = said("clock", "--unfinished", data=listing(rows, totals=False))[1]
    assert told == "11,1,0.17,1187.500000,0.0,0.0,1970-01-01T00:00:00.000Z"


def test_ticks_of_one_minute() -> None:
    """Two that say the same minute tell no rate, but those before them do."""
    ticks = [Tick(78000 * minute, 60 * minute) for minute in range(12)]
    assert fit([*ticks, Tick(78000 * 11 + 104, 660)]).clock.rate == pytest.approx(1300)


@pytest.mark.parametrize("numbers", [range(3, 20, 2), (3, 5, 14)])
def test_the_error_of_a_rate(numbers: Sequence[int]) -> None:
    """That of a straight line through the ticks, by numpy. Twice as much is told, in millionths."""
    ticks = [Tick(71250 * minute + n * n % 7 * 40, 60 * minute) for n, minute in enumerate(numbers)]
    places, times = zip(*ticks)
    line, covariance = numpy.polyfit(times, places, 1, cov=True)
    error = covariance[0][0] ** 0.5
    assert slope_of([ticks]) == pytest.approx((line[0], error))
    assert fit(ticks).within_ppm == pytest.approx(2 * error / 1187.5 * 1e6)


def test_clock_times_that_are_none() -> None:
    good, first = minute_group(1000, int(start_of("2026-03-29T00:31:00Z"))), minute_group(1000, 0)
    assert ticks_of(good) == [Tick(1000, int(start_of("2026-03-29T00:31:00Z")))]
    assert ticks_of(first) == [Tick(1000, 0)] and ticks_of(minute_group(1000, -60)) == []
    hour_24 = {"info3": int(good["info3"][0]) | 1}
    for changes in (
        *(
            {"info4": 0x7F02},
            {"kind1": 3},
            {"kind2": 3},
            {"kind3": 3},
            {"kind4": 1},
            {"version": 2},
            {"number": 3},
        ),
        *({**hour_24, "info4": 0x8000}, {**hour_24, "info4": 0xF000}),
    ):
        bad = good.copy()
        for field, value in changes.items():
            bad[field] = value
        assert ticks_of(bad) == []


@settings(max_examples=60, deadline=None)
@given(st.floats(0, 4e9), st.floats(1069, 1306), st.integers(0, 2**36))
def test_places_and_times(start: float, rate: float, place: int) -> None:
    clock = Clock(start, rate)
    text = clock.utc(place)[0]
    assert abs(start_of(text) - start - clock.seconds(place)) < 0.002
    assert utc_text(start_of(text)) == text


def minutes(*numbers: int, late: int = 0) -> List[Tick]:
    """Ticks of these minutes, some bits late."""
    return [Tick(71250 * n + late, 60 * n) for n in numbers]


@pytest.mark.parametrize(
    "numbers, fits", [((0, 5, 10), True), ((0, 10), False), (range(10), False), (range(11), True)]
)
def test_three_ticks_over_ten_minutes_are_enough(numbers: Sequence[int], fits: bool) -> None:
    if fits:
        assert fit(minutes(*numbers)).clock.rate == pytest.approx(1187.5)
        return
    with pytest.raises(Fault, match="go together over ten minutes"):
        fit(minutes(*numbers))


@pytest.mark.parametrize(
    "numbers, steps", [((14,), []), ((14, 15), [-2.0]), ((0, 1, 2), []), ((12, 14, 15), [])]
)
def test_two_ticks_tell_a_step(numbers: Sequence[int], steps: List[float]) -> None:
    """None of them may be amid a longer stretch, as two are that are 8 s late."""
    wrong = minutes(5, 7, late=9500)
    found = fit(sorted(minutes(*range(2, 14)) + wrong + minutes(*numbers, late=2375)))
    assert [seconds for _, seconds in found.steps()] == pytest.approx(steps)
    assert all(tick == Tick(71250 * 14 + 2375, 60 * 14) for tick, _ in found.steps())


def test_the_first_guess_of_a_rate_is_rough() -> None:
    """Two of three ticks come 50 ms later than the one before, which over 21 minutes would be a second."""
    ticks = [Tick(71250 * n + n % 3 * 60, 60 * n) for n in (*range(7), *range(27, 34))]
    assert len(fit(ticks).stretches) == 1


@pytest.mark.parametrize("strays, lengths", [(8, [13]), (9, [7, 6])])
def test_a_stretch_goes_on_after_strays(strays: int, lengths: List[int]) -> None:
    """After eight, each a day before the last one; so that a long recording takes no longer, no more are passed over."""
    wrong = [Tick(71250 * (6 + k), 60 * (6 + k) - 86400 * (k + 1)) for k in range(strays)]
    ticks = minutes(*range(6)) + wrong + minutes(*range(20, 27))
    found = sorted((len(one) for one in stretches_of(ticks, 1187.5, 1e-4)), reverse=True)
    assert [length for length in found if length > 1] == lengths
