"""Each alarm: when it begins, when it ends, what holds it, and the command that it runs."""

from __future__ import annotations

import json
import math
from dataclasses import fields
from typing import Any, Dict, List, Optional, Tuple

import pytest

from network import stations
from rds_monitor.content.decoder import Event
from rds_monitor.measures.clock import Tick
from rds_monitor.watch.alarms import NAMES, Alarm, Alarms, Change, Trouble, Watched, words_for
from rds_monitor.watch.table import AlarmLimits, table_of
from rds_monitor.watch.times import BitPace, Timing

# Whole seconds are at whole positions. UTC is ahead of the monotonic clock.
AHEAD = 1000.0
TIMING = Timing(AHEAD, 1200.0)


class Judged:
    """Alarms second by second."""

    def __init__(self, *lines: str, speed: float = 1.0):
        (station,) = table_of(stations('name = "Alpha"', 'command = ["a"]', *lines)).stations
        self.alarms, self.now = Alarms(station, 0.0, speed), 0.0
        self.found: List[Tuple[str, bool, float]] = []
        self.texts: List[str] = []
        self.held: Dict[str, Any] = {"pi": "D318"}

    def seconds(
        self, count: int, *, age: float = 0.1, quiet: float = 0.0, pace: Optional[float] = 1.0, **held: Any
    ) -> "Judged":
        """`count` seconds in which this holds; `age` and `quiet` grow if they are above 2."""
        since = self.now + 1
        told = [
            Event(TIMING.place(since + AHEAD), 0xD318, item, value, None, str(value))
            for item, value in held.items()
            if self.held.get(item) != value
        ]
        self.held.update(held)
        for n in range(count):
            self.now += 1
            self.alarms.take(told if n == 0 else [], [], [], TIMING, AHEAD)
            byte = self.now - (quiet + n if quiet else 0)
            paced = None if pace is None else BitPace(pace, since)
            seen = Watched(byte, age + n if age > 2 else age, self.held, paced)
            changes = self.alarms.judge(seen, self.now)
            self.texts += [change.text for change in changes]
            self.found += [(change.alarm, change.begins, self.now) for change in changes]
        return self

    def minutes(self, *percents: float) -> "Judged":
        for percent in percents:
            self.alarms.take([], [percent], [], TIMING, AHEAD)
            self.seconds(1)
        return self

    def ticks(self, *offsets: float) -> "Judged":
        for offset in offsets:
            place = TIMING.place(self.now + AHEAD)
            self.alarms.take([], [], [Tick(place, int(TIMING.utc(place) + offset))], TIMING, AHEAD)
            self.seconds(1)
        return self


def test_hysteresis() -> None:
    alarm = Alarm(after=10, clear=5)
    said = []
    for now in range(60):
        bad = 5 <= now < 9 or 20 <= now < 40 or now in (41, 43)
        since = {True: 5.0 if now < 9 else 20.0 if now < 40 else float(now)}[True]
        said.append(alarm.judge(Trouble(since, "x") if bad else None, float(now)))
    assert [(now, judged) for now, judged in enumerate(said) if judged is not None] == [
        (30, True),
        (49, False),
    ]


def test_a_silent_receiver() -> None:
    judged = Judged().seconds(20).seconds(13, quiet=3, age=4).seconds(3, quiet=16, age=17).seconds(10)
    assert judged.found == [
        ("no_rds", True, 27.0),
        ("silent", True, 33.0),
        ("silent", False, 42.0),
        ("no_rds", False, 42.0),
    ]
    block, byte = "no valid block for 10 s", "no byte for 15 s"
    assert judged.texts == [block, byte, f"{byte}; it lasted 9 s", f"{block}; it lasted 15 s"]


def test_no_rds() -> None:
    judged = (
        Judged()
        .seconds(10)
        .seconds(9, age=3)
        .seconds(4)
        .seconds(20, age=3)
        .seconds(3)
        .seconds(3, age=3)
        .seconds(10)
    )
    # Each stretch is seen when it is three seconds old. Valid blocks for three or four seconds end nothing.
    assert judged.found == [("no_rds", True, 18.0), ("no_rds", False, 55.0)]


def test_block_errors() -> None:
    judged = Judged().minutes(50, 50, 10, 40, 40, 31, 29, 29, 29, 23, 23, 31, 23, 23, 23)
    assert [(name, begins) for name, begins, _ in judged.found] == [("errors", True), ("errors", False)]
    assert judged.found[0][2] == 6 and judged.found[1][2] == 15
    assert judged.texts[0] == "37.0 % of the blocks bad in 3 min"
    assert Judged("[station.alarms]", "errors = false").minutes(*[99.0] * 9).found == []
    assert Judged().minutes(*[30.0] * 9).found == []
    assert Judged("[station.alarms]", "errors = 0.5").minutes(99.0).found == [("errors", True, 1.0)]
    assert Judged("[station.alarms]", "errors = 60").minutes(*[99.0] * 60).found == [("errors", True, 60.0)]
    # It ends below four fifths of the limit.
    judged = Judged().minutes(*[31.0] * 3, *[24.0] * 9)
    assert [begins for _, begins, _ in judged.found] == [True]
    assert [begins for _, begins, _ in judged.minutes(*[23.9] * 9).found] == [True, False]


@pytest.mark.parametrize("pace, found", [(1.01, []), (0.99, []), (1.0101, ["fast"]), (0.9899, ["slow"])])
def test_a_pace_that_is_off_by_a_hundredth_is_none(pace: float, found: List[str]) -> None:
    judged = Judged("[station.alarms]", "fast = 60", "slow = 60").seconds(90, pace=pace)
    assert [name for name, _, _ in judged.found] == found


def test_another_pi() -> None:
    judged = (
        Judged('pi = "D318"')
        .seconds(30, pi="D318")
        .seconds(8, pi="D319")
        .seconds(5, pi="D318")
        .seconds(15, pi="D319")
    )
    judged.seconds(20, pi="D318")
    assert judged.found == [("pi", True, 54.0), ("pi", False, 69.0)]
    assert Judged().seconds(50, pi="D319").found == []
    assert Judged('pi = ["D318", "D319"]').seconds(50, pi="D319").found == []
    unknown = Judged('pi = "D318"', 'ps = "ALPHA"')
    unknown.held.clear()
    assert unknown.seconds(100).found == []


def test_alternative_frequencies() -> None:
    """Of either method, in any order, in kHz. None at all are others, too."""
    both = Judged("af = [98.1, 89.3]", "[station.alarms]", "af = 30").seconds(40, af=[89300, 98100])
    assert both.found == []
    both.seconds(40, af=[89300]).seconds(20, af=[98100, 89300])
    assert both.found == [("af", True, 71.0), ("af", False, 91.0)]
    assert both.texts[0] == "AF 89.3 in place of 89.3 98.1"
    lists = Judged("af = [98.1, 89.3]", "[station.alarms]", "af = 30").seconds(10)
    lists.held["af:98.1"] = {"tuned": 98100, "same": [89300], "regional": []}
    assert lists.seconds(60).found == []
    lists.held["af:98.1"]["regional"] = [91500]
    assert lists.seconds(60).texts == ["AF 89.3 91.5 98.1 in place of 89.3 98.1"]
    none = Judged("af = [98.1]").seconds(302)
    assert (none.found, none.texts) == ([("af", True, 301.0)], ["AF none in place of 98.1"])


def test_no_clock_time() -> None:
    judged = (
        Judged("[station.alarms]", "no_rds = false", "ct_absent = 150").seconds(100).ticks(0).seconds(140)
    )
    # Time without contents does not count.
    judged.seconds(50, age=3).seconds(20).ticks(0).seconds(100)
    assert judged.found == [("ct_absent", True, 300.0), ("ct_absent", False, 312.0)]
    assert Judged().seconds(4000).found == []


def test_a_clock_time_counts_from_when_it_was_sent() -> None:
    """As long as its bits took to come, and the last of those that came at once."""
    judged = Judged("[station.alarms]", "ct_absent = 150").seconds(100)
    judged.alarms.take([], [], [Tick(TIMING.place(at), at) for at in (1010, 1070)], TIMING, AHEAD)
    assert judged.seconds(200).found == [("ct_absent", True, 220.0)]


@pytest.mark.parametrize("speed", [1, 4])
def test_a_pause_of_two_seconds_is_none(speed: int) -> None:
    judged, pause = Judged("[station.alarms]", "silent = 1", "no_rds = 1", speed=speed).seconds(5), 2 * speed
    assert judged.seconds(1, quiet=pause, age=pause).found == []
    pause += 0.25
    assert [name for name, _, _ in judged.seconds(1, quiet=pause, age=pause).found] == ["silent", "no_rds"]


def test_a_receiver_that_writes_in_bursts() -> None:
    """Each five seconds: what a burst brings counts for the seconds before it."""
    judged = Judged("[station.alarms]", "rt_stuck = 100", "silent = false").seconds(1, rt="One")
    for _ in range(30):
        judged.seconds(4, quiet=1).seconds(1)
    assert judged.found == [("rt_stuck", True, 101.0)]


def test_a_receiver_that_flaps() -> None:
    """More than ten sessions an hour, until only five of the last hour are left."""
    judged = Judged()
    for _ in range(12):
        judged.alarms.begin_session(judged.now)
        judged.seconds(300)
    assert judged.found == [("flapping", True, 3001.0)] and judged.texts == ["11 sessions in an hour"]
    judged.seconds(3600)
    assert judged.found[1:] == [("flapping", False, 5400.0)]
    never = Judged("[station.alarms]", "flapping = 0").seconds(5)
    never.alarms.begin_session(never.now)
    assert never.seconds(2).found == [("flapping", True, 6.0)]


def test_no_contents_hold_their_alarms() -> None:
    """Without RDS nothing can be said of the PI: an alarm stays, and no other begins."""
    judged = Judged('pi = "D318"', "[station.alarms]", "no_rds = false", "silent = false")
    judged.seconds(20, pi="D319").seconds(60, age=3).seconds(1, pi="D318").seconds(60, age=3).seconds(20)
    assert judged.found == [("pi", True, 11.0), ("pi", False, 151.0)]


def test_a_dynamic_ps() -> None:
    judged = Judged('ps = ["ALPHA", "NEWS*"]')
    for _ in range(10):
        judged.seconds(10, ps="ALPHA   ").seconds(15, ps="TRAFFIC ").seconds(10, ps="NEWS AT ")
    assert judged.found == []
    judged.seconds(80, ps="BETA    ")
    assert judged.found == [("ps", True, 411.0)]
    assert judged.texts == ["PS BETA in place of ALPHA or NEWS*"]
    for _ in range(2):
        judged.seconds(2, ps="ALPHA   ").seconds(20, ps="TRAFFIC ")
    assert [begins for _, begins, _ in judged.found] == [True, False]


def test_an_expected_rt() -> None:
    judged = (
        Judged('rt = "Now: *"')
        .seconds(30, rt="Now: a song")
        .seconds(70, rt="TEST\x1b ")
        .seconds(20, rt="Now: another")
    )
    assert [(name, begins) for name, begins, _ in judged.found] == [("rt", True), ("rt", False)]
    assert judged.texts[0] == "RT TEST\\x1b in place of Now: *"
    assert [name for name, _, _ in Judged('rt = "Now: *"').seconds(70).found] == ["rt"]


def test_texts_that_are_stuck() -> None:
    judged = Judged("[station.alarms]", "rt_stuck = 100", "ps_stuck = 50")
    judged.seconds(90, rt="One", ps="A").seconds(120, rt="Two").seconds(5, rt="Three", ps="B")
    assert judged.found == [
        ("ps_stuck", True, 51.0),
        ("rt_stuck", True, 191.0),
        ("ps_stuck", False, 211.0),
        ("rt_stuck", False, 211.0),
    ]
    assert Judged().seconds(400, rt="One", ps="A").found == []
    # Nothing is known of a text while no byte comes.
    unheard = Judged("[station.alarms]", "rt_stuck = 100", "silent = false").seconds(50, rt="One")
    assert unheard.seconds(200, quiet=3).found == []


def test_ta_and_pty_31() -> None:
    judged = (
        Judged("[station.alarms]", "ta = 30")
        .seconds(20, ta=True, tp=True)
        .seconds(3, ta=False)
        .seconds(40, ta=True)
    )
    judged.seconds(10, ta=False).seconds(3, pty=31).seconds(15, pty=10).seconds(50, ta=True, tp=False)
    assert judged.found == [
        ("ta", True, 54.0),
        ("ta", False, 69.0),
        ("pty31", True, 75.0),
        ("pty31", False, 87.0),
    ]
    # It is on once TP says so.
    late = Judged("[station.alarms]", "ta = 30").seconds(50, ta=True, tp=False).seconds(40, tp=True)
    assert late.found == [("ta", True, 81.0)]


@pytest.mark.parametrize("sign", [1, -1])
def test_clock_time(sign: int) -> None:
    """A clock that is fast or slow. At the limit it is not off, and up to half of it the alarm ends."""
    judged = Judged().ticks(*(sign * offset for offset in (0, 0, 7, 0, 7, 8, 4, 4, 1, 2, 7)))
    assert judged.found == [("ct", True, 6.0), ("ct", False, 10.0)]
    assert judged.texts[0] == f"CT is off by {8 * sign:+.1f} s"
    limited = Judged("[station.alarms]", "ct_offset = 4")
    limited.ticks(*(sign * offset for offset in (4, 4, 4, 5, 5, 4, 3, 3, 2, 2)))
    assert limited.found == [("ct", True, 5.0), ("ct", False, 10.0)]
    assert Judged("[station.alarms]", "ct = 0.5").ticks(sign * 7).found == [("ct", True, 1.0)]


def test_the_pace_of_bits() -> None:
    judged = (
        Judged().seconds(50, pace=1.02).seconds(5).seconds(70, pace=1.02).seconds(70).seconds(70, pace=0.98)
    )
    judged.seconds(30, pace=None).seconds(70)
    assert judged.found == [
        ("fast", True, 116.0),
        ("fast", False, 186.0),
        ("slow", True, 256.0),
        ("slow", False, 356.0),
    ]
    assert judged.texts[::2] == ["bits come too fast by 2.0 %", "bits come too slowly by 2.0 %"]
    assert Judged().seconds(2, pace=math.inf).found == [("fast", True, 1.0)]
    assert Judged().seconds(200, pace=1.01).seconds(200, pace=0.99).found == []


@pytest.mark.parametrize("how", [{"pace": None}, {"pace": 1.02, "quiet": 3}])
def test_seconds_of_an_unknown_pace_count_once_it_is_known(how: Dict[str, Any]) -> None:
    """It is not known, either, while no byte comes."""
    judged = Judged("[station.alarms]", "silent = false").seconds(50, pace=1.02).seconds(30, **how)
    assert judged.found == []
    assert judged.seconds(5, pace=1.02).found == [("fast", True, 81.0)]


@pytest.mark.parametrize("offset, count", [(20, 0), (21, 1)])
def test_clock_time_of_a_faster_watch(offset: int, count: int) -> None:
    assert len(Judged(speed=4).ticks(offset, offset, offset).found) == count


def test_what_was_not_known_before_a_session() -> None:
    """Seconds without a byte, or of an unknown pace, never count. A text fitted when it was last seen."""
    judged = Judged('ps = "ALPHA"', "[station.alarms]", "rt_stuck = 100", "silent = false")
    judged.seconds(40, ps="ALPHA", rt="One", pace=1.02).seconds(20, quiet=3)
    judged.alarms.begin_session(judged.now)
    judged.seconds(70, ps="BETA", pace=1.02)
    assert judged.found == [("fast", True, 81.0), ("ps", True, 120.0), ("rt_stuck", True, 121.0)]


@pytest.mark.parametrize("late", [-5, 4])
def test_changes_count_from_when_they_were_sent(late: int) -> None:
    """The PI of bits that came too early counts from now on."""
    judged = Judged('pi = "D318"', 'ps = "ALPHA"', "[station.alarms]", "ps = 10").seconds(50, ps="ALPHA")
    for pi, ps in (("D319", "BETA"), ("D318", "ALPHA")):
        place, told = TIMING.place(judged.now + 1 - late + AHEAD), {"pi": pi, "ps": ps}
        events = [Event(place, 0xD318, item, text, None, text) for item, text in told.items()]
        judged.alarms.take(events, [], [], TIMING, AHEAD)
        judged.held.update(told)
        judged.seconds(40)
    shift = max(late, 0)
    begun, ended = [("pi", True, 61 - shift), ("ps", True, 61 - late)], [("pi", False), ("ps", False)]
    assert judged.found == [*begun, *((*of, 101 - shift) for of in ended)]


def test_two_texts_at_once_that_are_not_expected() -> None:
    """Neither of them is a text that fitted."""
    judged = Judged('ps = "ALPHA"').seconds(50, ps="BETA")
    texts = enumerate(("GAMMA", "DELTA"), TIMING.place(50 + AHEAD))
    judged.alarms.take(
        [Event(at, 0xD318, "ps", text, None, text) for at, text in texts], [], [], TIMING, AHEAD
    )
    judged.held["ps"] = "DELTA"
    assert judged.seconds(20).found == [("ps", True, 61.0)]


def test_an_alarm_outlasts_the_watch() -> None:
    judged = Judged('pi = "D318"')
    lasting = {"pi": ("PI D319", 100.0), "unknown": ("of a later version", 1.0)}
    judged.alarms.resume(lasting, {}, 0.0)
    judged.seconds(5, pi="D319").seconds(15, pi="D318")
    assert judged.found == [("pi", False, 16.0)] and judged.alarms.lasting == {}
    assert judged.texts == ["PI D319; it lasted 116 s"]


def test_an_alarm_that_was_ending_outlasts_the_watch() -> None:
    judged = Judged('pi = "D318"')
    judged.alarms.resume({"pi": ("PI D319", 100.0)}, {"gone": {"pi": 8.0, "unknown": 1.0}}, 0.0)
    assert judged.seconds(15).found == [("pi", False, 2.0)]


def test_sessions_outlast_the_watch() -> None:
    """They are older by the time in which none ran."""
    judged = Judged("[station.alarms]", "flapping = 1")
    judged.alarms.resume({}, {"sessions": [3000.0, 3000.0]}, 500.0)
    assert judged.seconds(110).found == [("flapping", True, 1.0), ("flapping", False, 100.0)]


def test_alarms_are_in_the_order_of_their_limits() -> None:
    limits = [field.name for field in fields(AlarmLimits)]
    assert [*NAMES] == [name for name in limits if name not in ("errors_percent", "ct_offset")]


def test_an_alarm_outlasts_another_table() -> None:
    """It begins once, and ends by its own time."""
    judged = Judged('pi = "D318"').seconds(20, pi="D319")
    (station,) = table_of(
        stations('name = "Alpha"', 'command = ["a"]', 'pi = "D31A"', "[station.alarms]", "pi = 5")
    ).stations
    judged.alarms.set_table(station)
    judged.seconds(20).seconds(20, pi="D31A")
    assert [found[:2] for found in judged.found] == [("pi", True), ("pi", False)]
    assert judged.texts == ["PI D319 in place of D318", "PI D319 in place of D318; it lasted 40 s"]


def test_what_is_counted_outlasts_the_watch() -> None:
    """And the receiver: the same text after a restart is no change, and time without contents does not count."""
    limits = ("[station.alarms]", "rt_stuck = 100", "ct = 3")
    first = (
        Judged('ps = "ALPHA"', *limits).seconds(40, ps="ALPHA", rt="One").ticks(7, 7).seconds(28, ps="BETA")
    )
    assert first.found == []
    counted = json.loads(json.dumps(first.alarms.counted()))
    second = Judged('ps = "ALPHA"', *limits)
    second.alarms.resume({}, counted, 0.0)
    second.held.clear()
    second.seconds(20).ticks(7)
    second.held["pi"] = "D318"
    second.seconds(60, ps="BETA", rt="One")
    assert [found[0] for found in second.found] == ["ct", "rt_stuck", "ps"]
    # 69 s were counted before, of which the PS was another one for 27.
    assert [at for _, _, at in second.found] == [22.0, 52.0, 54.0]


def test_what_is_counted() -> None:
    """In milliseconds: the second watch resumes it, and counts the same."""
    counted = {
        "ago": {"rt_stuck": 1.0, "ct_absent": 1.999, "ps_stuck": 1.0},
        "gone": {"pi": 4.346},
        "quiet": 0.123,
        "age": 0.235,
        "sessions": [2.001],
        "texts": {"rt": "One"},
        "minutes": [12.5],
        "offsets": [pytest.approx(3 - 1 / 1200)],
    }
    first, second = Judged('pi = "D318"'), Judged('pi = "D318"')
    first.alarms.resume({"pi": ("PI D319", 100.0)}, {"gone": {"pi": 2.3456}}, 0.0)
    first.alarms.begin_session(-0.0006)
    first.alarms.take([], [12.5], [Tick(TIMING.place(AHEAD) + 1, 1003)], TIMING, AHEAD)
    for _ in range(2):
        first.seconds(1, quiet=0.12345, age=0.23456, rt="One")
    assert first.alarms.counted() == counted
    second.alarms.resume({"pi": ("PI D319", 102.0)}, first.alarms.counted(), 0.0)
    assert second.alarms.counted() == {**counted, "quiet": 0, "age": 0}


@pytest.mark.parametrize("text", ["{station}", "; rm -rf /", "$(id)", "a\nb", "{state}{text}"])
def test_words_of_a_command(text: str) -> None:
    """A text from a stranger is a word like any other."""
    words = words_for(
        ["page", "{station}: {alarm} {state}", "{text}", "{other}"], "Alpha", Change("pi", True, text)
    )
    assert words == ("page", "Alpha: pi begin", text, "{other}")
    assert words_for(["{state}", "{text}"], "Alpha", Change("pi", False, text)) == ("end", text)
