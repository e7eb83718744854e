"""Alarms and seconds of a simulated network beside what was sent."""

from __future__ import annotations

import json
import random
import sqlite3
import sys
from functools import partial
from pathlib import Path
from typing import Any, Callable, List, NamedTuple, Tuple

import numpy
import pytest

from conftest import ran
from network import START, Air, Network, Plan, Programme, no_space, stations
from rds_monitor.db.standing import availability
from rds_monitor.watch import writer

ALPHA = Programme(0xD318, "ALPHA", "Now: nothing much", af=0xE16A)
TABLE = stations(
    *('name = "Alpha"', 'command = ["a"]', 'pi = ["D318", "D218"]', 'ps = "ALPHA*"', 'rt = "Now: *"'),
    *("af = [98.1]", "patience = 200", "[station.alarms]"),
)
# The fault, in seconds; the watch is killed and ended while the alarm lasts.
FAULT, RESTARTS = (40.0, 200.0), ((130, True), (155, False))


Spoil = Callable[[Network], None]


def sends(**changes: Any) -> Spoil:
    """Other contents for a while."""
    return lambda net: net.airs["a"].change(ALPHA._replace(**changes), *FAULT)


def noise(net: Network) -> None:
    net.airs["a"].noise(*FAULT)


def halves(net: Network) -> None:
    """Noise for half of each second, up to the second restart."""
    for second in range(155):
        net.airs["a"].noise(second, second + 0.5)


def gaps(net: Network) -> None:
    """No byte, in each of the three runs."""
    net.plans["a"] = [Plan(drops=(40, 160)), Plan(drops=(0, 64)), Plan(drops=(0, 39))]


def paced(pace: float) -> Spoil:
    """Bits come faster, or more slowly, in the first two runs."""
    return lambda net: net.plans.update(a=[Plan(pace=pace)] * 2)


class Case(NamedTuple):
    """An alarm, its limit, its fault, when it has to begin and to end, and by how many seconds it may be later than two."""

    alarm: str
    limit: float
    spoil: Spoil
    begins: float
    ends: float
    slack: float = 0.0


CASES = [
    Case("silent", 15, gaps, 55, 205),
    Case("no_rds", 10, noise, 50, 205),
    # The first whole minute is the second one, since an hour begins in the first one. Its row comes a second after it.
    Case("errors", 1, halves, 121, 221),
    Case("slow", 60, paced(0.97), 60, 220),
    Case("fast", 60, paced(1.02), 60, 220),
    Case("pi", 10, sends(pi=0xD319), 50, 210),
    # A text takes some seconds.
    Case("ps", 20, sends(ps="NEWS"), 60, 210, 1.5),
    Case("rt", 20, sends(rt="Then: another"), 60, 210, 2.5),
    Case("af", 20, sends(af=0xE16B), 60, 210),
    Case("ps_stuck", 45, sends(ps="ALPHA 2"), 85, 200, 1.5),
    Case("rt_stuck", 45, sends(rt="Now: another"), 85, 200, 2.5),
    Case("ta", 20, sends(ta=True), 60, 205),
    Case("pty31", 1, sends(pty=31), 41, 210),
    # CT is sent at second 30 and then each minute.
    Case("ct", 1, sends(clock=1), 90, 270),
    Case("ct_absent", 40, sends(clock=None), 70, 210),
]


def lasting(net: Network, alarm: str) -> List[Tuple[float, float]]:
    """When an alarm began and ended."""
    query = "SELECT begin_at - ?, end_at - ? FROM alarm_rows WHERE station = 'Alpha' AND alarm = ?"
    return net.asked(query, START, START, alarm)  # type: ignore[return-value]


@pytest.mark.parametrize("case", CASES, ids=[case.alarm for case in CASES])
def test_restarts_while_an_alarm_lasts(tmp_path: Path, case: Case) -> None:
    """It begins, outlasts the restarts, ends when it should, and says how long it lasted."""
    limits = {"no_rds": 10.0, case.alarm: case.limit}
    table = TABLE + "".join(f"{alarm} = {limit}\n" for alarm, limit in limits.items())
    net = Network(tmp_path, table, {"a": Air(ALPHA, START, 300)})
    case.spoil(net)
    for moment, kill in RESTARTS:
        net.run(moment - (net.times.steady - net.zero))
        ((begin, end),) = lasting(net, case.alarm)
        assert -2 <= begin - case.begins <= 2 + case.slack and end is None
        net.restart(5, kill)
    net.run(case.ends + case.slack + 5 - (net.times.steady - net.zero))
    ((begin, end),) = lasting(net, case.alarm)
    assert -2 <= end - case.ends <= 2 + case.slack
    (line,) = [line for line in net.said if f"alarm {case.alarm} ends" in line]
    assert line.endswith(f"; it lasted {end - begin:.0f} s")
    net.end()


@pytest.mark.parametrize(("alarm", "spoil", "seconds"), [("silent", gaps, 15), ("no_rds", noise, 10)])
def test_a_restart_before_an_alarm(tmp_path: Path, alarm: str, spoil: Spoil, seconds: float) -> None:
    """Counts go on after it, but for the five seconds between."""
    net = Network(tmp_path, TABLE, {"a": Air(ALPHA, START, 300)})
    spoil(net)
    net.run(47)
    net.restart(5)
    net.run(30)
    ((begin, end),) = lasting(net, alarm)
    assert abs(begin - FAULT[0] - 5 - seconds) <= 2 and end is None
    net.end()


def test_restarts_while_a_receiver_flaps(tmp_path: Path) -> None:
    """More than three sessions an hour: the alarm begins with the fourth one, and ends once two of them are an hour old."""
    plans = {"a": [Plan(dies=9)] * 5}
    net = Network(tmp_path, f"{TABLE}flapping = 3\n", {"a": Air(ALPHA, START, 4000)}, plans)
    for kill in (True, False):
        net.run(60)
        ((begin, end),) = lasting(net, "flapping")
        assert 0 <= begin - net.runs[3][1] <= 2 and end is None
        net.restart(5, kill)
    net.restart(3590)
    net.run(5)
    ((_, end),) = lasting(net, "flapping")
    assert end is not None
    net.end()


@pytest.mark.parametrize(("pi", "found"), [(0xD218, []), (0xD319, [(170, 230)])])
def test_a_pi_that_changes_by_region(tmp_path: Path, pi: int, found: List[Tuple[float, float]]) -> None:
    """One of the list's is no fault, though of the region's programme the contents are not known at once."""
    air = Air(ALPHA, START, 300)
    air.change(ALPHA._replace(pi=0xD218), 40, 100)
    air.change(ALPHA._replace(pi=pi), 160, 220)
    net = Network(tmp_path, TABLE, {"a": air})
    net.run(250)
    net.end()
    told = lasting(net, "pi")
    assert numpy.shape(told) == numpy.shape(found) and numpy.allclose(told, found, atol=2)
    assert net.asked("SELECT COUNT(*) FROM alarm_rows WHERE alarm != 'pi'") == [(0,)]


# ---- the accountant


class Books:
    """A simulated network, and what was sent in it."""

    LONG = 1500

    def __init__(self, folder: Path, seed: int, burst: float):
        self.folder, self.burst, self.chance = folder, burst, random.Random(seed)
        self.patience = 20.0 if burst > 10 else 10.0
        self.noise = [self._some(150, 30), self._some(700, 60)]
        self.other_pi = [self._some(400, 60), self._some(1000, 60)]
        self.full = self._some(1250, 20)
        air = Air(ALPHA, START, self.LONG + 10)
        for spans, change in (
            (self.noise, air.noise),
            (self.other_pi, partial(air.change, ALPHA._replace(pi=0xD319))),
        ):
            for span in spans:
                change(*span)
        table = stations('name = "Alpha"', 'command = ["a"]', 'pi = "D318"', f"patience = {self.patience}")
        # A receiver dies each 200 s, and drops three seconds of its second minute; two cannot be started for a while.
        plans = [Plan(dies=200, burst=burst, drops=(80, 3)) for _ in range(30)]
        plans[3:3] = [Plan(dies=0)] * 5
        self.net = Network(folder, "[keep]\ncompress = true\n" + table, {"a": air}, {"a": plans})
        self.watched: List[Tuple[float, float, bool]] = []

    def _some(self, begin: float, seconds: float) -> Tuple[float, float]:
        """About then, for about as long."""
        first = begin + self.chance.uniform(0, 40)
        return first, first + seconds + self.chance.uniform(0, 20)

    def run(self, moment: float) -> None:
        self.net.run(round(moment - (self.net.times.steady - self.net.zero)))

    def restart(self, moment: float, kill: bool) -> None:
        self.run(moment)
        self._close(kill)
        self.net.restart(self.chance.randint(3, 30), kill)
        self.begun = self.net.times.utc

    def _close(self, kill: bool) -> None:
        self.watched.append((self.begun, self.net.times.utc, kill))

    def all(self, monkeypatch: pytest.MonkeyPatch) -> None:
        """The watch is restarted while alarms last, the disk is full for a while, and a listing is deleted."""
        self.begun = START
        for n, (begin, end) in enumerate([self.noise[0], self.other_pi[0], self.noise[1], self.other_pi[1]]):
            self.restart(end - 8, n % 2 == 0)
        self.run(self.full[0] - 60)
        max((self.folder / "listings" / "Alpha").glob("*.csv")).unlink()
        self.run(self.full[0])
        with monkeypatch.context() as patch:
            patch.setattr(writer.HourWriter, "append", no_space)
            self.run(self.full[1])
        self.run(self.LONG)
        self.net.end()
        self._close(False)

    def write(self, path: Path) -> None:
        """What was sent, as the accountant reads it."""
        air = self.net.airs["a"]
        runs = [
            [
                (utc, *(START + (byte - air.at(0)) * 8 / 1187.5 for byte in bytes_))
                for utc, *bytes_ in run.reads
            ]
            for _, run in self.net.given
        ]
        spans = {"noise": self.noise, "other_pi": self.other_pi, "full_disk": [self.full]}
        sent = {name: [(START + begin, START + end) for begin, end in of] for name, of in spans.items()}
        path.write_text(
            json.dumps(
                {
                    **sent,
                    "watched": self.watched,
                    "runs": runs,
                    "patience": self.patience,
                    "burst": self.burst,
                }
            )
        )


@pytest.mark.parametrize(("seed", "burst"), enumerate([0.0, 2.0, 12.0]))
def test_every_second_is_accounted_for(
    tmp_path: Path, seed: int, burst: float, monkeypatch: pytest.MonkeyPatch
) -> None:
    books = Books(tmp_path, seed, burst)
    books.all(monkeypatch)
    books.write(tmp_path / "sent.json")
    accountant = Path(__file__).with_name("accountant.py")
    words = [sys.executable, accountant, tmp_path / "sent.json", tmp_path / "watch.db"]
    done = ran(words)
    assert done.returncode == 0, done.stdout + done.stderr
    data, end = sqlite3.connect(tmp_path / "watch.db"), books.net.times.utc
    seconds = availability(data, "Alpha", START, end)
    ((received, noise, down),) = data.execute("SELECT received_s, noise_s, down_s FROM days").fetchall()
    data.close()
    # Rows of days are rounded.
    assert (
        numpy.allclose(seconds[:3], (received, noise, down), atol=0.1)
        and round(sum(seconds) - end + START, 6) == 0
    )
    if seed:
        return
    for query, text in (
        ("UPDATE alarm_rows SET begin_at = begin_at - 3 WHERE alarm = 'pi'", "pi: "),
        ("DELETE FROM alarm_rows WHERE alarm = 'no_rds'", "no_rds: "),
        (
            "UPDATE outage_rows SET end_place = end_place - 3600 WHERE end_place > begin_place + 7200",
            "outages: ",
        ),
        ("UPDATE minute_rows SET valid = valid - 150 WHERE minute = 1", " valid blocks in place of "),
        ("UPDATE watched_rows SET end_at = begin_at", " is unknown in place of down"),
    ):
        data = sqlite3.connect(tmp_path / "watch.db")
        data.execute(query)
        data.commit()
        data.close()
        done = ran(words)
        assert done.returncode == 1 and text in done.stdout
