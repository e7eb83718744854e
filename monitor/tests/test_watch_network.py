"""A simulated network: its hours' files, minutes, events, outages and alarms beside what was sent."""

from __future__ import annotations

import fcntl
import json
import os
import random
import re
import sqlite3
from argparse import Namespace
from pathlib import Path
from typing import Any, Dict, List, Tuple

import numpy
import pytest
import zstandard

from conftest import rds
from made import run, said
from network import (
    GROUPS_PER_SECOND,
    HOURS,
    START,
    Air,
    InTurn,
    Network,
    Plan,
    Programme,
    no_space,
    numbers_in,
    stations,
    told_once,
)
from rds_monitor.page.report import stations_of
from rds_monitor.rows.clock import RATE, Clock, start_of
from rds_monitor.watch import live, records, writer
from rds_monitor.watch.asked import seen_of
from rds_monitor.watch.verdict import Limits, Verdict

ALPHA = Programme(0xD318, "ALPHA", "Now: nothing much")
TABLE = stations('name = "Alpha"', 'command = ["a"]', 'pi = "D318"', 'ps = "ALPHA*"', 'rt = "Now: *"')


# Items that `json` tells, and of which no event is stored: the bytes of an operator's own groups come by the thousand.
NOT_STORED = ("ct", "ih_data")


def network(folder: Path, air: Air, *plans: Plan, table: str = TABLE, speed: float = 1.0) -> Network:
    return Network(folder, table, {"a": air}, {"a": list(plans)}, speed=speed)


def apart(numbers: List[Tuple[int, float]]) -> List[float]:
    """By how many seconds each group's time is off. Numbers have 32 bits."""
    first = int(START * GROUPS_PER_SECOND) >> 32 << 32
    return [utc - (first + number) / GROUPS_PER_SECOND for number, utc in numbers]


def alarms(net: Network, station: str = "Alpha") -> List[Tuple[Any, ...]]:
    """Name, begin and end in seconds of the simulation."""
    query = "SELECT alarm, begin_at - ?, end_at - ? FROM alarm_rows WHERE station = ? ORDER BY begin_at"
    rows = net.asked(query, START, START, station)
    return [(name, round(begin, 1), end if end is None else round(end, 1)) for name, begin, end in rows]


# ---- what was sent, and what is there


def same_as_sent(net: Network, folder: Path) -> None:
    """Each session is what `rds list` makes of its bytes, and the database has what the commands find in them."""
    texts = net.texts("Alpha")
    runs = [launched for _, launched in net.given if launched.given]
    assert len(texts) == len(runs)
    for at, (text, launched) in enumerate(zip(texts, runs)):
        assert text == rds("list", data=launched.given)
        recording = folder / f"run{at}.bin"
        recording.write_bytes(launched.given)
        session = net.asked("SELECT DISTINCT recording FROM sessions ORDER BY recording")[at][0]
        same_minutes(net, session, str(recording))
        same_events(net, session, str(recording))
        same_outages(net, session, str(recording))


def same_minutes(net: Network, session: int, path: str) -> None:
    query = (
        "SELECT minute, SUM(sent), SUM(valid), SUM(corrected), SUM(lost), SUM(missing) FROM minute_rows"
        " JOIN sessions ON sessions.id = session WHERE recording = ? GROUP BY minute ORDER BY minute"
    )
    found = [tuple(row) for row in net.asked(query, session)]
    wanted = [line.split(",") for line in said("errors", "--every", "60", path)[1:]]
    assert [row[0] for row in found] == list(range(len(wanted)))
    for row, line in zip(found, wanted):
        assert row[2:5] == tuple(map(int, line[3:6]))
        # A block that crosses an hour may be counted in each.
        assert abs(row[1] - int(line[2])) <= 1 and abs(row[5] - int(line[6])) <= 1


def same_events(net: Network, session: int, path: str) -> None:
    query = (
        "SELECT place, item, value FROM event_rows JOIN sessions ON sessions.id = session JOIN facts ON facts.id = fact"
        " WHERE recording = ? ORDER BY place, event_rows.number"
    )
    lines = [json.loads(line) for line in said("json", path)]
    told = [line for line in lines if line["event"] == "content" and line["item"] not in NOT_STORED]
    wanted = [
        (line["bit"], line["item"], line["text"] if line["value"] is not None else None) for line in told
    ]
    assert net.asked(query, session) == wanted


def same_outages(net: Network, session: int, path: str) -> None:
    query = (
        "SELECT outage_rows.begin_place, outage_rows.end_place FROM outage_rows JOIN sessions ON sessions.id = session"
        " WHERE recording = ? ORDER BY 1"
    )
    wanted = [tuple(map(int, line.split(",")[3:5])) for line in said("outages", path)[1:]]
    assert net.asked(query, session) == wanted


def test_a_session_over_an_hour(tmp_path: Path) -> None:
    """The hour begins 30 s after the start. No group is lost there, and a command gives times for each file."""
    net = network(tmp_path, Air(ALPHA, START, 150))
    net.run(140)
    net.end()
    assert len(net.runs) == 1
    same_as_sent(net, tmp_path)
    hours = net.hours("Alpha")
    assert [hour.begin - START for hour, _ in hours] == [-3570, 30]
    numbers = numbers_in(hours)
    assert [later[0] - early[0] for early, later in zip(numbers, numbers[1:])].count(6) >= len(numbers) - 4
    assert max(map(abs, apart(numbers))) < 0.6
    for hour, rows in hours:
        path = tmp_path / "listings" / "Alpha" / hour.name
        lines = [line.split(",") for line in said("errors", "--every", "10", str(path))[1:]]
        begins = [start_of(line[8]) for line in lines]
        assert begins == sorted(begins) and hour.begin - 1 < begins[0] and begins[-1] < hour.begin + 3600
        valid = sum(int((rows[f"kind{block}"] == 2).sum()) for block in (1, 2, 3, 4))
        assert sum(int(line[3]) for line in lines) == valid


def test_sessions_without_a_group(tmp_path: Path) -> None:
    """One of half a second, and one of zeros from an hour to the next: each has its hours, and the last one its totals."""
    air = Air(ALPHA, START, 100)
    air._data[:] = 0
    net = network(tmp_path, air, Plan(dies=0.5))
    net.run(50, tick=0.25)
    net.end()
    query = f"SELECT COUNT(*), SUM(is_open), SUM(finished) {HOURS} GROUP BY recordings.id"
    assert net.asked(query) == [(1, 0, 1), (2, 0, 1)]


COMPRESSED = "[keep]\ncompress = true\n"


@pytest.mark.parametrize("keep", ["", COMPRESSED])
def test_every_command_takes_an_hour(tmp_path: Path, keep: str) -> None:
    """Compressed or not, since it is closed."""
    net = network(tmp_path, Air(ALPHA, START, 80), table=keep + TABLE)
    net.run(70)
    net.restart(1)
    net.run(3)
    path = str(tmp_path / "listings" / "Alpha" / net.hours("Alpha")[1][0].name) + (".zst" if keep else "")
    net.end()
    commands = "errors outages programmes types corrected info json groups table".split()
    for words in (*([name] for name in commands), ["check", "-W", "100"], ["db", tmp_path / "other.db"]):
        done = run(*words, path)
        assert done.status == 0, done.err + done.out
    assert "2026-11-27T03:00" in run("json", path).out and "2026-11-27T03:00" in run("table", path).out
    data = sqlite3.connect(tmp_path / "other.db")
    assert data.execute("SELECT DISTINCT station, begin_utc FROM minutes").fetchone()[0] == "Alpha"
    (name,) = data.execute("SELECT name FROM recordings").fetchone()
    assert name == "Alpha/" + Path(path).name.replace(".zst", "")


def test_outages_a_wrong_pi_and_restarts(tmp_path: Path) -> None:
    """The receiver dies, hangs, and is late once; the station has noise and another PI for a while."""
    air = Air(ALPHA, START, 400)
    air.noise(40, 42)
    air.noise(80, 110)
    net = network(tmp_path, air, Plan(dies=70.25), Plan(hangs=100), Plan(dies=10), Plan(late=0.4))
    net.run(380)
    net.end()
    assert len(net.runs) == 4
    same_as_sent(net, tmp_path)
    numbers = numbers_in(net.hours("Alpha"))
    assert len({number for number, _ in numbers}) == len(numbers)
    assert [number for number, _ in numbers] == sorted(number for number, _ in numbers)
    assert max(map(abs, apart(numbers))) < 1
    unplugged, reasons = "ended with status 1: unplugged", net.asked(
        "SELECT reason FROM runs ORDER BY begin_utc"
    )
    assert [text for (text,) in reasons] == [unplugged, "gave no byte for 10 s", unplugged, "the watch ended"]
    outages = net.asked("SELECT begin_utc, length_s FROM outages WHERE length_s > 1.5 ORDER BY begin_utc")
    begins = [(start_of(begin) - START, length) for begin, length in outages]
    assert abs(begins[0][0] - 40) < 0.6 and abs(begins[0][1] - 2) < 0.3
    assert abs(begins[1][0] - 80) < 0.6 and abs(begins[1][1] - 30) < 0.3
    told = alarms(net)
    no_rds = [alarm for alarm in told if alarm[0] == "no_rds"]
    assert len(no_rds) >= 1 and 88 < no_rds[0][1] < 92 and 113 < no_rds[0][2] < 118
    silent = [alarm for alarm in told if alarm[0] == "silent"]
    assert all(end is not None for _, _, end in silent)


# ---- killed


@pytest.mark.parametrize("seed", range(3))
def test_killed_at_random_moments(tmp_path: Path, seed: int) -> None:
    """Ten times each: nothing is lost but the last second, nothing is there twice, and no time is off by a second."""
    chance = random.Random(seed)
    net = network(tmp_path, Air(ALPHA, START, 300))
    gone: List[Tuple[float, float]] = []
    for _ in range(10):
        net.run(chance.uniform(3, 14))
        net.kill()
        tear(net, chance)
        begin = net.times.steady
        net.times.pass_by(chance.uniform(0.1, 2))
        gone.append((begin, net.times.steady))
        net.begin()
    net.run(5)
    net.end()
    numbers = numbers_in(net.hours("Alpha"))
    assert max(map(abs, apart(numbers))) < 1
    found = [number for number, _ in numbers]
    assert found == sorted(set(found))
    nothing_lost(net, found)
    told_once(tmp_path)


def tear(net: Network, chance: random.Random) -> None:
    """A power failure may leave a part of a row, or zeros, at the end of a file that was not synchronised."""
    newest = max((net.folder / "listings" / "Alpha").iterdir())
    with open(newest, "ab") as file:
        file.write(chance.choice([b"", b"group,9", b"\0" * 70, b"group,99999,0,A,A:D318\n"]))


def nothing_lost(net: Network, found: List[int]) -> None:
    """Of each run's bits, the file has all groups up to a second before the end."""
    everything = set(found)
    for _, launched in net.given:
        sent = rds("list", data=launched.given[: max(0, len(launched.given) - 149)]).splitlines()
        for line in sent:
            fields = line.decode().split(",")
            valid = all(":" in block and "~" not in block for block in fields[4:])
            if fields[0] == "group" and fields[2:4] == ["6", "A"] and valid:
                assert int(fields[6][2:], 16) << 16 | int(fields[7][2:], 16) in everything


class PowerFailure(BaseException):
    """The machine goes off."""


class Disk:
    """Operations on the disk, before one of which the power fails. It keeps all synchronised bytes, and perhaps more."""

    def __init__(self, monkeypatch: pytest.MonkeyPatch, folder: Path):
        self.folder, self.left, self.replace = folder, 0, os.replace
        self.kept: Dict[str, int] = {}
        for of, name in (
            (writer.HourWriter, "append"),
            (records.Records, "write"),
            (records.Records, "rename"),
            (os, "fsync"),
            (os, "fdatasync"),
            (os, "replace"),
            (os, "unlink"),
        ):
            monkeypatch.setattr(of, name, self._counted(getattr(of, name), "sync" in name))

    def _counted(self, real: Any, syncs: bool) -> Any:
        def work(*words: Any) -> Any:
            self.left -= 1
            if not self.left:
                raise PowerFailure
            done = real(*words)
            if syncs:
                self.kept[os.readlink(f"/proc/self/fd/{words[0]}")] = os.fstat(words[0]).st_size
            if real is self.replace:
                self.kept[words[1]] = self.kept.pop(words[0], 0)
            return done

        return work

    def lose(self, chance: random.Random) -> None:
        """The power failed. What is there afterwards is on the disk."""
        for path in (self.folder / "listings").rglob("*.csv*"):
            size, kept = path.stat().st_size, self.kept.get(str(path), 0)
            self.kept[str(path)] = chance.choice([kept, chance.randint(kept, size)])
            os.truncate(path, self.kept[str(path)])


@pytest.mark.parametrize(("seed", "keep"), enumerate(["", COMPRESSED]))
def test_power_failures(tmp_path: Path, seed: int, keep: str, monkeypatch: pytest.MonkeyPatch) -> None:
    """Twelve times, a third of them just after a SIGKILL. The database tells only of rows that are on the disk, so nothing is there twice.
    Nor is anything lost where hours are compressed."""
    chance, disk = random.Random(seed), Disk(monkeypatch, tmp_path)
    net = network(tmp_path, Air(ALPHA, START, 300), table=keep + TABLE)
    for turn in range(12):
        disk.left = chance.randint(4, 90)
        with pytest.raises(PowerFailure):
            net.run(60)
        net.kill()
        if turn % 3:
            disk.lose(chance)
        net.times.pass_by(chance.uniform(0.1, 2))
        disk.left = 0
        net.begin()
        if not turn % 3:
            net.kill()
            disk.lose(chance)
            net.begin()
    net.run(5)
    net.end()
    found = [number for number, _ in numbers_in(net.hours("Alpha"))]
    assert found == sorted(set(found)) and len(found) > 30
    nothing_lost(net, found)
    told_once(tmp_path)


STEPS = {
    "synchronised": (os, "fsync"),
    "renamed": (os, "replace"),
    "told": (records.Records, "rename"),
    "removed": (os, "unlink"),
}


@pytest.mark.parametrize("step", STEPS)
def test_killed_while_an_hour_is_compressed(
    tmp_path: Path, step: str, monkeypatch: pytest.MonkeyPatch
) -> None:
    """Before each step: the next watch does the rest, and its rows are those of the plain file, once."""
    net = network(tmp_path, Air(ALPHA, START, 80), table=COMPRESSED + TABLE)
    net.run(20)
    net.kill()
    net.begin()
    plain = b"".join(net.texts("Alpha"))
    with monkeypatch.context() as patch:
        real = getattr(*STEPS[step])

        def killed(*words: Any, **more: Any) -> Any:
            of = os.readlink(f"/proc/self/fd/{words[0]}") if step == "synchronised" else str(words[0:2])
            if "listings" in of:
                raise PowerFailure
            return real(*words, **more)

        patch.setattr(*STEPS[step], killed)
        with pytest.raises(PowerFailure):
            net.run(3)
    net.kill()
    net.begin()
    net.run(3)
    paths = [*(tmp_path / "listings" / "Alpha").iterdir()]
    closed = sorted(path.suffix for path in paths)
    packed = next(path for path in paths if path.suffix == ".zst").read_bytes()
    assert zstandard.get_frame_parameters(packed).has_checksum
    assert plain and net.texts("Alpha")[0] == plain and closed[-1] == ".zst" and closed.count(".csv") == 1
    net.end()
    told_once(tmp_path)


def test_hours_that_cannot_be_compressed(tmp_path: Path, monkeypatch: pytest.MonkeyPatch) -> None:
    """The disk is full: the plain file stays, and is compressed an hour later. A deleted one is no error."""
    net = network(tmp_path, Air(ALPHA, START, 80), Plan(dies=10), table=COMPRESSED + TABLE)
    with monkeypatch.context() as patch:
        patch.setattr(os, "utime", lambda *words, **more: no_space(None, "", memoryview(b"")))
        net.run(13)
    (first, *_) = sorted((tmp_path / "listings" / "Alpha").iterdir())
    assert first.suffix == ".csv" and any("cannot be compressed" in line for line in net.said)
    net.watch._tidy_at = 0.0
    net.run(3)
    assert not first.exists() and first.with_suffix(".csv.zst").exists()
    first.with_suffix(".csv.zst").unlink()
    net.watch._closed.append("listings/Alpha/none.csv")
    net.run(3)
    assert [line for line in net.said if "compressed" in line and "No space" not in line] == []
    net.end()


def test_killed_in_the_middle_of_an_hour(tmp_path: Path) -> None:
    """The database learns of what it did not know, and of nothing twice: its events are those of the whole files."""
    net = network(tmp_path, Air(ALPHA, START, 200))
    net.run(45.5)
    net.kill()
    net.records = None  # type: ignore[assignment]
    text = b"".join(net.texts("Alpha"))
    net.times.pass_by(1)
    net.begin()
    assert len(net.recovered) == 1
    assert b"".join(net.texts("Alpha")) == text
    same_events_as_text(net, text, tmp_path)
    net.end()


def same_events_as_text(net: Network, text: bytes, folder: Path) -> None:
    whole = folder / "whole.csv"
    whole.write_bytes(text)
    told = [json.loads(line) for line in said("json", "--unfinished", str(whole))]
    wanted = [
        (line["bit"], line["item"])
        for line in told
        if line["event"] == "content" and line["item"] not in NOT_STORED
    ]
    query = "SELECT place, item FROM event_rows JOIN facts ON facts.id = fact JOIN sessions ON sessions.id = session ORDER BY place, event_rows.number"
    assert net.asked(query) == wanted


# ---- a full disk


def test_a_full_disk(tmp_path: Path, monkeypatch: pytest.MonkeyPatch) -> None:
    """For a minute no byte can be written, or a few: all waits, an alarm tells of it, and nothing is lost or twice."""
    net = network(tmp_path, Air(ALPHA, START, 200))
    room: Dict[str, int] = {}
    real = writer.HourWriter.append

    def append(self: Any, path: str, data: memoryview) -> int:
        if not room:
            return real(self, path, data)
        some = min(room["bytes"], len(data))
        room["bytes"] -= some
        if not some:
            raise OSError(28, "No space left on device")
        return real(self, path, data[:some])

    monkeypatch.setattr(writer.HourWriter, "append", append)
    net.run(20, tick=0.5)
    room["bytes"] = 333
    net.run(60, tick=0.5)
    room.clear()
    net.run(20, tick=0.5)
    net.end()
    same_as_sent(net, tmp_path)
    ((name, begin, end),) = alarms(net, "")
    assert name == "disk" and 24 < begin < 28 and 79 < end < 83
    told = [line for line in net.said if re.match("error|notice: rows", line)]
    fault = "error: rows cannot be written: No space left on device; they wait"
    assert told == [fault, "notice: rows are written again"]


def test_a_database_that_is_locked_delays_no_row(tmp_path: Path, monkeypatch: pytest.MonkeyPatch) -> None:
    monkeypatch.setattr(records, "WAIT", 0.0)
    net = network(tmp_path, Air(ALPHA, START, 200))
    net.run(10)
    other = sqlite3.connect(tmp_path / "watch.db", isolation_level=None)
    other.execute("BEGIN IMMEDIATE")
    net.run(150)
    assert len(numbers_in(net.hours("Alpha"))) > 250
    # Of what is said again and again only the last waits.
    waiting = net.writer.writer._waiting
    assert sum(isinstance(one, records.StateSeen) for one in waiting) == 1 and not net.writer.writer._after
    other.execute("ROLLBACK")
    net.run(10)
    net.end()
    same_as_sent(net, tmp_path)


# ---- the machine's clock


def times_by_session(net: Network) -> Dict[str, List[float]]:
    """When the groups of each session began, by the names of its files."""
    found: Dict[str, List[float]] = {}
    rows = {hour.name: (hour, part) for hour, part in net.hours("Alpha")}
    for name, path in net.asked(f"SELECT name, path {HOURS} ORDER BY recordings.id, number"):
        if path.rpartition("/")[2] in rows:
            hour, part = rows[path.rpartition("/")[2]]
            places = part[part["what"] == 2]["place"].astype("f8")
            found.setdefault(name, []).extend((hour.start + places / hour.rate).tolist())
    return found


def test_a_clock_that_is_set(tmp_path: Path) -> None:
    """Forward by an hour and a half, then back by a day. Within a session no time goes back, and each is right soon."""
    net = network(tmp_path, Air(ALPHA, START, 200))
    net.run(20)
    # Bytes of the last second wait as it is set.
    net.times.pass_by(0.9)
    net.watch.poll()
    net.times.utc += 5400
    net.run(20)
    net.times.utc -= 86400
    net.run(20)
    ((looked,),) = net.asked("SELECT looked_at FROM station_rows")
    assert abs(looked - net.times.utc) < 11
    net.run(50)
    stamp = re.search("rds_watch_timestamp_seconds ([0-9.]+)", (tmp_path / "metrics.prom").read_text())
    assert stamp and abs(float(stamp[1]) - net.times.utc) < 61
    # Nothing was watched in the hours between.
    spans = net.asked("SELECT begin_at - ?, end_at - begin_at FROM watched_rows ORDER BY id", START)
    assert [round(begin, 1) for begin, _ in spans] == [0, 5421.9, 5441.9 - 86400]
    assert all(0 <= length <= 71 for _, length in spans)
    net.end()
    by_session = times_by_session(net)
    assert len(by_session) == 2
    for times in by_session.values():
        assert times == sorted(times)
    steps = sorted(times[-1] for times in by_session.values())
    assert abs(steps[1] - (START + 40 + 5400)) < 2 and abs(steps[0] - (START + 110 + 5400 - 86400)) < 2
    # All is received but for the group in which the session ended, and each group by the clock of its time.
    found = sorted(numbers_in(net.hours("Alpha")))
    assert len(found) >= int(110 * GROUPS_PER_SECOND / 6) - 5
    assert len({number for number, _ in found}) == len(found)
    steps_told = [round(off) for off in apart(found)]
    assert steps_told == sorted(steps_told[:40], key=lambda step: (step != 0, -step)) + steps_told[40:]
    assert set(steps_told) == {0, 5400, 5400 - 86400}
    # When the last group before the step began.
    _, utc = max(one for one, step in zip(found, steps_told) if step == 0)
    assert 20.9 - 7 / GROUPS_PER_SECOND < utc - START < 20.9
    assert 34 <= steps_told.count(0) <= 40
    assert 34 <= steps_told.count(5400) <= 40


def test_a_disk_that_hangs(tmp_path: Path, monkeypatch: pytest.MonkeyPatch) -> None:
    """No write fails, and none ends: that is an alarm, too. Time passes twice as fast."""
    net = network(tmp_path, Air(ALPHA, START, 100), speed=2)
    net.run(10)
    with monkeypatch.context() as patch:
        patch.setattr(InTurn, "is_idle", property(lambda self: False))
        net.run(20, tick=0.5)
        assert sum(isinstance(one, records.StateSeen) for one in net.watch._records) == 1
    net.run(10, tick=0.5)
    net.end()
    same_as_sent(net, tmp_path)
    # It is seen at 10.5 s, and lasts for more than five seconds of the fast clock at 21.
    assert alarms(net, "") == [("disk", 21.0, 30.5)]


@pytest.mark.parametrize("speed, seconds", [(20, 3), (60, 2)])
def test_pages_of_a_fast_clock(tmp_path: Path, speed: float, seconds: int) -> None:
    """A browser loads them anew each minute of it, but no more often than each two seconds."""
    net = network(tmp_path, Air(ALPHA, START, 100), speed=speed)
    net.run(2)
    net.end()
    assert f'http-equiv="refresh" content="{seconds}"' in (tmp_path / "pages" / "index.html").read_text()


# ---- the table


def test_a_table_that_is_read_again(tmp_path: Path) -> None:
    """A station whose limits change goes on; one whose receiver changes is restarted; one that is gone ends."""
    airs = {"a": Air(ALPHA, START, 100), "b": Air(ALPHA._replace(pi=0xD319), START, 100)}
    alpha, beta = ('name = "Alpha"', 'command = ["a"]'), ("--", 'name = "Beta"')
    net = Network(tmp_path, stations(*alpha, *beta, 'command = ["b"]'), airs)
    net.run(20)
    net.reload(stations(*alpha, 'pi = "D318"', *beta, 'command = ["b", "again"]'))
    net.run(21)
    page = tmp_path / "pages" / "Beta.html"
    assert page.exists()
    net.reload(stations(*alpha))
    net.run(19)
    assert not page.exists() and (tmp_path / "pages" / "Alpha.html").exists()
    net.end()
    assert [name for name, _ in net.runs] == ["a", "b", "b"]
    assert len(net.texts("Alpha")) == 1 and len(net.texts("Beta")) == 2
    reasons = net.asked("SELECT station, reason FROM runs ORDER BY begin_utc, station, end_utc")
    assert sorted(reasons) == [
        ("Alpha", "the watch ended"),
        ("Beta", "it is no longer in the table"),
        ("Beta", "the table has changed"),
    ]
    for text in net.texts("Alpha") + net.texts("Beta"):
        assert b"total,losses" in text


# ---- the truth after restarts, and of downtime


@pytest.mark.parametrize("kill", [False, True])
def test_an_rt_that_is_stuck_over_restarts_of_the_watch(tmp_path: Path, kill: bool) -> None:
    """The alarm begins once, and lasts."""
    net = network(tmp_path, Air(ALPHA, START, 400), table=TABLE + "[station.alarms]\nrt_stuck = 75\n")
    for _ in range(4):
        net.run(35)
        net.restart(5, kill)
    net.run(20)
    ((name, begin, end),) = alarms(net)
    # Without the 5 s of each pause, in which nobody knew, and the seconds after it until the RT is there. A kill costs up to ten more.
    assert name == "rt_stuck" and 0 < begin - 75 - 2 * 5 < (40 if kill else 20) and end is None
    net.end()


def test_an_rt_that_is_stuck_on_a_receiver_that_dies_often(tmp_path: Path) -> None:
    table = TABLE + "[station.alarms]\nrt_stuck = 100\n"
    net = network(tmp_path, Air(ALPHA, START, 400), *[Plan(dies=70)] * 5, table=table)
    net.run(300)
    ((name, begin, end),) = [alarm for alarm in alarms(net) if alarm[0] == "rt_stuck"]
    assert 100 < begin < 125 and end is None
    net.end()


def test_outages_that_last_and_that_are_over(tmp_path: Path) -> None:
    """Noise for 40 s, from one hour to the next, which lasts at first, and an unplugged receiver until its next run."""
    air = Air(ALPHA, START, 400)
    air.noise(20, 60)
    net = network(tmp_path, air, Plan(dies=60), *[Plan(dies=0)] * 4)
    net.run(55)
    query = "SELECT begin_utc, end_utc, length_s, kind FROM station_outages WHERE length_s > 2"
    ((first, last, length, _),) = net.asked(query)
    assert abs(start_of(first) - START - 20) < 1 and last is None and length > 24
    net.run(35)
    assert net.watch.stations["Alpha"].state(0.0)["session_utc"] is None
    net.run(60)
    net.end()
    noise, down = ((start_of(begin) - START, length, kind) for begin, _, length, kind in net.asked(query))
    assert noise[2] == "noise" and numpy.allclose(noise[:2], (20, 40), atol=2)
    assert down[2] == "down" and numpy.allclose(down[:2], (60, net.runs[-1][1] - 60), atol=2)


def test_a_receiver_that_gives_nothing(tmp_path: Path) -> None:
    """Its times count from the begin of the watch. While `patience` lasts a pause is none without RDS."""
    net = network(tmp_path, Air(ALPHA, START, 20), *[Plan(hangs=0)] * 9)
    net.run(18)
    assert alarms(net) == [("no_rds", 11.0, None), ("silent", 15.0, None)]
    net.end()


def test_when_an_outage_is_told(tmp_path: Path, monkeypatch: pytest.MonkeyPatch) -> None:
    """Once it lasts a second."""
    monkeypatch.setattr(live, "NEWS", 0.0)
    air = Air(ALPHA, START, 60)
    air.noise(40, 60)
    net = network(tmp_path, air)
    query = "SELECT begin_utc, end_utc FROM station_outages WHERE kind = 'noise'"
    net.run(40.8, 0.2)
    assert net.asked(query) == []
    net.run(0.6, 0.2)
    ((begin, end),) = net.asked(query)
    assert abs(start_of(begin) - START - 40) < 0.3 and end is None
    net.end()


def test_a_page_of_the_database_of_a_watch(tmp_path: Path) -> None:
    """Three seconds into an hour, Alpha has an alarm, Beta is good, and Gamma never started."""
    table = TABLE.replace("ALPHA*", "NEWS") + stations(
        'name = "Beta"', 'command = ["b"]', "--", 'name = "Gamma"', 'command = ["c"]'
    )
    quick = "\n[station.alarms]\nps = 10\n"
    table = table.replace('[[station]]\nname = "Beta"', f'{quick}[[station]]\nname = "Beta"')
    airs = {
        "a": Air(ALPHA, START, 100),
        "b": Air(ALPHA._replace(pi=0xD319), START, 100),
        "c": Air(ALPHA, START, 1),
    }
    net = Network(tmp_path, table, airs, {"c": [Plan(dies=0)] * 20})
    net.run(93)
    net.kill()
    told = {
        station["name"]: station for station in stations_of(str(tmp_path / "watch.db"), Namespace(), Clock())
    }
    assert sorted(told) == ["Alpha", "Beta", "Gamma"]
    assert told["Alpha"]["tile"]["alarm"].startswith("ps: PS ALPHA in place of NEWS")
    assert (told["Beta"]["tile"]["alarm"], told["Beta"]["tile"]["state"]) == ("", "good")
    assert told["Beta"]["tile"]["minute"] == 0
    assert (
        told["Gamma"]["tile"]["state"] == "no session" and "silent: no byte" in told["Gamma"]["tile"]["alarm"]
    )
    assert told["Gamma"]["bad_percent"] is None
    # It is told once, and drawn over both hours.
    (names,) = (stretches for lane, stretches in told["Beta"]["lanes"] if lane == "PS")
    ((begin, end, text),) = names
    assert told["Beta"]["texts"][text] == "ALPHA" and end - begin > 80
    seconds = told["Beta"]["available"]
    assert abs(sum(seconds.values()) - 93) < 11 and seconds["received"] > 80


# ---- bits that are dropped, or too many


@pytest.mark.parametrize("burst", [0.0, 1.5, 4.0])
def test_bits_that_a_receiver_drops(tmp_path: Path, burst: float) -> None:
    """Three seconds of them: ten seconds later times are right again, however the output comes."""
    net = network(tmp_path, Air(ALPHA, START, 150), Plan(burst=burst, drops=(40, 3)))
    net.run(120, tick=0.5)
    net.end()
    off = apart(numbers_in(net.hours("Alpha")))
    times = [utc - START for _, utc in numbers_in(net.hours("Alpha"))]
    assert all(abs(one) < 0.6 for one, at in zip(off, times) if at < 38 or at > 57)
    assert [one for one, at in zip(off, times) if 41 < at < 50 and abs(one + 3) < 0.6]


@pytest.mark.parametrize("pace", [50, 5000])
def test_bits_faster_than_real_time(tmp_path: Path, pace: float) -> None:
    """No time is ahead, the alarm begins at once, and `check` says no age of nothing."""
    air = Air(ALPHA, START, 20000)
    net = network(tmp_path, air, *[Plan(pace=pace)] * 9)
    net.run(20, tick=0.5)
    assert [alarm[0] for alarm in alarms(net)][:1] == ["fast"] and alarms(net)[0][1] < 3
    assert any("gave bits faster than real time" in line for line in net.said)
    net.end()
    for hour, rows in net.hours("Alpha"):
        if len(rows):
            assert hour.start + rows["place"].max() / hour.rate < net.times.utc + 6
    state = json.loads(net.asked("SELECT state FROM station_rows")[0][0])
    assert state["last_group_utc"] is None or state["last_group_utc"] <= net.times.utc


def test_a_receiver_that_was_too_fast_once(tmp_path: Path) -> None:
    """The alarm ends a minute after bits of the next run tell their pace."""
    net = network(tmp_path, Air(ALPHA, START, 250), Plan(pace=50))
    net.run(180)
    ((name, begin, end),) = alarms(net)
    assert name == "fast" and begin < 4 and 60 < end < 170
    net.end()


# ---- the disk


def test_a_full_disk_is_one_alarm(tmp_path: Path, monkeypatch: pytest.MonkeyPatch) -> None:
    """Of two stations. The plugin says this of each, first and only."""
    airs = {name: Air(ALPHA, START, 100) for name in "ab"}
    net = Network(
        tmp_path,
        stations('name = "Alpha"', 'command = ["a"]', "--", 'name = "Beta"', 'command = ["b"]'),
        airs,
    )
    net.run(10)
    with monkeypatch.context() as patch:
        patch.setattr(writer.HourWriter, "append", no_space)
        net.run(20, tick=0.5)
        assert net.asked("SELECT station, alarm, end_at FROM alarm_rows") == [("", "disk", None)]
        for station in ("Alpha", "Beta"):
            done = run("check", "--station", station, tmp_path / "watch.db")
            assert (done.status, done.out) == (1, "RDS WARNING - disk: rows wait to be written for 5 s\n")
    net.run(10, tick=0.5)
    net.end()
    ((begin, end),) = net.asked("SELECT begin_at, end_at FROM alarm_rows")
    assert 15 < begin - START < 17 and 29 < end - START < 32


def test_a_database_that_nothing_is_written_to(tmp_path: Path) -> None:
    """The watch holds its lock and writes no more: it is not said that it doesn't run."""
    net = network(tmp_path, Air(ALPHA, START, 100))
    net.run(10)
    net.end()
    asked, path = ("check", "--station", "Alpha", tmp_path / "watch.db"), tmp_path / "watch.lock"
    with open(path, "wb") as lock:
        fcntl.flock(lock, fcntl.LOCK_EX)
        done = run(*asked)
        assert done.status == 3 and "rds-monitor watch has just begun" in done.out
        os.utime(path, (1, 1))
        done = run(*asked)
    assert done.status == 2 and done.out.startswith("RDS CRITICAL - disk: nothing was written for ")
    assert "," not in done.out and "|" not in done.out
    assert run(*asked).status == 3


def test_a_listing_that_is_deleted(tmp_path: Path) -> None:
    """The rows that come after are in a new file. Without it the next watch begins, too."""
    net = network(tmp_path, Air(ALPHA, START, 100))
    net.run(10)
    ((hour, _),) = net.hours("Alpha")
    (tmp_path / "listings" / "Alpha" / hour.name).unlink()
    net.run(10)
    ((again, rows),) = net.hours("Alpha")
    assert again == hour and 8 < (rows["place"].max() - rows["place"].min()) / RATE <= 10
    (tmp_path / "listings" / "Alpha" / hour.name).unlink()
    net.restart(5, kill=True)
    assert net.recovered == [f"listings/Alpha/{hour.name}"]
    net.end()


def test_check_of_a_dynamic_ps(tmp_path: Path) -> None:
    """A PS of the last minute fits, though the last one is another; a minute later it does not."""
    net = network(tmp_path, Air(ALPHA, START, 200))
    net.airs["a"].change(ALPHA._replace(ps="NEWS"), 15, 200)
    net.run(40)
    for seconds, fits in ((0, True), (70, False)):
        net.run(seconds)
        verdict = Verdict()
        verdict.judge(
            seen_of(net.watch.stations["Alpha"].state(net.times.utc)), Limits(0, 0, 99, 99), None, ["ALPHA"]
        )
        assert (verdict.status == 0) == fits, verdict.said
    net.end()
