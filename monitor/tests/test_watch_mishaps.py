"""Mishaps of a watch: commands that do not end, files that are damaged, and a disk or a database that cannot be written."""

from __future__ import annotations

import os
import sqlite3
import time
from pathlib import Path
from threading import Timer
from typing import Any, List, Optional

import pytest

from network import START, Air, Network, stations
from rds_monitor.db.parts import MinuteRow, Told
from rds_monitor.db.standing import availability
from rds_monitor.measures.errors import Interval
from rds_monitor.rows.hours import Hour
from rds_monitor.watch import writer
from rds_monitor.watch.receiver import Keeper, Process
from rds_monitor.watch.records import AlarmChanged, PartGrew, PartKey, PartOpened, PartTold, Records
from rds_monitor.watch.retention import tidy
from rds_monitor.watch.table import Keep
from rds_monitor.watch.times import Timing
from rds_monitor.watch.writer import Batch, Writer, WriterThread
from test_watch_network import ALPHA, TABLE, alarms, network

HOUR = START // 3600 * 3600


def test_old_facts_take_one_look_at_all_minutes(tmp_path: Path) -> None:
    """However many go: not one per fact and column."""
    records, steps = Records(str(tmp_path / "watch.db")), []
    for name, begin, count in (("old", HOUR - 10 * 86400, 300), ("new", HOUR - 3600, 3000)):
        key = PartKey(f"Alpha {name}", 0)
        minutes = [
            MinuteRow(
                n,
                Interval(0, 71250, 2740, 2740, 0, 0, 0),
                {},
                {"rt": f"{name} {n}" if name == "old" else name},
                None,
                0,
            )
            for n in range(count)
        ]
        start = Timing(begin)
        grew = PartGrew(key, start.place(begin + 60), 0, True)
        records.write(
            [
                PartOpened(key, "Alpha", start, 0, f"{name}.csv"),
                PartTold(key, Told(minutes, [], [], [], [])),
                grew,
            ]
        )
    records.database.set_progress_handler(lambda: steps.append(1), 1000)
    tidy(str(tmp_path), Keep(database_days=2), HOUR, records)
    assert records.database.execute("SELECT COUNT(*) FROM facts").fetchone() == (1,)
    assert len(steps) < 1000
    with pytest.raises(sqlite3.IntegrityError):
        records.database.execute("DELETE FROM facts")
    records.close()


class Stubborn(Process):
    """A command that gives bytes until it is killed."""

    def __init__(self) -> None:
        self.sent: List[str] = []

    def read(self) -> Optional[bytes]:
        return None if "SIGKILL" in self.sent else b"x"

    def ended(self) -> Optional[str]:
        return "was ended by SIGKILL" if "SIGKILL" in self.sent else None

    def terminate(self) -> None:
        self.sent.append("SIGTERM")

    def kill(self) -> None:
        self.sent.append("SIGKILL")

    def close(self) -> None:
        ...


def test_a_command_that_goes_on_giving_bytes_is_killed() -> None:
    command = Stubborn()
    keeper = Keeper(["stubborn"], 10.0, lambda words, through: command, 0.0)
    assert [keeper.read(now) for now in (0.0, 1.0)] == [b"", b"x"]
    keeper.stop_run(1.0, "gave bits faster than real time")
    assert [keeper.read(now) for now in (2.0, 3.0)] == [b"x", b"x"] and command.sent == ["SIGTERM"]
    assert keeper.read(3.1) is None and command.sent[:2] == ["SIGTERM", "SIGKILL"]
    assert keeper.reason == "gave bits faster than real time"
    assert keeper.read(4.1) == b"" and keeper.starts == 2


@pytest.mark.parametrize("seconds", [20, 320])
def test_a_damaged_row_of_the_last_hour(tmp_path: Path, seconds: int) -> None:
    """The next watch begins, and all other rows stay."""
    net = network(tmp_path, Air(ALPHA, START, 500))
    net.run(31 + seconds, tick=1)
    net.kill()
    path = max((tmp_path / "listings" / "Alpha").iterdir())
    text = bytearray(path.read_bytes())
    text[500] = 0
    path.write_bytes(text)
    net.times.pass_by(1)
    net.begin()
    assert path.read_bytes() == text
    assert net.asked("SELECT COUNT(*) FROM hour_files WHERE is_open") == [(0,)]
    net.run(5)
    net.end()


def test_a_database_that_is_locked_at_the_end(tmp_path: Path) -> None:
    """For a second or two: what waits is written nevertheless."""
    records, path = Records(str(tmp_path / "watch.db")), tmp_path / "watch.db"
    thread = WriterThread(Writer(str(tmp_path), records, lambda *said: None))
    thread.start()
    other = sqlite3.connect(path, isolation_level=None, check_same_thread=False)
    other.execute("BEGIN IMMEDIATE")
    Timer(2.0, lambda: other.execute("ROLLBACK")).start()
    thread.give(Batch([], [AlarmChanged("Alpha", "pi", True, 1.0, "PI D319")], []))
    while thread.fault is None:
        time.sleep(0.01)
    thread.end(5.0)
    assert thread.fault is None and not thread.is_alive()
    assert records.lasting("Alpha") == {"pi": ("PI D319", 1.0)}
    records.close()


def test_killed_in_an_outage_of_hours(tmp_path: Path) -> None:
    """Its noise is that from its begin on, two hours before."""
    air = Air(ALPHA, START, 7400)
    first = air.at(20)
    air._data[first:] = 0
    net = network(tmp_path, air)
    net.run(7300, tick=5)
    for _ in range(2):
        # 5 s are down before the first byte.
        times = availability(net.records.database, "Alpha", START, START + 7300)
        assert times.noise > 7260 and times.received < 25
        net.restart(1, kill=True)
    net.end()


def test_old_hours_go_while_the_disk_is_full(tmp_path: Path, monkeypatch: pytest.MonkeyPatch) -> None:
    """That makes room, and the rows that wait are written."""
    net = network(tmp_path, Air(ALPHA, START, 4000), table="[keep]\nlistings_days = 60\n" + TABLE)
    net.run(10)
    old = tmp_path / "listings" / "Alpha" / Hour(HOUR - 60 * 86400, HOUR - 60 * 86400).name
    old.write_bytes(b"x")
    real = writer.HourWriter.append

    def append(self: Any, path: str, data: memoryview) -> int:
        if old.exists():
            raise OSError(28, "No space left on device")
        return real(self, path, data)

    monkeypatch.setattr(writer.HourWriter, "append", append)
    net.run(3700, tick=10)
    assert not old.exists() and net.writer.fault is None
    net.end()
    (text,) = net.texts("Alpha")
    assert text.count(b"\ngroup,") > 3600 * 11


@pytest.mark.parametrize("name", ["README", "lost+found/x", "Beta/notes.txt"])
def test_what_is_no_station_of_a_watch(tmp_path: Path, name: str, monkeypatch: pytest.MonkeyPatch) -> None:
    """Old hours go, whatever else is there."""
    top, records, listdir = tmp_path / "listings", Records(str(tmp_path / "watch.db")), os.listdir

    def forbidden(path: str) -> List[str]:
        if path.endswith("lost+found"):
            raise PermissionError(13, "Permission denied", path)
        return listdir(path)

    monkeypatch.setattr(os, "listdir", forbidden)
    for path in (top / name, top / "Alpha" / Hour(HOUR - 86400 * 61, HOUR - 86400 * 61).name):
        path.parent.mkdir(parents=True, exist_ok=True)
        path.write_text("mine")
    assert len(tidy(str(tmp_path), Keep(listings_days=60), HOUR, records).removed) == 1
    assert (top / name).exists()
    records.close()


def test_an_alarm_that_is_turned_off_ends(tmp_path: Path) -> None:
    """By another table, or while no watch runs, and with its station."""
    alpha, beta = ('name = "Alpha"', 'command = ["a"]'), (
        "--",
        'name = "Beta"',
        'command = ["a"]',
        'pi = "D318"',
    )
    airs = {"a": Air(ALPHA._replace(pi=0xD319), START, 300)}
    net = Network(tmp_path, stations(*alpha, 'pi = "D318"', *beta), airs)
    net.run(20)
    net.reload(stations(*alpha))
    net.run(10)
    assert net.watch.stations["Alpha"].state(0.0)["alarms"] == {}
    assert [alarm[0] for alarm in alarms(net) if alarm[2] == 21.0] == ["pi"]
    assert [alarm[2] for alarm in alarms(net, "Beta")] == [20.0]
    net.reload(stations(*alpha, 'pi = "D318"'))
    net.run(20)
    net.text = stations(*alpha)
    net.restart(5)
    net.run(2)
    assert [end for _, _, end in alarms(net) if end is None] == []
    assert net.said[-1].startswith("notice: Alpha: alarm pi ends: PI D319 in place of D318; it lasted ")
    net.end()


def test_a_day_in_which_the_clock_was_set_back(tmp_path: Path) -> None:
    """Its times are never below 0, and nothing was down."""
    net = network(tmp_path, Air(ALPHA, START, 600))
    net.run(300, tick=5)
    net.times.utc -= 100
    net.run(100, tick=5)
    net.end()
    times = availability(net.records.database, "Alpha", START + 100, START + 300) if False else None
    data = sqlite3.connect(tmp_path / "watch.db")
    times = availability(data, "Alpha", START + 100, START + 300)
    assert min(times) >= 0 and times.received == 200 and sum(times) == 200
    data.close()


def test_times_that_passed_twice_count_once(tmp_path: Path) -> None:
    """Of a whole day in which the clock was set back by 1,000 s."""
    records, day = Records(str(tmp_path / "watch.db")), START // 86400 * 86400
    for begin, end in ((day, day + 50000), (day + 49000, day + 86400)):
        records.database.execute("INSERT INTO watched_rows VALUES (NULL, 'Alpha', ?, ?)", (begin, end))
    assert availability(records.database, "Alpha", day, day + 86400) == (0, 0, 86400, 0)
    found = records.database.execute("SELECT received_s, noise_s, down_s, unknown_s FROM days").fetchall()
    assert found == [(0, 0, 86400, 0)]
    records.close()
