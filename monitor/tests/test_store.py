"""The database: what it keeps of recordings, whole or not at all, and how large it gets."""

from __future__ import annotations

import csv
import json
import os
import sqlite3
import subprocess
import sys
from contextlib import closing, nullcontext
from pathlib import Path
from types import SimpleNamespace
from typing import Any, List
from unittest import mock

import numpy
import pytest

from conftest import COMMAND, encode, monitor, ran, rds
from made import group_row, listing, lock, run, said, split
from rds_monitor.db import schema, store
from rds_monitor.db.standing import availability
from rds_monitor.rows.items import Fault

WORDS = (0xD393, 0x0548, 0xE0CD, 0x5041)
RT = "Verified RDS decoding, group by group, in as many threads as you"


def add(*words: Any, data: bytes = b"") -> None:
    """A word may be several, parted by blanks."""
    assert said("db", *split(words), data=data) == []


def asked(path: Path, query: str) -> List[Any]:
    database = sqlite3.connect(path)
    try:
        return [row[0] if len(row) == 1 else row for row in database.execute(query)]
    finally:
        database.close()


@pytest.fixture
def database(tmp_path) -> Path:
    return tmp_path / "it.db"


def group_lines(path: Path, name: str) -> List[str]:
    columns = "'group', place, COALESCE(type, '-'), version, block1, block2, block3, block4"
    rows = asked(path, f"SELECT {columns} FROM groups WHERE recording = '{name}' ORDER BY place")
    return [",".join(map(str, row)) for row in rows]


def test_minutes_are_those_of_errors_and_types(database, station: bytes) -> None:
    add("--station Alpha --start 2026-03-29T23:59:00Z --name", "it's", database, "-", data=station)
    errors = [tuple(int(text) for text in line.split(",")[2:7]) for line in said("errors", data=station)[1:]]
    query = "SELECT sent, valid, corrected, lost, missing FROM minutes ORDER BY minute"
    assert asked(database, query) == errors
    mixes = [json.loads(row) for row in asked(database, "SELECT mix FROM minutes")]
    lines = [line.split(",") for line in said("types", data=station)[1:]]
    types = {"".join(line[:2]): int(line[2]) for line in lines}
    assert {kind: sum(mix.get(kind, 0) for mix in mixes) for kind in types} == types
    held = asked(database, "SELECT pi, ps, rt, pty, tp, ta, ms FROM minutes")[1]
    assert held == ("D393", "PAXOLIDU", RT, "10 Pop music", "yes", "no", "music")
    named = asked(database, "SELECT recording, station, begin_utc FROM minutes LIMIT 1")
    assert named == [("it's", "Alpha", "2026-03-29T23:59:00.000Z")]
    assert asked(database, "SELECT day, sent, valid_percent FROM days") == [
        ("2026-03-29", 2741, 99.96),
        ("2026-03-30", 4951, 100.0),
    ]
    changes = [row[2:] for row in csv.reader(said("info", "--csv", data=station)[1:]) if row[2] != "ct"]
    query = "SELECT item, value, place FROM event_rows JOIN facts ON facts.id = fact ORDER BY place, number"
    assert [[item, value, str(place)] for item, value, place in asked(database, query)] == changes
    totals = dict(line.split(",")[1:3] for line in rds("totals", data=station).decode().splitlines())
    assert {name: str(value) for name, value in asked(database, "SELECT name, value FROM totals")} == totals
    assert asked(database, "SELECT COUNT(*) FROM groups") == [0]


def test_nothing_of_the_groups_is_lost(database, station: bytes) -> None:
    random = numpy.random.default_rng(4)
    wrong = numpy.packbits(random.random(8 * len(station)) < 0.04)
    noisy = (numpy.frombuffer(station, "u1") ^ wrong).tobytes()
    for name, data in (("good", station), ("noisy", noisy + random.integers(0, 256, 30000, "u1").tobytes())):
        words = ("--groups", "--burst", 5, "--reach", 8)
        add(*words, "--name", name, database, data=data)
        text = rds("list", *words[1:], data=data).decode()
        rows = [line for line in text.splitlines() if line.startswith("group,")]
        assert group_lines(database, name) == rows
    assert asked(database, "SELECT COUNT(*) FROM groups WHERE recording = 'good' AND valid < 4") == [1]
    # By the same name it is replaced whole, and nothing is left of it.
    add("--name", "noisy", database, data=station)
    assert group_lines(database, "noisy") == [] and len(group_lines(database, "good")) == 1923
    assert asked(database, "SELECT COUNT(*) FROM sessions") == [2]
    assert asked(database, "SELECT COUNT(*) FROM minute_rows") == [6]


def test_a_recording_and_its_listing_are_stored_alike(
    tmp_path, station: bytes, station_listing: bytes
) -> None:
    (tmp_path / "a").write_bytes(station)
    (tmp_path / "b").write_bytes(station_listing)
    add("--groups", tmp_path / "it.db", tmp_path / "a")
    add("--groups", "--length", tmp_path / "a", tmp_path / "it.db", tmp_path / "b")
    for view in ("minutes", "events", "outages", "groups"):
        both = [
            asked(tmp_path / "it.db", f"SELECT * FROM {view} WHERE recording = '{name}'") for name in "ab"
        ]
        assert [row[3:] for row in both[0]] == [row[3:] for row in both[1]], view


def test_a_clock_that_becomes_known_later(database, station: bytes) -> None:
    add("--name", "it", database, data=station)
    assert asked(database, "SELECT DISTINCT begin_utc FROM minutes") == [None]
    assert asked(database, "SELECT * FROM days") == []
    connection = sqlite3.connect(database)
    connection.execute("UPDATE sessions SET start = 0")
    connection.commit()
    connection.close()
    assert asked(database, "SELECT begin_utc FROM minutes")[1] == "1970-01-01T00:01:00.000Z"


def test_a_minute_that_ends_with_a_group(database) -> None:
    """CT ends as a minute begins: here 2026-03-29T00:31Z, after just a minute of a recording that begins 17.0016 s after half past. The
    next group says another PTY. The recording ends as the next minute does."""
    day = 61128
    tick = (0xD393, 0x4540 | day >> 15, (day & 0x7FFF) << 1, 31 << 6)
    rows = [group_row(10 + 104 * n, WORDS if n < 684 else tick) for n in range(685)]
    rows.append(group_row(71250, (0xD393, 0x0568, 0xE0CD, 0x5041)))
    words = "--unfinished --length 142500 --trust-length --start 2026-03-29T00:30:17.0016Z --name it"
    add(words, database, data=listing(rows, False))
    told = [(-17.002, "10 Pop music", 2740), (None, "11 Rock music", 2740)]
    assert asked(database, "SELECT clock_s, pty, sent FROM minutes") == told


def test_a_stream_that_was_restarted_is_two_sessions(database) -> None:
    text, two = (
        rds("follow", data=encode([(pi, 0x0548 + n % 4, 0xE0CD, 0x5041) for n in range(count)]))
        for pi, count in ((0xD393, 1400), (0xD312, 200))
    )
    text = text[: text.index(b"total,")] + two
    add("--start", "2026-03-29T00:30:00Z", "--name", "it", database, data=text)
    assert asked(database, "SELECT number, start NOTNULL, finished, end_place FROM sessions") == [
        (0, 1, 0, 145600),
        (1, 0, 1, 20800),
    ]
    assert asked(database, "SELECT session, SUM(sent), SUM(valid) FROM minutes GROUP BY session") == [
        (1, 5600, 5599),
        (2, 800, 799),
    ]
    assert asked(database, "SELECT session, value FROM events WHERE item = 'pi'") == [
        (1, "D393"),
        (2, "D312"),
    ]


def test_outages_over_a_cut_are_one(database) -> None:
    def whole(begin: int, end: int) -> List[Any]:
        return [group_row(place, WORDS) for place in range(begin, end - 103, 104)]

    # and one of 1.051 s
    first = listing(whole(0, 62400) + whole(63648, 71250), False)
    add(
        "--unfinished --length 142500 --trust-length --start 2026-03-29T23:59:00Z --station X --name 1",
        database,
        data=first,
    )
    add(
        "--unfinished --length 71250 --start 2026-03-30T00:01:00Z --station X --name 2",
        database,
        data=listing([*lock(26, [WORDS] * 3), *lock(35672, [WORDS] * 342)], False),
    )
    assert asked(database, "SELECT COUNT(*), SUM(more) FROM minutes WHERE mix IS NULL") == [(1, 0)]
    assert asked(database, "SELECT begin_utc, end_utc, length_s FROM station_outages") == [
        ("2026-03-29T23:59:52.547Z", "2026-03-29T23:59:53.598Z", 1.051),
        ("2026-03-29T23:59:59.992Z", "2026-03-30T00:01:00.000Z", 60.008),
        ("2026-03-30T00:01:00.285Z", "2026-03-30T00:01:30.040Z", 29.755),
    ]
    assert asked(database, "SELECT day, hours, sent, valid FROM days") == [
        ("2026-03-29", 0.02, 2740, 2692),
        ("2026-03-30", 0.03, 5479, 1380),
    ]


@pytest.mark.parametrize("blocks, outages", [(4, 1), (5, 2)])
def test_valid_blocks_that_part_two_outages(blocks: int, outages: int, database) -> None:
    """Five are a tenth of the 45.7 that are sent in a second."""
    groups = [group_row(begin + 104 * n, WORDS) for begin in (0, 10000) for n in range(12)]
    groups[12:12] = [group_row(5000, WORDS), group_row(5104, WORDS[:1])][: blocks - 3]
    add("--unfinished --name it", database, data=listing(groups, False))
    assert asked(database, "SELECT COUNT(*) FROM outages") == [outages]
    assert asked(database, "SELECT place, number FROM event_rows LIMIT 2") == [(0, 0), (0, 1)]


def test_the_views_of_written_rows(database) -> None:
    """Two sessions of other rates, the second from where the first ends, and one of another station; rows whose numbers all differ."""
    store.Store(str(database)).close()
    change(
        database,
        "INSERT INTO recordings VALUES(1, 'first', 'X'), (2, 'second', 'X'), (3, 'third', 'Y')",
        "INSERT INTO sessions VALUES(1, 1, 0, 86340, 1000, 60500, 0, 100000, 1, NULL),"
        "(2, 2, 0, 86440, 3000, 180000, 0, 120000, 0, 117000), (4, 3, 0, 86441, 1000, 60000, 0, 2000, 1, NULL)",
        *(
            f"INSERT INTO minute_rows(session, minute, sent, valid, corrected, lost, missing, more) VALUES({row})"
            for row in (
                "1, 0, 2300, 2000, 150, 100, 50, 0",
                "1, 1, 1530, 1500, 11, 12, 7, 0",
                "2, 0, 3000, 2400, 1, 2, 597, 0",
            )
        ),
        "INSERT INTO outage_rows VALUES(1, 10000, 11000), (1, 12000, 14500), (1, 14650, 14950), (1, 98500, 100000)",
        "INSERT INTO outage_rows VALUES(2, 0, 4500), (2, 4650, 9000), (2, 60000, 63001), (4, 0, 1000)",
        "INSERT INTO watched_rows VALUES(1, 'X', 86330, 86500), (2, 'X', 86510.5, 86512), (3, 'X', 86520, 86520.15)",
        "INSERT INTO watched_rows VALUES(4, 'X', 86520.5, 86520.58), (5, 'Y', 86430, 86435)",
        "INSERT INTO alarm_rows VALUES(1, 'X', 'pi', 1000.25, 1003.62, 'D319'), (2, 'Y', 'ps', 2000, NULL, 'BETA')",
        "INSERT INTO run_rows VALUES(1, 'X', 1000.5, 2000.75, 'it ended')",
        "INSERT INTO station_rows VALUES('X', 3000.125, 'fine')",
    )
    assert asked(database, "SELECT * FROM alarms") == [
        ("X", "pi", "1970-01-01T00:16:40.250Z", "1970-01-01T00:16:43.620Z", 3.4, "D319"),
        ("Y", "ps", "1970-01-01T00:33:20.000Z", None, None, "BETA"),
    ]
    ran = ("X", "1970-01-01T00:16:40.500Z", "1970-01-01T00:33:20.750Z", "it ended")
    assert asked(database, "SELECT * FROM runs") == [ran]
    assert asked(database, "SELECT * FROM stations") == [("X", "1970-01-01T00:50:00.125Z", "fine")]
    day, next_day = "1970-01-01T23:59:", "1970-01-02T00:0"
    assert asked(database, "SELECT begin_utc, begin_s, sent, valid, bad_percent FROM minutes") == [
        (day + "00.000Z", 0.0, 2300, 2000, 13.04),
        (next_day + "0:00.500Z", 60.5, 1530, 1500, 1.96),
        (next_day + "0:40.000Z", 0.0, 3000, 2400, 20.0),
    ]
    query = "SELECT begin_place, end_place, begin_utc, end_utc, ROUND(length_s, 6) FROM outages ORDER BY begin_utc"
    assert asked(database, query) == [
        (10000, 11000, day + "10.000Z", day + "11.000Z", 1.0),
        (12000, 14500, day + "12.000Z", day + "14.500Z", 2.5),
        (14650, 14950, day + "14.650Z", day + "14.950Z", 0.3),
        (98500, 100000, next_day + "0:38.500Z", next_day + "0:40.000Z", 1.5),
        (0, 4500, next_day + "0:40.000Z", next_day + "0:41.500Z", 1.5),
        (0, 1000, next_day + "0:41.000Z", next_day + "0:42.000Z", 1.0),
        (4650, 9000, next_day + "0:41.550Z", next_day + "0:43.000Z", 1.45),
        (60000, 63001, next_day + "1:00.000Z", next_day + "1:01.000Z", 1.000333),
        (117000, None, next_day + "1:19.000Z", None, 1.0),
    ]
    # Those less than 0.1 s apart are one; 10 s before the first session, 20 s after the second, and a stretch without any.
    assert asked(database, "SELECT begin_utc, end_utc, length_s, kind FROM station_outages") == [
        ("1970-01-01T23:58:50.000Z", day + "00.000Z", 10.0, "down"),
        (day + "10.000Z", day + "11.000Z", 1.0, "noise"),
        (day + "12.000Z", day + "14.500Z", 2.5, "noise"),
        (day + "14.650Z", day + "14.950Z", 0.3, "noise"),
        (next_day + "0:30.000Z", None, 5.0, "down"),
        (next_day + "0:38.500Z", next_day + "0:43.000Z", 4.5, "noise"),
        (next_day + "0:41.000Z", next_day + "0:42.000Z", 1.0, "noise"),
        (next_day + "1:00.000Z", next_day + "1:01.000Z", 1.0, "noise"),
        (next_day + "1:19.000Z", None, 1.0, "noise"),
        (next_day + "1:20.000Z", None, 20.0, "down"),
        (next_day + "1:50.500Z", None, 1.5, "down"),
        (next_day + "2:00.000Z", None, 0.15, "down"),
    ]
    # 2300 blocks at 1000 bits per second are 59.8 s; 1530, and 3000 at 3000, 65.78 s.
    assert asked(database, "SELECT * FROM days") == [
        ("X", "1970-01-01", 0.02, 2300, 2000, 86.96, 56.2, 3.8, 10.0, 86330.0),
        ("X", "1970-01-02", 0.02, 4530, 3900, 86.09, 73.55, 6.45, 21.73, 86298.27),
        ("Y", "1970-01-02", 0.0, 0, 0, None, 1.0, 1.0, 3.0, 86395.0),
    ]

    # All of its sessions: when it was watched for longer; for 20 seconds of them; and when another one has the same time. A time without
    # an outage, and one without anything.
    looks = {
        (86330, 86520): (129.75, 10.25, 31.5, 18.5),
        (86340, 86480): (129.75, 10.25, 0, 0),
        (86340, 86479.5): (129.75, 9.75, 0, 0),
        (86340, 86345): (5, 0, 0, 0),
        (1000, 1100): (0, 0, 0, 100),
    }
    changes = ["DELETE FROM watched_rows", "INSERT INTO watched_rows VALUES(1, 'X', 86400, 86420)"]
    changes.append("INSERT INTO sessions VALUES(3, 2, 1, 86340, 1000, 60000, 0, 140000, 1, NULL)")
    for number, (times, seconds) in enumerate(looks.items()):
        with closing(sqlite3.connect(database)) as data:
            assert availability(data, "X", *times) == pytest.approx(seconds, abs=0.001), times
        change(database, *(changes[:2], changes[2:], [], [], [])[number])
        if number == 0:
            # its sessions are longer than it was watched
            assert asked(database, "SELECT received_s, noise_s, down_s, unknown_s FROM days") == [
                (56.2, 3.8, 0.0, 86340.0),
                (73.55, 6.45, 0.0, 86320.0),
                (1.0, 1.0, 0.0, 86398.0),
            ]


def test_an_item_that_is_no_longer_sent_is_one_fact(database) -> None:
    """Of slow labelling the country code is taken back by an empty one."""
    countries = (0xE0, 0xE0, 0x00, 0x00, 0xE0, 0xE0, 0x00, 0x00)
    groups = [(0xD393, 0x1540, word, 0) for word in countries for _ in range(3)]
    for name in ("1", "2"):
        add("--name", name, database, data=encode(groups))
    assert asked(database, "SELECT value FROM events WHERE item = 'ecc' AND recording = '2'") == [
        "E0",
        None,
        "E0",
        None,
    ]
    assert asked(database, "SELECT value FROM facts WHERE item = 'ecc' ORDER BY id") == ["E0", None]


def test_a_recording_without_rds(database) -> None:
    add("--name it", database, data=bytes(100))
    assert asked(database, "SELECT number, begin_place, end_place, finished FROM sessions") == [
        (0, 0, 800, 1)
    ]


# ---- whole or not at all


def test_what_is_refused_changes_nothing(database, station: bytes, station_listing: bytes) -> None:
    done = run("db", "--name", "it", database, data=station_listing[:50000])
    assert done.status == 1 and "does not end in its totals" in done.err
    assert asked(database, "SELECT COUNT(*) FROM recordings") == [0] if database.exists() else True
    for words in (
        (database, "a", "b", "--name", "x"),
        (database, "a", "b", "--start", "2026-03-29T00:30:00Z"),
        (database,),
        (),
    ):
        assert run("db", *words).status == 2
    done = run("db", database, "none")
    assert done.status == 1 and "'none' cannot be read" in done.err
    add("--name", "it", database, data=station)
    before = asked(database, "SELECT * FROM minutes")
    assert run("db", "--name", "it", database, data=station_listing[:-40]).status == 1
    assert asked(database, "SELECT * FROM minutes") == before
    connection = sqlite3.connect(database)
    connection.execute(
        "CREATE TRIGGER stop BEFORE INSERT ON outage_rows BEGIN SELECT RAISE(ABORT, 'stopped'); END"
    )
    connection.commit()
    connection.close()
    done = run("db", "--name", "it", database, data=station + bytes(10000) + station)
    assert (done.status, done.err) == (1, "rds-monitor db: the database: stopped\n")
    assert asked(database, "SELECT * FROM minutes") == before


def test_databases_of_others(tmp_path, station: bytes) -> None:
    text, other, later = tmp_path / "text", tmp_path / "other.db", tmp_path / "later.db"
    text.write_text("text\n")
    connection = sqlite3.connect(other)
    connection.execute("CREATE TABLE groups(place)")
    connection.commit()
    for path in (text, other):
        held = path.read_bytes()
        done = run("db", "--name", "it", path, data=station)
        assert done.status == 1 and done.err.endswith("is no database of rds-monitor\n")
        assert path.read_bytes() == held
    add("--name", "it", later, data=station)
    connection = sqlite3.connect(later)
    connection.execute(f"PRAGMA user_version = {len(schema.MIGRATIONS) + 1}")
    connection.close()
    done = run("db", "--name", "it", later, data=station)
    assert done.status == 1 and "it is of a later rds-monitor" in done.err
    done = run("db", "--name", "it", tmp_path / "no" / "it.db", data=station)
    assert done.status == 1 and "unable to open database file" in done.err


def test_migrations(database, station: bytes, monkeypatch) -> None:
    """A database of an older version is brought up to date, and keeps what it has."""
    add("--name", "old", database, data=station)
    monkeypatch.setattr(
        store,
        "MIGRATIONS",
        (*schema.MIGRATIONS, "ALTER TABLE recordings ADD COLUMN more;\nCREATE VIEW v AS\n SELECT 1;\n"),
    )
    add("--name", "new", database, data=station)
    assert asked(database, "SELECT name, more FROM recordings ORDER BY id") == [("old", None), ("new", None)]
    assert asked(database, "PRAGMA user_version") == [len(schema.MIGRATIONS) + 1]
    monkeypatch.setattr(store, "MIGRATIONS", (*store.MIGRATIONS, "CREATE TABLE recordings(id);\n"))
    done = run("db", "--name", "third", database, data=station)
    assert done.status == 1
    assert "already exists" in done.err
    assert asked(database, "PRAGMA user_version") == [len(schema.MIGRATIONS) + 1]


def test_a_database_of_this_version_is_only_looked_at(tmp_path, monkeypatch) -> None:
    """While another process writes it can be opened. Other programs know it by the letters RDSm."""
    path = tmp_path / "it.db"
    store.Store(str(path)).close()
    monkeypatch.setattr(store, "WAIT", 0.05)
    writer = sqlite3.connect(path, isolation_level=None)
    assert writer.execute("PRAGMA application_id").fetchone() == (int.from_bytes(b"RDSm", "big"),)
    writer.execute("BEGIN IMMEDIATE")
    store.Store(str(path)).close()
    writer.close()


def test_what_each_version_brought() -> None:
    """Databases of each are about: what a version added is never moved to another one."""
    added = [
        ("sessions", "rate"),
        ("hour_files", "bytes"),
        ("sessions", "quiet_place"),
        ("minute_rows", "snr_db"),
    ]
    database = sqlite3.connect(":memory:")
    for version, script in enumerate(schema.MIGRATIONS):
        database.executescript(script)
        there = [
            database.execute("SELECT 1 FROM pragma_table_info(?) WHERE name = ?", pair).fetchone()
            for pair in added
        ]
        assert [*map(bool, there)] == [number <= version for number in range(len(added))]


@pytest.mark.parametrize("end, tries", [(600.0, 2), (600.1, 1)])
def test_a_database_that_is_locked(end: float, tries: int, database, monkeypatch) -> None:
    """It is tried again every 0.02 s, for ten minutes."""
    times, pauses = iter([0.0, end]), []
    prepare = mock.Mock(side_effect=[sqlite3.OperationalError("database is locked"), None])
    monkeypatch.setattr(store.Store, "_prepare", prepare)
    monkeypatch.setattr(store, "time", SimpleNamespace(monotonic=lambda: next(times), sleep=pauses.append))
    with nullcontext() if tries == 2 else pytest.raises(Fault, match="locked"):
        store.Store(str(database)).close()
    assert prepare.call_count == tries and pauses == [0.02] * (tries - 1)


# Six processes that wait for a writer of the pipe named first, and then make a database, or end in another status than 0.
MAKERS = """
import os, sys
from rds_monitor.db.store import Store
for _ in range(6):
    if not os.fork():
        open(sys.argv[1]).close()
        Store(sys.argv[2]).close()
        os._exit(0)
with open(sys.argv[1], "wb"):
    sys.exit(max(os.waitstatus_to_exitcode(os.wait()[1]) for _ in range(6)))
"""


def test_a_database_that_several_processes_make_at_once(tmp_path) -> None:
    """All of them find no database."""
    for turn in range(5):
        barrier, path = tmp_path / f"barrier{turn}", tmp_path / f"{turn}.db"
        os.mkfifo(barrier)
        done = subprocess.run(
            [sys.executable, "-c", MAKERS, str(barrier), str(path)], capture_output=True, timeout=60
        )
        assert (done.returncode, done.stderr) == (0, b"") and path.exists()


def test_four_writers_at_once_and_a_reader(database, station: bytes, tmp_path) -> None:
    (tmp_path / "it.bin").write_bytes(station)
    writers = [
        subprocess.Popen([*COMMAND, "db", "--name", str(n), str(database), str(tmp_path / "it.bin")])
        for n in range(4)
    ]
    assert [writer.wait() for writer in writers] == [0] * 4
    assert asked(database, "SELECT COUNT(*), SUM(valid) FROM minutes") == [(12, 4 * 7691)]
    assert asked(database, "PRAGMA journal_mode") == ["wal"]


def test_a_full_disk_leaves_what_was(tmp_path, station: bytes) -> None:
    """A limit of the file's size takes the place of the disk's."""
    path, data = tmp_path / "it.db", tmp_path / "it.bin"
    data.write_bytes(station)
    add(path, data)
    for name in "xy":
        (tmp_path / name).write_bytes(station)
    before = asked(path, "SELECT * FROM minutes")
    code = (
        "import resource, signal, sys; signal.signal(signal.SIGXFSZ, signal.SIG_IGN); from rds_monitor.cli import "
        "main\n"
        "resource.setrlimit(resource.RLIMIT_FSIZE, (100000, 100000)); sys.exit(main(sys.argv[1:]))"
    )
    done = ran(
        [sys.executable, "-c", code, "db", "--groups", path, data, data.parent / "x", data.parent / "y"]
    )
    assert done.returncode == 1 and "rds-monitor db: the database: " in done.stderr
    assert asked(path, "SELECT * FROM minutes") == before


def test_names_are_data(tmp_path, station: bytes) -> None:
    name = "it's\n\"; DROP TABLE recordings; --"
    path = tmp_path / name.replace("/", "")
    path.write_bytes(station)
    add("--station", "'", "--", tmp_path / "-x.db", path)
    assert asked(tmp_path / "-x.db", "SELECT name, station FROM recordings") == [(path.name, "'")]
    done = monitor("db", "-x2.db", path.name, cwd=tmp_path)
    assert done.returncode == 2
    done = monitor("db", "--", "-x2.db", path.name, cwd=tmp_path)
    assert done.returncode == 0, done.stderr


# ---- two databases as one

VIEWED = ("minutes", "events", "outages", "groups", "days", "alarms", "runs", "spans", "totals")


def seen(path: Path) -> Any:
    """All that a database tells, without its own numbers of sessions."""
    found = {}
    for view in VIEWED:
        columns = [
            name for name in asked(path, f"SELECT name FROM pragma_table_info('{view}')") if name != "session"
        ]
        found[view] = sorted(map(str, asked(path, f"SELECT {', '.join(columns)} FROM {view}")))
    return found


def change(path: Path, *statements: str) -> None:
    connection = sqlite3.connect(path)
    for statement in statements:
        connection.execute(statement)
    connection.commit()
    connection.close()


def test_two_databases_are_merged(tmp_path, station: bytes) -> None:
    """It is the one that has all recordings; what is in both is there once, however often it is merged."""
    noisy = station[:9000] + bytes(3000) + station[12000:]
    recordings = {name: station if at % 2 else noisy for at, name in enumerate("abcd")}
    for database, names in (("one", "ab"), ("two", "bcd"), ("all", "abcd")):
        for name in names:
            start = f"2026-03-29T0{'abcd'.index(name)}:59:00Z"
            words = ("--groups --name", name, "--station", name.upper(), "--start", start)
            add(*words, tmp_path / database, data=recordings[name])
    told = "INSERT INTO {0}_rows(station, {1}) VALUES('{2}', {3})"
    alarm, run_of, watched = ("alarm, begin_at, end_at, text", "begin_at, end_at, reason", "begin_at, end_at")
    rows = [
        ("one two all", told.format("alarm", alarm, "B", "'pi', 5, 9, 'x'")),
        ("one all", told.format("alarm", alarm, "A", "'pi', 5, NULL, 'x'")),
        ("two all", told.format("run", run_of, "B", "5, 9, 'x'")),
        ("one all", told.format("watched", watched, "A", "0, 99")),
        ("one", told.format("watched", watched, "B", "0, 70")),
        ("two", told.format("watched", watched, "B", "10, 20")),
        ("two", told.format("watched", watched, "B", "60, 90")),
        ("one", told.format("watched", watched, "B", "90, 95")),
        ("all", told.format("watched", watched, "B", "0, 95")),
        ("one all", told.format("watched", watched, "C", "100, 150")),
        ("two", told.format("watched", watched, "C", "140, 145")),
        ("one", "INSERT INTO station_rows VALUES('B', 8, 'old')"),
        ("two", "INSERT INTO station_rows VALUES('B', 9, 'new')"),
    ]
    for databases, statement in rows:
        for name in databases.split():
            change(tmp_path / name, statement)
    for _ in range(2):
        assert said("db", "--merge", tmp_path / "two", tmp_path / "one") == []
        assert seen(tmp_path / "one") == seen(tmp_path / "all")
        assert asked(tmp_path / "one", "SELECT state FROM stations") == ["new"]
        assert asked(
            tmp_path / "one", "SELECT COUNT(*) - COUNT(DISTINCT item || COALESCE(value, '')) FROM facts"
        ) == [0]
    add("--merge", tmp_path / "all", tmp_path / "fresh")
    assert seen(tmp_path / "fresh") == seen(tmp_path / "all")


@pytest.mark.parametrize(
    "statement,fault",
    [
        ("UPDATE minute_rows SET valid = 7 WHERE minute = 1", "session 0 of recording 'it' is in both"),
        (
            "DELETE FROM event_rows WHERE place = (SELECT MAX(place) FROM event_rows)",
            "session 0 of recording 'it' is in both",
        ),
        ("UPDATE facts SET value = 'OTHER' WHERE item = 'ps'", "session 0 of recording 'it' is in both"),
        ("UPDATE sessions SET start = 9", "session 0 of recording 'it' is in both"),
        ("UPDATE recordings SET station = 'Y'", "recording 'it' is of station 'X' and of 'Y'"),
        ("UPDATE alarm_rows SET end_at = 8", "the alarm 'X' 'pi' of 1970-01-01T00:00:05.000Z is in both"),
    ],
)
def test_a_merge_that_differs_changes_nothing(tmp_path, station: bytes, statement: str, fault: str) -> None:
    for name in ("one", "two"):
        add("--station X --name it", tmp_path / name, data=station)
        change(
            tmp_path / name, "INSERT INTO alarm_rows(station, alarm, begin_at, text) VALUES('X', 'pi', 5, '')"
        )
    add("--station X --name more", tmp_path / "two", data=station)
    change(tmp_path / "two", statement)
    before = [seen(tmp_path / name) for name in ("one", "two")]
    done = run("db", "--merge", tmp_path / "two", tmp_path / "one")
    assert done.status == 1 and f"rds-monitor db: {fault}" in done.err
    assert [seen(tmp_path / name) for name in ("one", "two")] == before
    assert asked(tmp_path / "one", "SELECT name FROM recordings") == ["it"]


def test_what_cannot_be_merged(tmp_path, station: bytes) -> None:
    (tmp_path / "it").write_bytes(station)
    add(tmp_path / "one", tmp_path / "it")
    for words, status, fault in (
        (("none", "one"), 1, "there is no database 'none'"),
        (("one", "one"), 1, "'one' cannot be merged into itself"),
        (("it", "one"), 1, "'it' is no database of rds-monitor"),
        (("one", "two", "it"), 2, "--merge adds a database, and no INPUT"),
    ):
        done = monitor("db", "--merge", *words, cwd=tmp_path)
        assert done.returncode == status and fault in done.stderr.decode()
    assert sorted(path.name for path in tmp_path.iterdir()) == ["it", "one"]


# ---- its size


def test_a_year_of_30_stations(database) -> None:
    """5 GB are 456 kB per day of a station. Here a day's texts change every 15 s, the name four times a minute."""
    groups, texts = [], [
        f"Now: title {n} by the artist {n}, and something more".ljust(64) for n in range(240)
    ]
    names = [name.ljust(8) for name in ("ALPHA FM", "NEWS 24", "WEATHER", "TRAFFIC")]
    for n in range(3 * 41106 // 12):
        turn = int(n * 104 / 1187.5 / 15)
        at, text, name = n // 2 % 16, texts[turn % 240], names[turn % 4]
        if n % 2:
            words = [int.from_bytes(text[k : k + 2].encode(), "big") for k in (4 * at, 4 * at + 2)]
            groups.append((0xD393, 0x2540 | turn % 2 << 4 | at, *words))
        else:
            at %= 4
            groups.append((0xD393, 0x0548 | at, 0xE0CD, int.from_bytes(name[2 * at :][:2].encode(), "big")))
    data = encode(groups)
    sizes = []
    for name in range(9):
        add("--name", str(name), "--station X --start", f"2026-03-29T{name:02}:00:00Z", database, data=data)
        run("db", "--name", "empty", database, data=bytes(100))
        connection = sqlite3.connect(database)
        connection.execute("PRAGMA wal_checkpoint(TRUNCATE)")
        connection.close()
        sizes.append(database.stat().st_size)
    minutes = asked(database, "SELECT COUNT(*) FROM minutes WHERE recording = '8'")[0]
    assert (sizes[-1] - sizes[0]) / 8 / minutes * 1440 < 5e9 / 30 / 365


def test_a_store_that_is_closed_is_one_file(database, station: bytes) -> None:
    add("--name", "it", database, data=station)
    assert sorted(path.name for path in database.parent.iterdir()) == ["it.db"]
    # SQLite has the mark of an application at byte 68 of its file.
    assert database.read_bytes()[68:72] == b"RDSm"
    with pytest.raises(Fault):
        store.Store(str(database.parent))
