"""Hours' files: their names, what is left of one after a crash, and their removal."""

from __future__ import annotations

import gzip
import os
import sqlite3
import time
from itertools import accumulate
from pathlib import Path
from typing import Callable

import pytest
import zstandard
from hypothesis import given
from hypothesis import strategies as st

from conftest import rds
from made import run
from rds_monitor.db.parts import EventRow, MinuteRow, Told
from rds_monitor.measures.errors import Interval
from rds_monitor.rows.clock import start_of
from rds_monitor.rows.hours import Hour, hour_of
from rds_monitor.rows.listing import text_of
from rds_monitor.watch.compress import compress
from rds_monitor.watch.live import Append
from rds_monitor.watch.records import (
    AlarmChanged,
    PartGrew,
    PartKey,
    PartOpened,
    PartTold,
    Records,
    RunBegan,
    RunEnded,
    StateSeen,
)
from rds_monitor.watch.recover import recover, rows_of
from rds_monitor.watch.repair import make_whole
from rds_monitor.watch.retention import tidy
from rds_monitor.watch.table import Keep
from rds_monitor.watch.times import Timing
from rds_monitor.watch.writer import Batch, Writer, WriterThread

HOUR = 1795748400.0


@given(
    st.integers(0, 4 * 10**5),
    st.integers(0, 4 * 10**12),
    st.integers(11_000_000, 12_900_000),
    st.booleans(),
)
def test_names(hour: int, start: int, rate: int, soft: bool) -> None:
    one = Hour(hour * 3600.0, start / 1000, rate / 1e4, soft)
    assert hour_of("/some/folder/" + one.name) == one


def test_names_are_in_order() -> None:
    early = Hour(HOUR, HOUR - 86400.5).name
    assert early == "2026-11-27T03Z_20261126T025959.500Z.csv"
    assert Hour(HOUR, HOUR, 1187.5, True).name == "2026-11-27T03Z_20261127T030000.000Z_soft.csv"
    later = [Hour(HOUR, HOUR - 3), Hour(HOUR, HOUR + 7), Hour(HOUR + 3600, HOUR - 86400, 1187.6)]
    names = [early, *(hour.name for hour in later)]
    assert names == sorted(set(names))


@pytest.mark.parametrize(
    "name", ["monday.csv", "2026-11-27T03Z.csv", "2026-13-27T03Z_20261126T025959.500Z.csv", "x.bin"]
)
def test_other_names(name: str) -> None:
    assert hour_of(name) is None


def test_every_end_of_a_file(station_listing: bytes, tmp_path: Path) -> None:
    """Wherever it is cut, and whatever a power failure left there, the whole rows are kept."""
    text = station_listing[: station_listing.index(b"total,")][:3000]
    path = tmp_path / "hour.csv"
    for end in (1, 20, *range(len(text) - 90, len(text))):
        for rest in (b"", b"\0" * 40000, b"\0" * 10 + b"\n", b"xyz\n"):
            path.write_bytes(text[:end] + rest)
            whole = text[: text[:end].rfind(b"\n") + 1]
            assert make_whole(str(path)) == len(whole) and path.read_bytes() == whole


def test_a_whole_file_is_left_alone(station_listing: bytes, tmp_path: Path) -> None:
    path = tmp_path / "hour.csv"
    for text in (station_listing, b""):
        path.write_bytes(text)
        assert make_whole(str(path)) == len(text) and path.read_bytes() == text


@pytest.mark.parametrize("pack", [bytes, gzip.compress])
def test_the_rows_of_an_hour(pack: Callable[[bytes], bytes], station_listing: bytes, tmp_path: Path) -> None:
    """One for each line, and where that ends; none of an empty file."""
    path = tmp_path / "hour.csv"
    for text in (station_listing[: station_listing.index(b"total,")], b""):
        path.write_bytes(pack(text))
        rows, ends = rows_of(str(path))
        assert text_of(rows) == text
        assert ends == [*accumulate(len(line) for line in text.splitlines(keepends=True))]


def test_an_hour_that_is_compressed(tmp_path: Path) -> None:
    """In place of the listing, with its time, and the database knows it. A second call finds nothing to do."""
    records, key, path = Records(str(tmp_path / "watch.db")), PartKey("Alpha", 0), "hours/it.csv"
    plain = tmp_path / path
    plain.parent.mkdir()
    plain.write_bytes(b"row\n" * 9)
    os.utime(plain, (HOUR, HOUR))
    records.write([PartOpened(key, "Alpha", Timing(HOUR), 0, path)])
    for _ in range(2):
        compress(str(tmp_path), path, records)
    (made,) = plain.parent.iterdir()
    assert records.path_of(key) == f"{path}.zst" == f"hours/{made.name}" and made.stat().st_mtime == HOUR
    assert zstandard.ZstdDecompressor().decompress(made.read_bytes()) == b"row\n" * 9
    assert zstandard.get_frame_parameters(made.read_bytes()).has_checksum
    records.close()


def test_an_hour_that_cannot_be_compressed(tmp_path: Path, monkeypatch: pytest.MonkeyPatch) -> None:
    """The file stays alone, and the disk's fault is told."""
    plain, records = tmp_path / "hour.csv", Records(str(tmp_path / "watch.db"))
    plain.write_bytes(b"row\n")
    files = sorted(tmp_path.iterdir())

    def fsync(_: int) -> None:
        raise OSError(28, "No space left on device")

    monkeypatch.setattr(os, "fsync", fsync)
    with pytest.raises(OSError, match="No space left"):
        compress(str(tmp_path), "hour.csv", records)
    assert sorted(tmp_path.iterdir()) == files
    records.close()


def test_options_say_more_than_a_name(station_listing: bytes, tmp_path: Path) -> None:
    path = tmp_path / Hour(HOUR, HOUR + 12.5).name
    path.write_bytes(station_listing[: station_listing.rindex(b"group,")])
    assert "2026-11-27T03:01:12.500Z" in run("errors", path).out
    assert "2026-01-01T00:01:00.000Z" in run("errors", "--start", "2026-01-01T00:00:00Z", path).out
    # Each of several has the start that its own name says.
    other = tmp_path / Hour(HOUR + 3600, HOUR + 13.5).name
    other.write_bytes(path.read_bytes())
    assert run("db", tmp_path / "it.db", path, other).status == 0
    with sqlite3.connect(tmp_path / "it.db") as database:
        query = (
            "SELECT start, station FROM sessions JOIN recordings ON recordings.id = recording ORDER BY start"
        )
        starts = HOUR + 12.5, HOUR + 13.5
        assert [*database.execute(query)] == [(start, tmp_path.name) for start in starts]
    # a minute by the rate of the name, or of the options
    faster = tmp_path / Hour(HOUR, HOUR + 12.5, 1200).name
    faster.write_bytes(path.read_bytes())
    for words, rate in (((), 1200), (("--rate", 1150), 1150)):
        sent = [int(row.split(",")[2]) for row in run("errors", *words, faster).out.splitlines()[2:3]]
        assert sent == [pytest.approx(60 * rate / 26, abs=1)]
    other = tmp_path / "monday.csv"
    os.rename(path, other)
    assert run("errors", other).status == 1


def test_an_hour_that_the_database_was_not_told_of(station_listing: bytes, tmp_path: Path) -> None:
    """The watch was killed before. The next one tells it, and once. Other files beside it are left alone."""
    name = Hour(HOUR, HOUR + 12.5, 1200).name
    path, records = os.path.join("listings", "Alpha", name), Records(str(tmp_path / "watch.db"))
    (tmp_path / path).parent.mkdir(parents=True)
    rows, _, totals = station_listing.partition(b"total,valid,")
    (tmp_path / path).write_bytes(rows)
    for other in ("notes.csv", f"{name}.new"):
        (tmp_path / path).with_name(other).write_text("mine")
    for told in ([path], []):
        assert recover(str(tmp_path), ["Alpha", "Beta"], records) == told
    query = "SELECT name, station, number, start, rate, begin_place, SUM(valid), MIN(clock_s) FROM recordings JOIN sessions ON recording = recordings.id"
    found = records.database.execute(
        f"{query} JOIN minute_rows ON session = sessions.id GROUP BY sessions.id"
    )
    # It begins with the block before the one in which sync is acquired.
    begin, valid = int(rows.split(b",")[1]) - 26, int(totals.partition(b",")[0])
    # It sends 2026-11-22T06:12 until 2 min 47 s after the start.
    clock = pytest.approx(start_of("2026-11-22T06:12:00Z") - HOUR, abs=180)
    assert found.fetchall() == [(f"Alpha {name}", "Alpha", 0, HOUR + 12.5, 1200.0, begin, valid, clock)]
    query = "SELECT value FROM event_rows JOIN facts ON facts.id = fact WHERE item = 'pi'"
    assert records.database.execute(query).fetchall() == [("D393",)]
    records.close()


def test_the_last_two_hours_that_the_database_was_not_told_of(station_listing: bytes, tmp_path: Path) -> None:
    """By when they were written, not by their names. Older ones are left alone."""
    records, top = Records(str(tmp_path / "watch.db")), tmp_path / "listings" / "Alpha"
    top.mkdir(parents=True)
    for utc, start in enumerate((HOUR + 3, HOUR + 1, HOUR + 2)):
        path = top / Hour(HOUR, start).name
        path.write_bytes(station_listing[: station_listing.index(b"total,")])
        os.utime(path, (utc, utc))
    told = [os.path.join("listings", "Alpha", Hour(HOUR, HOUR + n).name) for n in (1, 2)]
    assert recover(str(tmp_path), ["Alpha"], records) == told
    records.close()


def test_an_outage_that_lasted_when_the_watch_was_killed(station: bytes, tmp_path: Path) -> None:
    """From the last valid block to the last bit that the database knew of. The hour before was deleted."""
    path, records, key = "listings/Alpha/it.csv", Records(str(tmp_path / "watch.db")), PartKey("Alpha 1", 1)
    (tmp_path / path).parent.mkdir(parents=True)
    rows = rds("list", data=station[:2000] + bytes(100)).partition(b"total,")[0]
    (tmp_path / path).write_bytes(rows)
    before = PartOpened(key._replace(number=0), "Alpha", Timing(HOUR), 0, "listings/Alpha/before.csv")
    records.write([before, PartGrew(before.key, 0, 0, closed=True)])
    records.write([PartOpened(key, "Alpha", Timing(HOUR), 0, path), PartGrew(key, 20000, len(rows))])
    assert recover(str(tmp_path), ["Alpha"], records) == [path]
    query = "SELECT begin_place, end_place, bytes FROM outage_rows JOIN hour_files USING(session)"
    ((begin, end, size),) = records.database.execute(query).fetchall()
    assert 16000 - 52 < begin <= 16000 and (end, size) == (20000, len(rows))
    records.close()


def test_news_come_after_what_waits(tmp_path: Path) -> None:
    records = Records(str(tmp_path / "watch.db"))
    writer, begin = Writer(str(tmp_path), records, print), AlarmChanged(
        "Alpha", "pi", True, 1.0, "another PI"
    )
    writer.give(Batch([], [begin, StateSeen("Alpha", 1.0, {})], []))
    writer.news.extend([begin._replace(begins=False, utc=2.0), StateSeen("Alpha", 2.0, {})])
    assert writer.work()
    query = "SELECT begin_at, end_at, looked_at FROM alarm_rows JOIN station_rows USING(station)"
    assert records.database.execute(query).fetchall() == [(1.0, 2.0, 2.0)]
    records.close()


def test_a_writer_ends_with_its_last_rows(tmp_path: Path, monkeypatch: pytest.MonkeyPatch) -> None:
    """It waits for a batch, and for the end, and not for the next try."""
    monkeypatch.setattr("rds_monitor.watch.writer.RETRY", 600.0)
    records = Records(str(tmp_path / "watch.db"))
    # In milliseconds, for another writer.
    assert records.database.execute("PRAGMA busy_timeout").fetchone() == (1000,)
    thread = WriterThread(Writer(str(tmp_path), records, lambda *said: None))
    thread.start()
    thread.give(Batch([Append("listings/Alpha/it.csv", b"row\n", True)], [], []))
    end = time.monotonic() + 20
    while thread.is_alive() and not thread.is_idle and time.monotonic() < end:
        time.sleep(0.01)
    assert thread.is_idle
    thread.end(20)
    assert not thread.is_alive() and thread.crash is None
    assert (tmp_path / "listings" / "Alpha" / "it.csv").read_bytes() == b"row\n"
    records.close()


def test_a_writer_is_busy_while_rows_wait(tmp_path: Path, monkeypatch: pytest.MonkeyPatch) -> None:
    """Else it would be given more, without an end."""
    monkeypatch.setattr("rds_monitor.watch.writer.RETRY", 0.01)
    records, listings = Records(str(tmp_path / "watch.db")), tmp_path / "listings"
    listings.write_text("no folder")
    writer = Writer(str(tmp_path), records, lambda *said: None)
    thread = WriterThread(writer)
    thread.start()
    thread.give(Batch([Append("listings/Alpha/it.csv", b"row\n", True)], [], []))
    while thread.is_alive() and writer.fault is None:
        time.sleep(0.001)
    for _ in range(10):
        time.sleep(0.005)
        assert not thread.is_idle and thread.fault
    listings.unlink()
    while thread.is_alive() and not thread.is_idle:
        time.sleep(0.001)
    assert (listings / "Alpha" / "it.csv").read_bytes() == b"row\n" and thread.fault is None
    thread.end(20)
    records.close()


# ---- what is too old


def kept(folder: Path, keep: Keep, *sizes: int, busy: int = -1) -> "list[int]":
    """Which of some hours are left; the last one begins now."""
    top = folder / "listings" / "Alpha"
    top.mkdir(parents=True)
    paths = [top / Hour(HOUR - 3600 * (len(sizes) - 1 - n), HOUR - 1e6).name for n in range(len(sizes))]
    for path, size in zip(paths, sizes):
        path.write_bytes(b"x" * size)
    (top / "notes.txt").write_text("mine")
    records = Records(str(folder / "watch.db"))
    if busy >= 0:
        name = os.path.join("listings", "Alpha", paths[busy].name)
        records.write([PartOpened(PartKey("Alpha 1", 0), "Alpha", Timing(HOUR), 0, name)])
    removed = tidy(str(folder), keep, HOUR, records).removed
    records.close()
    assert (top / "notes.txt").exists()
    assert removed == [os.path.join("listings", "Alpha", one.name) for one in paths if not one.exists()]
    return [n for n, path in enumerate(paths) if path.exists()]


def test_all_is_kept(tmp_path: Path) -> None:
    assert kept(tmp_path, Keep(), 10, 10, 10) == [0, 1, 2]


def test_by_age(tmp_path: Path) -> None:
    assert kept(tmp_path, Keep(listings_days=3 / 24), 10, 10, 10, 10, 10, 10) == [2, 3, 4, 5]


def test_by_size(tmp_path: Path) -> None:
    """The oldest go first; the last hours stay, however large."""
    assert kept(tmp_path, Keep(listings_gb=300e-9), 100, 100, 100, 100, 100) == [2, 3, 4]
    assert kept(tmp_path / "less", Keep(listings_gb=50e-9), 100, 100, 100, 100, 100) == [3, 4]
    # of 1,000,000,000 bytes each
    assert kept(tmp_path / "decimal", Keep(listings_gb=299e-9), 100, 100, 100, 100, 100) == [3, 4]
    assert len(list((tmp_path / "listings" / "Alpha").glob("*.csv"))) == 3


def test_one_that_is_being_written(tmp_path: Path) -> None:
    assert kept(tmp_path, Keep(listings_days=1 / 24), 10, 10, 10, 10, 10, busy=1) == [1, 3, 4]


def test_old_rows_of_the_database(tmp_path: Path) -> None:
    """Parts that ended before go, with all that belongs to them, and facts that nothing names. What lasts, or ended later, stays."""
    records = Records(str(tmp_path / "watch.db"))
    # The part of the new one began before what goes, and ends after it.
    for name, begin, days in (("old", HOUR - 10 * 86400, 1), ("new", HOUR - 3600, 3)):
        key, ps = PartKey(f"Alpha {name}", 0), name.upper()
        minute = MinuteRow(0, Interval(0, 71250, 2740, 2740, 0, 0, 0), {}, {"ps": ps}, None, 0)
        told = Told([minute], [EventRow(104, 0, "rt", f"text of {name}")], [(0, 2000)], [], [])
        alarm = AlarmChanged("Alpha", name, True, begin, "")
        start = Timing(begin - days * 86400)
        part = PartOpened(key, "Alpha", start, 0, f"{name}.csv"), PartTold(key, told)
        run_ = RunBegan("Alpha", begin), RunEnded("Alpha", begin + 9, name)
        ended = alarm._replace(begins=False, utc=begin + 1)
        records.write([*part, PartGrew(key, start.place(begin), 0, True), alarm, ended, *run_])
    lasting, late = (AlarmChanged("Alpha", name, True, HOUR - 9 * 86400, "") for name in ("lasting", "late"))
    records.write([lasting, late, late._replace(begins=False, utc=HOUR)])
    records.write([RunBegan("Alpha", HOUR - 9 * 86400), RunEnded("Alpha", HOUR, "late")])
    for watched in ((HOUR - 9 * 86400, HOUR - 3 * 86400), (HOUR - 3 * 86400 + 60, HOUR)):
        records.database.execute(
            "INSERT INTO watched_rows(station, begin_at, end_at) VALUES('Alpha', ?, ?)", watched
        )
    tidy(str(tmp_path), Keep(database_days=0), HOUR, records)
    assert counts(records) == [2, 2, 2, 2, 2, 2, 4, 3, 4]
    tidy(str(tmp_path), Keep(database_days=2), HOUR, records)
    assert counts(records) == [1, 1, 1, 1, 1, 1, 3, 2, 2]
    watched_rows = records.database.execute("SELECT begin_at, end_at FROM watched_rows").fetchall()
    assert watched_rows == [(HOUR - 2 * 86400, HOUR)]
    facts = records.database.execute("SELECT value FROM facts ORDER BY 1").fetchall()
    assert facts == [("NEW",), ("text of new",)]
    records.close()


def counts(records: Records) -> "list[int]":
    tables = (
        "recordings sessions hour_files minute_rows event_rows outage_rows alarm_rows run_rows facts".split()
    )
    return [records.database.execute(f"SELECT COUNT(*) FROM {table}").fetchone()[0] for table in tables]
