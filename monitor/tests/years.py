#!/usr/bin/env python3
"""A database of years, made of rows: a station's minutes with a known share of valid blocks, outages and texts.

monitor/tests/years.py [STATIONS] measures the pages of a year of thirty stations.
"""

from __future__ import annotations

import os
import sqlite3
import subprocess
import sys
import tempfile
from pathlib import Path
from typing import Any, List, Sequence, Tuple

from conftest import COMMAND

from rds_monitor.db.store import Store

BEGIN = 1735689600  # 2025-01-01T00:00:00Z
RATE, HOUR = 1187.5, 3600
MINUTES = [(2740, 2720, 8, 10, 2), (2741, 2721, 8, 10, 2)]
MIX = '{"0A":274,"1A":22,"2A":274,"4A":1,"8A":97,"14A":17}'
# Seconds of an outage in each hour, and days of the year that have one as a whole.
OUTAGE, QUIET = 2.0, (60, 61, 62)
# A new RT each three minutes.
TEXTS = 480


def make_year(path: Path, names: Sequence[str], days: int = 365) -> None:
    """Stations that were received all the time, a session per day and a part per hour."""
    Store(str(path)).close()
    data = sqlite3.connect(path, isolation_level=None)
    data.execute("BEGIN")
    for at, name in enumerate(names):
        items = [
            ("pi", f"{0xD318 + at:04X}"),
            ("ps", name[:8]),
            ("pty", "10 Pop music"),
            ("tp", "yes"),
            ("ta", "no"),
        ]
        items += [
            ("ms", "music"),
            ("af", "98.5 101.2"),
            *(("rt", f"{name}: title {n}") for n in range(TEXTS)),
        ]
        known = data.execute("SELECT COALESCE(MAX(id), 0) FROM facts").fetchone()[0]
        data.executemany("INSERT OR IGNORE INTO facts(item, value) VALUES(?, ?)", items)
        find = "SELECT id FROM facts WHERE item = ? AND value = ?"
        facts = (
            [data.execute(find, item).fetchone()[0] for item in items]
            if known
            else list(range(1, len(items) + 1))
        )
        for day in range(days):
            add_day(data, name, day, facts)
    data.execute("COMMIT")
    data.close()


def add_day(data: sqlite3.Connection, name: str, day: int, facts: List[int]) -> None:
    pi, ps, pty, tp, ta, ms, _, *texts = facts
    add = "INSERT INTO recordings(name, station) VALUES(?, ?)"
    recording = data.execute(add, (f"{name} {day}", name)).lastrowid
    for hour in range(24):
        begin, end = (int(at * HOUR * RATE) for at in (hour, hour + 1))
        columns = "recording, number, start, rate, minute_bits, begin_place, end_place, finished"
        row = (recording, hour, BEGIN + 24 * HOUR * day, RATE, 60 * RATE, begin, end)
        session = data.execute(
            f"INSERT INTO sessions({columns}) VALUES(?, ?, ?, ?, ?, ?, ?, 1)", row
        ).lastrowid
        minutes = range(60 * hour, 60 * hour + 60)
        rts = {minute: texts[minute // 3] for minute in minutes}
        rows: List[Tuple[Any, ...]] = [
            (
                session,
                minute,
                *MINUTES[minute & 1],
                MIX,
                pi,
                ps,
                rts[minute],
                pty,
                tp,
                ta,
                ms,
                0.25,
                0,
                None,
                None,
            )
            for minute in minutes
        ]
        data.executemany(f"INSERT INTO minute_rows VALUES({', '.join('?' * 19)})", rows)
        events = [(session, int(60 * RATE * minute) + 208, 0, rts[minute]) for minute in minutes[::3]]
        if not hour:
            events += [(session, 104, at, fact) for at, fact in enumerate(facts[:7])]
        data.executemany("INSERT INTO event_rows VALUES(?, ?, ?, ?)", events)
        quiet = (begin, end) if day in QUIET else (begin + 1000, begin + 1000 + int(OUTAGE * RATE))
        data.execute("INSERT INTO outage_rows VALUES(?, ?, ?)", (session, *quiet))


def main(count: int) -> None:
    with tempfile.TemporaryDirectory() as name:
        folder = Path(name)
        # In a process of its own: the memory of this one would count for those it starts.
        if not os.fork():
            make_year(folder / "years.db", [f"Station {at}" for at in range(count)])
            os._exit(0)
        os.wait()
        process = subprocess.Popen([*COMMAND, "report", "--into", folder / "pages", folder / "years.db"])
        _, status, used = os.wait4(process.pid, 0)
        sizes = [path.stat().st_size for path in (folder / "pages").iterdir()]
        print(
            f"{used.ru_utime + used.ru_stime:.1f} CPU-seconds, {used.ru_maxrss / 1024:.0f} MB, status {status}"
        )
        print(f"{len(sizes)} files, the largest of {max(sizes) / 1e6:.2f} MB")


if __name__ == "__main__":
    main(int(sys.argv[1]) if sys.argv[1:] else 30)
