"""Removes hours and rows that are older, or larger together, than the table allows."""

import os
import sqlite3
from contextlib import suppress
from typing import Iterator, List, NamedTuple, Set, Tuple

from ..db.schema import HELD
from ..db.store import transaction
from ..rows.clock import DAY
from ..rows.hours import HOUR, hour_of
from .records import Records
from .table import Keep

GB = 1e9

Hour = Tuple[float, str, int]  # of an hour's file: its begin, path and size


class Tidied(NamedTuple):
    """Paths of hours' files that were removed, and that may be compressed."""

    removed: List[str]
    plain: List[str]


def tidy(folder: str, keep: Keep, utc: float, records: Records) -> Tidied:
    """Removes old hours' files and old rows of the database. Hours that are being written, and all of the last hour, are kept."""
    busy = {part.path for part in records.open_parts()}
    hours = sorted(_hours(folder))
    removed = [*_too_old(hours, keep, utc, busy)]
    for path in removed:
        with suppress(FileNotFoundError):
            os.unlink(os.path.join(folder, path))
    if keep.database_days:
        _forget(records, utc - keep.database_days * DAY)
    left = {path for _, path, _ in hours if path.endswith(".csv")} - busy - set(removed)
    return Tidied(removed, sorted(left))


def _hours(folder: str) -> Iterator[Hour]:
    top = os.path.join(folder, "listings")
    for station in os.listdir(top) if os.path.isdir(top) else ():
        for name in _entries(os.path.join(top, station)):
            hour = hour_of(name)
            path = os.path.join("listings", station, name)
            with suppress(FileNotFoundError):  # somebody deleted it meanwhile
                if hour:
                    yield hour.begin, path, os.stat(os.path.join(folder, path)).st_size


def _entries(folder: str) -> List[str]:
    """None of what is no folder, or not ours, such as lost+found."""
    try:
        return os.listdir(folder)
    except (NotADirectoryError, FileNotFoundError, PermissionError):
        return []


def _too_old(hours: List[Hour], keep: Keep, utc: float, busy: Set[str]) -> Iterator[str]:
    total = sum(size for _, _, size in hours)
    for begin, path, size in hours:
        if path in busy or begin > utc - 2 * HOUR:
            continue
        is_old = keep.listings_days and begin + HOUR <= utc - keep.listings_days * DAY
        if is_old or keep.listings_gb and total > keep.listings_gb * GB:
            total -= size
            yield path


def _forget(records: Records, oldest: float) -> None:
    """Parts, alarms and runs that ended before, recordings without a part, and facts that nothing names."""
    data = records.database
    try:
        with transaction(data):
            gone = data.execute("DELETE FROM sessions WHERE start + end_place / rate < ?", (oldest,)).rowcount
            for table in ("alarm_rows", "run_rows", "watched_rows"):
                data.execute(f"DELETE FROM {table} WHERE end_at < ?", (oldest,))
            data.execute("UPDATE watched_rows SET begin_at = MAX(begin_at, ?)", (oldest,))
            if gone:
                used = "SELECT 1 FROM sessions WHERE recording = recordings.id"
                data.execute(f"DELETE FROM recordings WHERE NOT EXISTS ({used})")
        if gone:
            _forget_facts(data)
    finally:
        records.forget()


def _forget_facts(data: sqlite3.Connection) -> None:
    """By one look at all rows: to keep foreign keys, SQLite would look at all of them again for each fact and column."""
    named = " UNION ".join(f"SELECT {of} FROM minute_rows WHERE {of} NOT NULL" for of in HELD)
    data.execute("PRAGMA foreign_keys = OFF")
    try:
        with transaction(data):
            data.execute(f"DELETE FROM facts WHERE id NOT IN (SELECT fact FROM event_rows UNION {named})")
    finally:
        data.execute("PRAGMA foreign_keys = ON")
