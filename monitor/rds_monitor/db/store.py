"""A database of recordings, by SQLite: a row per minute, events, outages, and the groups if asked for (schema.py).

A recording is known by its name, and one of that name replaces it, all in one transaction. Positions are stored, and
views give their times by the start and the rate of the session: a clock that becomes known later is two values."""

import argparse
import json
import os
import sqlite3
import time
from contextlib import contextmanager
from itertools import chain
from typing import Any, Dict, Iterable, Iterator, List, Optional, Sequence, Tuple

from ..rows.clock import clock_options
from ..rows.hours import clock_of_hour, hour_of
from ..rows.inputs import input_options, open_input
from ..rows.items import BLOCKS, VALID, Fault, Misuse, Rows, Totals
from ..rows.listing import VERSION_NAMES, block_texts, groups_in, kinds_of, named
from .merge import merge
from .parts import MinuteRow, Session, Told, sessions_of
from .schema import HELD, MARK, MIGRATIONS

WAIT = 600.0

# Groups that are read go here first, so that nobody waits while they are decoded.
READ = "CREATE TEMP TABLE groups(session, place, type, version, valid, block1, block2, block3, block4)"
MOST_FACTS = 20000


@contextmanager
def transaction(database: sqlite3.Connection) -> Iterator[None]:
    """All that is written in it, or nothing."""
    database.execute("BEGIN IMMEDIATE")
    try:
        yield
        database.execute("COMMIT")
    except BaseException:
        roll_back(database)
        raise


def roll_back(database: sqlite3.Connection) -> None:
    if database.in_transaction:
        database.execute("ROLLBACK")


class SessionRows:
    """Writes the rows of sessions into an open database: each once. A minute without a group names no contents, unless `idle_too`."""

    def __init__(self, database: sqlite3.Connection, idle_too: bool = False):
        self._database, self._idle_too = database, idle_too
        self._facts: Dict[Tuple[str, Optional[str]], int] = {}

    def forget(self) -> None:
        """A transaction was rolled back: its facts are not there."""
        self._facts = {}

    def tell(self, session: int, told: Told) -> None:
        minutes = (self._minute(session, minute) for minute in told.minutes)
        self._insert("minute_rows", 12 + len(HELD), minutes)
        events = ((session, *event[:2], self._fact(*event[2:])) for event in told.events)
        self._insert("event_rows", 4, events)
        self._insert("outage_rows", 3, ((session, *pair) for pair in told.outages))

    def sum_up(self, session: int, totals: Totals) -> None:
        self._insert("totals", 3, ((session, *pair) for pair in named(totals)), "REPLACE")

    def _insert(self, table: str, columns: int, rows: Iterable[Sequence[Any]], again: str = "IGNORE") -> None:
        marks = ", ".join("?" * columns)
        self._database.executemany(f"INSERT OR {again} INTO {table} VALUES({marks})", rows)

    def _minute(self, session: int, row: MinuteRow) -> Sequence[Any]:
        blocks = row.blocks[2:]
        if not row.mix and not self._idle_too:
            return (session, row.number, *blocks, *[None] * (2 + len(HELD)), 0, *row[-2:])
        held = [self._fact(item, row.held[item]) if item in row.held else None for item in HELD]
        mix = json.dumps(row.mix, separators=(",", ":"))
        return (session, row.number, *blocks, mix, *held, row.clock_s, *row[-3:])

    def _fact(self, item: str, value: Optional[str]) -> int:
        key = item, value
        if key not in self._facts:
            if len(self._facts) > MOST_FACTS:
                self._facts = {}
            query = "SELECT id FROM facts WHERE item = ? AND value IS ?"  # NULLs are never the same to UNIQUE
            found = self._database.execute(query, key).fetchone()
            insert = "INSERT INTO facts(item, value) VALUES(?, ?)"
            number = found[0] if found else self._database.execute(insert, key).lastrowid
            self._facts[key] = int(number or 0)
        return self._facts[key]


# As sessions_of gives them; and a session with its minutes, events and outages.
Chunks = Iterable[Tuple[Session, Rows]]
Recorded = Tuple[Session, Told]


class Store:
    """An open database. It is made if there is none, and brought up to date."""

    def __init__(self, path: str):
        try:
            self._database = sqlite3.connect(os.path.abspath(path), timeout=WAIT, isolation_level=None)
            self._prepare_patiently(path)
        except sqlite3.Error as error:
            raise Fault(f"{path!r}: {error}") from None

    def _prepare_patiently(self, path: str) -> None:
        """SQLite's own timeout doesn't hold for a change to WAL while other processes open the same new database."""
        end = time.monotonic() + WAIT
        while True:
            try:
                return self._prepare(path)
            except sqlite3.OperationalError as error:
                if "locked" not in str(error) or time.monotonic() > end:
                    raise
            roll_back(self._database)
            time.sleep(0.02)

    def _prepare(self, path: str) -> None:
        database = self._database
        database.execute("PRAGMA foreign_keys = ON")
        if not self._is_ours_or_new():
            raise Fault(f"{path!r} is no database of rds-monitor")
        database.execute("PRAGMA journal_mode = WAL")
        database.execute("PRAGMA synchronous = NORMAL")
        if self._value("PRAGMA user_version") < len(MIGRATIONS):
            self._migrate()
        version = self._value("PRAGMA user_version")
        if version > len(MIGRATIONS):
            raise Fault(f"{path!r} has version {version}: it is of a later rds-monitor")
        database.execute(READ)

    def _is_ours_or_new(self) -> bool:
        """One transaction, since another process may be making the tables."""
        database = self._database
        try:
            database.execute("BEGIN")
            count = self._value("SELECT COUNT(*) FROM sqlite_master")
            mark = self._value("PRAGMA application_id")
            database.execute("COMMIT")
        except sqlite3.OperationalError:
            raise
        except sqlite3.DatabaseError:
            return False
        return mark == MARK or not count

    def _migrate(self) -> None:
        """Another process may be as far at the same time."""
        database = self._database
        database.execute("BEGIN IMMEDIATE")
        for version in range(self._value("PRAGMA user_version"), len(MIGRATIONS)):
            for statement in statements_of(MIGRATIONS[version]):
                database.execute(statement)
            database.execute(f"PRAGMA user_version = {version + 1}")
        database.execute(f"PRAGMA application_id = {MARK}")
        database.execute("COMMIT")

    def _value(self, query: str, *given: Any) -> Any:
        row = self._database.execute(query, given).fetchone()
        return None if row is None else row[0]

    def close(self) -> None:
        self._database.close()

    def add(self, name: str, station: Optional[str], chunks: Chunks, groups: bool) -> None:
        """A recording, given as by `sessions_of`, under this name, in place of the one that had it."""
        try:
            sessions = self._read(chunks, groups)
            with transaction(self._database):
                self._write(name, station, sessions)
        except sqlite3.Error as error:
            raise Fault(f"the database: {error}") from None

    def merge(self, path: str) -> None:
        """Adds all of another database, which is brought up to date, or nothing."""
        try:
            self._database.execute("ATTACH ? AS other", (os.path.abspath(path),))
            with transaction(self._database):
                merge(self._database)
        except sqlite3.Error as error:
            raise Fault(f"the database: {error}") from None

    def _read(self, chunks: Chunks, groups: bool) -> List[Recorded]:
        self._database.execute("DELETE FROM temp.groups")
        found: Dict[int, Recorded] = {}
        self._database.execute("BEGIN")
        insert = f"INSERT INTO temp.groups VALUES({', '.join('?' * 9)})"
        for session, rows in chunks:
            if groups:
                self._database.executemany(insert, group_rows(session.number, rows))
            _, kept = found.setdefault(session.number, (session, Told([], [], [], [], [])))
            told = session.part.taken()
            kept.minutes.extend(told.minutes)
            kept.events.extend(told.events)
            kept.outages.extend(told.outages)
        self._database.execute("COMMIT")
        return list(found.values())

    def _write(self, name: str, station: Optional[str], sessions: List[Recorded]) -> None:
        self._database.execute("DELETE FROM recordings WHERE name = ?", (name,))
        insert = "INSERT INTO recordings(name, station) VALUES(?, ?)"
        recording = self._database.execute(insert, (name, station)).lastrowid
        rows = SessionRows(self._database)
        for session, told in sessions:
            key = self._begin(recording, session)
            if session.totals:
                rows.sum_up(key, session.totals)
            rows.tell(key, told)
            columns = "place, type, version, valid, block1, block2, block3, block4"
            insert = f"INSERT INTO group_rows SELECT ?, {columns} FROM temp.groups WHERE session = ?"
            self._database.execute(insert, (key, session.number))

    def _begin(self, recording: Optional[int], session: Session) -> int:
        part, clock = session.part, session.clock
        insert = (
            "INSERT INTO sessions(recording, number, start, rate, minute_bits, begin_place, end_place, finished)"
            " VALUES(?, ?, ?, ?, ?, ?, ?, ?)"
        )
        told = (part.bits, part.begin, part.end, session.totals is not None)
        at = self._database.execute(insert, (recording, session.number, *clock, *told))
        return int(at.lastrowid or 0)


def statements_of(script: str) -> List[str]:
    """The statements of a script, so that they run in a transaction of ours."""
    found, statement = [], ""
    for line in script.splitlines():
        statement += line + "\n"
        if sqlite3.complete_statement(statement):
            found.append(statement)
            statement = ""
    return found


def group_rows(session: int, rows: Rows) -> Iterable[Sequence[Any]]:
    groups = groups_in(rows)
    types = [None if group == 255 else group for group in groups["number"].tolist()]
    versions = zip(groups["version"].tolist(), groups["conflict"].tolist())
    names = [VERSION_NAMES[version] + "!" * conflict for version, conflict in versions]
    columns: List[List[Any]] = [groups["place"].tolist(), types, names]
    columns.append((kinds_of(groups) == VALID).sum(axis=1).tolist())
    columns += [block_texts(groups, block) for block in BLOCKS]
    return ((session, *pair) for pair in zip(*columns))


def options_db(parser: argparse.ArgumentParser) -> None:
    parser.description = (
        "Add recordings to an SQLite database, which is made if need be: a row per minute, events of the "
        "contents, outages and totals. A recording of a name that is there already replaces that one."
    )
    parser.epilog = (
        "example:\n  rds-monitor db --station Alpha --start 2026-03-30T00:00:00Z year.db monday.bin\n"
        "  rds-monitor db --merge north.db year.db\n  sqlite3 -box year.db 'SELECT * FROM days'\n"
        "views: minutes, events, outages, groups, days, station_outages"
    )
    parser.add_argument("database", metavar="DATABASE")
    input_options(parser, several=True)
    parser.add_argument("--name", metavar="TEXT", help="the recording's name (default: that of its file)")
    parser.add_argument("--station", metavar="TEXT", help="the station's name")
    parser.add_argument("--groups", action="store_true", help="store all groups too: some 80 MB per day")
    text = "add all of another database; of a session that is in both the rows have to be the same"
    parser.add_argument("--merge", metavar="OTHER", help=text)
    clock_options(parser)


def run_db(arguments: argparse.Namespace) -> int:
    paths: List[str] = arguments.input
    if arguments.merge is not None:
        return run_merge(arguments.merge, arguments.database, paths)
    for option in ("name", "start"):
        if getattr(arguments, option) is not None and len(paths) != 1:
            raise Misuse(f"--{option} is for one input")
    if arguments.name is None and "-" in paths:
        raise Misuse("standard input needs a --name")
    store: Optional[Store] = None
    for path in paths:
        source = open_input(arguments, path, sessions=True)
        sessions = sessions_of(source, clock_of_hour(arguments, path))
        first = next(sessions)  # an input that cannot be read makes no database
        store = store or Store(arguments.database)
        name = os.path.basename(path) if arguments.name is None else arguments.name
        station = arguments.station
        hour = hour_of(path)
        if hour:
            # Hours of several stations have the same names, in a folder of the station's name. Compressed they are the same ones.
            folder = os.path.basename(os.path.dirname(os.path.abspath(path)))
            name, station = arguments.name or f"{folder}/{hour.name}", station or folder
        store.add(name, station, chain([first], sessions), arguments.groups)
    if store:
        store.close()
    return 0


def run_merge(other: str, path: str, paths: List[str]) -> int:
    if paths != ["-"]:
        raise Misuse("--merge adds a database, and no INPUT")
    if not os.path.exists(other):
        raise Fault(f"there is no database {other!r}")
    if os.path.exists(path) and os.path.samefile(other, path):
        raise Fault(f"{other!r} cannot be merged into itself")
    Store(other).close()
    store = Store(path)
    store.merge(other)
    store.close()
    return 0
