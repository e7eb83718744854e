"""The watch's part of the database: each tick is one transaction, and each thing is stored once."""

import json
import sqlite3
from typing import Any, Dict, List, NamedTuple, Optional, Sequence, Tuple, Union

from ..db.parts import MINUTE_BITS, Told
from ..db.store import SessionRows, Store, transaction
from ..rows.items import Totals
from .times import Timing

# For another writer, such as `rds-monitor db`. Rows of the hours do not wait for the database.
WAIT = 1.0
WATCH = ""  # in place of a station's name: no station has it


class PartKey(NamedTuple):
    """A part of a session: the recording's name and the part's number."""

    recording: str
    number: int


class PartOpened(NamedTuple):
    key: PartKey
    station: str
    timing: Timing
    begin: int
    path: str


class PartGrew(NamedTuple):
    """The rows up to this byte of the file, and the bits up to this position, are told. At the end `closed`; of the session totals."""

    key: PartKey
    end: int
    size: int
    closed: bool = False
    totals: Optional[Totals] = None
    quiet: Optional[int] = None  # where an outage began that lasts


class PartTold(NamedTuple):
    key: PartKey
    told: Told


class AlarmChanged(NamedTuple):
    station: str
    alarm: str
    begins: bool
    utc: float
    text: str

    def write(self, data: sqlite3.Connection) -> None:
        """An alarm that lasts already does not begin again, and none ends before it began."""
        query = "UPDATE alarm_rows SET end_at = MAX(begin_at, ?) WHERE station = ? AND alarm = ? AND end_at IS NULL"
        if not self.begins:
            data.execute(query, (self.utc, self.station, self.alarm))
        elif self.alarm not in lasting_in(data, self.station):
            query = "INSERT INTO alarm_rows(station, alarm, begin_at, text) VALUES(?, ?, ?, ?)"
            data.execute(query, (self.station, self.alarm, self.utc, self.text))


def lasting_in(data: sqlite3.Connection, station: str) -> Dict[str, Tuple[str, float]]:
    """The alarms of a station, or of the watch, that have not ended: their texts and begins."""
    query = "SELECT alarm, text, begin_at FROM alarm_rows WHERE station = ? AND end_at IS NULL"
    return {alarm: (text, begin) for alarm, text, begin in data.execute(query, (station,))}


class RunBegan(NamedTuple):
    station: str
    utc: float

    def write(self, data: sqlite3.Connection) -> None:
        data.execute("INSERT INTO run_rows(station, begin_at, reason) VALUES(?, ?, '')", self)


class RunEnded(NamedTuple):
    station: str
    utc: float
    reason: str

    def write(self, data: sqlite3.Connection) -> None:
        query = "UPDATE run_rows SET end_at = ?, reason = ? WHERE station = ? AND end_at IS NULL"
        data.execute(query, (self.utc, self.reason, self.station))


class WatchBegan(NamedTuple):
    """From now on a station is watched, until its last `StateSeen`."""

    station: str
    utc: float

    def write(self, data: sqlite3.Connection) -> None:
        query = "INSERT INTO watched_rows(station, begin_at, end_at) VALUES(?, ?, ?)"
        data.execute(query, (self.station, self.utc, self.utc))


class StateSeen(NamedTuple):
    station: str
    utc: float
    state: Dict[str, Any]

    def write(self, data: sqlite3.Connection) -> None:
        text = json.dumps(self.state, separators=(",", ":"))
        data.execute("INSERT OR REPLACE INTO station_rows VALUES(?, ?, ?)", (self.station, self.utc, text))
        last = "(SELECT MAX(id) FROM watched_rows WHERE station = ?)"
        query = f"UPDATE watched_rows SET end_at = MAX(begin_at, ?) WHERE id = {last}"
        data.execute(query, (self.utc, self.station))


Record = Union[PartOpened, PartGrew, PartTold, AlarmChanged, RunBegan, RunEnded, WatchBegan, StateSeen]
PARTS = "FROM hour_files JOIN sessions ON sessions.id = session JOIN recordings ON recordings.id = recording"


class Records:
    """The open database."""

    def __init__(self, path: str):
        Store(path).close()  # it makes the tables, or brings them up to date
        self.database = sqlite3.connect(path, timeout=WAIT, isolation_level=None, check_same_thread=False)
        self.database.execute("PRAGMA foreign_keys = ON")
        self.database.execute("PRAGMA synchronous = FULL")
        self._rows = SessionRows(self.database, idle_too=True)
        self._parts: Dict[PartKey, int] = {}

    def wait(self, seconds: float) -> None:
        """For another writer, from now on."""
        self.database.execute(f"PRAGMA busy_timeout = {round(1000 * seconds)}")

    def close(self) -> None:
        self.database.close()

    def write(self, records: Sequence[Record]) -> None:
        """All of them, or none with an error of sqlite3."""
        try:
            with transaction(self.database):
                for record in records:
                    self._write(record)
        except BaseException:
            self.forget()  # its notes are not there
            raise

    def forget(self) -> None:
        self._rows.forget()
        self._parts = {}

    def _write(self, record: Record) -> None:
        if isinstance(record, PartTold):
            self._rows.tell(self._part(record.key), record.told)
        elif isinstance(record, PartGrew):
            self._grow(record)
        elif isinstance(record, PartOpened):
            self._open(record)
        else:
            record.write(self.database)

    def _open(self, opened: PartOpened) -> None:
        (name, number), data = opened.key, self.database
        insert = "INSERT OR IGNORE INTO recordings(name, station) VALUES(?, ?)"
        data.execute(insert, (name, opened.station))
        insert = (
            "INSERT OR IGNORE INTO sessions(recording, number, start, rate, minute_bits, begin_place, end_place, finished)"
            " SELECT id, ?, ?, ?, ?, ?, ?, 0 FROM recordings WHERE name = ?"
        )
        data.execute(insert, (number, *opened.timing, MINUTE_BITS, opened.begin, opened.begin, name))
        insert = "INSERT OR IGNORE INTO hour_files VALUES(?, ?, 0, 1)"
        data.execute(insert, (self._part(opened.key), opened.path))

    def _part(self, key: PartKey) -> int:
        if key not in self._parts:
            query = "SELECT sessions.id FROM sessions JOIN recordings ON recordings.id = recording WHERE name = ? AND number = ?"
            row = self.database.execute(query, key).fetchone()
            if len(self._parts) > 1000:
                self._parts = {}
            self._parts[key] = int(row[0])
        return self._parts[key]

    def _grow(self, grew: PartGrew) -> None:
        part, data = self._part(grew.key), self.database
        values = grew.end, grew.totals is not None, grew.quiet, part
        data.execute("UPDATE sessions SET end_place = ?, finished = ?, quiet_place = ? WHERE id = ?", values)
        query = "UPDATE hour_files SET bytes = ?, is_open = ? WHERE session = ?"
        data.execute(query, (grew.size, not grew.closed, part))
        if grew.totals is not None:
            self._rows.sum_up(part, grew.totals)

    def lasting(self, station: str) -> Dict[str, Tuple[str, float]]:
        return lasting_in(self.database, station)

    def state(self, station: str) -> Dict[str, Any]:
        """As it was seen last."""
        row = self.database.execute("SELECT state FROM station_rows WHERE station = ?", (station,)).fetchone()
        return dict(json.loads(row[0])) if row else {}

    def end_runs(self, utc: float) -> None:
        """Runs of a watch that was killed: it was there up to the last look at the station."""
        seen = "(SELECT MAX(end_at) FROM watched_rows WHERE watched_rows.station = run_rows.station)"
        end = f"MAX(begin_at, MIN(?, COALESCE({seen}, ?)))"
        query = f"UPDATE run_rows SET end_at = {end}, reason = 'the watch was killed' WHERE end_at IS NULL"
        self.database.execute(query, (utc, utc))

    def open_parts(self) -> "List[OpenPart]":
        """The parts that no PartGrew closed, the oldest first."""
        columns = "name, number, start, rate, begin_place, end_place, path, bytes, quiet_place"
        query = f"SELECT {columns} {PARTS} WHERE is_open ORDER BY start, number"
        rows = self.database.execute(query).fetchall()
        return [OpenPart(PartKey(*row[:2]), Timing(*row[2:4]), *row[4:]) for row in rows]

    def path_of(self, key: PartKey) -> Optional[str]:
        row = self.database.execute(f"SELECT path {PARTS} WHERE name = ? AND number = ?", key).fetchone()
        return None if row is None else str(row[0])

    def knows(self, *paths: str) -> bool:
        """Whether one of them is an hour of the database."""
        query = f"SELECT 1 FROM hour_files WHERE path IN ({', '.join('?' * len(paths))})"
        return self.database.execute(query, paths).fetchone() is not None

    def rename(self, path: str, new: str) -> None:
        self.database.execute("UPDATE hour_files SET path = ? WHERE path = ?", (new, path))


class OpenPart(NamedTuple):
    """A part that was being written when a watch was killed."""

    key: PartKey
    timing: Timing
    begin: int
    end: int
    path: str
    size: int
    quiet: Optional[int] = None
