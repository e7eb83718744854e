"""Two databases as one: what the other has is added, all in one transaction, or nothing if both tell different things."""

import sqlite3
from typing import Any, Dict, List, Tuple

from ..rows.clock import utc_text
from ..rows.items import Fault
from .schema import HELD

# The tables of a session's rows: without `hour_files`, since these are files of the other watch.
SESSION_TABLES = ("totals", "minute_rows", "event_rows", "outage_rows", "group_rows")
# Tables of a watch, with the columns that tell one row from another.
STATION_TABLES = (("alarm_rows", "station, alarm, begin_at"), ("run_rows", "station, begin_at"))
FACTS = (*HELD, "fact")
SESSION = "number, start, rate, minute_bits, begin_place, end_place, finished, quiet_place"


def merge(database: sqlite3.Connection) -> None:
    """Adds the attached database `other`, of the same version, in an open transaction."""
    _join_facts(database)
    _join_sessions(database)
    for table in SESSION_TABLES:
        _join_rows(database, table)
    for table, key in STATION_TABLES:
        _join_stations(database, table, key)
    _join_watched(database)
    database.execute(
        "INSERT OR REPLACE INTO main.station_rows SELECT * FROM other.station_rows AS theirs WHERE NOT EXISTS ("
        "SELECT 1 FROM main.station_rows AS ours WHERE ours.station = theirs.station AND ours.looked_at >= theirs.looked_at)"
    )


def columns_of(database: sqlite3.Connection, table: str) -> List[str]:
    names = (row[1] for row in database.execute(f"PRAGMA main.table_info({table})"))
    return [name for name in names if name not in ("id", "session")]


def _join_facts(database: sqlite3.Connection) -> None:
    same = "ours.item = theirs.item AND ours.value IS theirs.value"
    database.execute(
        "INSERT INTO main.facts(item, value) SELECT item, value FROM other.facts AS theirs"
        f" WHERE NOT EXISTS (SELECT 1 FROM main.facts AS ours WHERE {same})"
    )
    database.execute("CREATE TEMP TABLE fact_of(theirs INTEGER PRIMARY KEY, ours INTEGER)")
    pairs = f"SELECT theirs.id, MIN(ours.id) FROM other.facts AS theirs JOIN main.facts AS ours ON {same} GROUP BY theirs.id"
    database.execute(f"INSERT INTO temp.fact_of {pairs}")


def _join_sessions(database: sqlite3.Connection) -> None:
    """Those of recordings that both have are the same, or new."""
    database.execute("CREATE TEMP TABLE session_of(theirs INTEGER PRIMARY KEY, ours INTEGER, is_new INTEGER)")
    for recording, name, station in database.execute(
        "SELECT id, name, station FROM other.recordings"
    ).fetchall():
        row = database.execute("SELECT id, station FROM main.recordings WHERE name = ?", (name,)).fetchone()
        if row and row[1] != station:
            raise Fault(f"recording {name!r} is of station {row[1]!r} and of {station!r}")
        add = "INSERT INTO main.recordings(name, station) VALUES(?, ?)"
        ours = row[0] if row else database.execute(add, (name, station)).lastrowid
        find = f"SELECT {SESSION}, id FROM main.sessions WHERE recording = ?"
        known: Dict[int, Tuple[Any, ...]] = {found[0]: found for found in database.execute(find, (ours,))}
        for *session, theirs in database.execute(find.replace("main", "other"), (recording,)).fetchall():
            *same, number = known.get(session[0], (None,))
            if number is None:
                add = f"INSERT INTO main.sessions(recording, {SESSION}) VALUES({', '.join('?' * 9)})"
                number = database.execute(add, (ours, *session)).lastrowid
            elif same != session:
                raise Fault(_differs(name, session[0]))
            database.execute("INSERT INTO temp.session_of VALUES(?, ?, ?)", (theirs, number, not same))


def _differs(name: str, number: int) -> str:
    return f"session {number} of recording {name!r} is in both, and not the same"


def _join_rows(database: sqlite3.Connection, table: str) -> None:
    """Adds the rows of new sessions; those of the others have to be the same."""
    columns = columns_of(database, table)
    fact = "(SELECT ours FROM temp.fact_of WHERE theirs = told.{0})"
    values = ", ".join(fact.format(column) if column in FACTS else f"told.{column}" for column in columns)
    theirs = f"SELECT ours, {values} FROM other.{table} AS told JOIN temp.session_of ON theirs = told.session WHERE is_new = "
    ours = f"SELECT session, {', '.join(columns)} FROM main.{table} WHERE session IN (SELECT ours FROM temp.session_of WHERE NOT is_new)"
    query = f"SELECT * FROM ({theirs}0 EXCEPT {ours}) UNION ALL SELECT * FROM ({ours} EXCEPT {theirs}0)"
    for session, *_ in database.execute(f"{query} LIMIT 1"):
        find = "SELECT name, number FROM main.sessions JOIN main.recordings ON recordings.id = recording WHERE sessions.id = ?"
        raise Fault(_differs(*database.execute(find, (session,)).fetchone()))
    database.execute(f"INSERT INTO main.{table}(session, {', '.join(columns)}) {theirs}1")


def _join_stations(database: sqlite3.Connection, table: str, key: str) -> None:
    names = columns_of(database, table)
    columns, keys = ", ".join(names), key.split(", ")
    same = " AND ".join(f"ours.{name} IS theirs.{name}" for name in keys)
    differs = " OR ".join(f"ours.{name} IS NOT theirs.{name}" for name in names if name not in keys)
    both = f"FROM other.{table} AS theirs JOIN main.{table} AS ours ON {same} WHERE {differs} LIMIT 1"
    for *words, begin in database.execute(f"SELECT {', '.join(f'ours.{name}' for name in keys)} {both}"):
        what = f"{table.partition('_')[0]} {' '.join(map(repr, words))}"
        raise Fault(f"the {what} of {utc_text(begin)} is in both, and not the same")
    missing = f"NOT EXISTS (SELECT 1 FROM main.{table} AS ours WHERE {same})"
    theirs = f"SELECT {columns} FROM other.{table} AS theirs WHERE {missing}"
    database.execute(f"INSERT INTO main.{table}({columns}) {theirs}")


def _join_watched(database: sqlite3.Connection) -> None:
    """When a station was watched by either."""
    columns = "station, begin_at, end_at"
    query = f"SELECT {columns} FROM main.watched_rows UNION SELECT {columns} FROM other.watched_rows ORDER BY 1, 2"
    rows: List[List[Any]] = []
    for station, begin, end in database.execute(query):
        if rows and rows[-1][0] == station and begin <= rows[-1][2]:
            rows[-1][2] = max(end, rows[-1][2])
        else:
            rows.append([station, begin, end])
    database.execute("DELETE FROM main.watched_rows")
    database.executemany(f"INSERT INTO main.watched_rows({columns}) VALUES(?, ?, ?)", rows)
