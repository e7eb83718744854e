"""Stations of a database of `rds-monitor db`, as a page shows them."""

import itertools
import json
import math
import sqlite3
from collections import Counter
from functools import lru_cache
from typing import Any, Dict, Iterable, Iterator, List, NamedTuple, Optional, Sequence, Tuple
from urllib.parse import quote

import numpy

from ..content.charset import printable
from ..db.schema import HELD, MARK
from ..db.standing import Availability, Standing, standing_of
from ..rows.items import Fault
from ..rows.clock import DAY
from .line import CUT, MOST_LISTED, SEVERAL, Counted, Lanes, Said, TimeLine, join, said
from .overview import Span, tile_of

Pairs = Iterable[Tuple[int, int]]
MAGIC = b"SQLite format 3\0"
# Seconds of an interval of a page. In two minutes there is one that is stored, though the sampler's clock is off.
STEPS = (120, 3600, DAY)
MIX_MINUTES = 20  # with intervals of an hour the group mix is that of one minute in twenty
MOST_FACTS = 20000
SESSIONS = "WHERE session IN (SELECT value FROM json_each(?))"
OUTAGES = f"SELECT session, begin_place, end_place FROM outage_rows {SESSIONS} ORDER BY 1, 2"
COUNTS_OF_FACTS = f"SELECT fact, COUNT(*) FROM event_rows {SESSIONS} GROUP BY fact"
EVENTS = (
    f"SELECT session, place, fact FROM event_rows {SESSIONS} AND fact NOT IN (SELECT value FROM json_each(?))"
    " ORDER BY session, place, number"
)


def is_database(path: str) -> bool:
    try:
        with open(path, "rb") as file:
            return file.read(len(MAGIC)) == MAGIC
    except OSError:
        return False


class StoredSession(NamedTuple):
    """A session, or an hour of one, from begin to end in seconds since 1970, or of the station if no start is known."""

    begin: float
    end: float
    number: int
    recording: int
    start: float
    rate: float
    minute: float
    quiet: Optional[float]

    def place(self, at: float) -> int:
        return math.ceil((at - self.start) * self.rate)

    def at(self, place: float) -> float:
        return self.start + place / self.rate


class Stored:
    """A database, which is only read."""

    def __init__(self, path: str):
        try:
            self.data = sqlite3.connect(f"file:{quote(path)}?mode=ro", uri=True)
            mark = self.data.execute("PRAGMA application_id").fetchone()[0]
        except sqlite3.Error as error:
            raise Fault(f"{path!r} cannot be read: {error}") from None
        if mark != MARK:
            raise Fault(f"{path!r} is no database of rds-monitor db")
        self.is_watched = bool(self.rows("SELECT 1 FROM sqlite_master WHERE name = 'spans'"))

    def rows(self, query: str, *given: Any) -> List[Any]:
        return self.data.execute(query, given).fetchall()

    def stations(self, with_unknown: bool = True) -> Iterator["StoredStation"]:
        """With the sessions whose start is not known, or without."""
        known = "SELECT coalesce(station, name) FROM recordings"
        if self.is_watched:
            known += " UNION SELECT station FROM station_rows UNION SELECT station FROM watched_rows"
        for (name,) in self.rows(f"{known} ORDER BY 1"):
            yield StoredStation(self, name, with_unknown)

    @lru_cache(MOST_FACTS)
    def fact(self, number: int) -> Said:
        (row,) = self.rows("SELECT item, value FROM facts WHERE id = ?", number)
        return said(*row)

    def step(self, most: int) -> int:
        """The seconds of an interval, by which all stations together have at most some intervals."""
        (minutes,) = self.rows("SELECT COUNT(*) FROM minute_rows")[0]
        return next((step for step in STEPS if 60 * minutes <= most * step), STEPS[-1])


class StoredStation:
    """Its lines are asked for in order of time: contents that hold go on from one to the next."""

    def __init__(self, stored: Stored, name: str, with_unknown: bool):
        self.name, self._stored = name, stored
        self.held: Dict[str, str] = {}
        self._lanes, self._run, self._heard, self._done = Lanes(), -1, 0.0, 0
        self.unknown = 0  # of the sessions that there are, those whose start is not known
        self.sessions = sorted(self._sessions(with_unknown))
        self._stands: Optional[Standing] = None
        self._watched = self._look() if stored.is_watched else []
        self._times = [*((one.begin, one.end) for one in self.sessions), *self._watched]
        self.begin = min((begin for begin, _ in self._times), default=0.0)
        self.end = max((end for _, end in self._times), default=0.0)

    def _sessions(self, with_unknown: bool) -> Iterator[StoredSession]:
        """Those whose start is not known follow on the others."""
        quiet = "quiet_place" if self._stored.is_watched else "NULL"
        query = (
            f"SELECT sessions.id, recordings.id, start, rate, minute_bits, begin_place, end_place, {quiet} FROM sessions "
            "JOIN recordings ON recordings.id = recording WHERE coalesce(station, name) = ? "
            "ORDER BY start IS NULL, start, recording, number"
        )
        end = 0.0
        for number, recording, start, rate, bits, first, after, still in self._stored.rows(query, self.name):
            self.unknown += start is None
            if start is None and not with_unknown:
                continue
            start = end - first / rate if start is None else start
            end = start + after / rate
            yield StoredSession(start + first / rate, end, number, recording, start, rate, bits / rate, still)

    def _look(self) -> List[Tuple[float, float]]:
        """When it was watched, and how it was last seen."""
        rows = self._stored.rows
        for end, text in rows("SELECT looked_at, state FROM station_rows WHERE station = ?", self.name):
            query = "SELECT alarm, text FROM alarm_rows WHERE station IN (?, '') AND end_at IS NULL ORDER BY begin_at"
            alarms = {alarm: printable(told) for alarm, told in rows(query, self.name)}
            self._stands = standing_of({**json.loads(text), "alarms": alarms})
            query = "SELECT begin_at, end_at FROM watched_rows WHERE station = ?"
            return [(end, end), *rows(query, self.name)]
        return []

    def is_known(self, begin: float, end: float) -> bool:
        """Whether it was received or watched at any time between these."""
        return any(first < end and after > begin for first, after in self._times)

    def available(self, line: TimeLine, begin: float, end: float) -> Availability:
        """Of a line from one time to another."""
        session, noise = (sum(row[2] for row in rows) for rows in (line.sessions, line.outages))
        watched = sum(max(0.0, min(end, after) - max(begin, first)) for first, after in self._watched)
        session, known = min(session, end - begin), max(session, watched)
        return Availability(session - noise, noise, known - session, end - begin - known)

    def tile(self) -> Dict[str, Any]:
        """By the minutes of the last day."""
        spans = []
        query = "SELECT minute, sent, valid FROM minute_rows WHERE session = ? AND minute >= ? ORDER BY 1"
        for session in self.sessions:
            if session.end > self.end - DAY:
                first = int((self.end - DAY - session.start) / session.minute)
                rows = numpy.array(self._stored.rows(query, session.number, first), "i8").reshape(-1, 3)
                if len(rows):
                    begin = session.start + rows[0, 0] * session.minute
                    spans.append(Span(begin, 60, rows[:, 1], rows[:, 2]))
        return tile_of(spans, self.end, None, self._stands)

    def line(self, begin: float, end: float, step: int) -> TimeLine:
        """All from one time to another, which are of whole steps, with the blocks by these."""
        line = TimeLine()
        blocks_at: List[Tuple[int, ...]] = [(0, 0, 0, 0, 0, 0)]
        mix: Dict[float, "Counter[str]"] = {}
        while self._done < len(self.sessions) and self.sessions[self._done].end <= begin:
            self._done += 1
        sessions = list(itertools.takewhile(lambda one: one.begin < end, self.sessions[self._done :]))
        numbers = json.dumps([session.number for session in sessions])
        lanes, facts = self._busy(line, numbers, step)
        outages = self._rows_of(OUTAGES, numbers)
        events = self._rows_of(EVENTS, numbers, json.dumps(facts))
        for session in sessions:
            if session.recording != self._run:
                self._lanes.end(self._heard)
            low, high, sent, valid = max(begin, session.begin), min(end, session.end), 0, 0
            last: Optional[float] = None
            for at, blocks, more, offset, mixes, *held in self._slots(session, begin, end, step, lanes):
                blocks_at.append((int((at - begin) // step), *blocks))
                sent, valid = sent + blocks[0], valid + blocks[1]
                line.more += more
                if offset is not None:
                    line.clock.append([at + step / 2, offset])
                    last = offset
                for told in json.loads(f"[{mixes or ''}]"):
                    mix.setdefault(at, Counter()).update(told)
                for lane, least, most in zip(lanes, held[::2], held[1::2]):
                    if least is not None:
                        text = self._stored.fact(least).text if least == most else SEVERAL
                        one = max(at, low), min(at + step, high), text
                        join(line.lanes.setdefault(lane.upper(), []), one, CUT)
            self._add_session(line, session, [low, high, high - low, sent, valid])
            self._add_outages(line, session, outages.get(session.number, ()), begin, end)
            self._hear(line, session, events.get(session.number, ()), begin, end)
            if last is not None:
                self.held["CT"] = f"{last:+.3f} s from the recording's clock"
            self._run, self._heard = session.recording, high
        if self._heard < end - CUT:
            self._lanes.end(self._heard)
        counts = numpy.zeros((max(1, math.ceil((end - begin) / step)), 5), "i8")
        table = numpy.array(blocks_at)
        numpy.add.at(counts, table[:, 0], table[:, 1:])
        line.parts = [Counted(begin, step, counts)]
        line.mix = [[at, at + step, found] for at, found in sorted(mix.items())]
        line.lanes = {**self._lanes.taken(end), **line.lanes}
        if sessions:
            self._hear_last(sessions[-1], end, lanes)
        return line

    def _rows_of(self, query: str, *given: str) -> Dict[int, List[Tuple[int, int]]]:
        """Pairs of numbers by their sessions."""
        found: Dict[int, List[Tuple[int, int]]] = {}
        for session, *pair in self._stored.rows(query, *given):
            found.setdefault(session, []).append((pair[0], pair[1]))
        return found

    def _busy(self, line: TimeLine, numbers: str, step: int) -> Tuple[List[str], List[int]]:
        """Of items that change too often to be listed the columns of minutes, whose texts are looked at, and the facts."""
        counts: "Counter[str]" = Counter()
        facts: Dict[str, List[int]] = {}
        for fact, count in self._stored.rows(COUNTS_OF_FACTS, numbers) if step >= 3600 else ():
            item = self._stored.fact(fact).item
            counts[item] += count
            facts.setdefault(item, []).append(fact)
        items = [item for item, count in counts.items() if count > MOST_LISTED]
        line.more += sum(counts[item] for item in items)
        lanes = [item.lower() for item in items if item in ("PS", "RT")]
        for lane in lanes:
            self._lanes.drop(lane.upper())
        return lanes, [fact for item in items for fact in facts[item]]

    def _hear_last(self, session: StoredSession, end: float, lanes: Sequence[str]) -> None:
        """What the last minute says that has groups: not each change is stored. Busy items go on in the next line."""
        before = "WHERE session = ? AND minute < ? AND mix NOTNULL ORDER BY minute DESC LIMIT 1"
        query = f"SELECT {', '.join(HELD)} FROM minute_rows {before}"
        after = math.ceil((end - session.start) / session.minute)
        for facts in self._stored.rows(query, session.number, after):
            for item, what in ((item, self._stored.fact(fact)) for item, fact in zip(HELD, facts) if fact):
                self.held[what.item] = what.text
                if item in lanes:
                    self._lanes.hear(self._heard, what)

    def _slots(
        self, session: StoredSession, begin: float, end: float, step: int, lanes: Sequence[str]
    ) -> Iterator[Tuple[Any, ...]]:
        """Of each step: its begin, blocks, how many events were left out, the clock's offset, the group mix of some minutes, and the
        least and the greatest fact of each lane. A minute belongs to the step in which it begins, or else its session.
        """
        mixes = f"GROUP_CONCAT(CASE WHEN minute % {MIX_MINUTES if step >= 3600 else 1} = 0 THEN mix END)"
        facts = "".join(f", MIN({lane}), MAX({lane})" for lane in lanes)
        query = (
            f"SELECT SUM(sent), SUM(valid), SUM(corrected), SUM(lost), SUM(missing), SUM(more), AVG(clock_s), {mixes}{facts}"
            " FROM minute_rows WHERE session = ? AND minute >= ? AND minute < ?"
        )

        def minute(at: float) -> int:
            return math.ceil((at - session.start) / session.minute) if at > session.begin else 0

        for slot in range(int(max(begin, session.begin) // step), math.ceil(min(end, session.end) / step)):
            at = max(begin, slot * step)
            row = self._stored.rows(query, session.number, minute(at), minute(min(end, (slot + 1) * step)))[0]
            if row[0] is not None:
                yield at, row[:5], *row[5:]

    def _add_session(self, line: TimeLine, session: StoredSession, row: List[Any]) -> None:
        last = line.sessions[-1] if line.sessions else None
        if last and session.recording == self._run and row[0] - last[1] <= CUT:
            row = [last[0], row[1], *(one + other for one, other in zip(last[2:], row[2:]))]
            line.sessions.pop()
        line.sessions.append(row)

    def _add_outages(
        self, line: TimeLine, session: StoredSession, rows: Pairs, begin: float, end: float
    ) -> None:
        lasting = [] if session.quiet is None else [(session.quiet, session.place(session.end))]
        for first, after in [*rows, *lasting]:
            low, high = max(begin, session.at(first)), min(end, session.at(after))
            if high > low and line.outages and low - line.outages[-1][1] <= CUT:
                low, before, _ = line.outages.pop()
                high = max(before, high)
            if high > low:
                line.outages.append([low, high, high - low])

    def _hear(self, line: TimeLine, session: StoredSession, rows: Pairs, begin: float, end: float) -> None:
        for place, fact in rows:
            at, what = session.at(place), self._stored.fact(fact)
            if begin <= at < end:
                line.events.append([at, what.item, what.text])
                self._lanes.hear(at, what)
                if what.item == "PI":
                    self.held.clear()
                self.held[what.item] = what.text
