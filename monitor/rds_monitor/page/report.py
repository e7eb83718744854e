"""A page to look at: block errors, outages, contents and group mix of stations, in one file that needs nothing else."""

import argparse
import math
import os
import sys
from typing import Any, Dict, List, Optional

import numpy

from ..content.charset import printable
from ..content.info import label
from ..db.parts import Session, Told, sessions_of
from ..measures.errors import Errors
from ..rows.clock import Clock, clock_of, clock_options
from ..rows.inputs import input_options, open_input
from ..rows.items import GROUP, GROUP_BITS, VALID, Fault, Misuse
from .html import Station, page_of, told_of
from .line import MOST_LISTED, Counted, Lanes, TimeLine, said
from .overview import Span, tile_of
from .stored import Stored, StoredStation, is_database
from .years import write_years

# A day of a recording has an interval per second. Longer extents have longer intervals: the page stays below a megabyte.
MOST_INTERVALS = 86400
MOST_STORED = 43200  # intervals of all stations of a database on one page, of at least two minutes each


def options_report(parser: argparse.ArgumentParser) -> None:
    """A page of HTML that needs nothing else: block errors over time, outages, sessions, the group mix, the contents and their changes, the
    station's clock, and the totals, with zoom. Several stations come with an overview, the worst first. An input may be a database of
    rds-monitor db too. It needs Debian's python3-jinja2 and libjs-d3.

    rds-monitor report --start 2026-03-29T00:30:00Z monday.bin > monday.html
    rds-monitor report --into pages year.db"""
    input_options(parser, several=True)
    clock_options(parser)
    text = "of a database: pages by station, year and month in this folder, with each month's availability"
    parser.add_argument("--into", metavar="FOLDER", help=text)
    text = "the title of the page (%(default)s)"
    parser.add_argument("--title", default="RDS reception", metavar="TEXT", help=text)


def run_report(arguments: argparse.Namespace) -> int:
    clock = clock_of(arguments)
    if arguments.into is not None:
        if len(arguments.input) != 1 or not is_database(arguments.input[0]):
            raise Misuse("--into is for one database")
        return write_years(arguments.input[0], arguments.into, arguments.title)
    if len(arguments.input) > 1 and clock.start is not None:
        raise Fault("--start is of one recording: several need one page each")
    stations = [station for path in arguments.input for station in stations_of(path, arguments, clock)]
    sys.stdout.write(page_of(arguments.title, stations))
    return 0


def stations_of(path: str, arguments: argparse.Namespace, clock: Clock) -> List[Station]:
    """The stations of an input as the page shows them: one, or those of a database."""
    if is_database(path):
        stored = Stored(path)
        step = stored.step(MOST_STORED)
        return [whole_of(station, step) for station in stored.stations()]
    recorded = RecordedLine(clock)
    for session, rows in sessions_of(open_input(arguments, path, sessions=True), clock):
        recorded.add(session, rows)
    return [recorded.told("standard input" if path == "-" else os.path.basename(path))]


def whole_of(stored: StoredStation, step: int) -> Station:
    """A station of a database, over all its time."""
    origin = stored.begin // step * step
    whole = stored.line(origin, stored.end, step)
    available = stored.available(whole, stored.begin, stored.end)
    start, times = None if stored.unknown else origin, (origin, stored.end)
    return told_of(stored.name, whole.fewer(step), times, start, stored.held, stored.tile(), available)


class RecordedLine:
    """The line of a recording, session by session: each from the first bit, or from where a stream was started again, to its last."""

    def __init__(self, clock: Clock):
        self._clock, self._line, self._lanes = clock, TimeLine(), Lanes()
        self._held: Dict[str, str] = {}
        self._session: Optional[Session] = None
        # Where the session in progress and its last whole group begin; where all ends.
        self._at, self._whole, self._end = 0.0, 0.0, 0.0
        self._soft: Optional[int] = None  # how many blocks soft decisions corrected, if they are taken

    def add(self, session: Session, rows: Any) -> None:
        if session is not self._session:
            self._session, self._seconds = session, Errors(session.clock.rate)
            self._at = self._end  # it follows on the one before
            self._whole = self._at + session.part.begin / session.clock.rate
            self._begin = self._whole
        self._seconds.add(rows)
        whole = rows["what"] == GROUP
        for block in (1, 2, 3, 4):
            whole &= rows[f"kind{block}"] >= VALID
        if whole.any():
            self._whole = self._time(int(rows["place"][numpy.flatnonzero(whole)[-1]]) + GROUP_BITS)
        self._take(session.part.taken())
        if session.closed:
            self._close(session)

    def _time(self, place: float) -> float:
        return self._at + place / self._clock.rate

    def _take(self, new: Told) -> None:
        line = self._line
        for event in new.events:
            at, what = self._time(event.place), said(event.item, event.text)
            line.events.append([at, what.item, what.text])
            self._lanes.hear(at, what)
        for minute in new.minutes:
            at = self._at + 60 * minute.number
            if minute.mix:
                line.mix.append([at, at + 60, minute.mix])
            if minute.clock_s is not None:
                line.clock.append([at + 60, minute.clock_s])
            self._held = {label(item): printable(text) for item, text in minute.held.items()} or self._held
            line.more += minute.more
        for place, after in new.outages:
            begin, end = self._time(place), self._time(after)
            line.outages.append([begin, end, end - begin])

    def _close(self, session: Session) -> None:
        begin, end = session.part.begin, session.part.end
        self._end = self._time(end)
        self._lanes.end(self._end)
        counts = numpy.array([row[2:] for row in self._seconds.intervals(begin, end)], "i8").reshape(-1, 5)
        self._line.parts.append(Counted(self._begin, 1, counts))
        if session.is_soft:
            self._soft = (self._soft or 0) + int(counts[:, 2].sum())
        times = [self._begin, self._end, self._end - self._begin]
        self._line.sessions.append([*times, *counts.sum(0)[:2].tolist()])

    def told(self, name: str) -> Station:
        line, seconds = self._line, sum(row[2] for row in self._line.sessions)
        line.lanes = self._lanes.taken(self._end)
        spans = [Span(at, 1, counts[:, 0], counts[:, 1]) for at, _, counts in line.parts]
        tile = tile_of(spans, self._end, max(0.0, self._end - self._whole))
        interval = max(1, math.ceil(seconds / MOST_INTERVALS))
        line = line.fewer(max(interval, self._end / MOST_LISTED), interval=interval)
        told = told_of(name, line, (0.0, self._end), self._clock.start, self._held, tile)
        if self._soft is not None:
            told["totals"].update(corrected=told["totals"]["corrected"] - self._soft, soft=self._soft)
        return told
