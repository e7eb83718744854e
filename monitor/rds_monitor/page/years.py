"""Pages of years: in one folder an overview, the availability as CSV, and per station a page by days and one per month by hours."""

import csv
import datetime
import io
import itertools
import os
import sys
from typing import Any, List, NamedTuple, Sequence, Tuple
from urllib.parse import quote

from ..content.charset import printable
from ..rows.clock import DAY
from ..rows.extent import replace
from .html import Station, page_of, told_of
from .line import MOST_LISTED, TimeLine
from .overview import tile_of
from .stored import Stored, StoredStation

HOUR = 3600
UTC = datetime.timezone.utc
HEAD = "received, s|noise, s|down, s|unknown, s|received, %|outages|longest, s|sent|valid|valid, %".split("|")
NAMES = "Jan Feb Mar Apr May Jun Jul Aug Sep Oct Nov Dec".split()


class Month(NamedTuple):
    """A month of a station, a row of the CSV: the first four numbers add up to its seconds."""

    station: str
    month: str
    received_s: float
    noise_s: float
    down_s: float
    unknown_s: float
    received_percent: float
    outages: int
    longest_outage_s: float
    sent: int
    valid: int
    valid_percent: Any


def file_of(name: str, time: Any) -> str:
    """A page's file: signs that are special in names of files or links are escaped."""
    return f"{quote(name, safe='')}-{time}.html"


def begin_of(month: int) -> float:
    """The begin of a month, in seconds since 1970. Months are counted from the begin of year 0."""
    return datetime.datetime(month // 12, month % 12 + 1, 1, tzinfo=UTC).timestamp()


def name_of(month: int) -> str:
    return f"{month // 12}-{month % 12 + 1:02}"


def month_of(station: StoredStation, month: int, line: TimeLine) -> Month:
    begin, end = begin_of(month), begin_of(month + 1)
    seconds, sums = station.available(line, begin, end), line.sums()
    sent, valid = sums["sent"], sums["valid"]
    times: List[Any] = [round(value, 3) for value in seconds]
    times.append(round(100 * seconds.received / (end - begin), 3))
    times += [len(line.outages), round(max((row[2] for row in line.outages), default=0.0), 3)]
    percent = round(100 * valid / sent, 3) if sent else None
    return Month._make([printable(station.name), name_of(month), *times, sent, valid, percent])


class Folder:
    """The pages, each written by renaming a new file."""

    def __init__(self, path: str, title: str):
        self._path, self._title = path, title
        self._months: List[Month] = []
        self._tiles: List[Station] = []
        self._years: List[Sequence[Tuple[str, str]]] = []
        os.makedirs(path, exist_ok=True)

    def add(self, station: StoredStation) -> None:
        first = datetime.datetime.fromtimestamp(station.begin, UTC)
        after = itertools.count(12 * first.year + first.month - 1)
        months = list(itertools.takewhile(lambda month: begin_of(month) < station.end, after))
        for year, own in itertools.groupby(months, lambda month: month // 12):
            told = self._add_year(station, year, [*own])
        if months:
            tile = {key: told[key] for key in ("name", "held", "bad_percent")}
            page = file_of(station.name, year)
            self._tiles.append({**tile, "tile": station.tile(), "page": page})

    def _add_year(self, station: StoredStation, year: int, months: List[int]) -> Station:
        """The pages of a year and its months; what the year's page tells."""
        whole, rows, cells = TimeLine(), [], [("", "")] * 12
        links = [("all stations", "index.html"), (str(year), file_of(station.name, year))]
        known = (month for month in months if station.is_known(begin_of(month), begin_of(month + 1)))
        pages = {month: file_of(station.name, name_of(month)) for month in known}
        for month in months:
            line = station.line(begin_of(month), begin_of(month + 1), HOUR)
            row, file = month_of(station, month, line), pages.get(month, "")
            line = line.fewer(HOUR)
            if file:
                beside = [(name_of(one), pages[one]) for one in (month - 1, month + 1) if one in pages]
                self._tell(file, station, [month], line, links=[*links, *beside])
            self._months.append(row)
            cells[month % 12] = f"{row.received_percent:.2f} %", file
            texts = ("" if value is None else str(value) for value in row[2:])
            rows.append([(row.month, file), *((text, "") for text in texts)])
            whole.extend(line.fewer(DAY, MOST_LISTED // 12))
        self._years.append([(printable(station.name), links[1][1]), (str(year), ""), *cells])
        table = {"caption": "Availability by month", "head": ["month", *HEAD], "rows": rows}
        return self._tell(links[1][1], station, months, whole, links=links[:1], table=table)

    def _tell(
        self, file: str, station: StoredStation, months: List[int], line: TimeLine, **more: Any
    ) -> Station:
        begin, end = begin_of(months[0]), begin_of(months[-1] + 1)
        times = begin, min(end, station.end)
        told = told_of(station.name, line, times, begin, station.held, tile_of([], times[1], None))
        replace(os.path.join(self._path, file), page_of(self._title, [told], **more))
        return told

    def close(self) -> None:
        rows = io.StringIO()
        csv.writer(rows, lineterminator="\n").writerows([Month._fields, *self._months])
        replace(os.path.join(self._path, "availability.csv"), rows.getvalue())
        table = {"caption": "Received, of all time", "head": ["station", "year", *NAMES], "rows": self._years}
        links = [("the same as CSV, with outages and blocks", "availability.csv")]
        page = page_of(self._title, self._tiles, links=links, table=table)
        replace(os.path.join(self._path, "index.html"), page)


def write_years(path: str, folder: str, title: str) -> int:
    pages = Folder(folder, title)
    for station in Stored(path).stations(with_unknown=False):
        if station.unknown:
            text = f"{station.unknown} sessions whose start is not known are left out"
            print(f"rds-monitor report: {printable(station.name)}: {text}", file=sys.stderr)
        pages.add(station)
    pages.close()
    return 0
