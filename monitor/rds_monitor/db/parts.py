"""Rows of a session as rows of the database: minutes, events, outages. A part is a whole session, or an hour of one that goes
on; the contents, and an outage in progress, go on in the next part."""

from typing import Dict, Iterator, List, NamedTuple, Optional, Tuple

import numpy

from ..content.decoder import Decoder, Event
from ..measures.clock import Tick, ticks_of
from ..measures.errors import Errors, Interval, IntervalCounter
from ..measures.measure import TYPES, type_index, type_names
from ..measures.outages import Outages
from ..rows.clock import Clock
from ..rows.extent import Progress
from ..rows.items import GROUP, GROUP_BITS, ITEM, Rows, Source, Totals
from ..rows.listing import Listing, begins_of, ends_of

MINUTE_BITS = 71250.0
SLACK = 2 * GROUP_BITS  # how many bits after a minute its last group may come
OUTAGE_PERCENT, OUTAGE_SECONDS = 10, 1
NAMES = ["".join(type_names(kind)) for kind in range(TYPES)]
NOT_STORED = ("ct",)  # the clock time changes each minute, and its offset is a column of the minutes
EVENTS_PER_MINUTE = 6  # a name that scrolls changes each few seconds: the rest of its changes are counted


class MinuteRow(NamedTuple):
    """A minute, counted from the session's first bit: its blocks, its groups by type, the contents that held at its end, the
    station's clock less that of the recording, in seconds, and how many events were left out. A watch knows how strong MPX and IQ were.
    """

    number: int
    blocks: Interval
    mix: Dict[str, int]
    held: Dict[str, str]
    clock_s: Optional[float]
    more: int
    level_dbfs: Optional[float] = None
    snr_db: Optional[float] = None


class EventRow(NamedTuple):
    """A change of the contents; `number` counts those in one group."""

    place: int
    number: int
    item: str
    text: Optional[str]


class Told(NamedTuple):
    """Completed rows. `changes` are all changes of contents, and `events` those that are stored."""

    minutes: List[MinuteRow]
    events: List[EventRow]
    outages: List[Tuple[int, int]]
    changes: List[Event]
    ticks: List[Tick]


class Contents:
    """The state that outlasts a part of a session; `held` are the texts that hold after the events so far."""

    def __init__(self, rate: float) -> None:
        self.decoder = Decoder()
        self.outages = Outages(rate, OUTAGE_PERCENT, OUTAGE_SECONDS)
        self.held: Dict[str, str] = {}

    def take(self, event: Event) -> None:
        if event.item == "pi":
            self.held = {}
        if event.value is None:
            self.held.pop(event.item, None)
        else:
            self.held[event.item] = event.text


class Part:
    """From the position `begin` on, in minutes of `bits` bits."""

    def __init__(self, clock: Clock, begin: int, contents: Contents, bits: float = MINUTE_BITS):
        self.clock, self.begin, self.end, self.contents = clock, begin, begin, contents
        self.bits, self._at = bits, int(begin // bits)
        self._errors, self._mix = Errors(bits, self._at), numpy.zeros(TYPES, "i8")
        self._blocks = IntervalCounter(self._errors, begin)
        self._ticks: List[Tick] = []
        self._seen: Dict[str, int] = {}
        self._more = 0
        self._last: Tuple[int, int] = (-1, 0)
        self._told = Told([], [], [], [], [])
        contents.outages.begin(begin)

    def add(self, rows: Rows) -> None:
        """The next rows; those of one group are not parted."""
        if not len(rows):
            return
        self._errors.add(rows)
        self._told.outages.extend(self.contents.outages.add(rows))
        events, ticks = self.contents.decoder.feed(rows), ticks_of(rows)
        self._told.changes.extend(events)
        self._told.ticks.extend(ticks)
        self._ticks += ticks
        minutes = numpy.maximum.accumulate(numpy.maximum(rows["place"] // self.bits, self._at)).astype("i8")
        begins = numpy.diff(minutes, prepend=-1) > 0
        done = 0
        for first, mix in zip(numpy.flatnonzero(begins).tolist(), mixes_of(rows, numpy.cumsum(begins) - 1)):
            while done < len(events) and events[done].place < minutes[first] * self.bits:
                self._keep(events[done])
                done += 1
            self._reach(int(minutes[first]))
            self._mix += mix
        for event in events[done:]:
            self._keep(event)
        self.end = max(self.end, int(ends_of(rows[-1:])[0]))

    def _keep(self, event: Event) -> None:
        self.contents.take(event)
        if event.item in NOT_STORED:
            return
        seen = self._seen[event.item] = self._seen.get(event.item, 0) + 1
        if seen > EVENTS_PER_MINUTE:
            self._more += 1
            return
        place, number = self._last
        self._last = event.place, number + 1 if place == event.place else 0
        text = None if event.value is None else event.text
        self._told.events.append(EventRow(*self._last, event.item, text))

    def pass_to(self, place: int) -> None:
        """The decoder has heard the bits up to here, whether or not there was a row."""
        self.end = max(self.end, place)
        self._reach(int((place - SLACK) // self.bits))

    def _reach(self, minute: int) -> None:
        while self._at < minute:
            self._complete((self._at + 1) * self.bits)

    def _complete(self, end: float) -> None:
        """The minute in progress ends at this position."""
        blocks, held, offset = self._blocks.upto(end), dict(self.contents.held), self._offset(end)
        self._told.minutes.append(MinuteRow(self._at, blocks, counts_of(self._mix), held, offset, self._more))
        self._at, self._more, self._seen = self._at + 1, 0, {}
        self._mix = numpy.zeros(TYPES, "i8")

    def _offset(self, end: float) -> Optional[float]:
        """The clock of the station in this minute, less that of the recording."""
        told = [tick for tick in self._ticks if tick.place <= end]
        self._ticks = self._ticks[len(told) :]
        if not told or self.clock.start is None or told[-1].place <= end - self.bits:
            return None
        return round(told[-1].time - self.clock.start - told[-1].place / self.clock.rate, 3)

    def close(self, place: int, last: bool) -> None:
        """The part has ended, and with the last one the session. Its last minute may be a part of one."""
        self.end = place
        self._reach(int(self.end // self.bits))
        if self.end > max(self.begin, self._at * self.bits):
            self._complete(self.end)
        if last:
            self._told.outages.extend(self.contents.outages.close(self.end))

    def taken(self) -> Told:
        """All that was completed since the last call."""
        told, self._told = self._told, Told([], [], [], [], [])
        return told


def mixes_of(rows: Rows, minutes: Rows) -> Rows:
    """Groups by type in each of some minutes, whose numbers from 0 on are those of the rows."""
    index = (minutes * TYPES + type_index(rows))[rows["what"] == GROUP]
    count = int(minutes[-1]) + 1
    return numpy.bincount(index, minlength=count * TYPES).reshape(count, TYPES)


def counts_of(mix: Rows) -> Dict[str, int]:
    """Groups by type, such as 0A: those with a corrected block 2 too."""
    return {name: count for name, count in zip(NAMES, mix.tolist()) if count}


class Session:
    """A session of an input as one part. Once closed it has `totals`, if at all, and whether soft decisions corrected its blocks."""

    def __init__(self, number: int, clock: Clock, is_soft: bool, begin: int = 0):
        self.number, self.clock, self.is_soft = number, clock, is_soft
        self.part = Part(clock, begin, Contents(clock.rate), 60 * clock.rate)
        self.totals: Optional[Totals] = None
        self.closed = False

    def close(self, length: Optional[int], totals: Optional[Totals]) -> "Session":
        """It has ended: with its recording, if the length of that is known, or else with its last row."""
        self.part.close(self.part.end if length is None else length, last=True)
        self.totals, self.closed = totals, True
        self.is_soft |= bool(totals and totals.soft)
        return self


def sessions_of(source: Source, clock: Clock) -> Iterator[Tuple[Session, Rows]]:
    """The chunks with the sessions that they belong to, which have taken them. With the last one of a session, which may have
    no row, it is closed. The start is that of the first session."""
    progress = Progress(source.length)
    session: Optional[Session] = None
    for rows in source.chunks():
        if not len(rows):
            continue
        listing = source if isinstance(source, Listing) else None
        number = listing.session if listing else 0
        if session and listing and number != session.number:
            yield session.close(None, listing.totals_before), rows[:0]
            session = None
        if not session:
            begin = int(begins_of(rows[:1])[0]) if listing and listing.is_part and not number else 0
            session = Session(number, Clock(None, clock.rate) if number else clock, source.is_soft, begin)
        session.part.add(rows)
        progress.at(session.part.end)
        yield session, rows
    progress.close()
    session = session or Session(0, clock, source.is_soft)
    yield session.close(source.length, source.totals), numpy.zeros(0, ITEM)
