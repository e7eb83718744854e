"""A session that goes on: bits to rows, rows to hours' files and records."""

import os
from contextlib import suppress
from typing import Dict, List, NamedTuple, Optional, Tuple

import numpy

from ..db.parts import MINUTE_BITS, OUTAGE_SECONDS, Contents, Part, Told
from ..rows.clock import RATE, Clock, utc_text
from ..rows.decoders import StreamDecoder
from ..rows.hours import HOUR, Hour
from ..rows.items import ACQUIRED, BLOCK_BITS, GROUP, GROUP_BITS, ITEM, LOSS, VALID, Fault, Rows, Totals
from ..rows.listing import ends_of, groups_in, kinds_of, text_of, totals_text
from ..signal.receiver import Strength
from .bits import mean_of
from .records import PartGrew, PartKey, PartOpened, PartTold, Record
from .times import Arrivals, Timing

NEWS = 10.0  # seconds after which the database learns how far a session is, if there is nothing else to say


class Append(NamedTuple):
    """Rows for a file below the folder; `closes` if they are its last ones."""

    path: str
    data: bytes
    closes: bool = False


class LiveSession:
    """A session of one station. Its results wait in `appends`, `records` and `told`."""

    def __init__(self, station: str, speed: float, decoder: StreamDecoder, began: float):
        self._station, self._speed, self._decoder = station, speed, decoder
        self.arrivals = Arrivals(speed, began)
        self.contents = Contents(RATE)
        self.part: Optional[Part] = None
        self._timing: Optional[Timing] = None
        # Of the part.
        self._key: PartKey
        self._path: str
        self._size: int
        self._cut: int
        self._early: List[Rows] = []
        self._row_end: Optional[int] = None  # where the last row ended, while there is sync
        self.whole_end: Optional[int] = None  # where the last whole group ended
        self._news = 0.0
        self._strengths: Dict[int, List[Strength]] = {}  # of the last minutes, by their numbers
        self.appends: List[Append] = []
        self.records: List[Record] = []
        self.told: List[Tuple[Told, Timing]] = []

    @property
    def place(self) -> int:
        """How many bits were heard."""
        return self._decoder.place

    def place_after(self, data: bytes) -> int:
        """Once these were heard too."""
        return self._decoder.place_after(len(data))

    @property
    def timing(self) -> Optional[Timing]:
        return self._timing or self.arrivals.timing

    def take(self, data: bytes, strength: Optional[Strength] = None) -> None:
        """The next bits, of whose arrival `arrivals` was told, and how strong their signal was."""
        if strength:
            minute = int(self.place // MINUTE_BITS)
            self._strengths.setdefault(minute, []).append(strength)
            for old in [number for number in self._strengths if number < minute - 2]:
                del self._strengths[old]
        self._early.append(self._decoder.push(data))

    def strength(self) -> Strength:
        """Of the last minute or two."""
        parts = [one for strengths in list(self._strengths.values())[-2:] for one in strengths]
        return mean_of(parts) if parts else Strength(None, None)

    def tick(self, utc: float) -> None:
        """Makes rows and records of the bits so far."""
        timing = self.arrivals.timing
        if timing is None:
            return
        if self.part is None:
            if utc - timing.start < Arrivals.SETTLING * self._speed:
                return
            self._open(0, 0)
        elif self.arrivals.is_late():
            self._jump(self.arrivals.delay())
        self._advance(self._taken(), self.place, utc)
        self._tell(utc)

    def _taken(self) -> Rows:
        rows: Rows = numpy.concatenate([numpy.zeros(0, ITEM), *self._early])
        self._early = []
        return rows

    def jump(self, seconds: float, utc: float) -> None:
        """The machine's clock was set forward to this time. What came before has its times by the old one."""
        if self.part:
            self._advance(self._taken(), self.place, utc - seconds)
        self.arrivals.reads.clear()
        self._jump(seconds)

    def _jump(self, seconds: float) -> None:
        """From here on times are later by so much."""
        begin = self._end_part(self.place) if self.part else 0
        if self.arrivals.timing is not None:
            self.arrivals.jump(seconds)
        if self.part:
            self._open(begin, self.place)

    def _open(self, begin: int, at: int) -> None:
        """A part from the position `begin` on, in the hour of the position `at`: a group may have begun in the one before."""
        timing = self.arrivals.timing
        assert timing is not None
        if self.part is None:
            self._key = PartKey(f"{self._station} {utc_text(timing.start)}", 0)
        hour = timing.utc(at) // HOUR * HOUR
        self._cut = timing.place(hour + HOUR)
        self.part, self._timing = Part(Clock(*timing), begin, self.contents), timing
        name = Hour(hour, timing.start, timing.rate, self._decoder.is_soft).name
        self._path, self._size = os.path.join("listings", self._station, name), 0
        self.records.append(PartOpened(self._key, self._station, timing, begin, self._path))

    def _end_part(self, place: int) -> int:
        """Ends the part, with its last row if there is sync and else at this position, where the next one begins."""
        assert self.part is not None
        end = max(self.part.begin, self._row_end if self._row_end is not None else place)
        self._close_part(end, last=False)
        self._key = PartKey(self._key.recording, self._key.number + 1)
        return end

    def _close_part(self, end: int, last: bool, totals: Optional[Totals] = None) -> None:
        assert self.part is not None
        self.part.close(end, last)
        self._collect()
        self.records.append(PartGrew(self._key, end, self._size, True, totals))
        self.appends.append(Append(self._path, b"", closes=True))

    def _advance(self, rows: Rows, place: int, utc: float) -> None:
        """Rows up to the decoder's position, an hour at a time."""
        assert self.part is not None
        ends = ends_of(rows)
        while place >= self._cut:
            cut = self._cut
            count = int(numpy.searchsorted(ends, cut, "right"))
            self._write(rows[:count])
            rows, ends = rows[count:], ends[count:]
            begin = self._end_part(cut)
            self.arrivals.cut(cut, utc)
            self._open(begin, cut)
        self._write(rows)
        self.part.pass_to(place)

    def _write(self, rows: Rows) -> None:
        if not len(rows):
            return
        assert self.part is not None
        self.part.add(rows)
        text = text_of(rows)
        self._size += len(text)
        self.appends.append(Append(self._path, text))
        whole = rows["place"][rows["what"] == GROUP][(kinds_of(groups_in(rows)) == VALID).all(axis=1)]
        if len(whole):
            self.whole_end = int(whole[-1]) + GROUP_BITS
        last = rows[-1:]
        end, what = int(ends_of(last)[0]), last["what"][0]
        self._row_end = None if what == LOSS else end - BLOCK_BITS if what == ACQUIRED else end

    def _collect(self) -> bool:
        """Hands over what the part completed, with the strengths of its minutes, and says whether the database gets any of it."""
        assert self.part and self._timing
        told = self.part.taken()
        for at, minute in enumerate(told.minutes):
            if minute.number in self._strengths:
                told.minutes[at] = minute._replace(**mean_of(self._strengths[minute.number])._asdict())
        if told.changes or told.minutes or told.ticks:
            self.told.append((told, self._timing))
        if told.minutes or told.events or told.outages:
            self.records.append(PartTold(self._key, told))
            return True
        return False

    def _tell(self, utc: float) -> None:
        assert self.part is not None
        if self._collect() or utc >= self._news:
            self._news = utc + NEWS * self._speed
            heard = self.contents.outages.end
            quiet = heard if heard is not None and self.place - heard >= RATE * OUTAGE_SECONDS else None
            self.records.append(PartGrew(self._key, self.part.end, self._size, quiet=quiet))

    def close(self, utc: float) -> bool:
        """The session has ended: the group in progress and the totals. Whether there are totals: a decoder may die."""
        if self.arrivals.timing is None:
            return True
        totals = None
        with suppress(Fault):
            rows, totals = self._decoder.finish()
            self._early.append(rows)
        if self.part is None:
            self._open(0, 0)
        self._advance(self._taken(), self.place, utc)
        if totals and (totals.groups or totals.acquired):
            text = totals_text(totals)
            self._size += len(text)
            self.appends.append(Append(self._path, text))
        self._close_part(self.place, True, totals)
        return totals is not None
