"""A station that is watched: its receiver, its session, its alarms and its state."""

import math
from collections import deque
from typing import Any, Deque, Dict, List, Optional, Tuple

from ..content.charset import printable
from ..db.parts import MINUTE_BITS, Told
from ..db.schema import HELD
from ..rows.decoders import NewDecoder
from ..rows.items import MARGIN, Fault, Rules
from .alarms import Alarms, Change, Watched
from .bits import Packed, bit_source
from .live import Append, LiveSession
from .records import AlarmChanged, Record, RunBegan, RunEnded, StateSeen, WatchBegan
from .shared import AnyKeeper
from .table import StationTable
from .times import BitPace, Timing
from .writer import Say

NEWS = 10.0  # seconds between two lines of news of a station
AHEAD = 5.0  # seconds by which bits may be ahead of time; then the receiver is restarted
NAMES_FOR = 60.0  # seconds within which a dynamic PS shows all of its parts


class Station:
    """All times are pairs of the monotonic clock and UTC."""

    def __init__(
        self, table: StationTable, keeper: AnyKeeper, decoder: NewDecoder, speed: float, now: float, say: Say
    ):
        self.table, self._decoder, self._speed, self._say = table, decoder, speed, say
        self.name, self.keeper = table.name, keeper
        self.alarms = Alarms(table, now, speed)
        self._session: Optional[LiveSession] = None
        self._bits: Optional[Packed] = None
        self._waiting: List[bytes] = []
        self._counted: int
        self._starts = 0
        self._last_read = 0.0
        self._last_valid = now
        self._whole_utc: Optional[float] = None
        self._ahead = 0.0  # by how much UTC is ahead of the monotonic clock
        # Since when the receiver gives the bits of the next session, and whether those of the last one were ahead of time.
        self._began, self._was_ahead = 0.0, False
        self._names: Deque[Tuple[float, str]] = deque()
        self._news = 0.0
        self._blocks = {"valid": 0, "corrected": 0, "lost": 0, "missing": 0}
        self._last_minute: Optional[Dict[str, float]] = None
        self._clock_s: Optional[float] = None
        self._shown: Dict[str, str] = {}
        self.appends: List[Append] = []
        self.records: List[Record] = []
        self.changes: List[Change] = []

    def resume(self, lasting: Dict[str, Tuple[str, float]], counted: Dict[str, Any], away: float) -> None:
        """Goes on with what the last watch knew, which ended `away` seconds ago."""
        self.alarms.resume(lasting, counted, away)
        quiet, age = counted.get("quiet", 0.0), counted.get("age", 0.0)
        self.keeper.last_byte -= quiet
        # So that `_age` is the same again.
        self._last_valid -= age + (quiet if quiet <= self.keeper.patience else 0.0)

    def set_table(self, table: StationTable) -> None:
        """Of the same receiver, with other limits."""
        self.table, self.keeper.patience = table, table.patience * self._speed
        self.alarms.set_table(table)

    def poll(self, steady: float, utc: float) -> None:
        data, self._ahead = self.keeper.read(steady), utc - steady
        if self.keeper.starts != self._starts:
            self._starts = self.keeper.starts
            self._began = utc
            self.records.append(RunBegan(self.name, utc))
        if data is None:
            self._end_run(utc)
        elif data and (self._session or not self.keeper.is_stopping):
            if self._session is None:
                decoder = self._decoder(Rules(margin=MARGIN if self.table.soft else 0))
                self._session = LiveSession(self.name, self._speed, decoder, self._began)
                self.alarms.begin_session(steady)
                self._bits = self._bits or bit_source(self.table)
                self._counted = 0
            self._waiting.append(data)
            self._last_read = utc
            self._counted += len(data)
            if self.table.form == "bits" and self._is_ahead(8 * self._counted, utc):
                self._waiting.pop()
                self._was_ahead = True
                self.end_session(utc)
                self.keeper.stop_run(steady, "gave bits faster than real time")

    def _is_ahead(self, place: int, utc: float) -> bool:
        """Bits up to this position had come at this time: whether none of a station come as fast."""
        assert self._session
        self._session.arrivals.take(place, utc)
        return self._session.arrivals.ahead > AHEAD * self._speed

    def _end_run(self, utc: float) -> None:
        reason = printable(self.keeper.reason)
        self._say("warning", f"{self.name}: the receiver {reason}")
        self.end_session(utc)
        self._bits = None
        self.records.append(RunEnded(self.name, utc, reason))

    def _decode(self) -> None:
        if self._session is None or self._bits is None or not self._waiting:
            return
        data, self._waiting = b"".join(self._waiting), []
        bits = self._bits.take(data)
        if bits and self.table.form != "bits":
            place, came = self._session.place_after(bits), self._last_read - self._bits.delay
            if self._is_ahead(place, came):
                self._was_ahead = True
                raise Fault("gave bits faster than real time")
        if bits:
            self._session.take(bits, self._bits.strength)

    def end_session(self, utc: float, goes_on: bool = False) -> None:
        """The session ends here. If the receiver goes on, what it gives from now on is of the next one."""
        if self._session is None or self._bits is None:
            return
        try:
            self._decode()
            rest = b"" if goes_on else self._bits.finish()
            if rest:
                self._session.arrivals.take(self._session.place_after(rest), utc)
                self._session.take(rest)
        except (Fault, ValueError) as error:
            self._say("warning", f"{self.name}: {error}")
        if not self._session.close(utc):
            text = "the decoder ended before its input: the session has no totals"
            self._say("warning", f"{self.name}: {text}")
        self._collect()
        self._session, self._began = None, utc

    def step(self, seconds: float, utc: float) -> None:
        """The machine's clock was set. Within a session no time goes back."""
        self.records.append(WatchBegan(self.name, utc))
        if self._session and seconds > 0:
            try:
                self._decode()
                self._session.jump(seconds, utc)
                self._collect()
            except (Fault, ValueError) as error:
                self._say("warning", f"{self.name}: {error}")
                self.end_session(utc - seconds, goes_on=True)
        elif self._session:
            self.end_session(utc - seconds, goes_on=True)
        self._began = utc

    def tick(self, steady: float, utc: float) -> None:
        """Decodes the bytes that came, and judges the station."""
        if self._session:
            try:
                self._decode()
                self._session.tick(utc)
                self._collect()
            except (Fault, ValueError) as error:
                # No sample of a signal, or more bits than a stream may have.
                self._say("warning", f"{self.name}: {error}")
                self.end_session(utc)
                self.keeper.stop_run(steady, str(error))
        self._see_valid(steady)
        held = {} if self._session is None else self._session.contents.decoder.held()
        values = {item: value.value for item, value in held.items()}
        seen = Watched(self.keeper.last_byte, self._age(steady), values, self._pace())
        self._note(self.alarms.judge(seen, steady), utc)
        if steady >= self._news or self.changes:
            self._news = steady + NEWS * self._speed
            self.records.append(StateSeen(self.name, utc, self.state(utc)))

    def _note(self, changes: List[Change], utc: float) -> None:
        self.changes.extend(changes)
        self.records += [AlarmChanged(self.name, one.alarm, one.begins, utc, one.text) for one in changes]

    def end_alarms(self, utc: float) -> None:
        """It leaves the table: nobody will see them end."""
        self._note(self.alarms.end_all(), utc)

    def _age(self, steady: float) -> float:
        """Of the last valid block that counts. While `patience` lasts, bits of a burst may still come."""
        quiet = steady - self.keeper.last_byte
        return steady - self._last_valid - (quiet if quiet <= self.keeper.patience else 0.0)

    def _pace(self) -> Optional[BitPace]:
        """On the monotonic clock."""
        pace = self._session.arrivals.pace() if self._session else None
        self._was_ahead &= pace is None
        if self._was_ahead:
            return BitPace(math.inf, math.inf)
        return pace and pace._replace(since=pace.since - self._ahead)

    def _see_valid(self, steady: float) -> None:
        """When the last valid block came that counts, by its position."""
        session = self._session
        if not session or not session.part:
            return
        end = session.contents.outages.end or 0
        if end > 0:
            age = (session.place - end) / session.part.clock.rate
            self._last_valid = max(self._last_valid, min(steady, self.keeper.last_byte) - age)

    def _collect(self) -> None:
        session = self._session
        assert session is not None
        self.appends += session.appends
        self.records += session.records
        for told, timing in session.told:
            self._take(told, timing)
        session.appends, session.records, session.told = [], [], []
        if session.whole_end is not None and session.timing:
            self._whole_utc = min(session.timing.utc(session.whole_end), self._last_read)

    def _take(self, told: Told, timing: Timing) -> None:
        blocks = [minute.blocks for minute in told.minutes]
        percents = [one.bad_percent for one in blocks if one.end - one.begin >= int(MINUTE_BITS)]
        self.alarms.take(told.changes, percents, told.ticks, timing, self._ahead)
        for event in told.changes:
            if event.item == "ps" and event.value is not None:
                self._names.append((timing.utc(event.place), printable(event.text.strip())))
        for minute in told.minutes:
            for name in self._blocks:
                self._blocks[name] += getattr(minute.blocks, name)
            counts = {name: getattr(minute.blocks, name) for name in ("sent", "valid", "corrected")}
            self._last_minute = {"utc": timing.utc(minute.blocks.begin), **counts}
            self._clock_s = minute.clock_s if minute.clock_s is not None else self._clock_s

    def state(self, utc: float) -> Dict[str, Any]:
        """The state now, for pages, metrics and `check`."""
        held = {} if self._session is None else self._session.contents.decoder.held()
        if "pi" in held:
            # After the session the last contents are shown on.
            self._shown = {item: printable(held[item].text) for item in HELD if item in held}
        timing = self._session.timing if self._session else None
        # The last one before the minute held in it.
        while len(self._names) > 1 and self._names[1][0] < utc - NAMES_FOR * self._speed:
            self._names.popleft()
        return {
            "utc": utc,
            "frequency": self.table.frequency,
            "expected_pi": self.table.pi,
            "running": self.keeper.is_running,
            "starts": self.keeper.starts,
            "reason": printable(self.keeper.reason),
            "session_utc": timing.utc(0) if timing else None,
            "held": self._shown,
            "last_group_utc": self._whole_utc,
            "minute": self._last_minute,
            "clock_s": self._clock_s,
            "blocks": dict(self._blocks),
            "signal": self._session.strength()._asdict() if self._session else {},
            "alarms": dict(self.alarms.lasting),
            "names": [name for _, name in self._names if name] if self._session else [],
            "counted": self.alarms.counted(),
        }

    def stop(self, steady: float, utc: float, reason: str) -> None:
        """Ends the session; the receiver is asked to end, unless other stations share it."""
        self.end_session(utc)
        runs = self.keeper.is_running
        self.keeper.stop(steady, reason)
        state = self.state(utc)
        if runs:
            state["reason"] = reason
            self.records.append(RunEnded(self.name, utc, reason))
        self.records.append(StateSeen(self.name, utc, state))
