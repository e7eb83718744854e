"""Alarms of a station: when each begins and ends."""

import math
import re
from collections import deque
from typing import Any, Deque, Dict, Iterable, List, NamedTuple, Optional, Sequence, Set, Tuple

from ..content.charset import printable
from ..content.decoder import Event
from ..measures.clock import Tick
from .table import MOST_LOOKED_AT, StationTable
from .times import BitPace, Timing
from .verdict import pattern_of

# Of the contents: without them nothing can be said of these.
CONTENTS = ("pi", "ps", "rt", "af", "ps_stuck", "rt_stuck", "ta", "pty31", "ct_absent")
NAMES = ("silent", "no_rds", "fast", "slow", "flapping", "errors", *CONTENTS[:-1], "ct", "ct_absent", "disk")
# How many seconds the fault has to be gone before an alarm ends.
CLEAR = {
    **dict.fromkeys(("silent", "no_rds", "ta"), 5.0),
    **dict.fromkeys(("pi", "ps", "rt", "af", "pty31"), 10.0),
    **dict.fromkeys(("fast", "slow"), 60.0),
}
# The limits of these are no seconds, and those of the others need an expected value.
COUNTS, EXPECTED = ("errors", "ct", "flapping"), ("pi", "ps", "rt", "af")
# A block error rate ends an alarm below this part of the limit, and a number of sessions at this one.
RECOVERED, CALM = 0.8, 0.5
HOUR = 3600.0
PAUSE = 2.0  # reads come each second, so a pause of bytes or of valid blocks is one only if it is longer
OFF_PACE = 0.01  # by this part the bits of a receiver are faster or slower than those of a station


class Change(NamedTuple):
    """An alarm that begins, with `text`, or ends."""

    alarm: str
    begins: bool
    text: str


class Trouble(NamedTuple):
    """A fault that is seen: since when, on the monotonic clock, and its description."""

    since: float
    text: str


class Alarm:
    """Begins if a fault lasts for `after` seconds, and ends if it is gone for `clear` seconds. Time in which nothing can be
    said counts for neither."""

    def __init__(self, after: float, clear: float):
        self.after, self._clear = after, clear
        self.text: Optional[str] = None
        self.gone: Optional[float] = None  # since when the fault is gone

    def judge(self, fault: Optional[Trouble], now: float, gone: Optional[float] = None) -> Optional[bool]:
        """Whether the alarm begins or ends now. A fault that is no more may be `gone` earlier."""
        if fault:
            self.gone = None
            if self.text is None and now - fault.since >= self.after:
                self.text = fault.text
                return True
            return None
        if self.gone is None:
            self.gone = now if gone is None else min(gone, now)
        if self.text is not None and now - self.gone >= self._clear:
            self.text = None
            return False
        return None


class Watched(NamedTuple):
    """A station as it is now, on the monotonic clock: when the last byte came, how old the last valid block is that counts, the
    contents, and how fast the bits come. Without a PI nothing is known of the contents."""

    last_byte: float
    valid_age: float
    held: Dict[str, Any]
    pace: Optional[BitPace]


class Alarms:
    """The alarms of one station."""

    def __init__(self, table: StationTable, now: float, speed: float = 1.0):
        self._now, self._speed = now, speed
        self._seen = Watched(now, 0.0, {}, None)
        self._minutes: Deque[float] = deque(maxlen=MOST_LOOKED_AT)
        self._offsets: Deque[float] = deque(maxlen=MOST_LOOKED_AT)
        # When each of the last hour began; and the seconds of this one in which no byte came yet, which a burst may bring, or whose
        # pace is not known yet.
        self._sessions: Deque[float] = deque()
        self._unheard = self._unpaced = 0.0
        # Since when an expected value was not there, a text is the same, or a flag is set.
        self._since: Dict[str, float] = {}
        # When the last change of an item was sent, and whether a text of this session fits since then.
        self._changed: Dict[str, float] = {}
        self._fit: Dict[str, bool] = {}
        self._texts: Dict[str, Optional[str]] = {}
        self.lasting: Dict[str, str] = {}
        self._begins: Dict[str, float] = {}
        self._found: List[Change] = []
        self.set_table(table)

    def set_table(self, table: StationTable) -> None:
        """Other limits; the history stays."""
        self._table = table
        self._alarms: Dict[str, Alarm] = {}
        for name in NAMES[:-1]:
            after = getattr(table.alarms, name)
            if after is not None and (name not in EXPECTED or getattr(table, name)):
                self._alarms[name] = Alarm(0 if name in COUNTS else after, CLEAR.get(name, 0.0))
                self._alarms[name].text = self.lasting.get(name)
        for name in [name for name in self.lasting if name not in self._alarms]:
            self._end(name)  # it is turned off
        self._fits = {name: [pattern_of(text) for text in getattr(table, name)] for name in ("ps", "rt")}

    def counted(self) -> Dict[str, Any]:
        """All that is counted, for the next watch: for how many seconds, and the last values."""

        def ago(times: Dict[str, float]) -> Dict[str, float]:
            return {name: round(self._now - time, 3) for name, time in times.items()}

        gone = {name: one.gone for name, one in self._alarms.items() if one.text and one.gone is not None}
        return {
            "ago": ago(self._since),
            "gone": ago(gone),
            "quiet": round(self._now - self._seen.last_byte, 3),
            "age": round(self._seen.valid_age, 3),
            "sessions": [round(self._now - begin, 3) for begin in self._sessions],
            "texts": self._texts,
            "minutes": [*self._minutes],
            "offsets": [*self._offsets],
        }

    def resume(self, lasting: Dict[str, Tuple[str, float]], counted: Dict[str, Any], away: float) -> None:
        """Alarms that lasted when the last watch ended, with their seconds, and all that it counted, `away` seconds ago."""
        for name, (text, seconds) in lasting.items():
            if name in self._alarms:
                self._alarms[name].text = self.lasting[name] = text
                self._begins[name] = self._now - seconds
            elif name in NAMES:
                self.lasting[name], self._begins[name] = text, self._now - seconds
                self._end(name)
        self._since = {name: self._now - seconds for name, seconds in counted.get("ago", {}).items()}
        for name, seconds in counted.get("gone", {}).items():
            if name in self._alarms:
                self._alarms[name].gone = self._now - seconds
        self._sessions.extend(self._now - away - seconds for seconds in counted.get("sessions", ()))
        self._texts = dict(counted.get("texts", {}))
        self._minutes.extend(counted.get("minutes", ()))
        self._offsets.extend(counted.get("offsets", ()))

    def begin_session(self, now: float) -> None:
        self._sessions.append(now)
        self._unheard = self._unpaced = 0.0
        self._fit.clear()

    def take(
        self, changes: List[Event], minutes: List[float], ticks: List[Tick], timing: Timing, ahead: float
    ) -> None:
        """Changes of the contents, per cent of bad blocks by minute, and clock times. UTC is `ahead` of the monotonic clock."""
        for event in changes:
            item, changed = event.item.partition(":")[0], timing.utc(event.place) - ahead
            self._changed[item] = changed
            if item in ("ps", "rt"):
                # The text before it fitted until then: a dynamic PS shows its parts in turn.
                if self._fit.get(item):
                    self._since[item] = changed
                text = None if event.value is None else event.text
                self._fit[item] = text is not None and self._fitting(item, text)
                if text != self._texts.get(item):
                    self._since[f"{item}_stuck"], self._texts[item] = changed, text
        self._minutes.extend(minutes)
        self._offsets.extend(tick.time - timing.utc(tick.place) for tick in ticks)
        if ticks:
            self._since["ct_absent"] = timing.utc(ticks[-1].place) - ahead

    def judge(self, watched: Watched, now: float) -> List[Change]:
        """The alarms that begin or end."""
        heard, passed = watched.last_byte > self._seen.last_byte, now - self._now
        self._now, self._seen = now, watched
        age, quiet, pause = watched.valid_age, now - watched.last_byte, PAUSE * self._speed
        silent, dead = quiet > pause, age > pause
        self._judge("silent", Trouble(watched.last_byte, f"no byte for {quiet:.0f} s") if silent else None)
        self._judge("no_rds", Trouble(now - age, f"no valid block for {age:.0f} s") if dead else None)
        self._judge_pace(passed, None if silent else watched.pace)
        self._judge_sessions()
        self._judge_minutes()
        unheard, self._unheard = self._unheard, 0.0 if heard else self._unheard + passed
        if not heard or dead or "pi" not in watched.held:
            self._hold(passed, *CONTENTS)
        else:
            self._hold(-unheard, *CONTENTS)
            self._judge_contents(watched.held)
        found, self._found = self._found, []
        return found

    def _judge(self, name: str, fault: Optional[Trouble], gone: Optional[float] = None) -> None:
        alarm = self._alarms.get(name)
        begins = alarm.judge(fault, self._now, gone) if alarm else None
        if begins is None:
            return
        if begins and fault:
            self.lasting[name], self._begins[name] = fault.text, self._now
            self._found.append(Change(name, True, fault.text))
        else:
            self._end(name)

    def _end(self, name: str) -> None:
        lasted = self._now - self._begins.pop(name, self._now)
        self._found.append(Change(name, False, f"{self.lasting.pop(name, '')}; it lasted {lasted:.0f} s"))

    def end_all(self) -> List[Change]:
        """Of a station that is watched no more."""
        for name in [*self.lasting]:
            self._end(name)
        found, self._found = self._found, []
        return found

    def _judge_pace(self, passed: float, pace: Optional[BitPace]) -> None:
        if pace is None:
            self._hold(passed, "fast", "slow")
            self._unpaced += passed
            return
        self._hold(-self._unpaced, "fast", "slow")
        self._unpaced, (factor, since) = 0.0, pace
        if factor == math.inf:
            self._since["fast"] = self._now - (self._table.alarms.fast or 0)
        percent = "" if factor == math.inf else f" by {100 * abs(factor - 1):.1f} %"
        self._flag("fast", factor > 1 + OFF_PACE, f"bits come too fast{percent}", since)
        self._flag("slow", factor < 1 - OFF_PACE, f"bits come too slowly{percent}", since)

    def _judge_sessions(self) -> None:
        while self._sessions and self._sessions[0] <= self._now - HOUR:
            self._sessions.popleft()
        limit, count = self._table.alarms.flapping or 0, len(self._sessions)
        if count > limit or count <= CALM * limit:
            text = f"{count} sessions in an hour"
            self._judge("flapping", Trouble(self._now, text) if count > limit else None)

    def _judge_minutes(self) -> None:
        limits = self._table.alarms
        count = max(1, int(limits.errors or 1))
        last = list(self._minutes)[-count:]
        if len(last) < count:
            return
        begins = all(value > limits.errors_percent for value in last)
        if begins or all(value < RECOVERED * limits.errors_percent for value in last):
            text = f"{sum(last) / count:.1f} % of the blocks bad in {count} min"
            self._judge("errors", Trouble(self._now, text) if begins else None)

    def _hold(self, passed: float, *names: str) -> None:
        """Nothing can be said of the seconds that passed."""
        for name in names:
            alarm = self._alarms.get(name)
            if alarm and alarm.gone is not None:
                alarm.gone += passed
            if name in self._since:
                self._since[name] += passed

    def _judge_contents(self, held: Dict[str, Any]) -> None:
        table, pi = self._table, held["pi"]
        if table.pi:
            self._flag_by("pi", pi not in table.pi, f"PI {pi} in place of {' or '.join(table.pi)}", "pi")
        for name in ("ps", "rt"):
            if self._fits[name]:
                self._judge_text(name, held.get(name))
            self._lasts(f"{name}_stuck", f"{name.upper()} is the same")
        if table.af:
            heard = _frequencies(held)
            text = f"AF {_megahertz(heard)} in place of {_megahertz(table.af)}"
            self._flag_by("af", heard != set(table.af), text, "af")
        self._flag_by("ta", held.get("ta") is True and held.get("tp") is not False, "TA is on", "ta", "tp")
        self._flag_by("pty31", held.get("pty") == 31, "PTY 31: alarm", "pty")
        self._lasts("ct_absent", "no clock time (CT)")
        self._judge_clock()

    def _flag_by(self, name: str, is_set: bool, text: str, *items: str) -> None:
        """One that the last change of these items set or ended."""
        changed = [self._changed[item] for item in items if item in self._changed]
        self._flag(name, is_set, text, max(changed, default=self._now))

    def _flag(self, name: str, is_set: bool, text: str, changed: float) -> None:
        changed = min(changed, self._now)
        if not is_set:
            self._since.pop(name, None)
            self._judge(name, None, changed)
            return
        self._judge(name, Trouble(self._since.setdefault(name, changed), text))

    def _lasts(self, name: str, text: str) -> None:
        """A fault only if it lasted for the whole limit."""
        since = self._since.setdefault(name, self._now)
        late = since < self._now and self._now - since >= (getattr(self._table.alarms, name) or 0)
        self._judge(name, Trouble(since, text) if late else None, self._changed.get(name))

    def _judge_text(self, name: str, text: Optional[str]) -> None:
        """A text that fits now, or did within the time."""
        self._fit[name] = text is not None and self._fitting(name, text)
        if self._fit[name]:
            self._since[name] = self._now
        shown = "none" if text is None else printable(text.strip())
        self._lasts(name, f"{name.upper()} {shown} in place of {' or '.join(getattr(self._table, name))}")

    def _fitting(self, name: str, text: str) -> bool:
        return any(fit.fullmatch(text.strip()) for fit in self._fits[name])

    def _judge_clock(self) -> None:
        limits = self._table.alarms
        count, most = max(1, int(limits.ct or 1)), limits.ct_offset * self._speed
        offsets = list(self._offsets)
        off = [abs(offset) > most for offset in offsets[-count:]]
        fine = [abs(offset) <= most / 2 for offset in offsets[-2:]]
        if len(off) == count and all(off):
            self._judge("ct", Trouble(self._now, f"CT is off by {offsets[-1]:+.1f} s"))
        elif len(fine) == 2 and all(fine):
            self._judge("ct", None)


def _frequencies(held: Dict[str, Any]) -> Set[int]:
    """In kHz: of the list of method A, or of those of method B, which have one per transmitter."""
    found = set(held.get("af", ()))
    for item, value in held.items():
        if item.startswith("af:"):
            found |= {value["tuned"], *value["same"], *value["regional"]}
    return found


def _megahertz(frequencies: Iterable[int]) -> str:
    return " ".join(f"{one / 1000:g}" for one in sorted(frequencies)) or "none"


def words_for(words: Sequence[str], station: str, change: Change) -> Tuple[str, ...]:
    """The words of a command of the user's."""
    state = "begin" if change.begins else "end"
    values = {"station": station, "alarm": change.alarm, "state": state, "text": change.text}
    # Each place is replaced once: a text from a stranger may hold braces.
    places = re.compile("{(station|alarm|state|text)}")
    return tuple(places.sub(lambda found: values[found[1]], word) for word in words)
