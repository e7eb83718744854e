"""A station's line of time: all that its page draws, in seconds from a beginning, and as few rows as can be seen."""

import base64
import math
from collections import Counter
from typing import Any, Callable, Dict, List, NamedTuple, Optional, Sequence, Tuple

import numpy

from ..content.charset import printable
from ..content.info import label
from ..measures.errors import Interval

MOST_LISTED = 2000  # of a list at most that many rows are on a page: of more, one per step
COUNTS = Interval._fields[2:]  # counts of an interval: sent, valid, corrected, uncorrectable, not read
LANES = "PI PS RT PTY TP TA AF EON".split()
CUT = 0.1  # seconds between two parts of one session, or one outage, by which their ends may be off
SEVERAL = "several texts"  # in place of the texts of a step
Row = List[Any]
Stretch = Tuple[float, float, str]


class Counted(NamedTuple):
    """Blocks by intervals of `step` seconds from `at` on, a row of `COUNTS` for each."""

    at: float
    step: float
    counts: Any


class Said(NamedTuple):
    """An item's text, as it is told in a list, and its lane with the text there, if it has one."""

    item: str
    text: str
    lane: str
    shown: str


def said(item: str, value: Optional[str]) -> Said:
    name, text = label(item), printable(value or "")
    first = name.split(" ")[0]
    lane = first if first in {"AF", "EON"} else name  # there are several of these; RT flag is no RT
    shown = f"{name[4:]}: {text}" if lane == "EON" and text else text
    return Said(name, text, lane if lane in LANES else "", shown)


class Lanes:
    """From when to when each item said a text. It holds until it changes, the PI does, or its session ends."""

    def __init__(self) -> None:
        self.found: Dict[str, List[Stretch]] = {}
        self._open: Dict[str, Tuple[float, str]] = {}

    def hear(self, at: float, what: Said) -> None:
        if what.lane == "PI":
            self.end(at)
        if what.lane:
            if what.lane in self._open:
                self._close(what.lane, at)
            if what.shown:
                self._open[what.lane] = at, what.shown

    def _close(self, lane: str, at: float) -> None:
        begin, text = self._open.pop(lane)
        if at > begin:
            join(self.found.setdefault(lane, []), (begin, at, text), CUT)

    def drop(self, lane: str) -> None:
        self._open.pop(lane, None)

    def end(self, at: float) -> None:
        for lane in list(self._open):
            self._close(lane, at)

    def taken(self, at: float) -> Dict[str, List[Stretch]]:
        """The stretches up to here; what is open goes on from here."""
        lasting = self._open
        self._open = dict(lasting)
        self.end(at)
        self._open = {lane: (at, text) for lane, (_, text) in lasting.items()}
        found, self.found = self.found, {}
        return found


def join(stretches: List[Stretch], one: Stretch, gap: float) -> None:
    """Adds a stretch, to the last one if that has the same text and ends with its begin."""
    if stretches and stretches[-1][2] == one[2] and one[0] - stretches[-1][1] <= gap:
        one = stretches.pop()[0], *one[1:]
    stretches.append(one)


class TimeLine:
    """Rows of sessions are begin, end, seconds, blocks sent and valid; of outages begin, end and seconds; of the group mix begin, end
    and counts by type; of the clock time and offset; of events time, item and text."""

    def __init__(self) -> None:
        self.parts: List[Counted] = []
        self.sessions: List[Row] = []
        self.outages: List[Row] = []
        self.mix: List[Row] = []
        self.clock: List[Row] = []
        self.events: List[Row] = []
        self.lanes: Dict[str, List[Stretch]] = {}
        self.more = 0

    def extend(self, other: "TimeLine") -> None:
        """With a line that begins where this one ends."""
        for name in "parts sessions outages mix clock events".split():
            getattr(self, name).extend(getattr(other, name))
        for lane, stretches in other.lanes.items():
            for one in stretches:
                join(self.lanes.setdefault(lane, []), one, CUT)
        self.more += other.more

    def fewer(self, step: float, most: int = MOST_LISTED, interval: Optional[float] = None) -> "TimeLine":
        """At most some rows in each list, one per `step` seconds where there are more. Blocks are by `interval`, or else by `step`."""

        def few(rows: List[Any], make: Callable[[List[Any], float], List[Any]]) -> List[Any]:
            return rows if len(rows) <= most else make(rows, step)

        line, interval = TimeLine(), interval or step
        line.parts = [Counted(part.at, interval, merged(part, interval)) for part in self.parts]
        line.sessions, line.outages = few(self.sessions, by_step), few(self.outages, by_step)
        line.mix, line.clock = few(self.mix, mixed), few(self.clock, averaged)
        line.lanes = {lane: few(stretches, by_text) for lane, stretches in self.lanes.items()}
        counts = Counter(item for _, item, _ in self.events)
        # Items that change most are left out first.
        while sum(counts.values()) > most and len(counts) > 1:
            ((item, _),) = counts.most_common(1)
            del counts[item]
        line.events = [event for event in self.events if event[1] in counts][:most]
        line.more = self.more + len(self.events) - len(line.events)
        return line

    def sums(self) -> Dict[str, int]:
        totals = sum((part.counts.sum(0) for part in self.parts), numpy.zeros(5, "i8"))
        return dict(zip(COUNTS, totals.tolist()))

    def told(self, origin: float) -> Dict[str, Any]:
        """As the page's script has it: times from an origin, and each text once."""
        texts: Dict[str, int] = {}

        def number(text: str) -> int:
            return texts.setdefault(text, len(texts))

        def moved(rows: Sequence[Sequence[Any]], times: int) -> List[Row]:
            return [
                [*(round(at - origin, 3) for at in row[:times]), *map(shown, row[times:])] for row in rows
            ]

        def shown(value: Any) -> Any:
            if isinstance(value, str):
                return number(value)
            return round(value, 3) if isinstance(value, float) else value

        times = [{"at": round(part.at - origin, 3), "step": part.step} for part in self.parts]
        parts = [dict(of, **encoded(part.counts)) for of, part in zip(times, self.parts)]
        told: Dict[str, Any] = {"parts": parts, "more": self.more, "clock": moved(self.clock, 1)}
        told.update((name, moved(getattr(self, name), 2)) for name in "sessions outages mix".split())
        told["lanes"] = [[lane, moved(self.lanes[lane], 2)] for lane in LANES if self.lanes.get(lane)]
        told["events"] = [[round(at - origin, 3), item, number(text)] for at, item, text in self.events]
        return {**told, "texts": list(texts)}


def merged(part: Counted, step: float) -> Any:
    """The counts by longer intervals, of a whole number of its own."""
    return numpy.add.reduceat(part.counts, numpy.arange(0, len(part.counts), round(step / part.step)))


def by_step(spans: List[Row], step: float) -> List[Row]:
    """The sums in each step of times with sums. A time over several steps has its share in each."""
    sums: Dict[int, Any] = {}
    for begin, end, *counts in spans:
        for slot in range(int(begin // step), max(math.ceil(end / step), int(begin // step) + 1)):
            low, high = max(begin, slot * step), min(end, slot * step + step)
            share = (high - low) / (end - begin) if end > begin else 1.0
            sums[slot] = sums.get(slot, 0) + share * numpy.array(counts)
    return [[slot * step, slot * step + step, *row.tolist()] for slot, row in sorted(sums.items())]


def mixed(mix: List[Row], step: float) -> List[Row]:
    sums: Dict[float, "Counter[str]"] = {}
    for begin, _, counts in mix:
        sums.setdefault(begin // step * step, Counter()).update(counts)
    return [[begin, begin + step, counts] for begin, counts in sums.items()]


def averaged(clock: List[Row], step: float) -> List[Row]:
    found: Dict[float, List[float]] = {}
    for at, offset in clock:
        found.setdefault(at // step * step, []).append(offset)
    return [[at + step / 2, sum(offsets) / len(offsets)] for at, offsets in found.items()]


def by_text(stretches: List[Stretch], step: float) -> List[Stretch]:
    """The text of each step, or that there are several."""
    texts: Dict[int, str] = {}
    for begin, end, text in stretches:
        slot = int(begin // step)
        while slot * step < end:
            texts[slot] = text if texts.get(slot, text) == text else SEVERAL
            slot += 1
    found: List[Stretch] = []
    for slot, text in sorted(texts.items()):
        join(found, (slot * step, slot * step + step, text), CUT)
    return found


def encoded(counts: Any) -> Dict[str, Any]:
    """The blocks sent, corrected, uncorrectable and not read of each interval, as text: valid are those that are left."""
    size = 1 if counts.max(initial=0) < 1 << 8 else 2 if counts.max() < 1 << 16 else 4
    made = {"bytes": str(size)}
    for name, at in (("sent", 0), ("corrected", 2), ("lost", 3), ("missing", 4)):
        made[name] = base64.b64encode(counts[:, at].astype(f"<u{size}").tobytes()).decode()
    return made


def bad_percent(sent: int, valid: int) -> Optional[float]:
    """Of the blocks sent, if there were any."""
    return round(100 * (sent - valid) / sent, 2) if sent else None
